//! The attribute list: what a hub serves, and how it is laid out.

use crate::ffi::Record;
use crate::{Hub, Refusal};
use std::fmt;

/// An attribute's type: 16 bits, or 128.
///
/// Two are `==` where they have the same form. The library matches more: the two forms of one UUID, by the Bluetooth Base
/// UUID.
///
/// ```
/// use ropethatch::Uuid;
///
/// assert_eq!(Uuid::short(0x2902).as_bytes(), [0x02, 0x29]);
/// assert_eq!(Uuid::from_bytes(&[0x02, 0x29]), Some(Uuid::short(0x2902)));
/// assert_eq!(Uuid::from_bytes(&[1, 2, 3, 4]), None);
/// ```
#[derive(Clone, Copy, Debug, PartialEq, Eq, Hash)]
pub struct Uuid {
    bytes: [u8; 16],
    len: u8,
}

impl Uuid {
    /// A UUID of 16 bits.
    pub const fn short(uuid: u16) -> Uuid {
        let mut bytes = [0; 16];
        let [low, high] = uuid.to_le_bytes();
        bytes[0] = low;
        bytes[1] = high;
        Uuid { bytes, len: 2 }
    }

    /// A UUID of 128 bits, low byte first.
    pub const fn long(bytes: [u8; 16]) -> Uuid {
        Uuid { bytes, len: 16 }
    }

    /// A UUID from its 2 or 16 bytes, low byte first. Any other number of bytes is no UUID here.
    pub fn from_bytes(bytes: &[u8]) -> Option<Uuid> {
        if let Ok(short) = bytes.try_into() {
            return Some(Uuid::short(u16::from_le_bytes(short)));
        }
        bytes.try_into().ok().map(Uuid::long)
    }

    /// The 2 or 16 bytes, low byte first.
    pub fn as_bytes(&self) -> &[u8] {
        &self.bytes[..usize::from(self.len)]
    }
}

/// What a link must be for an attribute to be read, or to be written.
#[derive(Clone, Copy, Debug, PartialEq, Eq, Hash)]
#[repr(u8)]
pub enum Need {
    /// Never: no link will do.
    Never = 0,
    /// Any link that is not gone.
    Any = 1,
    /// An encrypted link.
    Encrypted = 2,
    /// An authenticated link.
    Authenticated = 3,
}

/// The needs of an attribute.
#[derive(Clone, Copy, Debug, PartialEq, Eq, Hash)]
pub struct Needs {
    /// For reading.
    pub read: Need,
    /// For writing.
    pub write: Need,
}

impl Needs {
    /// Every link may read and write.
    pub const OPEN: Needs = Needs::new(Need::Any, Need::Any);
    /// Every link may read, none may write.
    pub const READ_ONLY: Needs = Needs::new(Need::Any, Need::Never);

    /// A need for reading and one for writing.
    pub const fn new(read: Need, write: Need) -> Needs {
        Needs { read, write }
    }
}

const VARIABLE: u8 = 1;
const CLIENT: u8 = 2;

/// Collects the attributes of a hub, lays out their records and the store, and opens the hub.
///
/// A *shared* value is one for all tablets. A *client* value is kept for each tablet on its own, and starts as zeros, or
/// empty where it is variable. A *fixed* value always has its capacity as its length; a *variable* one can be shorter.
///
/// Each shared value gets its own range of the store, in list order and side by side, so that ranges are right by
/// construction. All other rules are the library's, and [`build`](ListBuilder::build) tells by number where one is broken:
///
/// - at most 64 attributes, their handles ascending from 1 to 0x7FFF;
/// - capacities of at most 512 bytes, shared ones of at most 4096 together;
/// - client values that fit a table of 640 bytes: 4, and for each 4 and its capacity, and 2 more if it is variable.
///
/// ```
/// use ropethatch::{ListBuilder, Need, Needs, Uuid};
///
/// let list = {
///     let mut list = ListBuilder::new();
///     list.shared_fixed(1, Uuid::short(0x2800), Needs::READ_ONLY, &[0x00, 0xFF])
///         .shared_variable(2, Uuid::short(0x2A00), Needs::new(Need::Any, Need::Encrypted), b"Hub", 20)
///         .client_fixed(3, Uuid::short(0x2902), Needs::OPEN, 2)
///         .client_variable(5, Uuid::short(0xFF01), Needs::OPEN, 8);
///     list
/// };
/// let classroom = list.build()?;
/// let library = list.build()?; // another hub with the same attributes
/// # let _ = (classroom, library);
/// # Ok::<(), ropethatch::Refusal>(())
/// ```
#[derive(Clone, Default)]
pub struct ListBuilder {
    records: Vec<Record>,
    store: Vec<u8>,
}

impl ListBuilder {
    /// A list without attributes.
    pub const fn new() -> ListBuilder {
        ListBuilder {
            records: Vec::new(),
            store: Vec::new(),
        }
    }

    /// Adds a shared value that always has the length of this one.
    pub fn shared_fixed(&mut self, handle: u16, uuid: Uuid, needs: Needs, value: &[u8]) -> &mut Self {
        self.shared(handle, uuid, needs, 0, number(value.len()), value)
    }

    /// Adds a shared value of at most `capacity` bytes that starts as this one.
    pub fn shared_variable(&mut self, handle: u16, uuid: Uuid, needs: Needs, value: &[u8], capacity: u16) -> &mut Self {
        self.shared(handle, uuid, needs, VARIABLE, capacity, value)
    }

    /// Adds a value of exactly `capacity` bytes that is kept for each tablet.
    pub fn client_fixed(&mut self, handle: u16, uuid: Uuid, needs: Needs, capacity: u16) -> &mut Self {
        let length = capacity;
        self.push(Entry {
            handle,
            uuid,
            needs,
            flags: CLIENT,
            capacity,
            start: 0,
            length,
        })
    }

    /// Adds a value of at most `capacity` bytes that is kept for each tablet.
    pub fn client_variable(&mut self, handle: u16, uuid: Uuid, needs: Needs, capacity: u16) -> &mut Self {
        self.push(Entry {
            handle,
            uuid,
            needs,
            flags: CLIENT | VARIABLE,
            capacity,
            start: 0,
            length: 0,
        })
    }

    /// Opens a hub with these attributes: eight empty slots, and every client value clear.
    ///
    /// # Errors
    ///
    /// [`Refusal::BadState`] where the list breaks a rule, [`Refusal::TableTooLong`] where the client values don't fit.
    pub fn build(&self) -> Result<Hub, Refusal> {
        Hub::open(self.records.clone(), self.store.clone())
    }

    /// The records and the store, for a program that lends its own memory: see [`raw`](crate::raw).
    pub fn lay_out(&self) -> (Vec<Record>, Vec<u8>) {
        (self.records.clone(), self.store.clone())
    }

    fn shared(&mut self, handle: u16, uuid: Uuid, needs: Needs, flags: u8, capacity: u16, value: &[u8]) -> &mut Self {
        let start = number(self.store.len());
        self.reserve(value, usize::from(capacity));
        let length = number(value.len());
        self.push(Entry {
            handle,
            uuid,
            needs,
            flags,
            capacity,
            start,
            length,
        })
    }

    /// Adds a range of `capacity` bytes to the store that starts with the value. A value that is longer than the range is
    /// cut here; its record says its true length, and the library refuses it.
    fn reserve(&mut self, value: &[u8], capacity: usize) {
        let end = self.store.len() + capacity;
        let fitting = value.len().min(capacity);
        self.store.extend_from_slice(&value[..fitting]);
        self.store.resize(end, 0);
    }

    fn push(&mut self, entry: Entry) -> &mut Self {
        self.records.push(entry.record());
        self
    }
}

/// Shows how many attributes there are and how long the store is, and no value.
impl fmt::Debug for ListBuilder {
    fn fmt(&self, f: &mut fmt::Formatter<'_>) -> fmt::Result {
        f.debug_struct("ListBuilder")
            .field("attributes", &self.records.len())
            .field("store", &self.store.len())
            .finish_non_exhaustive()
    }
}

/// A length as a record holds it. One that does not fit is far above every limit, and so is the number that stands for it.
fn number(len: usize) -> u16 {
    u16::try_from(len).unwrap_or(u16::MAX)
}

/// One attribute, before it is laid out.
struct Entry {
    handle: u16,
    uuid: Uuid,
    needs: Needs,
    flags: u8,
    capacity: u16,
    start: u16,
    length: u16,
}

impl Entry {
    fn record(&self) -> Record {
        let mut record = [0; 32];
        record[0..2].copy_from_slice(&self.handle.to_le_bytes());
        record[2..4].copy_from_slice(&self.capacity.to_le_bytes());
        record[4..6].copy_from_slice(&self.start.to_le_bytes());
        record[6..8].copy_from_slice(&self.length.to_le_bytes());
        record[8] = self.needs.read as u8;
        record[9] = self.needs.write as u8;
        record[10] = self.flags;
        record[11] = self.uuid.len;
        record[12..28].copy_from_slice(&self.uuid.bytes);
        record
    }
}

#[cfg(test)]
mod tests {
    use super::*;

    #[test]
    fn records_and_store_stand_side_by_side() {
        let (records, store) = ListBuilder::new()
            .shared_fixed(1, Uuid::short(0x2800), Needs::READ_ONLY, &[0xAB, 0xCD])
            .client_fixed(3, Uuid::short(0x2902), Needs::OPEN, 2)
            .shared_variable(
                0x0204,
                Uuid::long([7; 16]),
                Needs::new(Need::Authenticated, Need::Encrypted),
                b"xyz",
                5,
            )
            .client_variable(0x7FFF, Uuid::short(0xFF01), Needs::OPEN, 8)
            .lay_out();
        assert_eq!(store, [0xAB, 0xCD, b'x', b'y', b'z', 0, 0]);
        assert_eq!(records.len(), 4);
        assert_eq!(
            records[0],
            [1, 0, 2, 0, 0, 0, 2, 0, 1, 0, 0, 2, 0x00, 0x28, 0, 0, 0, 0, 0, 0, 0, 0, 0, 0, 0, 0, 0, 0, 0, 0, 0, 0]
        );
        assert_eq!(records[1][..12], [3, 0, 2, 0, 0, 0, 2, 0, 1, 1, 2, 2]);
        assert_eq!(records[2][..12], [4, 2, 5, 0, 2, 0, 3, 0, 3, 2, 1, 16]);
        assert_eq!(records[2][12..], [[7; 16].as_slice(), &[0; 4]].concat());
        assert_eq!(records[3][..12], [0xFF, 0x7F, 8, 0, 0, 0, 0, 0, 1, 1, 3, 2]);
    }

    #[test]
    fn what_does_not_fit_a_number_stays_too_large() {
        let long = vec![0; 70_000];
        let (records, store) = ListBuilder::new()
            .shared_fixed(1, Uuid::short(1), Needs::OPEN, &long)
            .shared_variable(2, Uuid::short(1), Needs::OPEN, b"abc", 2)
            .lay_out();
        assert_eq!(records[0][2..8], [0xFF, 0xFF, 0, 0, 0xFF, 0xFF]);
        assert_eq!(records[1][2..8], [2, 0, 0xFF, 0xFF, 3, 0]);
        assert_eq!(store.len(), 65_537);
    }
}
