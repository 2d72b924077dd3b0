//! Tablets: who they are, how their link stands, and what waits on it.

use crate::ffi;
use crate::Refusal;
use std::fmt;

/// Whether an address is public or random.
#[derive(Clone, Copy, Debug, PartialEq, Eq, PartialOrd, Ord, Hash)]
#[repr(u8)]
pub enum AddressKind {
    /// Given by the maker.
    Public = 0,
    /// Chosen by the device.
    Random = 1,
}

/// Who a tablet is: the kind of its address, and the address. It is never empty.
///
/// ```
/// use ropethatch::{AddressKind, Identity, Refusal};
///
/// let ada = Identity::new(AddressKind::Random, [0x01, 0x02, 0x03, 0x04, 0x05, 0xC6])?;
/// assert_eq!(ada.to_bytes(), [1, 0x01, 0x02, 0x03, 0x04, 0x05, 0xC6]);
/// assert_eq!(ada.to_string(), "random C6:05:04:03:02:01");
///
/// // the empty identity, and a kind that is neither public nor random
/// assert_eq!(Identity::from_bytes([0; 7]), Err(Refusal::BadPeer));
/// assert_eq!(Identity::from_bytes([2, 1, 1, 1, 1, 1, 1]), Err(Refusal::BadPeer));
/// # Ok::<(), Refusal>(())
/// ```
#[derive(Clone, Copy, Debug, PartialEq, Eq, PartialOrd, Ord, Hash)]
pub struct Identity {
    kind: AddressKind,
    address: [u8; 6],
}

impl Identity {
    /// The identity with this address, low byte first. A public address of zeros is the empty identity and is refused.
    pub fn new(kind: AddressKind, address: [u8; 6]) -> Result<Identity, Refusal> {
        if kind == AddressKind::Public && address == [0; 6] {
            return Err(Refusal::BadPeer);
        }
        Ok(Identity { kind, address })
    }

    /// The identity from 7 bytes: the kind (0 public, 1 random), then the address, low byte first.
    pub fn from_bytes(bytes: [u8; 7]) -> Result<Identity, Refusal> {
        let [kind, address @ ..] = bytes;
        let kind = match kind {
            0 => AddressKind::Public,
            1 => AddressKind::Random,
            _ => return Err(Refusal::BadPeer),
        };
        Identity::new(kind, address)
    }

    /// The kind of the address.
    pub const fn kind(self) -> AddressKind {
        self.kind
    }

    /// The address, low byte first.
    pub const fn address(self) -> [u8; 6] {
        self.address
    }

    /// The kind, then the address, low byte first.
    pub fn to_bytes(self) -> [u8; 7] {
        let mut bytes = [self.kind as u8; 7];
        bytes[1..].copy_from_slice(&self.address);
        bytes
    }
}

impl fmt::Display for Identity {
    fn fmt(&self, f: &mut fmt::Formatter<'_>) -> fmt::Result {
        f.write_str(match self.kind {
            AddressKind::Public => "public ",
            AddressKind::Random => "random ",
        })?;
        for (i, byte) in self.address.iter().rev().enumerate() {
            let between = if i == 0 { "" } else { ":" };
            write!(f, "{between}{byte:02X}")?;
        }
        Ok(())
    }
}

impl From<Identity> for ffi::Identity {
    fn from(who: Identity) -> Self {
        ffi::Identity {
            kind: who.kind as u8,
            addr: who.address,
        }
    }
}

/// How a link stands at the moment of a call.
///
/// ```
/// use ropethatch::Link;
///
/// assert!(Link::Plain < Link::Encrypted && Link::Encrypted < Link::Authenticated);
/// ```
#[derive(Clone, Copy, Debug, PartialEq, Eq, PartialOrd, Ord, Hash)]
#[repr(u8)]
pub enum Link {
    /// It is no more. Nothing can be read or written over it.
    Gone = 0,
    /// Not encrypted.
    Plain = 1,
    /// Encrypted.
    Encrypted = 2,
    /// Authenticated, and so encrypted too.
    Authenticated = 3,
}

impl Link {
    /// The link's number at the boundary.
    pub(crate) const fn level(self) -> u8 {
        self as u8
    }
}

/// Whether the hub and a tablet that leaves are bonded.
#[derive(Clone, Copy, Debug, PartialEq, Eq, Hash)]
pub enum Bond {
    /// Bonded: the tablet's slot and values are kept for its return, as long as nobody needs the slot.
    Bonded,
    /// Not bonded: its slot is emptied and its values are cleared.
    Unbonded,
}

/// What waits on a link for Execute Write: a handle, an offset and up to 512 bytes.
///
/// It is always one that the library accepts: only requests change it. See [`Connection::prepared`]. A copy of it shows what
/// waited then; it can't be put on a link.
#[derive(Clone, PartialEq, Eq)]
pub struct Prepared {
    pub(crate) record: ffi::Prepared,
    pub(crate) bytes: [u8; 512],
}

impl Prepared {
    /// Nothing waits.
    pub const fn new() -> Prepared {
        Prepared {
            record: ffi::Prepared {
                handle: 0,
                offset: 0,
                len: 0,
            },
            bytes: [0; 512],
        }
    }

    /// The handle that is to be written, or `None` where nothing waits.
    pub const fn handle(&self) -> Option<u16> {
        match self.record.handle {
            0 => None,
            handle => Some(handle),
        }
    }

    /// Where in the value the first of the bytes is to stand.
    pub const fn offset(&self) -> u16 {
        self.record.offset
    }

    /// The bytes that wait.
    pub fn bytes(&self) -> &[u8] {
        &self.bytes[..usize::from(self.record.len)]
    }
}

impl Default for Prepared {
    fn default() -> Self {
        Prepared::new()
    }
}

/// Shows how much waits, and not what: it may be a pupil's.
impl fmt::Debug for Prepared {
    fn fmt(&self, f: &mut fmt::Formatter<'_>) -> fmt::Result {
        f.debug_struct("Prepared")
            .field("record", &self.record)
            .finish_non_exhaustive()
    }
}

/// A tablet's connection: who it is, and what waits on its link.
///
/// [`Hub::connect`](crate::Hub::connect) gives one, [`Hub::process`](crate::Hub::process) takes it with each request, and
/// [`Hub::disconnect`](crate::Hub::disconnect) takes it for good. There is no copy of it, so that a prepared write never
/// outlives its connection:
///
/// ```compile_fail,E0599
/// # use ropethatch::Connection;
/// fn twice(ada: Connection) -> [Connection; 2] {
///     [ada.clone(), ada]
/// }
/// ```
///
/// ```
/// use ropethatch::{AddressKind, Identity, Link, ListBuilder, Needs, Request, Uuid};
/// # fn main() -> Result<(), Box<dyn std::error::Error>> {
/// let mut hub = ListBuilder::new()
///     .client_variable(5, Uuid::short(0xFF01), Needs::OPEN, 8)
///     .build()?;
/// let mut ada = hub.connect(Identity::new(AddressKind::Public, [1; 6])?)?;
/// assert_eq!(ada.prepared().handle(), None);
///
/// let part = Request::PrepareWrite { handle: 5, offset: 0, value: b"3E10" };
/// hub.process_to_vec(&mut ada, Link::Plain, part, 23)?;
/// assert_eq!(ada.prepared().handle(), Some(5));
/// assert_eq!(ada.prepared().bytes(), b"3E10");
///
/// hub.process_to_vec(&mut ada, Link::Plain, Request::ExecuteWrite { flags: 1 }, 23)?;
/// assert_eq!(ada.prepared().handle(), None);
/// assert_eq!(hub.get_to_vec(ada.who(), 5)?, b"3E10");
/// # Ok(())
/// # }
/// ```
#[derive(Debug, PartialEq, Eq)]
pub struct Connection {
    who: Identity,
    pub(crate) prepared: Prepared,
}

impl Connection {
    /// A connection without a slot in any hub, on which nothing waits. Requests over it are answered, but it has no client
    /// values of its own unless the tablet still holds a slot. [`Hub::connect`](crate::Hub::connect) is the usual way.
    pub const fn new(who: Identity) -> Connection {
        Connection {
            who,
            prepared: Prepared::new(),
        }
    }

    /// Who is connected.
    pub const fn who(&self) -> Identity {
        self.who
    }

    /// What waits on this link for Execute Write.
    pub const fn prepared(&self) -> &Prepared {
        &self.prepared
    }
}
