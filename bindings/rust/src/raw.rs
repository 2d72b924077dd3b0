//! The library over memory of your own.
//!
//! A [`Hub`](crate::Hub) owns its memory, and that is the easy way. Here the memory is yours: the slots, the list, the
//! store and the tables stand wherever you put them, in a static buffer or a file that is mapped, and are lent for a call.
//! Every call is safe, whatever the memory holds: the library looks at all of it first, and refuses a state that is not
//! valid with [`Refusal::BadState`], every byte left as it was.
//!
//! ```
//! use ropethatch::raw::{Identity, Slot, State};
//! use ropethatch::{ListBuilder, Needs, Refusal, Uuid};
//! # fn main() -> Result<(), Box<dyn std::error::Error>> {
//! let (mut list, mut store) = ListBuilder::new()
//!     .client_variable(5, Uuid::short(0xFF01), Needs::OPEN, 8)
//!     .lay_out();
//! let mut slots = [Slot::default(); 8];
//! let mut tables = [[0; 640]; 8];
//! let mut hub = State {
//!     slots: &mut slots,
//!     list: &mut list,
//!     store: &mut store,
//!     tables: &mut tables,
//! };
//! hub.open()?;
//!
//! let ada = Identity { kind: 0, addr: [1, 2, 3, 4, 5, 6] };
//! hub.connect(ada)?;
//! hub.set(ada, 5, b"3E10")?;
//! assert_eq!(hub.get(ada, 5, &mut [0; 512])?, b"3E10");
//!
//! // a state that is not valid: an empty slot must have a clear table
//! hub.slots[0] = Slot::default();
//! assert_eq!(hub.connect(ada), Err(Refusal::BadState));
//! # Ok(())
//! # }
//! ```

pub use crate::ffi::{Identity, Prepared, Record, Slot, Table};

use crate::{answer, calls, Bond, CallError, Link, Refusal, Request};
use std::fmt;

/// How many slots a valid state has, and how many tables.
pub const SLOTS: usize = 8;

/// How many of these bytes are a saved table: it stands at their start, and what follows is not the table's.
///
/// ```
/// use ropethatch::raw::saved_length;
/// use ropethatch::Refusal;
///
/// let table = [1, 0, 1, 0, 5, 0, 0, 0, 7]; // handle 5 has a fixed value of one byte, 7
/// assert_eq!(saved_length(&table), Ok(9));
/// assert_eq!(saved_length(&[&table[..], b"not the table's"].concat()), Ok(9));
/// assert_eq!(saved_length(&table[..8]), Err(Refusal::BadTable));
/// ```
///
/// # Errors
///
/// Refusal 4 where the bytes are no table.
pub fn saved_length(saved: &[u8]) -> Result<usize, Refusal> {
    answer::length(calls::saved_length(saved))
}

/// The memory of a hub, lent: four ranges that are apart, which four `&mut` always are.
#[derive(PartialEq, Eq)]
pub struct State<'a> {
    /// Who holds which place. A valid state has eight.
    pub slots: &'a mut [Slot],
    /// The attribute list. A valid state has at most 64 records.
    pub list: &'a mut [Record],
    /// The shared values. A valid state has at most 4096 bytes.
    pub store: &'a mut [u8],
    /// The client values, a table for each slot. A valid state has eight.
    pub tables: &'a mut [Table],
}

impl State<'_> {
    /// Opens a hub: all slots become empty, and every table is laid out from the list, with clear values.
    ///
    /// # Errors
    ///
    /// Refusals 1 and 6.
    pub fn open(&mut self) -> Result<(), Refusal> {
        answer::done(calls::open(self))
    }

    /// Gives a tablet a slot: [`Hub::connect`](crate::Hub::connect).
    ///
    /// # Errors
    ///
    /// Refusals 1, 3 and 7.
    pub fn connect(&mut self, who: Identity) -> Result<(), Refusal> {
        answer::done(calls::connect(self, who))
    }

    /// Marks a tablet as gone: [`Hub::disconnect`](crate::Hub::disconnect).
    ///
    /// # Errors
    ///
    /// Refusals 1 and 3.
    pub fn disconnect(&mut self, who: Identity, bond: Bond) -> Result<(), Refusal> {
        answer::done(calls::disconnect(self, who, bond))
    }

    /// Answers a request, with what waits on its link lent too: [`Hub::process`](crate::Hub::process).
    ///
    /// # Errors
    ///
    /// Refusals 1 (a prepared write that is not valid has it too), 2 and 3.
    pub fn process<'b>(
        &mut self,
        who: Identity,
        link: Link,
        prepared: &mut Prepared,
        bytes: &mut [u8; 512],
        request: Request<'_>,
        out: &'b mut [u8],
    ) -> Result<Option<&'b [u8]>, Refusal> {
        let reply = calls::process(self, who, link, prepared, bytes, request, out);
        Ok(answer::written(reply)?.map(|len| &out[..len]))
    }

    /// Reads a value for the application: [`Hub::get`](crate::Hub::get).
    ///
    /// # Errors
    ///
    /// Refusals 1, 3 and 8, and ATT codes.
    pub fn get<'b>(&self, who: Identity, handle: u16, out: &'b mut [u8]) -> Result<&'b [u8], CallError> {
        self.lent().get(who, handle, out)
    }

    /// Sets a value for the application: [`Hub::set`](crate::Hub::set).
    ///
    /// # Errors
    ///
    /// Refusals 1, 3, 8 and 9, and ATT codes.
    pub fn set(&mut self, who: Identity, handle: u16, value: &[u8]) -> Result<(), CallError> {
        answer::granted(calls::set(self, who, handle, value))
    }

    /// Whether a link may read: [`Hub::can_read`](crate::Hub::can_read).
    ///
    /// # Errors
    ///
    /// Refusals 1 and 3, and the ATT code where it may not.
    pub fn can_read(&self, who: Identity, link: Link, handle: u16) -> Result<(), CallError> {
        self.lent().can_read(who, link, handle)
    }

    /// Whether a link may write: [`Hub::can_write`](crate::Hub::can_write).
    ///
    /// # Errors
    ///
    /// Refusals 1 and 3, and the ATT code where it may not.
    pub fn can_write(&self, who: Identity, link: Link, handle: u16) -> Result<(), CallError> {
        self.lent().can_write(who, link, handle)
    }

    /// Whether a tablet wants notifications: [`Hub::should_notify`](crate::Hub::should_notify).
    ///
    /// # Errors
    ///
    /// Refusals 1 and 3.
    pub fn should_notify(&self, who: Identity, handle: u16) -> Result<bool, Refusal> {
        self.lent().should_notify(who, handle)
    }

    /// Whether a tablet wants indications: [`Hub::should_indicate`](crate::Hub::should_indicate).
    ///
    /// # Errors
    ///
    /// Refusals 1 and 3.
    pub fn should_indicate(&self, who: Identity, handle: u16) -> Result<bool, Refusal> {
        self.lent().should_indicate(who, handle)
    }

    /// Copies a tablet's table, all 640 bytes of it; `None`, and nothing is copied, where the tablet has no slot.
    ///
    /// # Errors
    ///
    /// Refusals 1 and 3.
    pub fn client_table<'b>(&self, who: Identity, out: &'b mut Table) -> Result<Option<&'b Table>, Refusal> {
        self.lent().client_table(who, out)
    }

    /// Puts the values of a saved table into a tablet's own: [`Hub::restore`](crate::Hub::restore).
    ///
    /// # Errors
    ///
    /// Refusals 1, 3 and 4.
    pub fn restore(&mut self, who: Identity, saved: &[u8]) -> Result<(), Refusal> {
        answer::done(calls::restore(self, who, saved))
    }

    fn lent(&self) -> Lent<'_> {
        Lent {
            slots: self.slots,
            list: self.list,
            store: self.store,
            tables: self.tables,
        }
    }
}

/// Shows whose the slots are and how much is lent, and no value: they may be pupils'.
impl fmt::Debug for State<'_> {
    fn fmt(&self, f: &mut fmt::Formatter<'_>) -> fmt::Result {
        f.debug_struct("State")
            .field("slots", &self.slots)
            .field("attributes", &self.list.len())
            .field("store", &self.store.len())
            .field("tables", &self.tables.len())
            .finish_non_exhaustive()
    }
}

/// The memory of a hub, lent for reading. It is made only from four ranges that are apart: those of a `State` or a `Hub`.
#[derive(Clone, Copy)]
pub(crate) struct Lent<'a> {
    pub(crate) slots: &'a [Slot],
    pub(crate) list: &'a [Record],
    pub(crate) store: &'a [u8],
    pub(crate) tables: &'a [Table],
}

impl Lent<'_> {
    pub(crate) fn get(self, who: Identity, handle: u16, out: &mut [u8]) -> Result<&[u8], CallError> {
        let len = answer::value(calls::get(self, who, handle, out))?;
        Ok(&out[..len])
    }

    pub(crate) fn can_read(self, who: Identity, link: Link, handle: u16) -> Result<(), CallError> {
        answer::granted(calls::can_read(self, who, link, handle))
    }

    pub(crate) fn can_write(self, who: Identity, link: Link, handle: u16) -> Result<(), CallError> {
        answer::granted(calls::can_write(self, who, link, handle))
    }

    pub(crate) fn should_notify(self, who: Identity, handle: u16) -> Result<bool, Refusal> {
        answer::yes(calls::should_notify(self, who, handle))
    }

    pub(crate) fn should_indicate(self, who: Identity, handle: u16) -> Result<bool, Refusal> {
        answer::yes(calls::should_indicate(self, who, handle))
    }

    pub(crate) fn client_table(self, who: Identity, out: &mut Table) -> Result<Option<&Table>, Refusal> {
        let written = answer::written(calls::client_table(self, who, out))?;
        Ok(written.map(move |_| &*out))
    }
}
