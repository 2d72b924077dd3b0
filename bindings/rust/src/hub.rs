//! A hub that owns its memory.

use crate::ffi::{Record, Slot, Table};
use crate::raw::{Lent, State, SLOTS};
use crate::{answer, AttError, Bond, CallError, Connection, Identity, Link, Refusal, Request, SavedTable};
use std::fmt;

/// The longest value.
const LONGEST_VALUE: usize = 512;

/// One more than the longest response buffer that is accepted.
const TOO_LONG: usize = 518;

/// A classroom hub: it answers what tablets ask, and keeps what they write.
///
/// It owns all the memory that the library works on, and only the library changes it, so that its state is always valid:
/// no method here is ever refused with [`Refusal::BadState`], nor, since an [`Identity`] is never a bad one, with
/// [`Refusal::BadPeer`]. What nothing else can refuse gives its answer as it is, without a `Result`. A
/// [`ListBuilder`](crate::ListBuilder) opens a hub.
///
/// ```
/// use ropethatch::{AddressKind, Bond, Identity, Link, ListBuilder, Needs, Request, Uuid};
/// # fn main() -> Result<(), Box<dyn std::error::Error>> {
/// let mut hub = ListBuilder::new()
///     .client_fixed(3, Uuid::short(0x2902), Needs::OPEN, 2)
///     .client_variable(5, Uuid::short(0xFF01), Needs::OPEN, 8)
///     .build()?;
///
/// // a tablet connects and writes a pupil's code, then a shorter one
/// let mut ada = hub.connect(Identity::new(AddressKind::Random, [1, 2, 3, 4, 5, 6])?)?;
/// let mut out = [0; 23];
/// for code in [&b"3E1047"[..], b"3E10"] {
///     let write = Request::Write { handle: 5, value: code };
///     let response = hub.process(&mut ada, Link::Plain, write, &mut out)?;
///     assert_eq!(response, Some(&[0x13][..]));
/// }
///
/// // the short code stands alone, without the old one's tail
/// assert_eq!(hub.get(ada.who(), 5, &mut out)?, b"3E10");
/// hub.disconnect(ada, Bond::Bonded);
/// # Ok(())
/// # }
/// ```
#[derive(Clone, PartialEq, Eq)]
pub struct Hub {
    slots: Box<[Slot; SLOTS]>,
    list: Box<[Record]>,
    store: Box<[u8]>,
    tables: Box<[Table; SLOTS]>,
}

impl Hub {
    pub(crate) fn open(list: Vec<Record>, store: Vec<u8>) -> Result<Hub, Refusal> {
        let mut hub = Hub {
            slots: Box::new([Slot::default(); SLOTS]),
            list: list.into_boxed_slice(),
            store: store.into_boxed_slice(),
            tables: Box::new([[0; 640]; SLOTS]),
        };
        hub.state().open()?;
        Ok(hub)
    }

    /// Gives a tablet a slot, and a connection on which nothing waits.
    ///
    /// The first slot that is the tablet's own or empty is used. Where there is none, the first tablet that is not
    /// connected loses its slot, and its values are cleared.
    ///
    /// # Errors
    ///
    /// [`Refusal::NoSlot`] where all eight slots are held by connected tablets.
    ///
    /// ```
    /// use ropethatch::{AddressKind, Bond, Identity, ListBuilder, Refusal};
    ///
    /// let tablet = |n| Identity::new(AddressKind::Public, [n, 0, 0, 0, 0, 1]);
    /// let mut hub = ListBuilder::new().build()?;
    /// let first = hub.connect(tablet(1)?)?;
    /// for n in 2..=8 {
    ///     hub.connect(tablet(n)?)?;
    /// }
    /// assert_eq!(hub.connect(tablet(9)?), Err(Refusal::NoSlot));
    ///
    /// hub.disconnect(first, Bond::Bonded);
    /// assert!(hub.connect(tablet(9)?).is_ok());
    /// # Ok::<(), Refusal>(())
    /// ```
    pub fn connect(&mut self, who: Identity) -> Result<Connection, Refusal> {
        self.state().connect(who.into())?;
        Ok(Connection::new(who))
    }

    /// Ends a connection, and with it what waits on its link. Nothing else changes where the tablet has no slot.
    pub fn disconnect(&mut self, connection: Connection, bond: Bond) {
        answer::always(self.state().disconnect(connection.who().into(), bond));
    }

    /// Answers a request of a connected tablet.
    ///
    /// The response stands at the start of `out`, whose length is the link's MTU; every byte past it stays as it was. An
    /// ATT error is a response too: 0x01, the request's opcode, the handle, the code. `None`: this request has no response.
    ///
    /// # Errors
    ///
    /// [`Refusal::BadBuffer`] where `out` has under 23 or over 517 bytes, or where a Prepare Write brings more bytes than
    /// `out` has, minus 5.
    ///
    /// ```
    /// use ropethatch::{AddressKind, Identity, Link, ListBuilder, Request};
    /// # fn main() -> Result<(), Box<dyn std::error::Error>> {
    /// let mut hub = ListBuilder::new().build()?;
    /// let mut ada = hub.connect(Identity::new(AddressKind::Public, [1; 6])?)?;
    /// let mut out = [0xEE; 23];
    /// let response = hub.process(&mut ada, Link::Plain, Request::Read { handle: 9 }, &mut out)?;
    /// assert_eq!(response, Some(&[0x01, 0x0A, 9, 0, 0x0A][..])); // there is no attribute 9
    /// assert_eq!(out[5..], [0xEE; 18]);
    /// # Ok(())
    /// # }
    /// ```
    pub fn process<'b>(
        &mut self,
        from: &mut Connection,
        link: Link,
        request: Request<'_>,
        out: &'b mut [u8],
    ) -> Result<Option<&'b [u8]>, Refusal> {
        let who = from.who().into();
        let prepared = &mut from.prepared;
        self.state()
            .process(who, link, &mut prepared.record, &mut prepared.bytes, request, out)
    }

    /// Answers a request as [`process`](Hub::process) does, into memory of its own, with room for a response of `mtu` bytes.
    ///
    /// # Errors
    ///
    /// As [`process`](Hub::process) with a buffer of `mtu` bytes.
    pub fn process_to_vec(
        &mut self,
        from: &mut Connection,
        link: Link,
        request: Request<'_>,
        mtu: usize,
    ) -> Result<Option<Vec<u8>>, Refusal> {
        let mut out = vec![0; mtu.min(TOO_LONG)];
        let len = self.process(from, link, request, &mut out)?.map(<[u8]>::len);
        Ok(len.map(|len| {
            out.truncate(len);
            out
        }))
    }

    /// Reads a value for the application: as much of it as `out`, of any length, can take. Nobody's permission is asked. A
    /// client value is the one that is kept for `who`.
    ///
    /// # Errors
    ///
    /// [`Refusal::NoHandle`], or the ATT code 0x0A for a client value of a tablet without a slot.
    pub fn get<'b>(&self, who: Identity, handle: u16, out: &'b mut [u8]) -> Result<&'b [u8], CallError> {
        self.lent().get(who.into(), handle, out)
    }

    /// Reads a whole value as [`get`](Hub::get) does, into memory of its own.
    ///
    /// # Errors
    ///
    /// As [`get`](Hub::get).
    pub fn get_to_vec(&self, who: Identity, handle: u16) -> Result<Vec<u8>, CallError> {
        let mut out = [0; LONGEST_VALUE];
        self.get(who, handle, &mut out).map(<[u8]>::to_vec)
    }

    /// Sets a value for the application, whole. Nobody's permission is asked. A client value is the one that is kept for
    /// `who`; where it was longer before, zeros take the place of the rest.
    ///
    /// # Errors
    ///
    /// [`Refusal::NoHandle`]; [`Refusal::WrongLength`] for a fixed value and another length; the ATT code 0x0D for more
    /// bytes than a variable value can have, 0x0A for a client value of a tablet without a slot.
    pub fn set(&mut self, who: Identity, handle: u16, value: &[u8]) -> Result<(), CallError> {
        self.state().set(who.into(), handle, value)
    }

    /// Whether this link may read this attribute.
    ///
    /// # Errors
    ///
    /// The ATT code that a tablet would get: 0x01 where there is no such attribute or the link is gone, 0x02 where it can
    /// never be read, 0x0F where the link is not encrypted, 0x05 where it is not authenticated.
    pub fn can_read(&self, who: Identity, link: Link, handle: u16) -> Result<(), AttError> {
        answer::unrefused(self.lent().can_read(who.into(), link, handle))
    }

    /// Whether this link may write this attribute.
    ///
    /// # Errors
    ///
    /// The ATT code, as in [`can_read`](Hub::can_read), but 0x03 where it can never be written.
    pub fn can_write(&self, who: Identity, link: Link, handle: u16) -> Result<(), AttError> {
        answer::unrefused(self.lent().can_write(who.into(), link, handle))
    }

    /// Whether a tablet wants notifications: bit 0 of its own value at this handle, where that is a client value of
    /// exactly 2 bytes.
    pub fn should_notify(&self, who: Identity, handle: u16) -> bool {
        answer::always(self.lent().should_notify(who.into(), handle))
    }

    /// Whether a tablet wants indications: bit 1, as in [`should_notify`](Hub::should_notify).
    pub fn should_indicate(&self, who: Identity, handle: u16) -> bool {
        answer::always(self.lent().should_indicate(who.into(), handle))
    }

    /// The values that are kept for a tablet, for keeping elsewhere; nothing is left in it of values that were longer.
    /// `None` where the tablet has no slot.
    pub fn client_table(&self, who: Identity) -> Option<SavedTable> {
        let mut out = [0; 640];
        let table = answer::always(self.lent().client_table(who.into(), &mut out));
        table.map(SavedTable::of)
    }

    /// Puts saved values into a tablet's slot, handle by handle. What the saved table lacks becomes clear, and what the hub
    /// does not have is passed over. Nothing changes where the tablet has no slot: connect it first.
    ///
    /// # Errors
    ///
    /// [`Refusal::BadTable`] where the bytes are no table.
    pub fn restore(&mut self, who: Identity, saved: &SavedTable) -> Result<(), Refusal> {
        self.state().restore(who.into(), saved.as_bytes())
    }

    fn state(&mut self) -> State<'_> {
        State {
            slots: &mut *self.slots,
            list: &mut self.list,
            store: &mut self.store,
            tables: &mut *self.tables,
        }
    }

    fn lent(&self) -> Lent<'_> {
        Lent {
            slots: &*self.slots,
            list: &self.list,
            store: &self.store,
            tables: &*self.tables,
        }
    }
}

/// Shows whose the slots are and how many attributes there are, and no value: they may be pupils'.
impl fmt::Debug for Hub {
    fn fmt(&self, f: &mut fmt::Formatter<'_>) -> fmt::Result {
        f.debug_struct("Hub")
            .field("slots", &self.slots)
            .field("attributes", &self.list.len())
            .finish_non_exhaustive()
    }
}
