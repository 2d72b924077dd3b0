//! The boundary to `libropethatch.a`, all of it: the structs that cross it and the functions behind it.
//!
//! Nothing checks this file against the archive but the sizes below and the tests, so it is kept in one place, in the
//! archive's own order and with its own names. A lent slice is a pointer and the count of its elements.

use std::mem::{align_of, size_of};

/// One entry of the attribute list, as the library reads it.
///
/// Little-endian: handle (2 bytes), capacity (2), start of the range in the store (2), present length (2), need for
/// reading (1), need for writing (1), flags (1; 1 variable, 2 client), length of the UUID (1), UUID (16), 4 spare.
pub type Record = [u8; 32];

/// The client table of one slot.
pub type Table = [u8; 640];

/// A tablet's identity as it crosses the boundary: any kind, any address. Calls refuse a bad one with number 3.
#[repr(C)]
#[derive(Clone, Copy, Debug, Default, PartialEq, Eq, Hash)]
pub struct Identity {
    /// 0 public, 1 random; all else is refused.
    pub kind: u8,
    /// The address, low byte first.
    pub addr: [u8; 6],
}

/// One of the eight places that tablets hold.
#[repr(C)]
#[derive(Clone, Copy, Debug, Default, PartialEq, Eq, Hash)]
pub struct Slot {
    /// Whose slot it is. All zeros: nobody's.
    pub id: Identity,
    /// 0: not connected. Any other byte: connected.
    pub connected: u8,
}

/// What waits on a link to be written by Execute Write. Its bytes are lent beside it.
#[repr(C)]
#[derive(Clone, Copy, Debug, Default, PartialEq, Eq, Hash)]
pub struct Prepared {
    /// The handle to be written; 0: nothing waits.
    pub handle: u16,
    /// Where in the value the first byte will stand.
    pub offset: u16,
    /// How many bytes wait, at most 512.
    pub len: u16,
}

/// A request without the bytes that it brings.
#[repr(C)]
#[derive(Clone, Copy, Debug, Default, PartialEq, Eq)]
pub struct Request {
    pub op: u8,
    pub handle: u16,
    pub other: u16,
    pub uuid: u16,
}

/// What a call answers.
#[repr(C)]
#[derive(Clone, Copy, Debug, Default, PartialEq, Eq)]
#[must_use]
pub struct Reply {
    pub status: u8,
    pub code: u8,
    pub len: usize,
}

// The layout that the archive was compiled for.
const _: () = assert!(size_of::<Record>() == 32 && align_of::<Record>() == 1);
const _: () = assert!(size_of::<Table>() == 640 && align_of::<Table>() == 1);
const _: () = assert!(size_of::<Identity>() == 7 && align_of::<Identity>() == 1);
const _: () = assert!(size_of::<Slot>() == 8 && align_of::<Slot>() == 1);
const _: () = assert!(size_of::<Prepared>() == 6 && align_of::<Prepared>() == 2);
const _: () = assert!(size_of::<Request>() == 8 && align_of::<Request>() == 2);
const _: () = assert!(size_of::<Reply>() == 16 && align_of::<Reply>() == 8);

extern "C" {
    pub fn ropethatch_new(
        slots: *mut Slot,
        slots_len: usize,
        list: *const Record,
        list_len: usize,
        store: *const u8,
        store_len: usize,
        tables: *mut Table,
        tables_len: usize,
    ) -> Reply;

    pub fn ropethatch_connect(
        slots: *mut Slot,
        slots_len: usize,
        list: *const Record,
        list_len: usize,
        store: *const u8,
        store_len: usize,
        tables: *mut Table,
        tables_len: usize,
        who: Identity,
    ) -> Reply;

    pub fn ropethatch_disconnect(
        slots: *mut Slot,
        slots_len: usize,
        list: *const Record,
        list_len: usize,
        store: *const u8,
        store_len: usize,
        tables: *mut Table,
        tables_len: usize,
        who: Identity,
        bonded: u8,
    ) -> Reply;

    pub fn ropethatch_process(
        slots: *const Slot,
        slots_len: usize,
        list: *mut Record,
        list_len: usize,
        store: *mut u8,
        store_len: usize,
        tables: *mut Table,
        tables_len: usize,
        who: Identity,
        level: u8,
        prepared: *mut Prepared,
        bytes: *mut [u8; 512],
        request: Request,
        data: *const u8,
        data_len: usize,
        out: *mut u8,
        out_len: usize,
    ) -> Reply;

    pub fn ropethatch_get(
        slots: *const Slot,
        slots_len: usize,
        list: *const Record,
        list_len: usize,
        store: *const u8,
        store_len: usize,
        tables: *const Table,
        tables_len: usize,
        who: Identity,
        handle: u16,
        out: *mut u8,
        out_len: usize,
    ) -> Reply;

    pub fn ropethatch_set(
        slots: *const Slot,
        slots_len: usize,
        list: *mut Record,
        list_len: usize,
        store: *mut u8,
        store_len: usize,
        tables: *mut Table,
        tables_len: usize,
        who: Identity,
        handle: u16,
        data: *const u8,
        data_len: usize,
    ) -> Reply;

    pub fn ropethatch_can_read(
        slots: *const Slot,
        slots_len: usize,
        list: *const Record,
        list_len: usize,
        store: *const u8,
        store_len: usize,
        tables: *const Table,
        tables_len: usize,
        who: Identity,
        level: u8,
        handle: u16,
    ) -> Reply;

    pub fn ropethatch_can_write(
        slots: *const Slot,
        slots_len: usize,
        list: *const Record,
        list_len: usize,
        store: *const u8,
        store_len: usize,
        tables: *const Table,
        tables_len: usize,
        who: Identity,
        level: u8,
        handle: u16,
    ) -> Reply;

    pub fn ropethatch_should_notify(
        slots: *const Slot,
        slots_len: usize,
        list: *const Record,
        list_len: usize,
        store: *const u8,
        store_len: usize,
        tables: *const Table,
        tables_len: usize,
        who: Identity,
        handle: u16,
    ) -> Reply;

    pub fn ropethatch_should_indicate(
        slots: *const Slot,
        slots_len: usize,
        list: *const Record,
        list_len: usize,
        store: *const u8,
        store_len: usize,
        tables: *const Table,
        tables_len: usize,
        who: Identity,
        handle: u16,
    ) -> Reply;

    pub fn ropethatch_get_client_att_table(
        slots: *const Slot,
        slots_len: usize,
        list: *const Record,
        list_len: usize,
        store: *const u8,
        store_len: usize,
        tables: *const Table,
        tables_len: usize,
        who: Identity,
        out: *mut Table,
    ) -> Reply;

    pub fn ropethatch_set_client_att_table(
        slots: *const Slot,
        slots_len: usize,
        list: *const Record,
        list_len: usize,
        store: *const u8,
        store_len: usize,
        tables: *mut Table,
        tables_len: usize,
        who: Identity,
        saved: *const u8,
        saved_len: usize,
    ) -> Reply;

    pub fn ropethatch_saved_length(saved: *const u8, saved_len: usize) -> Reply;
}
