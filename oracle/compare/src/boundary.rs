//! The library called by numbers, as C calls it.
//!
//! Its Rust crate can only say numbers that name something. The header gives a meaning to every other one too: a level that
//! names none is a link that is gone, an opcode that names none a confirmation, any flags but 1 a cancel, any byte but 0
//! means bonded; and what a request does not use is not looked at. A [`Spelling`] is one of these ways to say a call, and the
//! answer must be that of the call.

use crate::random::Random;
use original::{Answer, Request};
use ropethatch::raw::{Identity, Prepared, Record, Slot, State, Table};

/// The opcodes that name a request, a confirmation's included.
const OPCODES: [u8; 13] = [
    0x02, 0x04, 0x06, 0x08, 0x0A, 0x0C, 0x0E, 0x10, 0x12, 0x16, 0x18, 0x1E, 0x52,
];

fn names_no_level(number: &u8) -> bool {
    !(1..=3).contains(number)
}

fn names_no_request(number: &u8) -> bool {
    !OPCODES.contains(number)
}

/// How a call is put in numbers, where there is a choice.
#[derive(Clone, Debug)]
pub struct Spelling {
    /// The level of a link that is gone.
    gone: u8,
    confirmation: u8,
    bonded: u8,
    /// The flags of a cancel, if not 1.
    cancel: u16,
    /// What stands in a request's fields that are not used.
    unused: u16,
    /// The bytes beside a request that brings none.
    beside: Vec<u8>,
}

impl Spelling {
    /// Has a number wherever it may stand, and the usual one elsewhere.
    pub fn numbered(number: u16) -> Spelling {
        let byte = number as u8;
        Spelling {
            gone: Some(byte).filter(names_no_level).unwrap_or(0),
            confirmation: Some(byte).filter(names_no_request).unwrap_or(0x1E),
            bonded: byte.max(1),
            cancel: if number == 1 { 0 } else { number },
            unused: number,
            beside: Vec::new(),
        }
    }

    pub fn draw(random: &mut Random) -> Spelling {
        let len = random.pick(&[0, 1, 2, 16, 18, 512, 600]);
        Spelling {
            gone: Some(random.next() as u8).filter(names_no_level).unwrap_or(4),
            confirmation: Some(random.next() as u8).filter(names_no_request).unwrap_or(0x1E),
            bonded: (random.next() as u8).max(1),
            cancel: random.pick(&[0, 2, 0x00FF, 0x0100, 0x0101, 0xFF01, 0xFFFF]),
            unused: random.next() as u16,
            beside: random.bytes(len),
        }
    }

    /// The number of a level, of which 0 is a link that is gone.
    pub fn level(&self, level: u8) -> u8 {
        if level == 0 {
            self.gone
        } else {
            level
        }
    }

    fn spell<'a>(&'a self, request: &'a Request) -> (Numbers, &'a [u8]) {
        let any = self.unused;
        let none = &self.beside[..];
        let (op, handle, other, uuid, data) = match request {
            Request::ExchangeMtu(mtu) => (0x02, any, *mtu, any, none),
            Request::FindInformation { start, end } => (0x04, *start, *end, any, none),
            Request::FindByTypeValue {
                start,
                end,
                uuid,
                value,
            } => (0x06, *start, *end, *uuid, &value[..]),
            Request::ReadByType { start, end, uuid } => (0x08, *start, *end, any, &uuid[..]),
            Request::Read { handle } => (0x0A, *handle, any, any, none),
            Request::ReadBlob { handle, offset } => (0x0C, *handle, *offset, any, none),
            Request::ReadMultiple { handles } => (0x0E, any, any, any, &handles[..]),
            Request::ReadByGroupType { start, end, uuid } => (0x10, *start, *end, any, &uuid[..]),
            Request::Write { handle, value } => (0x12, *handle, any, any, &value[..]),
            Request::PrepareWrite { handle, offset, value } => (0x16, *handle, *offset, any, &value[..]),
            Request::ExecuteWrite { flags: 1 } => (0x18, any, 1, any, none),
            Request::ExecuteWrite { .. } => (0x18, any, self.cancel, any, none),
            Request::WriteCommand { handle, value } => (0x52, *handle, any, any, &value[..]),
            Request::Confirmation => (self.confirmation, any, any, any, none),
        };
        let request = Numbers {
            op,
            handle,
            other,
            uuid,
        };
        (request, data)
    }
}

/// A request without the bytes that it brings.
#[repr(C)]
#[derive(Clone, Copy)]
struct Numbers {
    op: u8,
    handle: u16,
    other: u16,
    uuid: u16,
}

#[repr(C)]
#[derive(Clone, Copy, Debug)]
struct Reply {
    status: u8,
    code: u8,
    len: usize,
}

impl Reply {
    /// What is told, with the bytes at the start of `out` where there are any. Fields that a status does not name are 0.
    fn answer(self, out: &[u8]) -> Answer {
        match (self.status, self.code, self.len) {
            (0, 0, 0) => Answer::Done,
            (1, 0, 0) => Answer::Nothing,
            (2, 0, len) => Answer::Value(out[..len].to_vec()),
            (3, code, 0) => Answer::Att(code),
            (4, number, 0) => Answer::Refused(number),
            _ => Answer::Error(format!("{self:?}")),
        }
    }
}

extern "C" {
    fn ropethatch_disconnect(
        slots: *mut Slot,
        slots_len: usize,
        list: *const Record,
        list_len: usize,
        store: *const u8,
        store_len: usize,
        tables: *mut Table,
        tables_len: usize,
        who: Identity,
        bonded: u8,
    ) -> Reply;

    fn ropethatch_process(
        slots: *const Slot,
        slots_len: usize,
        list: *mut Record,
        list_len: usize,
        store: *mut u8,
        store_len: usize,
        tables: *mut Table,
        tables_len: usize,
        who: Identity,
        level: u8,
        prepared: *mut Prepared,
        bytes: *mut [u8; 512],
        request: Numbers,
        data: *const u8,
        data_len: usize,
        out: *mut u8,
        out_len: usize,
    ) -> Reply;

    fn ropethatch_can_read(
        slots: *const Slot,
        slots_len: usize,
        list: *const Record,
        list_len: usize,
        store: *const u8,
        store_len: usize,
        tables: *const Table,
        tables_len: usize,
        who: Identity,
        level: u8,
        handle: u16,
    ) -> Reply;

    fn ropethatch_can_write(
        slots: *const Slot,
        slots_len: usize,
        list: *const Record,
        list_len: usize,
        store: *const u8,
        store_len: usize,
        tables: *const Table,
        tables_len: usize,
        who: Identity,
        level: u8,
        handle: u16,
    ) -> Reply;
}

pub fn disconnect(state: State<'_>, who: Identity, spelling: &Spelling, bonded: bool) -> Answer {
    // SAFETY: every pointer and count come from one slice, and the four `&mut` of a `State` are apart.
    let reply = unsafe {
        ropethatch_disconnect(
            state.slots.as_mut_ptr(),
            state.slots.len(),
            state.list.as_ptr(),
            state.list.len(),
            state.store.as_ptr(),
            state.store.len(),
            state.tables.as_mut_ptr(),
            state.tables.len(),
            who,
            if bonded { spelling.bonded } else { 0 },
        )
    };
    reply.answer(&[])
}

/// Which need is asked about.
#[derive(Clone, Copy)]
pub enum Need {
    Read,
    Write,
}

pub fn may(state: State<'_>, who: Identity, need: Need, level: u8, handle: u16) -> Answer {
    let call = match need {
        Need::Read => ropethatch_can_read,
        Need::Write => ropethatch_can_write,
    };
    // SAFETY: as in `disconnect`.
    let reply = unsafe {
        call(
            state.slots.as_ptr(),
            state.slots.len(),
            state.list.as_ptr(),
            state.list.len(),
            state.store.as_ptr(),
            state.store.len(),
            state.tables.as_ptr(),
            state.tables.len(),
            who,
            level,
            handle,
        )
    };
    reply.answer(&[])
}

/// A link as it is lent: its level, what waits on it, and a buffer for the response.
pub struct Lent<'a> {
    pub level: u8,
    pub prepared: &'a mut Prepared,
    pub bytes: &'a mut [u8; 512],
    pub out: &'a mut [u8],
}

pub fn process(state: State<'_>, who: Identity, link: Lent<'_>, request: &Request, spelling: &Spelling) -> Answer {
    let (request, data) = spelling.spell(request);
    // SAFETY: as in `disconnect`; `bytes` has the 512 bytes that its pointer promises, and what is lent to be changed is
    // behind a `&mut`, so it is apart from `data`.
    let reply = unsafe {
        ropethatch_process(
            state.slots.as_ptr(),
            state.slots.len(),
            state.list.as_mut_ptr(),
            state.list.len(),
            state.store.as_mut_ptr(),
            state.store.len(),
            state.tables.as_mut_ptr(),
            state.tables.len(),
            who,
            spelling.level(link.level),
            link.prepared,
            link.bytes,
            request,
            data.as_ptr(),
            data.len(),
            link.out.as_mut_ptr(),
            link.out.len(),
        )
    };
    reply.answer(link.out)
}
