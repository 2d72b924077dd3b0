//! A small classroom that all tests share.
#![allow(dead_code)]

use ropethatch::{AddressKind, Connection, Hub, Identity, Link, ListBuilder, Need, Needs, Request, Uuid};

pub const SERVICE: u16 = 1;
pub const DECLARATION: u16 = 2;
/// A subscription: a client value of exactly 2 bytes.
pub const SUBSCRIPTION: u16 = 3;
/// The pupil's code: a client value of at most 8 bytes.
pub const CODE: u16 = 5;
/// The hub's name: shared, at most 8 bytes; everybody may read it, encrypted links may write it.
pub const NAME: u16 = 6;
/// A shared value of exactly 4 bytes, for authenticated links only.
pub const SEAT: u16 = 7;
pub const OTHER_SERVICE: u16 = 8;
/// In no list.
pub const ABSENT: u16 = 9;
/// A shared value of at most 512 bytes that nobody may read and everybody may write; its type has 128 bits.
pub const NOTES: u16 = 0x0210;

pub const NOTES_TYPE: [u8; 16] = *b"NotesOfTheLesson";

/// How every byte of a response buffer stands before a request.
pub const LENT: u8 = 0xEE;

pub fn list() -> ListBuilder {
    let mut list = ListBuilder::new();
    list.shared_fixed(SERVICE, Uuid::short(0x2800), Needs::READ_ONLY, &[0x00, 0xFF])
        .shared_fixed(
            DECLARATION,
            Uuid::short(0x2803),
            Needs::READ_ONLY,
            &[0x0A, 0x05, 0x00, 0x01, 0xFF],
        )
        .client_fixed(SUBSCRIPTION, Uuid::short(0x2902), Needs::OPEN, 2)
        .client_variable(CODE, Uuid::short(0xFF01), Needs::OPEN, 8)
        .shared_variable(
            NAME,
            Uuid::short(0x2A00),
            Needs::new(Need::Any, Need::Encrypted),
            b"Hub",
            8,
        )
        .shared_fixed(
            SEAT,
            Uuid::short(0xFF02),
            Needs::new(Need::Authenticated, Need::Authenticated),
            b"SEAT",
        )
        .shared_fixed(OTHER_SERVICE, Uuid::short(0x2800), Needs::READ_ONLY, &[0x0F, 0x18])
        .shared_variable(
            NOTES,
            Uuid::long(NOTES_TYPE),
            Needs::new(Need::Never, Need::Any),
            b"",
            512,
        );
    list
}

pub fn hub() -> Hub {
    list().build().expect("the classroom's list is right")
}

/// The identity of tablet number `n`.
pub fn tablet(n: u8) -> Identity {
    Identity::new(AddressKind::Random, [n, 2, 3, 4, 5, 6]).expect("it is not empty")
}

pub fn join(hub: &mut Hub, n: u8) -> Connection {
    hub.connect(tablet(n)).expect("there is a slot")
}

/// The response over a plain link with an MTU of 23.
pub fn ask(hub: &mut Hub, from: &mut Connection, request: Request<'_>) -> Option<Vec<u8>> {
    ask_over(hub, from, Link::Plain, request, 23)
}

/// The response to a request. Every byte past it must stand as it was lent.
pub fn ask_over(hub: &mut Hub, from: &mut Connection, link: Link, request: Request<'_>, mtu: usize) -> Option<Vec<u8>> {
    let mut out = vec![LENT; mtu];
    let response = hub
        .process(from, link, request, &mut out)
        .expect("nothing to refuse")
        .map(<[u8]>::to_vec);
    let len = response.as_ref().map_or(0, Vec::len);
    assert!(
        out[len..].iter().all(|&byte| byte == LENT),
        "past {response:02X?}: {out:02X?}"
    );
    response
}

/// An ATT error: 0x01, the opcode, the handle, the code.
pub fn error(opcode: u8, handle: u16, code: u8) -> Option<Vec<u8>> {
    let [low, high] = handle.to_le_bytes();
    Some(vec![0x01, opcode, low, high, code])
}

pub fn bytes(bytes: &[u8]) -> Option<Vec<u8>> {
    Some(bytes.to_vec())
}
