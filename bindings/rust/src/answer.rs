//! What calls answer: refusals, ATT errors, and the library's replies turned into `Result`s.

use crate::ffi::Reply;
use std::error::Error;
use std::fmt;

/// Why a call was refused. A refused call has changed nothing.
///
/// Where several reasons apply, the lowest number is told.
///
/// ```
/// use ropethatch::{ListBuilder, Needs, Refusal, Uuid};
///
/// // handles must ascend
/// let refused = ListBuilder::new()
///     .client_variable(5, Uuid::short(0xFF01), Needs::OPEN, 8)
///     .client_fixed(3, Uuid::short(0x2902), Needs::OPEN, 2)
///     .build()
///     .unwrap_err();
/// assert_eq!(refused, Refusal::BadState);
/// assert_eq!(refused.number(), 1);
/// assert_eq!(refused.to_string(), "refused 1: the attribute list or the lent state is not valid");
/// ```
///
/// Calls to come have refusals of their own, so a `match` on this needs a last arm for the others.
#[derive(Clone, Copy, Debug, PartialEq, Eq, PartialOrd, Ord, Hash)]
#[non_exhaustive]
#[repr(u8)]
pub enum Refusal {
    /// 1: the attribute list breaks its rules, or the lent state is not valid.
    BadState = 1,
    /// 2: a response buffer of under 23 or over 517 bytes, or a Prepare Write value longer than the buffer minus 5.
    BadBuffer = 2,
    /// 3: the identity is empty, or its kind is neither public nor random.
    BadPeer = 3,
    /// 4: a saved table that the reading rules do not accept.
    BadTable = 4,
    /// 5: an entry that can't be added to a client table. No call of this crate builds a table by hand, so none gives it.
    BadEntry = 5,
    /// 6: the list's client values need a table of more than 640 bytes.
    TableTooLong = 6,
    /// 7: all eight slots are held by connected tablets.
    NoSlot = 7,
    /// 8: `get`, `set`: no attribute has this handle.
    NoHandle = 8,
    /// 9: `set`: a fixed value, and another length than its own.
    WrongLength = 9,
}

impl Refusal {
    /// The refusal's number, 1 to 9.
    pub const fn number(self) -> u8 {
        self as u8
    }

    /// The refusal with this number.
    pub const fn from_number(number: u8) -> Option<Refusal> {
        Some(match number {
            1 => Refusal::BadState,
            2 => Refusal::BadBuffer,
            3 => Refusal::BadPeer,
            4 => Refusal::BadTable,
            5 => Refusal::BadEntry,
            6 => Refusal::TableTooLong,
            7 => Refusal::NoSlot,
            8 => Refusal::NoHandle,
            9 => Refusal::WrongLength,
            _ => return None,
        })
    }

    const fn reason(self) -> &'static str {
        match self {
            Refusal::BadState => "the attribute list or the lent state is not valid",
            Refusal::BadBuffer => "the response buffer is too short or too long",
            Refusal::BadPeer => "the identity is empty or of an unknown kind",
            Refusal::BadTable => "the saved table can't be read",
            Refusal::BadEntry => "the entry can't be added to a client table",
            Refusal::TableTooLong => "the client values need more than 640 bytes",
            Refusal::NoSlot => "all eight slots are held by connected tablets",
            Refusal::NoHandle => "no attribute has this handle",
            Refusal::WrongLength => "the value is fixed and has another length",
        }
    }
}

impl fmt::Display for Refusal {
    fn fmt(&self, f: &mut fmt::Formatter<'_>) -> fmt::Result {
        write!(f, "refused {}: {}", self.number(), self.reason())
    }
}

impl Error for Refusal {}

/// An error code of the Attribute Protocol.
///
/// ```
/// use ropethatch::AttError;
///
/// assert_eq!(AttError(0x0A).to_string(), "ATT error 0x0A: attribute not found");
/// ```
#[derive(Clone, Copy, Debug, PartialEq, Eq, PartialOrd, Ord, Hash)]
pub struct AttError(pub u8);

impl AttError {
    /// The code.
    pub const fn code(self) -> u8 {
        self.0
    }

    /// The code's name in the Bluetooth Core Specification.
    pub const fn name(self) -> &'static str {
        match self.0 {
            0x01 => "invalid handle",
            0x02 => "read not permitted",
            0x03 => "write not permitted",
            0x04 => "invalid PDU",
            0x05 => "insufficient authentication",
            0x06 => "request not supported",
            0x07 => "invalid offset",
            0x08 => "insufficient authorization",
            0x09 => "prepare queue full",
            0x0A => "attribute not found",
            0x0B => "attribute not long",
            0x0C => "encryption key size too short",
            0x0D => "invalid attribute value length",
            0x0E => "unlikely error",
            0x0F => "insufficient encryption",
            0x10 => "unsupported group type",
            0x11 => "insufficient resources",
            0x12 => "database out of sync",
            0x13 => "value not allowed",
            0x80..=0x9F => "application error",
            0xE0..=0xFF => "common profile or service error",
            _ => "reserved for future use",
        }
    }
}

impl fmt::Display for AttError {
    fn fmt(&self, f: &mut fmt::Formatter<'_>) -> fmt::Result {
        write!(f, "ATT error 0x{:02X}: {}", self.code(), self.name())
    }
}

impl Error for AttError {}

/// Why a call of the application gave no value: it was refused, or the rule for reading or writing says no.
#[derive(Clone, Copy, Debug, PartialEq, Eq, Hash)]
#[non_exhaustive]
pub enum CallError {
    /// The call was refused.
    Refused(Refusal),
    /// The attribute can't be read or written so, and this is the code for it.
    Att(AttError),
}

impl fmt::Display for CallError {
    fn fmt(&self, f: &mut fmt::Formatter<'_>) -> fmt::Result {
        match self {
            CallError::Refused(refusal) => refusal.fmt(f),
            CallError::Att(error) => error.fmt(f),
        }
    }
}

impl Error for CallError {}

impl From<Refusal> for CallError {
    fn from(refusal: Refusal) -> Self {
        CallError::Refused(refusal)
    }
}

impl From<AttError> for CallError {
    fn from(error: AttError) -> Self {
        CallError::Att(error)
    }
}

/// A reply that tells no error.
enum Told {
    Done,
    Nothing,
    Value(usize),
}

fn told(reply: Reply) -> Result<Told, CallError> {
    match reply.status {
        0 => Ok(Told::Done),
        1 => Ok(Told::Nothing),
        2 => Ok(Told::Value(reply.len)),
        3 => Err(AttError(reply.code).into()),
        4 => Err(refusal(reply).into()),
        _ => broken(reply),
    }
}

fn told_without_att(reply: Reply) -> Result<Told, Refusal> {
    told(reply).map_err(|error| match error {
        CallError::Refused(refusal) => refusal,
        CallError::Att(_) => broken(reply),
    })
}

fn refusal(reply: Reply) -> Refusal {
    Refusal::from_number(reply.code).unwrap_or_else(|| broken(reply))
}

/// Of a call that is done or refused.
pub(crate) fn done(reply: Reply) -> Result<(), Refusal> {
    match told_without_att(reply)? {
        Told::Done => Ok(()),
        _ => broken(reply),
    }
}

/// Of a call that is done, refused, or told an ATT code.
pub(crate) fn granted(reply: Reply) -> Result<(), CallError> {
    match told(reply)? {
        Told::Done => Ok(()),
        _ => broken(reply),
    }
}

/// Of a question.
pub(crate) fn yes(reply: Reply) -> Result<bool, Refusal> {
    match told_without_att(reply)? {
        Told::Done => Ok(true),
        Told::Nothing => Ok(false),
        Told::Value(_) => broken(reply),
    }
}

/// Of a call that writes bytes to the start of a buffer, or has none to write.
pub(crate) fn written(reply: Reply) -> Result<Option<usize>, Refusal> {
    match told_without_att(reply)? {
        Told::Value(len) => Ok(Some(len)),
        Told::Nothing => Ok(None),
        Told::Done => broken(reply),
    }
}

/// Of a call that writes a value to the start of a buffer, is refused, or told an ATT code.
pub(crate) fn value(reply: Reply) -> Result<usize, CallError> {
    match told(reply)? {
        Told::Value(len) => Ok(len),
        _ => broken(reply),
    }
}

/// Of a saved table's end: the library finds it, or refuses bytes that are no table.
pub(crate) fn length(reply: Reply) -> Result<usize, Refusal> {
    match told_without_att(reply)? {
        Told::Value(len) => Ok(len),
        _ => broken(reply),
    }
}

/// Of a hub's call that nothing can refuse.
///
/// The library is proved to refuse such a call only where the state is not valid (1) or the identity is bad (3), and to
/// keep a valid state valid: docs/PROMISES.md. A hub has no other state, since the library opens it and nothing else changes
/// it, and an `Identity` is never a bad one.
pub(crate) fn always<T>(told: Result<T, Refusal>) -> T {
    told.unwrap_or_else(|refusal| never(refusal))
}

/// Of a hub's call that nothing can refuse, but that may tell an ATT code: see [`always`].
pub(crate) fn unrefused<T>(told: Result<T, CallError>) -> Result<T, AttError> {
    told.map_err(|error| match error {
        CallError::Att(error) => error,
        CallError::Refused(refusal) => never(refusal),
    })
}

/// The library is proved never to answer so: another archive has been linked than the one that this crate is for.
fn broken(reply: Reply) -> ! {
    panic!("libropethatch.a is not the library that this crate was written for: it answered {reply:?}")
}

/// A refusal where the library is proved to give none: see [`always`].
fn never(refusal: Refusal) -> ! {
    unreachable!("libropethatch.a is not the library that this crate was written for: a valid hub was {refusal}")
}

#[cfg(test)]
mod tests {
    use super::*;

    fn reply(status: u8, code: u8, len: usize) -> Reply {
        Reply { status, code, len }
    }

    #[test]
    fn every_refusal_has_its_number() {
        for number in 1..=9 {
            assert_eq!(Refusal::from_number(number).unwrap().number(), number);
        }
        assert_eq!(Refusal::from_number(0), None);
        assert_eq!(Refusal::from_number(10), None);
    }

    #[test]
    fn replies_are_told() {
        assert_eq!(done(reply(0, 0, 0)), Ok(()));
        assert_eq!(done(reply(4, 7, 0)), Err(Refusal::NoSlot));
        assert_eq!(granted(reply(3, 0x0F, 0)), Err(CallError::Att(AttError(0x0F))));
        assert_eq!(yes(reply(0, 0, 0)), Ok(true));
        assert_eq!(yes(reply(1, 0, 0)), Ok(false));
        assert_eq!(written(reply(2, 0, 5)), Ok(Some(5)));
        assert_eq!(written(reply(1, 0, 0)), Ok(None));
        assert_eq!(length(reply(2, 0, 24)), Ok(24));
        assert_eq!(length(reply(4, 4, 0)), Err(Refusal::BadTable));
        assert_eq!(value(reply(2, 0, 0)), Ok(0));
        assert_eq!(value(reply(4, 8, 0)), Err(CallError::Refused(Refusal::NoHandle)));
    }

    #[test]
    #[should_panic(expected = "not the library")]
    fn another_library_is_noticed() {
        let _ = done(reply(3, 1, 0));
    }

    #[test]
    fn what_nothing_refuses_is_told_as_it_is() {
        assert!(always(yes(reply(0, 0, 0))));
        assert_eq!(unrefused(granted(reply(0, 0, 0))), Ok(()));
        assert_eq!(unrefused(granted(reply(3, 0x0F, 0))), Err(AttError(0x0F)));
    }

    #[test]
    #[should_panic(expected = "not the library")]
    fn a_hub_that_is_refused_is_another_librarys() {
        always(done(reply(4, 1, 0)));
    }

    #[test]
    #[should_panic(expected = "not the library")]
    fn a_question_that_is_refused_is_too() {
        let _ = unrefused(granted(reply(4, 3, 0)));
    }
}
