//! The differences that docs/DIFFERENCES.md lists, each with a rule that recognises it. Any other is a fault.
//!
//! Three of them are recognised by a *repair*: the stand-ins under the original are changed in the one point that the
//! difference is about, and the original, still unchanged itself, must then answer exactly as the library does.

use crate::lists::List;
use crate::ours::Ours;
use original::hub::row_limit;
use original::{list, Answer, Call, Hub, Repairs, Request};
use std::fmt;

/// A kind of difference.
#[derive(Clone, Copy, Debug, PartialEq, Eq, PartialOrd, Ord)]
pub enum Kind {
    BadList,
    ListTooLong,
    BadState,
    BadBuffer,
    BadIdentity,
    OwnErrors,
    LongClientValue,
    LongRow,
    UuidForms,
    UuidLength,
    RowLeftBehind,
    MultipleOpcode,
    MultipleShort,
    DroppedTail,
}

impl Kind {
    pub const ALL: [Kind; 14] = [
        Kind::BadList,
        Kind::ListTooLong,
        Kind::BadState,
        Kind::BadBuffer,
        Kind::BadIdentity,
        Kind::OwnErrors,
        Kind::LongClientValue,
        Kind::LongRow,
        Kind::UuidForms,
        Kind::UuidLength,
        Kind::RowLeftBehind,
        Kind::MultipleOpcode,
        Kind::MultipleShort,
        Kind::DroppedTail,
    ];

    /// The sentence that it stands for.
    pub const fn sentence(self) -> &'static str {
        match self {
            Kind::BadList => "open: a list that breaks rule 1 is refused 1; the Rust has no such test",
            Kind::ListTooLong => "open: client values of more than 640 bytes are refused 6; the Rust panics",
            Kind::BadState => "any call: a lent state that is not valid is refused 1; the Rust's state is closed",
            Kind::BadBuffer => {
                "process: a buffer under 23 or over 517 bytes, or a Prepare Write value that does not fit, is refused 2; \
                 the Rust answers"
            }
            Kind::BadIdentity => "any call: the empty identity or a kind above 1 is refused 3; the Rust answers",
            Kind::OwnErrors => "get, set: refused 8 and 9; the Rust has errors of its own",
            Kind::LongClientValue => "a client value longer than the buffer is cut; the Rust panics",
            Kind::LongRow => {
                "Read By Type (Group): a value of 254 (252) bytes or more is cut to 253 (251); in the Rust the length \
                 byte wraps"
            }
            Kind::UuidForms => "the 16-bit and 128-bit form of one UUID are equal, and both end groups; not in the Rust",
            Kind::UuidLength => {
                "Read By Type (Group): a UUID of other than 2 or 16 bytes is no entry's; the Rust can't be asked for it"
            }
            Kind::RowLeftBehind => {
                "Read By Type (Group): bytes past the response stay as lent; the Rust leaves a rejected row there"
            }
            Kind::MultipleOpcode => "Read Multiple: the error names opcode 0x0E; in the Rust 0x20",
            Kind::MultipleShort => "Read Multiple of under 2 bytes: code 0x04, handle 0; the Rust panics",
            Kind::DroppedTail => {
                "a write: what a variable client value drops, up to its former length, becomes zeros; in the Rust it stays"
            }
        }
    }
}

impl fmt::Display for Kind {
    fn fmt(&self, f: &mut fmt::Formatter<'_>) -> fmt::Result {
        f.write_str(self.sentence())
    }
}

/// A list that breaks rule 1. The original is not opened then.
pub fn bad_list(list: &List) -> Option<(Kind, Answer)> {
    list::is_refused(&list.entries, &list.store).then_some((Kind::BadList, Answer::Refused(1)))
}

/// The original stops when it builds the table of such a list; `Hub` has put the number to it.
pub fn list_too_long(theirs: &Answer) -> Option<Kind> {
    (*theirs == Answer::Refused(6)).then_some(Kind::ListTooLong)
}

/// Refusals that the original does not know. It is not called then: the library must refuse and change nothing.
pub fn unknown_refusal(call: &Call, valid: bool) -> Option<(Kind, Answer)> {
    let (kind, number) = match call.refusal() {
        _ if !valid => (Kind::BadState, 1),
        Some(2) => (Kind::BadBuffer, 2),
        Some(number) => (Kind::BadIdentity, number),
        None => return None,
    };
    Some((kind, Answer::Refused(number)))
}

/// Refusals that the original gives as errors of its own; `Hub` has put numbers to them.
pub fn own_error(call: &Call, theirs: &Answer) -> Option<Kind> {
    let application = matches!(call, Call::Get { .. } | Call::Set { .. });
    let numbered = matches!(theirs, Answer::Refused(8 | 9));
    (application && numbered).then_some(Kind::OwnErrors)
}

/// The original's buffer past the response was written to.
pub fn row_left_behind(call: &Call, theirs_clean: bool) -> Option<Kind> {
    (!theirs_clean && row_limit(call) != usize::MAX).then_some(Kind::RowLeftBehind)
}

/// The kinds that make the two answers of a call differ; `None`: it is no listed difference.
pub fn explain(call: &Call, hub: &Hub, ours: &Answer, theirs: &Answer) -> Option<Vec<Kind>> {
    multiple_opcode(call, ours, theirs)
        .or_else(|| multiple_short(call, ours, theirs))
        .map(|kind| vec![kind])
        .or_else(|| repaired(call, hub, ours, theirs))
}

fn multiple_opcode(call: &Call, ours: &Answer, theirs: &Answer) -> Option<Kind> {
    let handles = multiple(call)?;
    let error = |opcode| Answer::Value(vec![0x01, opcode, handles[0], handles[1], 0x0A]);
    (handles.len() >= 2 && *ours == error(0x0E) && *theirs == error(0x20)).then_some(Kind::MultipleOpcode)
}

fn multiple_short(call: &Call, ours: &Answer, theirs: &Answer) -> Option<Kind> {
    let handles = multiple(call)?;
    let error = Answer::Value(vec![0x01, 0x0E, 0, 0, 0x04]);
    (handles.len() < 2 && *ours == error && stopped(theirs, "index out of bounds")).then_some(Kind::MultipleShort)
}

fn multiple(call: &Call) -> Option<&[u8]> {
    match call {
        Call::Process {
            request: Request::ReadMultiple { handles },
            ..
        } => Some(handles),
        _ => None,
    }
}

/// Looks for the smallest set of repairs under which the original answers as the library does.
fn repaired(call: &Call, hub: &Hub, ours: &Answer, theirs: &Answer) -> Option<Vec<Kind>> {
    if let Some(kind) = cut(call, hub, ours, theirs, Repairs::default()) {
        return Some(vec![kind]);
    }
    let forms = uuid_forms(call, hub)?;
    let call = with_shortest_uuid(call);
    let widen = Repairs {
        widen: true,
        ..Repairs::default()
    };
    let widened = hub.repaired(widen, &call);
    if widened == *ours {
        return Some(vec![forms]);
    }
    let kind = cut(&call, hub, ours, &widened, widen)?;
    Some(vec![forms, kind])
}

/// Whether the original, which answers `theirs`, answers as the library does where values are cut.
fn cut(call: &Call, hub: &Hub, ours: &Answer, theirs: &Answer, repairs: Repairs) -> Option<Kind> {
    let kind = long_client_value(call, theirs).or_else(|| long_row(call, hub))?;
    (hub.repaired(Repairs { cut: true, ..repairs }, call) == *ours).then_some(kind)
}

/// The original stops where it copies a client value into a shorter buffer.
fn long_client_value(call: &Call, theirs: &Answer) -> Option<Kind> {
    let reads = match call {
        Call::Get { .. } => true,
        Call::Process { request, .. } => matches!(
            request,
            Request::Read { .. }
                | Request::ReadBlob { .. }
                | Request::ReadByType { .. }
                | Request::ReadByGroupType { .. }
        ),
        _ => false,
    };
    (reads && stopped(theirs, "copy_from_slice")).then_some(Kind::LongClientValue)
}

/// The list has a value that is longer than a row can tell.
fn long_row(call: &Call, hub: &Hub) -> Option<Kind> {
    let limit = row_limit(call);
    let long = hub.list().iter().any(|entry| usize::from(entry.capacity) > limit);
    long.then_some(Kind::LongRow)
}

/// The list or the request has a UUID in the long form that has a short form.
fn uuid_forms(call: &Call, hub: &Hub) -> Option<Kind> {
    let long = |uuid: &[u8]| list::shortest(uuid).len() < uuid.len();
    let asked = match call {
        Call::Process { request, .. } => match request {
            Request::ReadByType { uuid, .. } | Request::ReadByGroupType { uuid, .. } => long(uuid),
            Request::FindByTypeValue { .. } => false,
            _ => return None,
        },
        _ => return None,
    };
    let listed = hub.list().iter().any(|entry| long(&entry.uuid));
    (asked || listed).then_some(Kind::UuidForms)
}

/// A request for a UUID of another length than an entry's, and the answer of the original when it is asked for a UUID that no
/// entry has: such requests change nothing.
pub fn no_such_uuid(call: &Call, hub: &Hub) -> Option<(Kind, Answer)> {
    let mut call = call.clone();
    let uuid = uuid_of(&mut call)?;
    if matches!(uuid.len(), 2 | 16) {
        return None;
    }
    *uuid = (0..)
        .map(|byte| vec![byte; 16])
        .find(|uuid| hub.list().iter().all(|entry| entry.uuid != *uuid))?;
    let (answer, _) = hub.call(&call);
    Some((Kind::UuidLength, answer))
}

fn with_shortest_uuid(call: &Call) -> Call {
    let mut call = call.clone();
    if let Some(uuid) = uuid_of(&mut call) {
        *uuid = list::shortest(uuid).to_vec();
    }
    call
}

/// The UUID that a read by type asks for.
fn uuid_of(call: &mut Call) -> Option<&mut Vec<u8>> {
    match call {
        Call::Process {
            request: Request::ReadByType { uuid, .. } | Request::ReadByGroupType { uuid, .. },
            ..
        } => Some(uuid),
        _ => None,
    }
}

fn stopped(answer: &Answer, why: &str) -> bool {
    matches!(answer, Answer::Stopped(message) if message.contains(why))
}

/// What differs between the two states after a call, in words. There is no listed difference of states: what a write drops has
/// been zeroed on the original's side (`Hub::call_and_clear`).
pub fn of_states(call: &Call, ours: &Ours, hub: &Hub) -> Option<String> {
    lists(ours, hub)
        .or_else(|| (ours.store != hub.store()).then(|| "the stores differ".to_string()))
        .or_else(|| (0..8).find_map(|i| slots(ours, hub, i)))
        .or_else(|| match call {
            Call::Process { record, .. } => records(ours, hub, *record),
            _ => None,
        })
}

fn lists(ours: &Ours, hub: &Hub) -> Option<String> {
    let lengths = hub.lengths();
    ours.list
        .iter()
        .zip(hub.list())
        .zip(lengths)
        .find_map(|((record, entry), length)| {
            let mut expected = crate::ours::record(entry);
            if let Some(length) = length {
                expected[6..8].copy_from_slice(&length.to_le_bytes());
            }
            (*record != expected).then(|| {
                format!(
                    "the records of handle {:X} differ: {record:02X?} {expected:02X?}",
                    entry.handle
                )
            })
        })
}

fn slots(ours: &Ours, hub: &Hub, i: usize) -> Option<String> {
    let (mine, theirs) = (&ours.slots[i], hub.slot(i));
    if mine.id != crate::ours::identity(theirs.id) || (mine.connected != 0) != theirs.connected {
        return Some(format!(
            "slot {i} differs: {mine:?}, the Rust {} {}",
            theirs.id, theirs.connected
        ));
    }
    let at = (0..640).find(|&at| ours.tables[i][at] != theirs.table[at])?;
    Some(format!("table {i} differs from byte {at}"))
}

fn records(ours: &Ours, hub: &Hub, i: usize) -> Option<String> {
    let ((mine, bytes), theirs) = (&ours.records[i], hub.record(i));
    let equal =
        (mine.handle, mine.offset, mine.len) == (theirs.handle, theirs.offset, theirs.len) && *bytes == theirs.buf;
    (!equal).then(|| {
        format!(
            "prepared record {i} differs: {mine:?}, by the requirements {:X} {:X} {:X}",
            theirs.handle, theirs.offset, theirs.len
        )
    })
}
