//! Requests, already decoded.

use crate::ffi;
use std::fmt;

/// A request of a tablet, with the bytes that it brings. What the words mean is the Attribute Protocol's.
///
/// A range runs from `start` to `end`, both included. UUIDs and the handles of Read Multiple are bytes as they come over
/// the air, low byte first.
///
/// ```
/// use ropethatch::{Request, Uuid};
///
/// let code = Uuid::short(0xFF01);
/// let request = Request::ReadByType { start: 1, end: 0xFFFF, uuid: code.as_bytes() };
/// assert_eq!(request.opcode(), 0x08);
/// assert_eq!(format!("{request:?}"), "ReadByType { start: 1, end: 65535, uuid: 2 bytes }");
/// ```
///
/// More requests come, so a `match` on this needs a last arm for the others.
#[derive(Clone, Copy, PartialEq, Eq, Hash)]
#[non_exhaustive]
pub enum Request<'a> {
    /// 0x02. Never answered here: the link layer settles the MTU.
    ExchangeMtu {
        /// The tablet's MTU.
        mtu: u16,
    },
    /// 0x04: which handles have which UUIDs.
    FindInformation {
        /// The range's first handle.
        start: u16,
        /// The range's last handle.
        end: u16,
    },
    /// 0x06: which attributes of a type have this shared value.
    FindByTypeValue {
        /// The range's first handle.
        start: u16,
        /// The range's last handle.
        end: u16,
        /// The type.
        uuid: u16,
        /// The whole value.
        value: &'a [u8],
    },
    /// 0x08: the values of a type.
    ReadByType {
        /// The range's first handle.
        start: u16,
        /// The range's last handle.
        end: u16,
        /// The type: 2 or 16 bytes. Any other number of bytes is no attribute's type.
        uuid: &'a [u8],
    },
    /// 0x0A: a value from its start.
    Read {
        /// The attribute.
        handle: u16,
    },
    /// 0x0C: a value from an offset.
    ReadBlob {
        /// The attribute.
        handle: u16,
        /// Where to start.
        offset: u16,
    },
    /// 0x0E: several values at once. Never served: always an error.
    ReadMultiple {
        /// The handles, two bytes each.
        handles: &'a [u8],
    },
    /// 0x10: the values of a type, with the groups that they open.
    ReadByGroupType {
        /// The range's first handle.
        start: u16,
        /// The range's last handle.
        end: u16,
        /// The type: 2 or 16 bytes.
        uuid: &'a [u8],
    },
    /// 0x12: write a value from its start.
    Write {
        /// The attribute.
        handle: u16,
        /// The bytes.
        value: &'a [u8],
    },
    /// 0x16: keep these bytes for Execute Write.
    PrepareWrite {
        /// The attribute.
        handle: u16,
        /// Where in the value they are to stand.
        offset: u16,
        /// The bytes, at most as many as the response buffer minus 5.
        value: &'a [u8],
    },
    /// 0x18: write what waits, or drop it.
    ExecuteWrite {
        /// 1 writes; any other number drops.
        flags: u8,
    },
    /// 0x52: write a value from its start, and never answer.
    WriteCommand {
        /// The attribute.
        handle: u16,
        /// The bytes.
        value: &'a [u8],
    },
    /// 0x1E: a tablet has seen an indication. Nothing is answered, nothing changes.
    Confirmation,
}

impl<'a> Request<'a> {
    /// The request's opcode.
    pub const fn opcode(self) -> u8 {
        match self {
            Request::ExchangeMtu { .. } => 0x02,
            Request::FindInformation { .. } => 0x04,
            Request::FindByTypeValue { .. } => 0x06,
            Request::ReadByType { .. } => 0x08,
            Request::Read { .. } => 0x0A,
            Request::ReadBlob { .. } => 0x0C,
            Request::ReadMultiple { .. } => 0x0E,
            Request::ReadByGroupType { .. } => 0x10,
            Request::Write { .. } => 0x12,
            Request::PrepareWrite { .. } => 0x16,
            Request::ExecuteWrite { .. } => 0x18,
            Request::WriteCommand { .. } => 0x52,
            Request::Confirmation => 0x1E,
        }
    }

    /// The request as it crosses the boundary, and the bytes that go beside it.
    pub(crate) fn encode(self) -> (ffi::Request, &'a [u8]) {
        let (handle, other, uuid, data): (u16, u16, u16, &[u8]) = match self {
            Request::ExchangeMtu { mtu } => (0, mtu, 0, &[]),
            Request::FindInformation { start, end } => (start, end, 0, &[]),
            Request::FindByTypeValue {
                start,
                end,
                uuid,
                value,
            } => (start, end, uuid, value),
            Request::ReadByType { start, end, uuid } => (start, end, 0, uuid),
            Request::Read { handle } => (handle, 0, 0, &[]),
            Request::ReadBlob { handle, offset } => (handle, offset, 0, &[]),
            Request::ReadMultiple { handles } => (0, 0, 0, handles),
            Request::ReadByGroupType { start, end, uuid } => (start, end, 0, uuid),
            Request::Write { handle, value } => (handle, 0, 0, value),
            Request::PrepareWrite { handle, offset, value } => (handle, offset, 0, value),
            Request::ExecuteWrite { flags } => (0, u16::from(flags), 0, &[]),
            Request::WriteCommand { handle, value } => (handle, 0, 0, value),
            Request::Confirmation => (0, 0, 0, &[]),
        };
        let op = self.opcode();
        let request = ffi::Request {
            op,
            handle,
            other,
            uuid,
        };
        (request, data)
    }
}

/// Shows the numbers of a request and how many bytes it brings, and not which: they may be a pupil's.
impl fmt::Debug for Request<'_> {
    fn fmt(&self, f: &mut fmt::Formatter<'_>) -> fmt::Result {
        let range = |start, end| [("start", start), ("end", end)];
        match *self {
            Request::ExchangeMtu { mtu } => show(f, "ExchangeMtu", &[("mtu", mtu)], None),
            Request::FindInformation { start, end } => show(f, "FindInformation", &range(start, end), None),
            Request::FindByTypeValue {
                start,
                end,
                uuid,
                value,
            } => {
                let numbers = [("start", start), ("end", end), ("uuid", uuid)];
                show(f, "FindByTypeValue", &numbers, Some(("value", value)))
            }
            Request::ReadByType { start, end, uuid } => show(f, "ReadByType", &range(start, end), Some(("uuid", uuid))),
            Request::Read { handle } => show(f, "Read", &[("handle", handle)], None),
            Request::ReadBlob { handle, offset } => {
                show(f, "ReadBlob", &[("handle", handle), ("offset", offset)], None)
            }
            Request::ReadMultiple { handles } => show(f, "ReadMultiple", &[], Some(("handles", handles))),
            Request::ReadByGroupType { start, end, uuid } => {
                show(f, "ReadByGroupType", &range(start, end), Some(("uuid", uuid)))
            }
            Request::Write { handle, value } => show(f, "Write", &[("handle", handle)], Some(("value", value))),
            Request::PrepareWrite { handle, offset, value } => {
                let numbers = [("handle", handle), ("offset", offset)];
                show(f, "PrepareWrite", &numbers, Some(("value", value)))
            }
            Request::ExecuteWrite { flags } => show(f, "ExecuteWrite", &[("flags", flags.into())], None),
            Request::WriteCommand { handle, value } => {
                show(f, "WriteCommand", &[("handle", handle)], Some(("value", value)))
            }
            Request::Confirmation => show(f, "Confirmation", &[], None),
        }
    }
}

fn show(f: &mut fmt::Formatter<'_>, name: &str, numbers: &[(&str, u16)], bytes: Option<(&str, &[u8])>) -> fmt::Result {
    let mut shown = f.debug_struct(name);
    for (field, number) in numbers {
        shown.field(field, number);
    }
    if let Some((field, bytes)) = bytes {
        shown.field(field, &Count(bytes.len()));
    }
    shown.finish()
}

/// How many bytes there are, in place of the bytes.
struct Count(usize);

impl fmt::Debug for Count {
    fn fmt(&self, f: &mut fmt::Formatter<'_>) -> fmt::Result {
        write!(f, "{} bytes", self.0)
    }
}
