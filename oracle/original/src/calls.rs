//! Calls and answers, alike for the original and for any other server.

use crate::connection::SecurityLevel;
use crate::Identity;
use std::fmt;

/// A call on a hub. Its text is a line of a session.
#[derive(Clone, Debug, PartialEq, Eq)]
pub enum Call {
    Connect(Identity),
    Disconnect {
        who: Identity,
        bonded: bool,
    },
    Process {
        who: Identity,
        link: Option<SecurityLevel>,
        /// Which link's prepared record is lent.
        record: usize,
        /// The length of the response buffer.
        room: usize,
        request: Request,
    },
    Get {
        who: Identity,
        handle: u16,
        room: usize,
    },
    Set {
        who: Identity,
        handle: u16,
        value: Vec<u8>,
    },
    CanRead {
        who: Identity,
        link: Option<SecurityLevel>,
        handle: u16,
    },
    CanWrite {
        who: Identity,
        link: Option<SecurityLevel>,
        handle: u16,
    },
    ShouldNotify {
        who: Identity,
        handle: u16,
    },
    ShouldIndicate {
        who: Identity,
        handle: u16,
    },
    GetTable(Identity),
    SetTable {
        who: Identity,
        saved: Vec<u8>,
    },
}

/// A request with the bytes that it brings. UUIDs are as they stand on air.
#[derive(Clone, Debug, PartialEq, Eq)]
pub enum Request {
    ExchangeMtu(u16),
    FindInformation {
        start: u16,
        end: u16,
    },
    FindByTypeValue {
        start: u16,
        end: u16,
        uuid: u16,
        value: Vec<u8>,
    },
    ReadByType {
        start: u16,
        end: u16,
        uuid: Vec<u8>,
    },
    Read {
        handle: u16,
    },
    ReadBlob {
        handle: u16,
        offset: u16,
    },
    ReadMultiple {
        handles: Vec<u8>,
    },
    ReadByGroupType {
        start: u16,
        end: u16,
        uuid: Vec<u8>,
    },
    Write {
        handle: u16,
        value: Vec<u8>,
    },
    PrepareWrite {
        handle: u16,
        offset: u16,
        value: Vec<u8>,
    },
    ExecuteWrite {
        flags: u8,
    },
    WriteCommand {
        handle: u16,
        value: Vec<u8>,
    },
    Confirmation,
}

/// What a call answers.
#[derive(Clone, Debug, PartialEq, Eq)]
pub enum Answer {
    /// Done; yes.
    Done,
    /// Silence; no such table; no.
    Nothing,
    /// A response, a value, or the 640 bytes of a table.
    Value(Vec<u8>),
    /// An ATT error code of `get`, `set` and the like.
    Att(u8),
    /// Refused under the requirements' number.
    Refused(u8),
    /// The original panicked, with this message.
    Stopped(String),
    /// The original answered an error that the requirements do not name.
    Error(String),
}

impl Call {
    pub fn who(&self) -> Identity {
        match *self {
            Call::Connect(who) | Call::GetTable(who) => who,
            Call::Disconnect { who, .. }
            | Call::Process { who, .. }
            | Call::Get { who, .. }
            | Call::Set { who, .. }
            | Call::CanRead { who, .. }
            | Call::CanWrite { who, .. }
            | Call::ShouldNotify { who, .. }
            | Call::ShouldIndicate { who, .. }
            | Call::SetTable { who, .. } => who,
        }
    }

    /// The lowest of the refusals that the original does not know: 2 and 3.
    pub fn refusal(&self) -> Option<u8> {
        match self {
            Call::Process { room, request, .. } if !request.fits(*room) => Some(2),
            call if call.who().is_refused() => Some(3),
            _ => None,
        }
    }

    /// Whether it may write to a value.
    pub fn writes(&self) -> bool {
        match self {
            Call::Set { .. } => true,
            Call::Process { request, .. } => matches!(
                request,
                Request::Write { .. } | Request::WriteCommand { .. } | Request::ExecuteWrite { .. }
            ),
            _ => false,
        }
    }
}

impl Request {
    fn fits(&self, room: usize) -> bool {
        let value = match self {
            Request::PrepareWrite { value, .. } => value.len(),
            _ => 0,
        };
        (23..=517).contains(&room) && value <= room - 5
    }
}

/// Bytes as a session shows them.
pub struct Hex<'a>(pub &'a [u8]);

impl fmt::Display for Hex<'_> {
    fn fmt(&self, f: &mut fmt::Formatter<'_>) -> fmt::Result {
        if self.0.is_empty() {
            return f.write_str("-");
        }
        self.0.iter().try_for_each(|byte| write!(f, "{byte:02X}"))
    }
}

impl fmt::Display for Identity {
    fn fmt(&self, f: &mut fmt::Formatter<'_>) -> fmt::Result {
        Hex(&self.0).fmt(f)
    }
}

fn letter(link: Option<SecurityLevel>) -> char {
    match link {
        None => 'g',
        Some(SecurityLevel::NoEncryption) => 'p',
        Some(SecurityLevel::Encrypted) => 'e',
        Some(SecurityLevel::EncryptedAuthenticated) => 'a',
    }
}

impl fmt::Display for Call {
    fn fmt(&self, f: &mut fmt::Formatter<'_>) -> fmt::Result {
        match self {
            Call::Connect(who) => write!(f, "connect {who}"),
            Call::Disconnect { who, bonded } => write!(f, "disconnect {who} {}", u8::from(*bonded)),
            Call::Process {
                who,
                link,
                record,
                room,
                request,
            } => write!(f, "req {who} {} {record:X} {room:X} {request}", letter(*link)),
            Call::Get { who, handle, room } => write!(f, "get {who} {handle:X} {room:X}"),
            Call::Set { who, handle, value } => write!(f, "set {who} {handle:X} {}", Hex(value)),
            Call::CanRead { who, link, handle } => write!(f, "canread {who} {} {handle:X}", letter(*link)),
            Call::CanWrite { who, link, handle } => write!(f, "canwrite {who} {} {handle:X}", letter(*link)),
            Call::ShouldNotify { who, handle } => write!(f, "notify {who} {handle:X}"),
            Call::ShouldIndicate { who, handle } => write!(f, "indicate {who} {handle:X}"),
            Call::GetTable(who) => write!(f, "gettab {who}"),
            Call::SetTable { who, saved } => write!(f, "settab {who} {}", Hex(saved)),
        }
    }
}

impl fmt::Display for Request {
    fn fmt(&self, f: &mut fmt::Formatter<'_>) -> fmt::Result {
        match self {
            Request::ExchangeMtu(mtu) => write!(f, "mtu {mtu:X}"),
            Request::FindInformation { start, end } => write!(f, "fi {start:X} {end:X}"),
            Request::FindByTypeValue {
                start,
                end,
                uuid,
                value,
            } => write!(f, "ftv {start:X} {end:X} {uuid:X} {}", Hex(value)),
            Request::ReadByType { start, end, uuid } => write!(f, "rbt {start:X} {end:X} {}", Hex(uuid)),
            Request::Read { handle } => write!(f, "rd {handle:X}"),
            Request::ReadBlob { handle, offset } => write!(f, "rb {handle:X} {offset:X}"),
            Request::ReadMultiple { handles } => write!(f, "rm {}", Hex(handles)),
            Request::ReadByGroupType { start, end, uuid } => write!(f, "rbg {start:X} {end:X} {}", Hex(uuid)),
            Request::Write { handle, value } => write!(f, "wr {handle:X} {}", Hex(value)),
            Request::PrepareWrite { handle, offset, value } => write!(f, "pw {handle:X} {offset:X} {}", Hex(value)),
            Request::ExecuteWrite { flags } => write!(f, "ex {flags:X}"),
            Request::WriteCommand { handle, value } => write!(f, "wc {handle:X} {}", Hex(value)),
            Request::Confirmation => f.write_str("cf"),
        }
    }
}
