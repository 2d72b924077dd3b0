//! The calls on a builder and a table alone, and what the original's own types answer to them.

use original::calls::Hex;
use original::slots::Table;
use original::{table, Answer};
use std::fmt;

/// A call as a session has it.
#[derive(Clone)]
pub enum TableCall {
    NewBuilder,
    LoadBuilder(Vec<u8>),
    Push { key: u16, len: u16, variable: bool },
    Build,
    BuilderMemory,
    Load(Vec<u8>),
    Write { key: u16, offset: usize, data: Vec<u8> },
    Get(u16),
    SetValues(Vec<u8>),
    Clear,
    Raw,
    Memory,
    Read(Vec<u8>),
}

impl fmt::Display for TableCall {
    fn fmt(&self, f: &mut fmt::Formatter<'_>) -> fmt::Result {
        match self {
            TableCall::NewBuilder => f.write_str("bnew"),
            TableCall::LoadBuilder(bytes) => write!(f, "bload {}", Hex(bytes)),
            TableCall::Push { key, len, variable } => write!(f, "bpush {key:X} {len:X} {}", u8::from(*variable)),
            TableCall::Build => f.write_str("bbuild"),
            TableCall::BuilderMemory => f.write_str("bmem"),
            TableCall::Load(bytes) => write!(f, "tload {}", Hex(bytes)),
            TableCall::Write { key, offset, data } => write!(f, "twrite {key:X} {offset:X} {}", Hex(data)),
            TableCall::Get(key) => write!(f, "tget {key:X}"),
            TableCall::SetValues(saved) => write!(f, "tsetv {}", Hex(saved)),
            TableCall::Clear => f.write_str("tclear"),
            TableCall::Raw => f.write_str("traw"),
            TableCall::Memory => f.write_str("tmem"),
            TableCall::Read(saved) => write!(f, "tread {}", Hex(saved)),
        }
    }
}

/// A kind of difference that docs/DIFFERENCES.md lists for builders and tables.
#[derive(Clone, Copy, Debug, PartialEq, Eq, PartialOrd, Ord)]
pub enum Kind {
    BadEntry,
    KeyOrder,
    KeyOrderFull,
    TooLong,
    NoBuilder,
    NoTable,
    DroppedTail,
}

impl Kind {
    pub const ALL: [Kind; 7] = [
        Kind::BadEntry,
        Kind::KeyOrder,
        Kind::KeyOrderFull,
        Kind::TooLong,
        Kind::NoBuilder,
        Kind::NoTable,
        Kind::DroppedTail,
    ];

    /// The sentence that it stands for.
    pub const fn sentence(self) -> &'static str {
        match self {
            Kind::BadEntry => "push: length over 512, key 0 or key above 0x7FFF is refused 5; the Rust panics",
            Kind::KeyOrder => "push: a key not above the last is refused 5; the Rust panics",
            Kind::KeyOrderFull => {
                "push: such a key that also does not fit is refused 5; the Rust counts on, build panics"
            }
            Kind::TooLong => "push: more than 640 bytes are refused 6; the Rust counts on, build panics",
            Kind::NoBuilder => "push, build: bytes that no builder has are refused 4; the Rust's type is closed",
            Kind::NoTable => "table calls: bytes that are no table are refused 4; the Rust's type is closed",
            Kind::DroppedTail => "write: what a variable value drops becomes zeros; in the Rust it stays",
        }
    }
}

/// An answer, and the kind where the original would do otherwise.
type Expected = (Answer, Option<Kind>);

/// The builder and the table of a session, run by the original.
pub struct Tables {
    pub builder: Table,
    pub table: Table,
}

impl Tables {
    pub fn new() -> Tables {
        Tables {
            builder: [0; 640],
            table: [0; 640],
        }
    }

    /// Makes a call on the original.
    ///
    /// # Errors
    ///
    /// The original stops in a way that is not listed.
    pub fn call(&mut self, call: &TableCall) -> Result<Expected, String> {
        let plain = |answer| Ok((answer, None));
        match call {
            TableCall::NewBuilder => self.builder = [0; 640],
            TableCall::LoadBuilder(bytes) => self.builder = padded(bytes),
            TableCall::Load(bytes) => self.table = padded(bytes),
            TableCall::Push { key, len, variable } => return self.push(*key, *len, *variable),
            TableCall::Build if !table::is_builder(&self.builder) => return refused(4, Kind::NoBuilder),
            TableCall::Build => {
                self.table = table::build(&self.builder).map_err(|answer| format!("build: {answer:?}"))?
            }
            TableCall::BuilderMemory => return plain(Answer::Value(trimmed(&self.builder))),
            TableCall::Memory => return plain(Answer::Value(trimmed(&self.table))),
            TableCall::Read(saved) => return plain(table::read(saved)),
            _ if !table::is_table(&self.table) => return refused(4, Kind::NoTable),
            TableCall::Raw => return plain(table::read(&self.table)),
            TableCall::Get(key) => return plain(table::get(&self.table, *key)),
            TableCall::Write { key, offset, data } => return Ok(self.write(*key, *offset, data)),
            TableCall::SetValues(saved) => return plain(table::set_values(&mut self.table, saved)),
            TableCall::Clear => return plain(table::clear(&mut self.table)),
        }
        plain(Answer::Done)
    }

    fn write(&mut self, key: u16, offset: usize, data: &[u8]) -> Expected {
        let before = self.table;
        let answer = table::write(&mut self.table, key, offset, data);
        let dropped = table::clear_dropped(&before, &mut self.table);
        (answer, dropped.then_some(Kind::DroppedTail))
    }

    fn push(&mut self, key: u16, len: u16, variable: bool) -> Result<Expected, String> {
        if !table::is_builder(&self.builder) {
            return refused(4, Kind::NoBuilder);
        }
        let bad = len > 512 || key == 0 || key > 0x7FFF;
        let falls = key <= table::last_key(&self.builder);
        match table::try_push(&self.builder, key, len, variable) {
            (Answer::Done, Ok(built)) => {
                self.builder = built;
                Ok((Answer::Done, None))
            }
            (Answer::Stopped(_), _) if bad => refused(5, Kind::BadEntry),
            (Answer::Stopped(why), _) if falls && why.contains("ascending order") => refused(5, Kind::KeyOrder),
            (Answer::Done, Err(Answer::Stopped(why))) if why.contains("overflow") => {
                if falls {
                    refused(5, Kind::KeyOrderFull)
                } else {
                    refused(6, Kind::TooLong)
                }
            }
            other => Err(format!("push: the Rust {other:?}")),
        }
    }
}

fn refused(number: u8, kind: Kind) -> Result<Expected, String> {
    Ok((Answer::Refused(number), Some(kind)))
}

fn padded(bytes: &[u8]) -> Table {
    let mut table = [0; 640];
    table[..bytes.len()].copy_from_slice(bytes);
    table
}

/// Without the zeros at the end.
pub fn trimmed(bytes: &[u8]) -> Vec<u8> {
    let len = bytes.iter().rposition(|byte| *byte != 0).map_or(0, |last| last + 1);
    bytes[..len].to_vec()
}
