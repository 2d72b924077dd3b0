//! The state of a session, and the answer to each of its lines.

use crate::parse::Words;
use original::calls::Hex;
use original::connection::PrepareWriteState;
use original::hub::RECORDS;
use original::slots::{Table, SLOTS};
use original::{list, table, Answer, Call, Entry, Hub};
use std::fmt::Write;

/// The most `attr` lines of a list.
const ENTRIES: usize = 65;

pub struct Session {
    /// Without the refusals that the original does not know, and with what it leaves of a longer client value.
    raw: bool,
    list: Vec<Entry>,
    store: Vec<u8>,
    hub: Option<Hub>,
    /// Whether the latest request's buffer past its response is as it was lent.
    clean: bool,
    table: Table,
    builder: Table,
}

impl Session {
    pub fn new(raw: bool) -> Session {
        Session {
            raw,
            list: Vec::new(),
            store: Vec::new(),
            hub: None,
            clean: true,
            table: [0; 640],
            builder: [0; 640],
        }
    }

    /// The answer to a line; `None`: it is no call.
    pub fn line(&mut self, line: &str) -> Option<String> {
        let mut words = Words::of(line);
        let word = words.word()?;
        match word {
            "new" | "attr" | "store" | "open" => self.opening(word, words),
            "bnew" | "bload" | "bpush" | "bbuild" | "bmem" => self.builder(word, words),
            "tload" | "twrite" | "tget" | "tsetv" | "tclear" | "traw" | "tmem" => self.table(word, words),
            "tread" => Some(shown("table", "ok", table::read(&words.bytes()?))),
            "tprint" => Some(printed(&words.bytes()?)),
            "tail" | "state" => self.looking(word),
            _ if word.starts_with("poke") => self.poking(word, words),
            _ => {
                let call = words.call(word)?;
                Some(self.call(&call))
            }
        }
    }

    fn opening(&mut self, word: &str, mut words: Words<'_>) -> Option<String> {
        match word {
            "new" => {
                words.end()?;
                self.list.clear();
                self.store.clear();
            }
            "attr" => {
                let entry = words.entry()?;
                words.end()?;
                (self.list.len() < ENTRIES).then(|| self.list.push(entry))?;
            }
            "store" => self.store = words.bytes()?,
            _ => return Some(shown("", "ok", self.open())),
        }
        Some("ok".to_string())
    }

    fn open(&mut self) -> Answer {
        if list::is_refused(&self.list, &self.store) {
            return Answer::Refused(1);
        }
        match Hub::open(&self.list, &self.store) {
            Ok(hub) => {
                self.hub = Some(hub);
                Answer::Done
            }
            Err(answer) => answer,
        }
    }

    fn call(&mut self, call: &Call) -> String {
        let Some(hub) = &self.hub else {
            return "closed".to_string();
        };
        let refusal = if self.raw { None } else { refusal(hub, call) };
        let (answer, clean) = match refusal {
            Some(number) => (Answer::Refused(number), true),
            None if self.raw => hub.call(call),
            None => {
                let (answer, clean, _) = hub.call_and_clear(call);
                (answer, clean)
            }
        };
        if let Call::Process { .. } = call {
            self.clean = clean;
        }
        told(call, answer)
    }

    fn looking(&self, word: &str) -> Option<String> {
        let Some(hub) = &self.hub else {
            return Some("closed".to_string());
        };
        Some(match word {
            "tail" if self.clean => "clean".to_string(),
            "tail" => "dirty".to_string(),
            _ => state(hub),
        })
    }

    fn poking(&mut self, word: &str, mut words: Words<'_>) -> Option<String> {
        let Some(hub) = &mut self.hub else {
            return Some("closed".to_string());
        };
        match word {
            "pokeslot" | "poketab" => {
                let i = words.number().filter(|i| *i < SLOTS)?;
                let mut slot = hub.slot(i);
                if word == "pokeslot" {
                    slot.id = words.identity()?;
                    slot.connected = words.u8()? != 0;
                } else {
                    slot.table = words.table()?;
                }
                hub.poke_slot(i, &slot);
            }
            "pokelen" => {
                let (handle, len) = (words.u16()?, words.u16()?);
                if hub.poke_length(handle, len).is_none() {
                    return Some("none".to_string());
                }
            }
            "pokestore" => {
                let (at, bytes) = (words.number()?, words.bytes()?);
                (at + bytes.len() <= hub.store().len()).then(|| hub.poke_store(at, &bytes))?;
            }
            "pokerec" => hub.poke_record(words.record()?, record(&mut words)?),
            _ => return None,
        }
        Some("ok".to_string())
    }

    fn table(&mut self, word: &str, mut words: Words<'_>) -> Option<String> {
        let answer = match word {
            "tload" => {
                self.table = words.table()?;
                Answer::Done
            }
            "tmem" => return Some(memory(&self.table)),
            "traw" => return Some(shown("table", "ok", table::read(&self.table))),
            "tget" => return Some(shown("val", "none", table::get(&self.table, words.u16()?))),
            "twrite" => self.write(words.u16()?, words.number()?, &words.bytes()?),
            "tsetv" => table::set_values(&mut self.table, &words.bytes()?),
            _ => table::clear(&mut self.table),
        };
        Some(shown("val", "ok", answer))
    }

    fn write(&mut self, key: u16, offset: usize, data: &[u8]) -> Answer {
        let before = self.table;
        let answer = table::write(&mut self.table, key, offset, data);
        if !self.raw && answer == Answer::Done {
            table::clear_dropped(&before, &mut self.table);
        }
        answer
    }

    fn builder(&mut self, word: &str, mut words: Words<'_>) -> Option<String> {
        let answer = match word {
            "bnew" => {
                self.builder = [0; 640];
                Answer::Done
            }
            "bload" => {
                self.builder = words.table()?;
                Answer::Done
            }
            "bmem" => return Some(memory(&self.builder)),
            "bpush" => table::push(&mut self.builder, words.u16()?, words.u16()?, words.flag()?),
            _ => match table::build(&self.builder) {
                Ok(table) => {
                    self.table = table;
                    Answer::Done
                }
                Err(answer) => answer,
            },
        };
        Some(shown("", "ok", answer))
    }
}

/// The line that answers a call on a hub.
pub fn told(call: &Call, answer: Answer) -> String {
    match (call, answer) {
        (Call::ShouldNotify { .. } | Call::ShouldIndicate { .. }, Answer::Done) => "yes".to_string(),
        (Call::ShouldNotify { .. } | Call::ShouldIndicate { .. }, Answer::Nothing) => "no".to_string(),
        (Call::Process { .. }, answer) => shown("rsp", "none", answer),
        (Call::GetTable(_), Answer::Value(bytes)) => shown("table", "", table::read(&bytes)),
        (_, answer) => shown("val", "ok", answer),
    }
}

/// The refusals that the original does not know.
fn refusal(hub: &Hub, call: &Call) -> Option<u8> {
    if hub.is_valid_for(call) {
        call.refusal()
    } else {
        Some(1)
    }
}

fn record(words: &mut Words<'_>) -> Option<PrepareWriteState> {
    let (handle, offset, bytes) = (words.u16()?, words.u16()?, words.bytes()?);
    let mut record = PrepareWriteState {
        handle,
        offset,
        len: bytes.len() as u16,
        ..PrepareWriteState::default()
    };
    let kept = bytes.len().min(record.buf.len());
    record.buf[..kept].copy_from_slice(&bytes[..kept]);
    Some(record)
}

/// An answer as a line: `value` names one that brings bytes, `silence` stands for one that brings nothing.
pub fn shown(value: &str, silence: &str, answer: Answer) -> String {
    match answer {
        Answer::Value(bytes) => format!("{value} {}", Hex(&bytes)),
        Answer::Done => "ok".to_string(),
        Answer::Nothing if silence == "ok" => "none".to_string(),
        Answer::Nothing => silence.to_string(),
        Answer::Att(code) => format!("att {code:02X}"),
        Answer::Refused(number) => format!("refused {number}"),
        Answer::Stopped(_) => "panic".to_string(),
        Answer::Error(error) => format!("error {error}"),
    }
}

fn memory(bytes: &[u8]) -> String {
    format!("mem {}", Hex(trimmed(bytes)))
}

/// Without the zeros at the end.
fn trimmed(bytes: &[u8]) -> &[u8] {
    let len = bytes.iter().rposition(|byte| *byte != 0).map_or(0, |last| last + 1);
    &bytes[..len]
}

/// A saved table as the table printer prints it.
pub fn printed(saved: &[u8]) -> String {
    if !table::is_table(saved) {
        return "refused 4".to_string();
    }
    let word = |at: usize| u16::from_le_bytes([saved[at], saved[at + 1]]);
    let count = usize::from(word(0));
    let mut text = format!("entries {count}");
    for i in 0..count {
        let (key, variable) = (word(4 + 4 * i) & 0x7FFF, word(4 + 4 * i) & 0x8000 != 0);
        if let Answer::Value(value) = table::get(saved, key) {
            let kind = if variable { 'V' } else { 'F' };
            let _ = write!(text, "\n{key} {kind} {} {}", value.len(), Hex(&value));
        }
    }
    text
}

/// The whole state, as `state` shows it.
pub fn state(hub: &Hub) -> String {
    let mut text = String::new();
    for (entry, length) in hub.list().iter().zip(hub.lengths()) {
        let length = length.map_or_else(|| "client".to_string(), |length| format!("{length:X}"));
        let _ = writeln!(text, "attr {:X} {length}", entry.handle);
    }
    let _ = writeln!(text, "store {}", Hex(&hub.store()));
    for i in 0..SLOTS {
        let slot = hub.slot(i);
        let (connected, table) = (u8::from(slot.connected), Hex(trimmed(&slot.table)));
        let _ = writeln!(text, "slot {i:X} {} {connected} {table}", slot.id);
    }
    for i in 0..RECORDS {
        let PrepareWriteState {
            handle,
            offset,
            len,
            buf,
        } = hub.record(i);
        if (handle, offset, len) != (0, 0, 0) {
            let bytes = &buf[..usize::from(len).min(buf.len())];
            let _ = writeln!(text, "rec {i:X} {handle:X} {offset:X} {}", Hex(bytes));
        }
    }
    text + "."
}
