//! A hub run by the proved library, in memory that can be looked at.

use crate::boundary::{self, Need, Spelling};
use original::connection::SecurityLevel;
use original::hub::{FILL, RECORDS};
use original::{Answer, Call, Entry, Identity, Request};
use ropethatch::raw::{self, Prepared, Slot, State, Table};
use ropethatch::{Bond, CallError, Link, Refusal};

/// The eight slots and tables stand in vectors, so that another number of them can be lent too.
#[derive(Clone, PartialEq)]
pub struct Ours {
    pub slots: Vec<Slot>,
    pub list: Vec<raw::Record>,
    pub store: Vec<u8>,
    pub tables: Vec<Table>,
    pub records: Vec<(Prepared, [u8; 512])>,
}

impl Ours {
    /// A fresh hub. The memory holds other things before, which must not matter.
    pub fn open(list: &[Entry], store: &[u8]) -> Result<Ours, Answer> {
        let foreign = Slot {
            id: raw::Identity {
                kind: FILL,
                addr: [FILL; 6],
            },
            connected: FILL,
        };
        let mut ours = Ours {
            slots: vec![foreign; 8],
            list: list.iter().map(record).collect(),
            store: store.to_vec(),
            tables: vec![[FILL; 640]; 8],
            records: vec![(Prepared::default(), [0; 512]); RECORDS],
        };
        match ours.state().open() {
            Ok(()) => Ok(ours),
            Err(refusal) => {
                let kept = ours.slots == [foreign; 8] && ours.tables == [[FILL; 640]; 8];
                assert!(kept && ours.store == store, "a refused open changed the memory");
                Err(refused(refusal))
            }
        }
    }

    fn state(&mut self) -> State<'_> {
        State {
            slots: &mut self.slots,
            list: &mut self.list,
            store: &mut self.store,
            tables: &mut self.tables,
        }
    }

    /// Makes a call. Also tells whether the response buffer past the answer is as it was lent.
    pub fn call(&mut self, call: &Call, spelling: Option<&Spelling>) -> (Answer, bool) {
        if let Some(answer) = spelling.and_then(|spelling| self.spelled(call, spelling)) {
            return answer;
        }
        let who = identity(call.who());
        let answer = match call {
            Call::Connect(_) => done(self.state().connect(who)),
            Call::Disconnect { bonded, .. } => {
                let bond = if *bonded { Bond::Bonded } else { Bond::Unbonded };
                done(self.state().disconnect(who, bond))
            }
            Call::Process {
                link,
                record,
                room,
                request,
                ..
            } => return self.process(who, level(*link), *record, *room, request),
            Call::Get { handle, room, .. } => return self.get(who, *handle, *room),
            Call::Set { handle, value, .. } => granted(self.state().set(who, *handle, value)),
            Call::CanRead { link, handle, .. } => granted(self.state().can_read(who, level(*link), *handle)),
            Call::CanWrite { link, handle, .. } => granted(self.state().can_write(who, level(*link), *handle)),
            Call::ShouldNotify { handle, .. } => yes(self.state().should_notify(who, *handle)),
            Call::ShouldIndicate { handle, .. } => yes(self.state().should_indicate(who, *handle)),
            Call::GetTable(_) => return self.get_table(who),
            Call::SetTable { saved, .. } => done(self.state().restore(who, saved)),
        };
        (answer, true)
    }

    /// Makes a call by numbers, where there is a choice of them.
    fn spelled(&mut self, call: &Call, spelling: &Spelling) -> Option<(Answer, bool)> {
        let who = identity(call.who());
        let answer = match call {
            Call::Disconnect { bonded, .. } => boundary::disconnect(self.state(), who, spelling, *bonded),
            Call::CanRead { link, handle, .. } => {
                boundary::may(self.state(), who, Need::Read, spelling.level(number(*link)), *handle)
            }
            Call::CanWrite { link, handle, .. } => {
                boundary::may(self.state(), who, Need::Write, spelling.level(number(*link)), *handle)
            }
            Call::Process {
                link,
                record,
                room,
                request,
                ..
            } => {
                let mut out = vec![FILL; *room];
                let (mut prepared, mut bytes) = self.records[*record];
                let lent = boundary::Lent {
                    level: number(*link),
                    prepared: &mut prepared,
                    bytes: &mut bytes,
                    out: &mut out,
                };
                let answer = boundary::process(self.state(), who, lent, request, spelling);
                self.records[*record] = (prepared, bytes);
                let clean = is_clean(&answer, &out);
                return Some((answer, clean));
            }
            _ => return None,
        };
        Some((answer, true))
    }

    fn process(&mut self, who: raw::Identity, link: Link, i: usize, room: usize, request: &Request) -> (Answer, bool) {
        let mut out = vec![FILL; room];
        let (mut prepared, mut bytes) = self.records[i];
        let reply = self
            .state()
            .process(who, link, &mut prepared, &mut bytes, encoded(request), &mut out);
        let answer = match reply {
            Ok(Some(response)) => Answer::Value(response.to_vec()),
            Ok(None) => Answer::Nothing,
            Err(refusal) => refused(refusal),
        };
        self.records[i] = (prepared, bytes);
        let clean = is_clean(&answer, &out);
        (answer, clean)
    }

    fn get(&mut self, who: raw::Identity, handle: u16, room: usize) -> (Answer, bool) {
        let mut out = vec![FILL; room];
        let answer = match self.state().get(who, handle, &mut out) {
            Ok(value) => Answer::Value(value.to_vec()),
            Err(error) => failed(error),
        };
        let clean = is_clean(&answer, &out);
        (answer, clean)
    }

    fn get_table(&mut self, who: raw::Identity) -> (Answer, bool) {
        let mut out = [FILL; 640];
        let answer = match self.state().client_table(who, &mut out) {
            Ok(Some(table)) => Answer::Value(table.to_vec()),
            Ok(None) => Answer::Nothing,
            Err(refusal) => refused(refusal),
        };
        let clean = is_clean(&answer, &out);
        (answer, clean)
    }
}

/// The part of some bytes that is a saved table, by the library.
pub fn read(saved: &[u8]) -> Answer {
    raw::saved_length(saved).map_or_else(refused, |len| Answer::Value(saved[..len].to_vec()))
}

/// Whether the bytes past the answer are as they were lent.
fn is_clean(answer: &Answer, out: &[u8]) -> bool {
    let used = match answer {
        Answer::Value(bytes) => bytes.len(),
        _ => 0,
    };
    out[used..].iter().all(|byte| *byte == FILL)
}

/// An entry as the library reads it. What it must not look at is filled with other things.
pub fn record(entry: &Entry) -> raw::Record {
    let mut record = [FILL; 32];
    record[0..2].copy_from_slice(&entry.handle.to_le_bytes());
    record[2..4].copy_from_slice(&entry.capacity.to_le_bytes());
    if entry.shared {
        record[4..6].copy_from_slice(&entry.start.to_le_bytes());
        record[6..8].copy_from_slice(&entry.len.to_le_bytes());
    }
    record[8] = entry.read;
    record[9] = entry.write;
    record[10] = u8::from(entry.variable) | u8::from(!entry.shared) << 1 | FILL & 0xFC;
    record[11] = entry.uuid.len() as u8;
    record[12..28]
        .iter_mut()
        .zip(&entry.uuid)
        .for_each(|(byte, given)| *byte = *given);
    record
}

pub fn identity(id: Identity) -> raw::Identity {
    let [kind, addr @ ..] = id.0;
    raw::Identity { kind, addr }
}

fn level(link: Option<SecurityLevel>) -> Link {
    match link {
        None => Link::Gone,
        Some(SecurityLevel::NoEncryption) => Link::Plain,
        Some(SecurityLevel::Encrypted) => Link::Encrypted,
        Some(SecurityLevel::EncryptedAuthenticated) => Link::Authenticated,
    }
}

/// A level's number at the boundary.
fn number(link: Option<SecurityLevel>) -> u8 {
    match link {
        None => 0,
        Some(SecurityLevel::NoEncryption) => 1,
        Some(SecurityLevel::Encrypted) => 2,
        Some(SecurityLevel::EncryptedAuthenticated) => 3,
    }
}

fn encoded(request: &Request) -> ropethatch::Request<'_> {
    use ropethatch::Request as R;
    match *request {
        Request::ExchangeMtu(mtu) => R::ExchangeMtu { mtu },
        Request::FindInformation { start, end } => R::FindInformation { start, end },
        Request::FindByTypeValue {
            start,
            end,
            uuid,
            ref value,
        } => R::FindByTypeValue {
            start,
            end,
            uuid,
            value,
        },
        Request::ReadByType { start, end, ref uuid } => R::ReadByType { start, end, uuid },
        Request::Read { handle } => R::Read { handle },
        Request::ReadBlob { handle, offset } => R::ReadBlob { handle, offset },
        Request::ReadMultiple { ref handles } => R::ReadMultiple { handles },
        Request::ReadByGroupType { start, end, ref uuid } => R::ReadByGroupType { start, end, uuid },
        Request::Write { handle, ref value } => R::Write { handle, value },
        Request::PrepareWrite {
            handle,
            offset,
            ref value,
        } => R::PrepareWrite { handle, offset, value },
        Request::ExecuteWrite { flags } => R::ExecuteWrite { flags },
        Request::WriteCommand { handle, ref value } => R::WriteCommand { handle, value },
        Request::Confirmation => R::Confirmation,
    }
}

fn refused(refusal: Refusal) -> Answer {
    Answer::Refused(refusal.number())
}

fn failed(error: CallError) -> Answer {
    match error {
        CallError::Refused(refusal) => refused(refusal),
        CallError::Att(code) => Answer::Att(code.code()),
        other => Answer::Error(other.to_string()),
    }
}

fn done(result: Result<(), Refusal>) -> Answer {
    result.map_or_else(refused, |()| Answer::Done)
}

fn granted(result: Result<(), CallError>) -> Answer {
    result.map_or_else(failed, |()| Answer::Done)
}

fn yes(result: Result<bool, Refusal>) -> Answer {
    match result {
        Ok(true) => Answer::Done,
        Ok(false) => Answer::Nothing,
        Err(refusal) => refused(refusal),
    }
}
