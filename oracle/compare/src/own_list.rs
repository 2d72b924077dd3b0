//! The original with its own list, permissions and group ends beside the library: three lines of docs/DIFFERENCES.md are
//! about these, and everything else must be alike.
//!
//! The original's own list has the same values, each under its place + 1.

use crate::lists::{self, List};
use crate::ours::Ours;
use crate::random::Random;
use crate::rows::tablet;
use crate::{Fault, Totals};
use original::connection::SecurityLevel;
use original::list::shortest;
use original::{Answer, Call, Entry, Request};
use std::collections::BTreeMap;

/// A difference that docs/DIFFERENCES.md lists for the crate's own list.
#[derive(Clone, Copy, Debug, PartialEq, Eq, PartialOrd, Ord)]
pub enum Kind {
    NeedOnPlain,
    LastGroup,
    Handles,
}

impl Kind {
    pub const ALL: [Kind; 3] = [Kind::NeedOnPlain, Kind::LastGroup, Kind::Handles];

    pub const fn sentence(self) -> &'static str {
        match self {
            Kind::NeedOnPlain => "need 2 on a plain link: 0x0F; by the crate's own permissions 0x05",
            Kind::LastGroup => "the last group ends at the list's last handle; in the crate's own list at 0xFFFF",
            Kind::Handles => "handles are any ascending; in the crate's own list place + 1",
        }
    }
}

pub type Counts = BTreeMap<Kind, u64>;

/// How many lists are tried.
const LISTS: u64 = 400;

const LINKS: [Option<SecurityLevel>; 4] = [
    None,
    Some(SecurityLevel::NoEncryption),
    Some(SecurityLevel::Encrypted),
    Some(SecurityLevel::EncryptedAuthenticated),
];

/// Both sides over one list.
struct Both<'a> {
    list: &'a List,
    ours: Ours,
    own: own::Hub,
    counts: &'a mut Counts,
}

pub fn run(seed: u64, totals: &mut Totals) -> Result<(), Fault> {
    for seed in seed..seed + LISTS {
        let list = lists::list(&mut Random::new(seed));
        let mixed = list
            .entries
            .iter()
            .any(|entry| shortest(&entry.uuid).len() < entry.uuid.len());
        // A list that is refused, or has a UUID in a form that the original takes for another, tells nothing here.
        let Some(ours) = Ours::open(&list.entries, &list.store).ok().filter(|_| !mixed) else {
            continue;
        };
        let entries: Vec<own::Entry> = list.entries.iter().map(own_entry).collect();
        let own = own::Hub::open(&entries, &list.store).expect("a list that the library takes");
        let counts = &mut totals.own_list;
        let mut both = Both {
            list: &list,
            ours,
            own,
            counts,
        };
        let tried = both.all(&mut totals.calls);
        tried.map_err(|what| Fault {
            origin: format!("the crate's own list, seed {seed}"),
            list: list.clone(),
            steps: Vec::new(),
            what,
        })?;
    }
    Ok(())
}

impl Both<'_> {
    /// Every value, over every link.
    fn all(&mut self, calls: &mut u64) -> Result<(), String> {
        let who = tablet('a');
        self.ours.call(&Call::Connect(who), None);
        self.own.call(&own::Call::Connect(own::Identity(who.0)));
        for place in 0..self.list.entries.len() {
            for link in LINKS {
                for call in calls_on(self.list, place, link) {
                    self.compare(place, &call)?;
                    *calls += 1;
                }
            }
        }
        Ok(())
    }

    /// The original is called under the place + 1, and what it tells is put under the list's handles.
    fn compare(&mut self, place: usize, call: &Call) -> Result<(), String> {
        let (ours, _) = self.ours.call(call, None);
        let (theirs, _) = self.own.call(&own_call(call, place as u16 + 1));
        let (expected, kinds) = self.translated(place, call, &theirs);
        if ours != expected {
            return Err(format!(
                "{call}\nours {ours:02X?}\nRust {theirs:02X?}, under the list's handles {expected:02X?}"
            ));
        }
        kinds
            .into_iter()
            .for_each(|kind| *self.counts.entry(kind).or_default() += 1);
        Ok(())
    }

    /// What the original's answer is by the requirements' list, needs and group ends.
    fn translated(&self, place: usize, call: &Call, theirs: &own::Answer) -> (Answer, Vec<Kind>) {
        let mut kinds = Vec::new();
        let mut answer = match theirs {
            own::Answer::Done => Answer::Done,
            own::Answer::Att(code) => Answer::Att(*code),
            own::Answer::Value(bytes) => Answer::Value(bytes.clone()),
            other => Answer::Error(format!("{other:?}")),
        };
        if let Answer::Value(bytes) = &mut answer {
            match bytes[0] {
                0x01 => self.rename(&mut bytes[2..4], &mut kinds),
                0x07 => self.rename_row(&mut bytes[1..5], &mut kinds),
                0x11 => self.rename_row(&mut bytes[2..6], &mut kinds),
                _ => {}
            }
        }
        let code = match &mut answer {
            Answer::Att(code) => Some(code),
            Answer::Value(bytes) if bytes[0] == 0x01 => Some(&mut bytes[4]),
            _ => None,
        };
        if let Some(code) = code.filter(|code| **code == 0x05 && need_is_2_on_plain(&self.list.entries[place], call)) {
            *code = 0x0F;
            kinds.push(Kind::NeedOnPlain);
        }
        (answer, kinds)
    }

    /// A place + 1 becomes the handle that stands there.
    fn rename(&self, number: &mut [u8], kinds: &mut Vec<Kind>) {
        let place = u16::from_le_bytes([number[0], number[1]]);
        let entry = usize::from(place).checked_sub(1).and_then(|i| self.list.entries.get(i));
        let Some(entry) = entry.filter(|entry| entry.handle != place) else {
            return;
        };
        number.copy_from_slice(&entry.handle.to_le_bytes());
        kinds.push(Kind::Handles);
    }

    /// A handle and a group's end.
    fn rename_row(&self, row: &mut [u8], kinds: &mut Vec<Kind>) {
        let (handle, end) = row.split_at_mut(2);
        self.rename(handle, kinds);
        if end != [0xFF, 0xFF] {
            return self.rename(end, kinds);
        }
        if let Some(last) = self.list.entries.last() {
            end.copy_from_slice(&last.handle.to_le_bytes());
            kinds.push(Kind::LastGroup);
        }
    }
}

fn need_is_2_on_plain(entry: &Entry, call: &Call) -> bool {
    match call {
        Call::CanWrite { link, .. } => entry.write == 2 && *link == Some(SecurityLevel::NoEncryption),
        Call::CanRead { link, .. } | Call::Process { link, .. } => {
            entry.read == 2 && *link == Some(SecurityLevel::NoEncryption)
        }
        _ => false,
    }
}

/// What asks for a need, a handle or a group's end.
fn calls_on(list: &List, place: usize, link: Option<SecurityLevel>) -> Vec<Call> {
    let entry = &list.entries[place];
    let (who, handle) = (tablet('a'), entry.handle);
    let asked = |request| Call::Process {
        who,
        link,
        record: 0,
        room: 517,
        request,
    };
    let mut calls = vec![
        Call::CanRead { who, link, handle },
        Call::CanWrite { who, link, handle },
        asked(Request::Read { handle }),
    ];
    let (start, end) = (handle, handle);
    if entry.capacity <= 251 {
        let uuid = entry.uuid.clone();
        calls.push(asked(Request::ReadByGroupType { start, end, uuid }));
    }
    if let &[low, high] = &entry.uuid[..] {
        let uuid = u16::from_le_bytes([low, high]);
        let store = list.store.get(entry.start.into()..).unwrap_or_default();
        let value = store.iter().copied().take(entry.len.into()).collect();
        calls.push(asked(Request::FindByTypeValue {
            start,
            end,
            uuid,
            value,
        }));
    }
    calls
}

/// The call for the original's own list, under another handle.
fn own_call(call: &Call, handle: u16) -> own::Call {
    let who = own::Identity(call.who().0);
    match call {
        Call::CanRead { link, .. } => own::Call::CanRead {
            who,
            link: own_level(*link),
            handle,
        },
        Call::CanWrite { link, .. } => own::Call::CanWrite {
            who,
            link: own_level(*link),
            handle,
        },
        Call::Process {
            link,
            record,
            room,
            request,
            ..
        } => own::Call::Process {
            who,
            link: own_level(*link),
            record: *record,
            room: *room,
            request: own_request(request, handle),
        },
        other => unreachable!("{other} is not made here"),
    }
}

fn own_request(request: &Request, handle: u16) -> own::Request {
    let (start, end) = (handle, handle);
    match request {
        Request::Read { .. } => own::Request::Read { handle },
        Request::ReadByGroupType { uuid, .. } => own::Request::ReadByGroupType {
            start,
            end,
            uuid: uuid.clone(),
        },
        Request::FindByTypeValue { uuid, value, .. } => own::Request::FindByTypeValue {
            start,
            end,
            uuid: *uuid,
            value: value.clone(),
        },
        other => unreachable!("{other} is not made here"),
    }
}

fn own_level(link: Option<SecurityLevel>) -> Option<own::connection::SecurityLevel> {
    link.map(|level| match level {
        SecurityLevel::NoEncryption => own::connection::SecurityLevel::NoEncryption,
        SecurityLevel::Encrypted => own::connection::SecurityLevel::Encrypted,
        SecurityLevel::EncryptedAuthenticated => own::connection::SecurityLevel::EncryptedAuthenticated,
    })
}

fn own_entry(entry: &Entry) -> own::Entry {
    own::Entry {
        handle: entry.handle,
        uuid: entry.uuid.clone(),
        read: entry.read,
        write: entry.write,
        shared: entry.shared,
        variable: entry.variable,
        capacity: entry.capacity,
        start: entry.start,
        len: entry.len,
    }
}
