//! Random calls on a hub, drawn from its present state so that offsets and lengths fall around each limit.

use crate::boundary::Spelling;
use crate::lists::{self, TYPES};
use crate::ours::Ours;
use crate::pair::Step;
use crate::pokes;
use crate::random::Random;
use original::connection::SecurityLevel;
use original::list::shortest;
use original::{Call, Entry, Hub, Identity, Request};

const LINKS: [Option<SecurityLevel>; 6] = [
    None,
    Some(SecurityLevel::NoEncryption),
    Some(SecurityLevel::NoEncryption),
    Some(SecurityLevel::Encrypted),
    Some(SecurityLevel::EncryptedAuthenticated),
    Some(SecurityLevel::EncryptedAuthenticated),
];

/// Draws calls on one hub.
pub struct Calls<'a> {
    pub list: &'a [Entry],
    pub tablets: Vec<Identity>,
    pub random: Random,
}

impl<'a> Calls<'a> {
    pub fn new(list: &'a [Entry], mut random: Random) -> Calls<'a> {
        let count = random.pick(&[2, 4, 9, 11]);
        let tablets = (0..count)
            .map(|i| Identity([(i % 2) as u8, (i / 2) as u8 + 1, 2, 3, 4, 5, 0xC0]))
            .collect();
        Calls { list, tablets, random }
    }

    /// The next call, now and then with a change from outside before it.
    pub fn step(&mut self, ours: &Ours, hub: &Hub) -> Step {
        let call = self.call(ours);
        let record = match call {
            Call::Process { record, .. } => Some(record),
            _ => None,
        };
        let change = self.random.once_in(12);
        let poke = change.then(|| pokes::poke(&mut self.random, hub, &self.tablets, record));
        let by_numbers = self.random.once_in(2);
        Step {
            poke: poke.flatten(),
            call,
            spelling: by_numbers.then(|| Spelling::draw(&mut self.random)),
        }
    }

    fn call(&mut self, ours: &Ours) -> Call {
        match self.random.below(100) {
            0..=8 => Call::Connect(self.tablet()),
            9..=14 => Call::Disconnect {
                who: self.tablet(),
                bonded: self.random.once_in(2),
            },
            15..=20 => self.get(ours),
            21..=29 => self.set(),
            30..=31 => Call::CanRead {
                who: self.tablet(),
                link: self.link(),
                handle: self.handle(),
            },
            32..=33 => Call::CanWrite {
                who: self.tablet(),
                link: self.link(),
                handle: self.handle(),
            },
            34..=36 => Call::ShouldNotify {
                who: self.tablet(),
                handle: self.client_handle(),
            },
            37..=39 => Call::ShouldIndicate {
                who: self.tablet(),
                handle: self.client_handle(),
            },
            40..=41 => Call::GetTable(self.tablet()),
            42..=45 => Call::SetTable {
                who: self.tablet(),
                saved: self.saved(ours),
            },
            _ => self.process(ours),
        }
    }

    fn process(&mut self, ours: &Ours) -> Call {
        let tablet = self.random.below(self.tablets.len());
        let record = if self.random.once_in(8) {
            self.random.below(16)
        } else {
            tablet % 16
        };
        let who = if self.random.once_in(8) {
            self.tablet()
        } else {
            self.tablets[tablet]
        };
        let room = self.room();
        let request = self.request(ours, record, room);
        let room = self.snug(ours, &request).unwrap_or(room);
        Call::Process {
            who,
            link: self.link(),
            record,
            room,
            request,
        }
    }

    /// For a request that is answered in rows, at times: a buffer that a whole number of rows fills, or a byte off.
    fn snug(&mut self, ours: &Ours, request: &Request) -> Option<usize> {
        if !self.random.once_in(3) {
            return None;
        }
        let value = self.any_entry().map_or(0, |entry| present(ours, entry).len());
        let (header, row) = match request {
            Request::FindInformation { .. } => (2, self.random.pick(&[4, 18])),
            Request::FindByTypeValue { .. } => (1, 4),
            Request::ReadByType { .. } => (2, value + 2),
            Request::ReadByGroupType { .. } => (2, value + 4),
            _ => return None,
        };
        let rows = self.random.within(1, 8);
        let room = self.random.near(&[header + rows * row]);
        (23..=517).contains(&room).then_some(room)
    }

    fn request(&mut self, ours: &Ours, record: usize, room: usize) -> Request {
        match self.random.below(60) {
            0 => Request::ExchangeMtu(self.random.next() as u16),
            1 => Request::Confirmation,
            2 | 3 => self.multiple(),
            4..=9 => {
                let (start, end) = self.range();
                Request::FindInformation { start, end }
            }
            10..=15 => self.find_by_type_value(ours),
            16..=25 => {
                let (start, end) = self.range();
                Request::ReadByType {
                    start,
                    end,
                    uuid: self.uuid(),
                }
            }
            26..=33 => {
                let (start, end) = self.range();
                Request::ReadByGroupType {
                    start,
                    end,
                    uuid: self.uuid(),
                }
            }
            34..=37 => Request::Read { handle: self.handle() },
            38..=41 => self.blob(ours),
            42..=46 => {
                let (handle, value) = self.written();
                Request::Write { handle, value }
            }
            47..=49 => {
                let (handle, value) = self.written();
                Request::WriteCommand { handle, value }
            }
            50..=56 => self.prepare(ours, record, room),
            _ => Request::ExecuteWrite {
                flags: if self.random.once_in(2) {
                    1
                } else {
                    self.random.next() as u8
                },
            },
        }
    }

    /// A tablet of the hub; rarely one that no call takes.
    fn tablet(&mut self) -> Identity {
        match self.random.below(100) {
            0 => Identity::default(),
            1 => Identity([
                self.random.pick(&[2, 3, 255]),
                0,
                0,
                0,
                0,
                0,
                self.random.below(2) as u8,
            ]),
            2 => Identity([1, 0, 0, 0, 0, 0, 0]),
            _ => self.random.pick(&self.tablets),
        }
    }

    fn link(&mut self) -> Option<SecurityLevel> {
        if self.random.once_in(2) {
            self.random.pick(&LINKS)
        } else {
            Some(SecurityLevel::EncryptedAuthenticated)
        }
    }

    fn room(&mut self) -> usize {
        match self.random.below(50) {
            0 => self.random.pick(&[0, 1, 4, 5, 22, 518, 519, 600]),
            1..=15 => self.random.within(23, 40),
            16..=35 => self
                .random
                .near(&[24, 28, 48, 64, 128, 252, 254, 256, 258, 260, 508, 512, 516]),
            _ => self.random.within(23, 517),
        }
    }

    fn any_entry(&mut self) -> Option<&'a Entry> {
        let list = self.list;
        (!list.is_empty()).then(|| &list[self.random.below(list.len())])
    }

    /// Most are listed; some are beside, or no handle at all.
    fn handle(&mut self) -> u16 {
        let listed = self.any_entry().map_or(1, |entry| entry.handle);
        match self.random.below(24) {
            0 => listed | 0x8000,
            1 => listed.wrapping_add(1),
            2 => listed.wrapping_sub(1),
            3 => self.random.pick(&[0, 1, 0x7FFF, 0x8000, 0xFFFF]),
            _ => listed,
        }
    }

    /// Of a client value, where there is one; else any.
    fn client_handle(&mut self) -> u16 {
        let clients: Vec<u16> = self
            .list
            .iter()
            .filter(|entry| !entry.shared)
            .map(|entry| entry.handle)
            .collect();
        if clients.is_empty() || self.random.once_in(6) {
            self.handle()
        } else {
            self.random.pick(&clients)
        }
    }

    fn range(&mut self) -> (u16, u16) {
        match self.random.below(8) {
            0 => (self.handle(), self.handle()),
            1 => (self.handle(), 0xFFFF),
            2 => (self.random.below(3) as u16, self.handle()),
            3 => {
                let (a, b) = (self.handle(), self.handle());
                (a.min(b), a.max(b))
            }
            _ => (1, 0xFFFF),
        }
    }

    /// Most are listed, as listed or in the other form.
    fn uuid(&mut self) -> Vec<u8> {
        let listed = self.any_entry().map(|entry| entry.uuid.clone());
        match (self.random.below(8), listed) {
            (0, _) | (_, None) => lists::uuid(&mut self.random, true),
            (1, Some(uuid)) => shortest(&uuid).to_vec(),
            (2, Some(uuid)) => match shortest(&uuid) {
                &[low, high] => original::list::widened(u16::from_le_bytes([low, high])),
                _ => uuid,
            },
            (3, Some(uuid)) if self.random.once_in(4) => self.of_other_length(uuid),
            (_, Some(uuid)) => uuid,
        }
    }

    /// A UUID cut or filled up with zeros, so that it has neither 2 nor 16 bytes. One of 4 is as the 32-bit form stands.
    fn of_other_length(&mut self, mut uuid: Vec<u8>) -> Vec<u8> {
        uuid.resize(self.random.pick(&[0, 1, 3, 4, 4, 8, 15, 17, 18, 32, 255]), 0);
        uuid
    }

    fn find_by_type_value(&mut self, ours: &Ours) -> Request {
        let (start, end) = self.range();
        let entry = self.any_entry();
        let short = entry.and_then(|entry| <[u8; 2]>::try_from(shortest(&entry.uuid)).ok());
        let uuid = short.map_or_else(|| self.random.pick(&TYPES), u16::from_le_bytes);
        let mut value = entry.map_or_else(Vec::new, |entry| present(ours, entry).to_vec());
        match self.random.below(8) {
            0 => value.push(0),
            1 => drop(value.pop()),
            2 => {
                let at = self.random.below(value.len().max(1));
                value.get_mut(at).into_iter().for_each(|byte| *byte ^= 1);
            }
            _ => {}
        }
        Request::FindByTypeValue {
            start,
            end,
            uuid,
            value,
        }
    }

    fn multiple(&mut self) -> Request {
        let count = self.random.pick(&[0, 1, 2, 3, 4, 6]);
        Request::ReadMultiple {
            handles: self.random.bytes(count),
        }
    }

    fn blob(&mut self, ours: &Ours) -> Request {
        let handle = self.handle();
        let marks = self.marks(ours, handle);
        let offset = if self.random.once_in(12) {
            0xFFFF
        } else {
            self.random.near(&marks) as u16
        };
        Request::ReadBlob { handle, offset }
    }

    /// Lengths that matter to a handle's value.
    fn marks(&mut self, ours: &Ours, handle: u16) -> Vec<usize> {
        let Some(entry) = self.list.iter().find(|entry| entry.handle == handle) else {
            return vec![0, 8];
        };
        let capacity = usize::from(entry.capacity);
        vec![0, capacity, present(ours, entry).len(), self.random.below(capacity + 1)]
    }

    fn get(&mut self, ours: &Ours) -> Call {
        let handle = self.handle();
        let marks = self.marks(ours, handle);
        let room = if self.random.once_in(2) {
            512
        } else {
            self.random.near(&marks)
        };
        Call::Get {
            who: self.tablet(),
            handle,
            room,
        }
    }

    fn set(&mut self) -> Call {
        let (handle, value) = self.written();
        Call::Set {
            who: self.tablet(),
            handle,
            value,
        }
    }

    /// A handle, and bytes around the limits of its value.
    fn written(&mut self) -> (u16, Vec<u8>) {
        let handle = if self.random.once_in(2) {
            self.handle()
        } else {
            self.client_handle()
        };
        let capacity = self
            .list
            .iter()
            .find(|entry| entry.handle == handle)
            .map_or(4, |entry| entry.capacity.into());
        let len = match self.random.below(8) {
            0 => self.random.near(&[0, capacity, capacity, 512, 600]),
            1 => self.random.below(capacity + 2),
            2 => capacity.saturating_sub(1),
            _ => capacity,
        };
        (handle, self.random.bytes(len))
    }

    /// Most follow what waits on the link.
    fn prepare(&mut self, ours: &Ours, record: usize, room: usize) -> Request {
        let (pending, _) = ours.records[record];
        let mut handle = if pending.handle == 0 || self.random.once_in(10) {
            self.handle()
        } else {
            pending.handle
        };
        let mut offset = pending.offset.wrapping_add(pending.len);
        if pending.handle == 0 {
            let marks = self.marks(ours, handle);
            offset = self.random.near(&marks) as u16;
        }
        match self.random.below(20) {
            0 => offset = offset.wrapping_add(1),
            1 => offset = self.random.pick(&[0, 0xFFFF]),
            2 => handle = 0,
            _ => {}
        }
        let most = room.saturating_sub(5);
        let left = 512usize.saturating_sub(pending.len.into());
        let len = match self.random.below(10) {
            0 => self.random.near(&[most, left]),
            1 => left.min(most),
            2 => most,
            _ => self.random.below(12).min(most),
        };
        Request::PrepareWrite {
            handle,
            offset,
            value: self.random.bytes(len),
        }
    }

    /// A saved table: of a slot, whole, cut, damaged or with more bytes; or of another layout.
    fn saved(&mut self, ours: &Ours) -> Vec<u8> {
        let mut saved = match self.random.below(4) {
            0 => self.foreign_table(),
            _ => self.random.pick(&ours.tables).to_vec(),
        };
        let end = values_end(&saved).min(saved.len());
        match self.random.below(6) {
            0 => saved.truncate(end),
            1 => saved.truncate(end.saturating_sub(1)),
            2 => saved.truncate(self.random.below(end + 1)),
            3 => self.damage(&mut saved, end),
            4 => saved.extend(self.random.bytes(5)),
            _ => {}
        }
        saved
    }

    fn damage(&mut self, saved: &mut [u8], end: usize) {
        for _ in 0..self.random.within(1, 3) {
            let at = self.random.below(end.max(1));
            let byte = self.random.pick(&[0, 1, 2, 0x7F, 0x80, 0xFF]);
            saved.get_mut(at).into_iter().for_each(|old| *old = byte);
        }
    }

    /// A table of some of the list's client handles and some others, with lengths of its own.
    fn foreign_table(&mut self) -> Vec<u8> {
        let (mut index, mut values) = (Vec::new(), vec![0xAB; self.random.pick(&[0, 0, 0, 3])]);
        let mut count = 0u16;
        let mut key = 0u16;
        for entry in self.list {
            let own = if self.random.once_in(5) {
                entry.handle.saturating_sub(1)
            } else {
                entry.handle
            };
            if own <= key || self.random.once_in(3) {
                continue;
            }
            key = own;
            let variable = self.random.once_in(2);
            index.extend((key | u16::from(variable) << 15).to_le_bytes());
            index.extend((values.len() as u16).to_le_bytes());
            let len = self.random.near(&[0, 2, entry.capacity.into()]);
            if variable {
                values.extend((len as u16).to_le_bytes());
            }
            values.extend(self.random.bytes(len));
            values.extend(vec![0xCD; if variable { self.random.below(3) } else { 0 }]);
            count += 1;
        }
        let mut saved = [count.to_le_bytes(), (values.len() as u16).to_le_bytes()].concat();
        saved.extend(index);
        saved.extend(values);
        saved
    }
}

/// The present bytes of a shared value; for a client value as many bytes as it can hold.
fn present<'o>(ours: &'o Ours, entry: &Entry) -> &'o [u8] {
    let capacity = usize::from(entry.capacity);
    if !entry.shared {
        return &ours.tables[0][..capacity];
    }
    let record = ours
        .list
        .iter()
        .find(|record| record[..2] == entry.handle.to_le_bytes());
    let len = record.map_or(0, |record| usize::from(u16::from_le_bytes([record[6], record[7]])));
    &ours.store[usize::from(entry.start)..][..len.min(capacity)]
}

fn values_end(table: &[u8]) -> usize {
    match table {
        &[a, b, c, d, ..] => 4 + 4 * usize::from(u16::from_le_bytes([a, b])) + usize::from(u16::from_le_bytes([c, d])),
        _ => table.len(),
    }
}
