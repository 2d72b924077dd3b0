//! The proved library's side.

mod counted;
pub mod stack;

use crate::calls::{address, Call, Request, Side, ROOM};
use crate::ffi;
use crate::hubs::{Entry, TABLETS};

/// The memory of a hub, and of its links.
pub struct Ours {
    slots: [ffi::Slot; 8],
    list: Vec<ffi::Record>,
    store: Vec<u8>,
    tables: [ffi::Table; 8],
    links: Vec<Link>,
    /// Whether the calls that are counted are to be refused.
    refusing: bool,
    /// Whether the calls are nobody's.
    nobody: bool,
}

#[derive(Clone)]
struct Link {
    prepared: ffi::Prepared,
    bytes: [u8; 512],
}

const DONE: u8 = 0;
const VALUE: u8 = 2;
const REFUSED: u8 = 4;

impl Link {
    fn put(&mut self, handle: u16, data: &[u8]) {
        self.prepared = ffi::Prepared {
            handle,
            offset: 0,
            len: data.len() as u16,
        };
        self.bytes[..data.len()].copy_from_slice(data);
    }
}

impl Ours {
    pub fn open(list: &[Entry], refusing: bool) -> Ours {
        let link = Link {
            prepared: ffi::Prepared::default(),
            bytes: [0; 512],
        };
        let mut hub = Ours {
            slots: [ffi::Slot::default(); 8],
            list: records(list),
            store: list.iter().filter(|e| !e.is_client).flat_map(stored).collect(),
            tables: [[0; 640]; 8],
            links: vec![link; TABLETS],
            refusing,
            nobody: false,
        };
        let reply = counted::counted_new(&mut hub);
        assert_eq!(reply.status, DONE, "the library opens the hub");
        hub
    }

    fn process(&mut self, who: usize, request: &Request, out: &mut [u8]) -> ffi::Reply {
        let mut link = self.links[who].clone();
        let reply = counted::counted_process(self, self.identity(who), &mut link, asked(request), &request.data, out);
        self.links[who] = link;
        reply
    }

    fn identity(&self, who: usize) -> ffi::Identity {
        if self.nobody {
            return ffi::Identity { kind: 0, addr: [0; 6] };
        }
        ffi::Identity {
            kind: 1,
            addr: address(who),
        }
    }
}

impl Side for Ours {
    fn begin(&mut self) {
        self.nobody = self.refusing;
    }

    fn put_waiting(&mut self, who: usize, handle: u16, data: &[u8]) {
        self.links[who].put(handle, data);
    }

    fn make(&mut self, who: usize, call: &Call) -> Vec<u8> {
        let mut out = [0xEE; ROOM];
        let mut table = [0xEE; 640];
        let id = self.identity(who);
        let reply = match call {
            Call::Request(request) => self.process(who, request, &mut out),
            Call::Get { handle } => counted::counted_get(self, id, *handle, &mut out),
            Call::Set { handle, value } => counted::counted_set(self, id, *handle, value),
            Call::CanRead { handle } => counted::counted_can_read(self, id, *handle),
            Call::ShouldNotify { handle } => counted::counted_should_notify(self, id, *handle),
            Call::ShouldIndicate { handle } => counted::counted_should_indicate(self, id, *handle),
            Call::Connect => counted::counted_connect(self, id),
            Call::Disconnect => counted::counted_disconnect(self, id),
            Call::SaveTable => counted::counted_get_table(self, id, &mut table),
            Call::RestoreTable { saved } => counted::counted_set_table(self, id, saved),
        };
        let refused = reply.status == REFUSED && reply.code == 3;
        assert!(
            reply.status != REFUSED || refused,
            "no call is refused but for its identity"
        );
        assert_eq!(refused, self.nobody, "nobody's calls are refused, and no other");
        match (reply.status, call) {
            (VALUE, Call::SaveTable) => table.to_vec(),
            (VALUE, _) => out[..reply.len].to_vec(),
            (DONE, _) => vec![1],
            (_, Call::Request(_)) => Vec::new(),
            _ => vec![0],
        }
    }
}

fn asked(request: &Request) -> ffi::Request {
    ffi::Request {
        op: request.op,
        handle: request.handle,
        other: request.other,
        uuid: request.uuid,
    }
}

fn stored(entry: &Entry) -> Vec<u8> {
    let mut value = entry.value.clone();
    value.resize(usize::from(entry.capacity), 0);
    value
}

fn records(list: &[Entry]) -> Vec<ffi::Record> {
    let mut start = 0;
    let mut records = Vec::new();
    for (handle, entry) in (1u16..).zip(list) {
        let mut record = [0; 32];
        record[0..2].copy_from_slice(&handle.to_le_bytes());
        record[2..4].copy_from_slice(&entry.capacity.to_le_bytes());
        if !entry.is_client {
            record[4..6].copy_from_slice(&u16::to_le_bytes(start));
            record[6..8].copy_from_slice(&(entry.value.len() as u16).to_le_bytes());
            start += entry.capacity;
        }
        record[8..10].copy_from_slice(&[entry.read, entry.write]);
        record[10] = u8::from(entry.is_variable) | u8::from(entry.is_client) << 1;
        record[11] = 2;
        record[12..14].copy_from_slice(&entry.uuid.to_le_bytes());
        records.push(record);
    }
    records
}
