//! The original's slots, looked at in memory: their fields are private to it.
//!
//! Where the fields stand is found once, by watching what a trial server's memory does when a known tablet joins and
//! leaves. All servers are of one type, so the places hold for each of them.

use crate::hub::{self, Server};
use crate::{Entry, Identity};
use embassy_sync::blocking_mutex::LATEST;
use std::sync::OnceLock;

pub const SLOTS: usize = 8;
pub type Table = [u8; 640];

#[derive(Clone, Copy, PartialEq, Eq, Debug)]
pub struct Slot {
    pub id: Identity,
    pub connected: bool,
    pub table: Table,
}

/// Offsets from the start of what the slots' lock holds, for the first slot, and the step from slot to slot.
struct Places {
    id: usize,
    connected: usize,
    table: usize,
    step: usize,
}

/// Reads slot `i` of a server.
pub fn read(server: &Server, i: usize) -> Slot {
    let (at, places) = (address(server, i), places());
    // SAFETY: the server is alive, nothing borrows its slots between calls, and each place was found to hold this field.
    unsafe {
        Slot {
            id: Identity(((at + places.id) as *const [u8; 7]).read()),
            connected: ((at + places.connected) as *const u8).read() != 0,
            table: ((at + places.table) as *const Table).read(),
        }
    }
}

/// Changes slot `i` of a server.
pub fn write(server: &Server, i: usize, slot: &Slot) {
    let (at, places) = (address(server, i), places());
    // SAFETY: as in `read`; the fields stand in a `RefCell`, so they may change behind a shared reference. The flag is a
    // `bool` and is given 0 or 1.
    unsafe {
        ((at + places.id) as *mut [u8; 7]).write(slot.id.0);
        ((at + places.connected) as *mut u8).write(u8::from(slot.connected));
        ((at + places.table) as *mut Table).write(slot.table);
    }
}

fn address(server: &Server, i: usize) -> usize {
    assert!(i < SLOTS);
    locked(server).0 + i * places().step
}

/// Address and size of what the slots' lock holds.
fn locked(server: &Server) -> (usize, usize) {
    let record = Default::default();
    server.get_client_att_table(&hub::connection(Identity([1; 7]), None, true, &record));
    LATEST.get()
}

fn places() -> &'static Places {
    static PLACES: OnceLock<Places> = OnceLock::new();
    PLACES.get_or_init(find)
}

fn find() -> Places {
    let client = Entry {
        handle: 1,
        uuid: vec![2, 0x29],
        capacity: 0x123,
        ..Entry::default()
    };
    let server = hub::server(&[client], &[]).expect("a list of one");
    let id = [1, 0xA1, 0xA2, 0xA3, 0xA4, 0xA5, 0xA6];
    let record = Default::default();
    let tablet = hub::connection(Identity(id), None, true, &record);
    server.connect(&tablet).expect("a free slot");
    let joined = memory(&server);
    hub::disconnect(&server, &tablet);
    let left = memory(&server);
    let table = [1, 0, 0x23, 1, 1, 0, 0, 0]; // one entry of 0x123 bytes: key 1, offset 0
    let tables: Vec<usize> = (0..joined.len())
        .filter(|&at| joined[at..].starts_with(&table))
        .collect();
    assert_eq!(tables.len(), SLOTS, "the original's slots were not found");
    Places {
        id: (0..joined.len())
            .find(|&at| joined[at..].starts_with(&id))
            .expect("the identity"),
        connected: (0..joined.len()).find(|&at| joined[at] != left[at]).expect("the flag"),
        table: tables[0],
        step: tables[1] - tables[0],
    }
}

fn memory(server: &Server) -> Vec<u8> {
    let (at, size) = locked(server);
    // SAFETY: the bytes of a live server. A volatile read takes bytes between fields as they happen to be.
    (at..at + size)
        .map(|at| unsafe { (at as *const u8).read_volatile() })
        .collect()
}
