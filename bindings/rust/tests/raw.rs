//! Lent memory: bad states are refused with number 1, bad identities with number 3, and every byte stays as it was.

mod common;

use common::{ABSENT, CODE, LENT, NAME, SEAT};
use ropethatch::raw::{saved_length, Identity, Prepared, Record, Slot, State, Table};
use ropethatch::{AttError, Bond, CallError, Link, Refusal, Request};

const ADA: Identity = Identity {
    kind: 0,
    addr: [1, 2, 3, 4, 5, 6],
};
const BEN: Identity = Identity {
    kind: 1,
    addr: [1, 2, 3, 4, 5, 6],
};

/// All that can be lent to a call.
#[derive(Clone, Debug, PartialEq)]
struct Memory {
    slots: Vec<Slot>,
    list: Vec<Record>,
    store: Vec<u8>,
    tables: Vec<Table>,
    prepared: Prepared,
    bytes: [u8; 512],
    out: Vec<u8>,
    table: Table,
}

impl Memory {
    /// The classroom's list, before a hub is opened over it.
    fn unopened() -> Memory {
        let (list, store) = common::list().lay_out();
        Memory {
            slots: vec![Slot::default(); 8],
            list,
            store,
            tables: vec![[0; 640]; 8],
            prepared: Prepared::default(),
            bytes: [LENT; 512],
            out: vec![LENT; 40],
            table: [LENT; 640],
        }
    }

    /// An open hub with Ada in its first slot, a code of hers, and the start of a prepared write.
    fn open() -> Memory {
        let mut memory = Memory::unopened();
        memory.state().open().unwrap();
        memory.state().connect(ADA).unwrap();
        memory.state().set(ADA, CODE, b"3E10").unwrap();
        let prepare = Request::PrepareWrite {
            handle: CODE,
            offset: 0,
            value: b"7B",
        };
        memory.process(ADA, prepare).unwrap();
        memory.out.fill(LENT);
        memory
    }

    fn state(&mut self) -> State<'_> {
        State {
            slots: &mut self.slots,
            list: &mut self.list,
            store: &mut self.store,
            tables: &mut self.tables,
        }
    }

    fn process(&mut self, who: Identity, request: Request<'_>) -> Result<Option<Vec<u8>>, Refusal> {
        let mut state = State {
            slots: &mut self.slots,
            list: &mut self.list,
            store: &mut self.store,
            tables: &mut self.tables,
        };
        state
            .process(
                who,
                Link::Plain,
                &mut self.prepared,
                &mut self.bytes,
                request,
                &mut self.out,
            )
            .map(|response| response.map(<[u8]>::to_vec))
    }

    /// How each call that has an identity is refused, in the order of the boundary; `None` where it is not.
    fn refusals(&mut self, who: Identity) -> Vec<Option<Refusal>> {
        let write = Request::Write {
            handle: CODE,
            value: b"1",
        };
        let mut all = vec![self.state().connect(who).err(), self.process(who, write).err()];
        let (mut out, mut table) = (self.out.clone(), self.table);
        let mut state = self.state();
        all.extend([
            refusal(state.get(who, CODE, &mut out).map(|_| ())),
            refusal(state.set(who, CODE, b"2")),
            refusal(state.can_read(who, Link::Plain, CODE)),
            refusal(state.can_write(who, Link::Plain, CODE)),
            state.should_notify(who, CODE).err(),
            state.should_indicate(who, CODE).err(),
            state.client_table(who, &mut table).err(),
            state.restore(who, &[0, 0, 0, 0]).err(),
            state.disconnect(who, Bond::Unbonded).err(),
        ]);
        self.out = out;
        self.table = table;
        all
    }

    /// Every call must be refused with this number and leave every byte as it was.
    fn assert_refused(&self, who: Identity, expected: Refusal, what: &str) {
        let mut memory = self.clone();
        assert_eq!(memory.refusals(who), [Some(expected); 11], "{what}");
        assert_eq!(memory, *self, "{what}: a byte has changed");
    }
}

fn refusal(answer: Result<(), CallError>) -> Option<Refusal> {
    match answer {
        Err(CallError::Refused(refusal)) => Some(refusal),
        Ok(()) | Err(CallError::Att(_)) => None,
        Err(other) => panic!("another error: {other}"),
    }
}

/// A change to a valid state, and what it spoils.
type Spoil = (&'static str, fn(&mut Memory));

/// Each of these breaks rule 1 for the list.
const BAD_LISTS: [Spoil; 13] = [
    ("over 64 entries", |m| {
        let mut handle = 0x300;
        m.list.resize_with(65, || {
            handle += 1;
            client(handle, 0)
        });
    }),
    ("handle 0", |m| m.list[0][0] = 0),
    ("a handle above 0x7FFF", |m| m.list.last_mut().unwrap()[1] = 0x80),
    ("a handle twice", |m| m.list[1][0] = 1),
    ("handles that fall", |m| m.list.swap(2, 3)),
    ("a capacity over 512", |m| m.list.push(client(0x7000, 513))),
    ("a length over the capacity", |m| m.list[4][6] = 9),
    ("a fixed value that is shorter than its capacity", |m| m.list[5][6] = 3),
    ("ranges that overlap", |m| m.list[1][4] = 1),
    ("a range outside the store", |m| {
        m.store.pop();
    }),
    ("a permission of 4", |m| m.list[3][8] = 4),
    ("a UUID of 4 bytes", |m| m.list[3][11] = 4),
    ("a store over 4096 bytes", |m| m.store.resize(4097, 0)),
];

/// Each of these makes the rest of a state invalid.
const BAD_REST: [Spoil; 10] = [
    ("seven slots", |m| {
        m.slots.pop();
    }),
    ("nine slots", |m| m.slots.push(Slot::default())),
    ("no slots", |m| m.slots.clear()),
    ("seven tables", |m| {
        m.tables.pop();
    }),
    ("no tables", |m| m.tables.clear()),
    ("a table of another list", |m| m.tables[0][4] = 4),
    ("a length over the capacity in a table", |m| m.tables[0][14] = 9),
    ("a byte after a table's end", |m| m.tables[0][639] = 1),
    ("an empty slot with a value", |m| m.tables[1][12] = 1),
    ("a slot emptied without clearing", |m| m.slots[0] = Slot::default()),
];

fn client(handle: u16, capacity: u16) -> Record {
    let mut record = [0; 32];
    record[0..2].copy_from_slice(&handle.to_le_bytes());
    record[2..4].copy_from_slice(&capacity.to_le_bytes());
    record[10] = 2;
    record[11] = 2;
    record
}

#[test]
fn a_valid_state_is_not_refused() {
    let mut memory = Memory::open();
    assert_eq!(memory.refusals(ADA), [None; 11]);
    assert_eq!(memory.slots, [Slot::default(); 8]);
}

#[test]
fn a_bad_state_is_refused_by_every_call() {
    for (what, spoil) in BAD_LISTS.iter().chain(&BAD_REST) {
        let mut memory = Memory::open();
        spoil(&mut memory);
        memory.assert_refused(ADA, Refusal::BadState, what);
        // the lowest number first
        memory.assert_refused(Identity::default(), Refusal::BadState, what);
    }
}

#[test]
fn a_bad_list_opens_no_hub() {
    let spoils = BAD_LISTS.iter().chain(&BAD_REST[..5]);
    for (what, spoil) in spoils {
        let mut memory = Memory::unopened();
        memory.tables.iter_mut().for_each(|table| table.fill(LENT));
        spoil(&mut memory);
        let before = memory.clone();
        assert_eq!(memory.state().open(), Err(Refusal::BadState), "{what}");
        assert_eq!(memory, before, "{what}: a byte has changed");
    }
}

#[test]
fn a_hub_opens_over_any_bytes() {
    let mut memory = Memory::unopened();
    memory.state().open().unwrap();
    let fresh = memory.clone();
    memory.tables.iter_mut().for_each(|table| table.fill(LENT));
    memory.slots.fill(Slot { id: BEN, connected: 9 });
    memory.state().open().unwrap();
    assert_eq!(memory, fresh);
}

#[test]
fn client_values_that_need_too_much() {
    let mut memory = Memory::unopened();
    memory.list.push(client(0x7000, 512));
    memory.list.push(client(0x7001, 512));
    let before = memory.clone();
    assert_eq!(memory.state().open(), Err(Refusal::TableTooLong));
    assert_eq!(memory, before);

    // as part of a lent state, such a list makes it invalid
    let mut memory = Memory::open();
    memory.list.push(client(0x7000, 512));
    memory.list.push(client(0x7001, 512));
    memory.assert_refused(ADA, Refusal::BadState, "a list of over 640 bytes");
}

#[test]
fn a_bad_prepared_write_is_refused_where_it_is_lent() {
    for (what, prepared) in [
        (
            "513 bytes",
            Prepared {
                handle: CODE,
                offset: 0,
                len: 513,
            },
        ),
        (
            "65535 bytes",
            Prepared {
                handle: CODE,
                offset: 0,
                len: 0xFFFF,
            },
        ),
        (
            "a byte under handle 0",
            Prepared {
                handle: 0,
                offset: 0,
                len: 1,
            },
        ),
    ] {
        let mut memory = Memory::open();
        memory.prepared = prepared;
        let before = memory.clone();
        for request in [
            Request::ExecuteWrite { flags: 0 },
            Request::Confirmation,
            Request::Read { handle: CODE },
        ] {
            assert_eq!(memory.process(ADA, request), Err(Refusal::BadState), "{what}");
            assert_eq!(memory, before, "{what}: a byte has changed");
        }
    }
    // under handle 0 any offset is free, and an unlisted handle may wait
    for prepared in [
        Prepared {
            handle: 0,
            offset: 9,
            len: 0,
        },
        Prepared {
            handle: ABSENT,
            offset: 9,
            len: 512,
        },
    ] {
        let mut memory = Memory::open();
        memory.prepared = prepared;
        assert_eq!(
            memory.process(ADA, Request::ExecuteWrite { flags: 0 }),
            Ok(Some(vec![0x19]))
        );
        assert_eq!(memory.prepared, Prepared::default());
        assert_eq!(memory.bytes, Memory::open().bytes, "the bytes beside it stay");
    }
}

#[test]
fn a_bad_identity_is_refused_by_every_call() {
    let empty = Identity::default();
    for who in [empty, Identity { kind: 2, ..ADA }, Identity { kind: 255, ..empty }] {
        Memory::open().assert_refused(who, Refusal::BadPeer, "a bad identity");
    }
}

#[test]
fn the_lowest_number_comes_first() {
    // 2 before 3
    let mut memory = Memory::open();
    memory.out.truncate(22);
    let before = memory.clone();
    let nobody = Identity::default();
    assert_eq!(memory.process(nobody, Request::Confirmation), Err(Refusal::BadBuffer));
    // 3 before 4, 7, 8 and 9
    let mut state = memory.state();
    assert_eq!(state.restore(nobody, &[]), Err(Refusal::BadPeer));
    let bad_peer = Err(CallError::Refused(Refusal::BadPeer));
    assert_eq!(state.get(nobody, ABSENT, &mut []), bad_peer.map(|()| &[][..]));
    assert_eq!(state.set(nobody, ABSENT, &[]), bad_peer);
    assert_eq!(state.set(nobody, SEAT, &[]), bad_peer);
    assert_eq!(memory, before);
    // 1 before 2
    memory.store.pop();
    let before = memory.clone();
    assert_eq!(memory.process(nobody, Request::Confirmation), Err(Refusal::BadState));
    assert_eq!(memory, before);
}

#[test]
fn slots_may_hold_what_no_call_puts_there() {
    // nobody, marked connected; a kind above 1; any byte but 0 is connected
    let mut memory = Memory::open();
    memory.slots[1].connected = 1;
    for (n, slot) in (2..).zip(&mut memory.slots[2..]) {
        slot.id = Identity { kind: n, ..BEN };
        slot.connected = 0x80;
    }
    assert_eq!(memory.state().connect(BEN), Ok(()), "nobody's slot is empty");
    assert_eq!(memory.slots[1].id, BEN);
    let full = memory.clone();
    assert_eq!(
        memory.state().connect(Identity { kind: 1, addr: [9; 6] }),
        Err(Refusal::NoSlot)
    );
    assert_eq!(memory, full);
}

#[test]
fn connecting_changes_the_slot_and_no_more() {
    let mut memory = Memory::open();
    let mut expected = memory.clone();
    memory.state().connect(BEN).unwrap();
    assert_ne!(memory.slots[1].connected, 0);
    expected.slots[1] = Slot {
        id: BEN,
        ..memory.slots[1]
    };
    assert_eq!(memory, expected);

    memory.state().disconnect(BEN, Bond::Bonded).unwrap();
    expected.slots[1].connected = 0;
    assert_eq!(memory, expected);
}

#[test]
fn a_response_leaves_the_bytes_past_it() {
    let mut memory = Memory::open();
    let mut expected = memory.clone();
    assert_eq!(
        memory.process(ADA, Request::Read { handle: CODE }),
        Ok(Some(b"\x0B3E10".to_vec()))
    );
    expected.out[..5].copy_from_slice(b"\x0B3E10");
    assert_eq!(memory, expected);

    // writing changes the value and its length: here the list's and the store's
    let mut state = memory.state();
    state.set(ADA, NAME, b"Room").unwrap();
    expected.list[4][6] = 4;
    expected.store[7..11].copy_from_slice(b"Room");
    assert_eq!(memory, expected);
}

#[test]
fn a_table_is_copied_whole_or_not_at_all() {
    let mut memory = Memory::open();
    let mut out = [LENT; 640];
    assert_eq!(memory.state().client_table(BEN, &mut out), Ok(None));
    assert_eq!(out, [LENT; 640]);
    let first = memory.tables[0];
    assert_eq!(memory.state().client_table(ADA, &mut out), Ok(Some(&first)));
    assert_eq!(out, first);
}

#[test]
fn get_without_room_is_a_value_of_no_bytes() {
    let mut memory = Memory::open();
    let state = memory.state();
    assert_eq!(state.get(ADA, CODE, &mut []), Ok(&[][..]));
    assert_eq!(state.get(BEN, CODE, &mut []), Err(CallError::Att(AttError(0x0A))));
}

#[test]
fn a_saved_table_ends_with_its_values() {
    let mut memory = Memory::open();
    let mut out = [LENT; 640];
    let table = memory.state().client_table(ADA, &mut out).unwrap().unwrap();
    // a header of 4, two entries of 4, a value of 2, one of at most 8 with its length of 2
    assert_eq!(saved_length(table), Ok(24));
    for longer in 24..=640 {
        assert_eq!(saved_length(&table[..longer]), Ok(24));
    }
    for shorter in 0..24 {
        assert_eq!(saved_length(&table[..shorter]), Err(Refusal::BadTable));
    }
    assert_eq!(saved_length(&[0; 4]), Ok(4), "no entry");
    assert_eq!(saved_length(&[1, 0, 0, 0, 0, 0, 0, 0]), Err(Refusal::BadTable), "key 0");
}
