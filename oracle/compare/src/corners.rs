//! The corners of the state, by the sentence of the requirements that says which states are valid, and how many calls met
//! each. A corner that no call met fails the run.

use crate::rows::{self, size};
use original::connection::PrepareWriteState;
use original::slots::{Slot, Table, SLOTS};
use original::{Call, Entry, Hub, Identity};

/// A state as a call is lent it.
struct View<'a> {
    slots: Vec<Slot>,
    list: &'a [Entry],
    /// Of shared values.
    lengths: Vec<Option<u16>>,
    store: Vec<u8>,
    blank: &'a Table,
    record: Option<PrepareWriteState>,
}

type Corner = (&'static str, fn(&View<'_>) -> bool);

/// Corners of valid states.
const VALID: [Corner; 34] = [
    ("an empty slot", |view| {
        view.any(|slot| is_empty(slot) && !slot.connected)
    }),
    ("an empty slot, connected", |view| {
        view.any(|slot| is_empty(slot) && slot.connected)
    }),
    ("a slot of a tablet that is away", |view| {
        view.any(|slot| !is_empty(slot) && !slot.connected)
    }),
    ("a slot of a tablet that is here", |view| {
        view.any(|slot| !is_empty(slot) && slot.connected)
    }),
    ("a slot of a kind above 1", |view| view.any(|slot| slot.id.0[0] > 1)),
    ("eight empty slots", |view| view.slots.iter().all(is_empty)),
    ("eight empty slots, connected", |view| {
        view.slots.iter().all(|slot| is_empty(slot) && slot.connected)
    }),
    ("eight tablets away", |view| {
        view.slots.iter().all(|slot| !is_empty(slot) && !slot.connected)
    }),
    ("eight tablets here", |view| {
        view.slots.iter().all(|slot| !is_empty(slot) && slot.connected)
    }),
    ("a tablet before an empty slot", |view| {
        view.ordered(|first, second| !is_empty(first) && is_empty(second))
    }),
    ("a tablet after an empty slot", |view| {
        view.ordered(|first, second| is_empty(first) && !is_empty(second))
    }),
    ("a tablet in two slots, away in the first", |view| {
        view.ordered(|first, second| twice(first, second) && !first.connected)
    }),
    ("a tablet in two slots, here in the first", |view| {
        view.ordered(|first, second| twice(first, second) && first.connected)
    }),
    ("a client length of 0", |view| view.client(|len, _| len == 0)),
    ("a client length of 1", |view| view.client(|len, _| len == 1)),
    ("a client length of its capacity", |view| {
        view.client(|len, value| len > 1 && len == value.len())
    }),
    ("a client capacity of 0", |view| {
        view.client(|_, value| value.is_empty())
    }),
    ("old bytes behind a client length", |view| {
        view.client(|len, value| value.iter().skip(len).any(|byte| *byte != 0))
    }),
    ("a shared length of 0", |view| view.shared(|len, _| len == 0)),
    ("a shared length of 1", |view| view.shared(|len, _| len == 1)),
    ("a shared length of its capacity", |view| {
        view.shared(|len, value| len > 1 && len == value.len())
    }),
    ("old bytes behind a shared length", |view| {
        view.shared(|len, value| value.iter().skip(len).any(|byte| *byte != 0))
    }),
    ("nothing prepared", |view| {
        view.prepared(|record| (record.handle, record.offset) == (0, 0))
    }),
    ("nothing prepared, at an offset", |view| {
        view.prepared(|record| record.handle == 0 && record.offset > 0)
    }),
    ("prepared: no bytes", |view| {
        view.prepared(|record| record.handle != 0 && record.len == 0)
    }),
    ("prepared: 1 byte", |view| view.prepared(|record| record.len == 1)),
    ("prepared: 511 bytes", |view| view.prepared(|record| record.len == 511)),
    ("prepared: 512 bytes", |view| view.prepared(|record| record.len == 512)),
    ("prepared: at offset 0xFFFF", |view| {
        view.prepared(|record| record.handle != 0 && record.offset == 0xFFFF)
    }),
    ("prepared: an unlisted handle", |view| {
        view.prepared(|record| record.handle != 0 && view.list.iter().all(|entry| entry.handle != record.handle))
    }),
    ("prepared: a shared fixed value", |view| view.prepared_kind(true, false)),
    ("prepared: a shared variable value", |view| {
        view.prepared_kind(true, true)
    }),
    ("prepared: a client fixed value", |view| {
        view.prepared_kind(false, false)
    }),
    ("prepared: a client variable value", |view| {
        view.prepared_kind(false, true)
    }),
];

/// Corners of states that are not valid: one step beyond.
const INVALID: [Corner; 11] = [
    ("a client length over its capacity", |view| {
        view.client(|len, value| len == value.len() + 1)
    }),
    ("a table's header is not the list's", |view| {
        view.any(|slot| slot.table[..4] != view.blank[..4])
    }),
    ("a table's index is not the list's", |view| {
        let range = 4..view.values();
        view.any(|slot| slot.table[..4] == view.blank[..4] && slot.table[range.clone()] != view.blank[range.clone()])
    }),
    ("a byte at the values' end", |view| {
        view.any(|slot| slot.table.get(view.end()).is_some_and(|byte| *byte != 0))
    }),
    ("a byte at a table's end", |view| {
        view.end() < 639 && view.any(|slot| slot.table[639] != 0)
    }),
    ("an empty slot with a value", |view| {
        view.any(|slot| is_empty(slot) && slot.table != *view.blank)
    }),
    ("a shared variable length over its capacity", |view| {
        view.shared(|len, value| len == value.len() + 1)
    }),
    ("a shared fixed length under its capacity", |view| {
        view.fixed(|len, capacity| len + 1 == capacity)
    }),
    ("a shared fixed length over its capacity", |view| {
        view.fixed(|len, capacity| len == capacity + 1)
    }),
    ("prepared: 513 bytes", |view| view.prepared(|record| record.len == 513)),
    ("prepared: 1 byte under handle 0", |view| {
        view.prepared(|record| record.handle == 0 && record.len == 1)
    }),
];

fn is_empty(slot: &Slot) -> bool {
    slot.id == Identity::default()
}

fn twice(first: &Slot, second: &Slot) -> bool {
    first.id == second.id && !is_empty(first)
}

impl View<'_> {
    fn any(&self, holds: impl Fn(&Slot) -> bool) -> bool {
        self.slots.iter().any(holds)
    }

    /// Of two slots in their order.
    fn ordered(&self, holds: impl Fn(&Slot, &Slot) -> bool) -> bool {
        let pairs = (0..SLOTS).flat_map(|i| (i + 1..SLOTS).map(move |j| (i, j)));
        pairs.into_iter().any(|(i, j)| holds(&self.slots[i], &self.slots[j]))
    }

    fn clients(&self) -> impl Iterator<Item = &Entry> {
        self.list.iter().filter(|entry| !entry.shared)
    }

    /// Where the values of a table start.
    fn values(&self) -> usize {
        4 + 4 * self.clients().count()
    }

    fn end(&self) -> usize {
        self.values() + self.clients().map(size).sum::<usize>()
    }

    /// Of a variable client value in some slot: its length, and all the bytes of its room.
    fn client(&self, holds: impl Fn(usize, &[u8]) -> bool) -> bool {
        let mut places = rows::clients(self.list);
        places.retain(|(entry, _)| entry.variable);
        self.any(|slot| {
            let mut places = places.iter();
            places.any(|(entry, at)| holds(number(&slot.table, *at), &slot.table[at + 2..][..entry.capacity.into()]))
        })
    }

    /// Of a variable shared value: its length, and all the bytes of its room.
    fn shared(&self, holds: impl Fn(usize, &[u8]) -> bool) -> bool {
        self.list.iter().zip(&self.lengths).any(|(entry, len)| {
            let room = |entry: &Entry| &self.store[entry.start.into()..][..entry.capacity.into()];
            entry.variable && len.is_some_and(|len| holds(len.into(), room(entry)))
        })
    }

    /// Of a fixed shared value: its length and its capacity.
    fn fixed(&self, holds: impl Fn(usize, usize) -> bool) -> bool {
        self.list
            .iter()
            .zip(&self.lengths)
            .any(|(entry, len)| !entry.variable && len.is_some_and(|len| holds(len.into(), entry.capacity.into())))
    }

    fn prepared(&self, holds: impl Fn(&PrepareWriteState) -> bool) -> bool {
        self.record.as_ref().is_some_and(holds)
    }

    fn prepared_kind(&self, shared: bool, variable: bool) -> bool {
        let is_it = |entry: &Entry| (entry.shared, entry.variable) == (shared, variable);
        self.prepared(|record| {
            let mut listed = self.list.iter().filter(|entry| entry.handle == record.handle);
            listed.any(is_it)
        })
    }
}

fn number(table: &Table, at: usize) -> usize {
    u16::from_le_bytes([table[at], table[at + 1]]).into()
}

/// How many calls met each corner.
pub struct Corners {
    valid: [u64; VALID.len()],
    invalid: [u64; INVALID.len()],
}

impl Default for Corners {
    fn default() -> Corners {
        Corners {
            valid: [0; VALID.len()],
            invalid: [0; INVALID.len()],
        }
    }
}

impl Corners {
    /// Adds the counts of another run.
    pub fn add(&mut self, other: &Corners) {
        let sums = self.valid.iter_mut().zip(&other.valid);
        for (sum, count) in sums.chain(self.invalid.iter_mut().zip(&other.invalid)) {
            *sum += count;
        }
    }

    /// Notes the corners of the state that a call is lent.
    pub fn see(&mut self, hub: &Hub, call: &Call, valid: bool) {
        let view = View {
            slots: (0..SLOTS).map(|i| hub.slot(i)).collect(),
            list: hub.list(),
            lengths: hub.lengths(),
            store: hub.store(),
            blank: hub.blank(),
            record: match call {
                Call::Process { record, .. } => Some(hub.record(*record)),
                _ => None,
            },
        };
        let (corners, counts) = if valid {
            (&VALID[..], &mut self.valid[..])
        } else {
            (&INVALID[..], &mut self.invalid[..])
        };
        for ((_, holds), count) in corners.iter().zip(counts) {
            *count += u64::from(holds(&view));
        }
    }

    /// Each corner with its count, those of valid states first.
    pub fn counts(&self) -> Vec<(String, u64)> {
        let valid = VALID.iter().zip(self.valid);
        let invalid = INVALID.iter().zip(self.invalid);
        valid
            .map(|((name, _), count)| (format!("valid: {name}"), count))
            .chain(invalid.map(|((name, _), count)| (format!("not valid: {name}"), count)))
            .collect()
    }
}
