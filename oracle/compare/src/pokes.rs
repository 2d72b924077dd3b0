//! Changes of a hub's state from outside, alike on both sides: to states that calls do not lead to, and to states that are
//! not valid.

use crate::ours::{self, Ours};
use crate::random::Random;
use crate::tables::trimmed;
use original::calls::Hex;
use original::connection::PrepareWriteState;
use original::slots::Slot;
use original::{Hub, Identity};
use ropethatch::raw::Prepared;
use std::fmt;

/// A part of the state, as it is to be.
#[derive(Clone)]
pub enum Poke {
    Slot(usize, Box<Slot>),
    Length(u16, u16),
    Store(usize, Vec<u8>),
    Record(usize, Box<PrepareWriteState>),
    Several(Vec<Poke>),
}

impl Poke {
    /// Changes both sides, and gives the poke that undoes it.
    pub fn apply(&self, ours: &mut Ours, hub: &mut Hub) -> Poke {
        match self {
            Poke::Slot(i, slot) => Poke::Slot(*i, Box::new(put_slot(*i, slot, ours, hub))),
            Poke::Length(handle, len) => {
                let place = hub
                    .list()
                    .iter()
                    .position(|entry| entry.handle == *handle)
                    .expect("a listed handle");
                let before = hub.lengths()[place].expect("a shared value");
                ours.list[place][6..8].copy_from_slice(&len.to_le_bytes());
                hub.poke_length(*handle, *len);
                Poke::Length(*handle, before)
            }
            Poke::Store(at, bytes) => {
                let range = *at..*at + bytes.len();
                let before = ours.store[range.clone()].to_vec();
                ours.store[range].copy_from_slice(bytes);
                hub.poke_store(*at, bytes);
                Poke::Store(*at, before)
            }
            Poke::Record(i, record) => {
                let before = hub.record(*i);
                let PrepareWriteState {
                    handle,
                    offset,
                    len,
                    buf,
                } = **record;
                ours.records[*i] = (Prepared { handle, offset, len }, buf);
                hub.poke_record(*i, (**record).clone());
                Poke::Record(*i, Box::new(before))
            }
            Poke::Several(pokes) => {
                let mut undos: Vec<Poke> = pokes.iter().map(|poke| poke.apply(ours, hub)).collect();
                undos.reverse();
                Poke::Several(undos)
            }
        }
    }
}

/// Puts a slot in place on both sides, and gives the one before.
fn put_slot(i: usize, slot: &Slot, ours: &mut Ours, hub: &Hub) -> Slot {
    let before = hub.slot(i);
    ours.slots[i].id = ours::identity(slot.id);
    // any byte but 0 means connected
    ours.slots[i].connected = if slot.connected { 1 + 36 * i as u8 } else { 0 };
    ours.tables[i] = slot.table;
    hub.poke_slot(i, slot);
    before
}

/// Draws a poke before a call; `record` is the prepared record that the call is lent. About half leave a valid state.
pub fn poke(random: &mut Random, hub: &Hub, tablets: &[Identity], record: Option<usize>) -> Option<Poke> {
    match (random.below(8), record) {
        (0, _) => {
            let shared: Vec<_> = hub.list().iter().filter(|entry| entry.shared).collect();
            let entry = shared.get(random.below(shared.len().max(1)))?;
            let len = random.near(&[0, entry.capacity.into()]) as u16;
            Some(Poke::Length(entry.handle, len))
        }
        (1, _) => {
            let at = random.below(hub.store().len().max(1));
            let len = (hub.store().len() - at).min(random.within(1, 30));
            Some(Poke::Store(at, random.bytes(len)))
        }
        (2 | 3, Some(record)) => Some(Poke::Record(record, Box::new(any_record(random, hub)))),
        _ => {
            let i = random.below(8);
            let slot = any_slot(random, hub, i, tablets);
            Some(Poke::Slot(i, Box::new(slot)))
        }
    }
}

fn any_record(random: &mut Random, hub: &Hub) -> PrepareWriteState {
    let list = hub.list();
    let listed = list
        .get(random.below(list.len().max(1)))
        .map_or(1, |entry| entry.handle);
    let mut buf = [0; 512];
    buf.copy_from_slice(&random.bytes(512));
    PrepareWriteState {
        handle: random.pick(&[0, listed, listed, 0x7FFF, 0xFFFF]),
        offset: random.pick(&[0, 0, 1, 2, 8, 0xFFFF]),
        len: random.pick(&[0, 0, 1, 2, 8, 511, 512, 513, 0xFFFF]),
        buf,
    }
}

fn any_slot(random: &mut Random, hub: &Hub, i: usize, tablets: &[Identity]) -> Slot {
    let mut slot = hub.slot(i);
    slot.id = match random.below(8) {
        0 => Identity::default(),
        1 => Identity([2, 0, 0, 0, 0, 0, 1]),
        2..=4 => random.pick(tablets),
        _ => slot.id,
    };
    slot.connected = random.once_in(2);
    let header = usize::from(u16::from_le_bytes([slot.table[0], slot.table[1]]));
    let values = 4 + 4 * header;
    let end = values + usize::from(u16::from_le_bytes([slot.table[2], slot.table[3]]));
    match random.below(8) {
        0 => slot.table = *hub.blank(),
        1 => slot.table[random.below(values)] ^= 1 << random.below(8),
        2 if end < 640 => slot.table[random.within(end, 639)] = 1,
        3..=5 if values < end => slot.table[random.within(values, end - 1)] = random.pick(&[0, 1, 2, 3, 20, 255]),
        _ => {}
    }
    slot
}

impl fmt::Display for Poke {
    fn fmt(&self, f: &mut fmt::Formatter<'_>) -> fmt::Result {
        match self {
            Poke::Slot(i, slot) => {
                writeln!(f, "pokeslot {i:X} {} {}", slot.id, u8::from(slot.connected))?;
                write!(f, "poketab {i:X} {}", Hex(&trimmed(&slot.table)))
            }
            Poke::Length(handle, len) => write!(f, "pokelen {handle:X} {len:X}"),
            Poke::Store(at, bytes) => write!(f, "pokestore {at:X} {}", Hex(bytes)),
            Poke::Record(i, record) => {
                let bytes = &record.buf[..usize::from(record.len).min(512)];
                write!(
                    f,
                    "pokerec {i:X} {:X} {:X} {}",
                    record.handle,
                    record.offset,
                    Hex(bytes)
                )
            }
            Poke::Several(pokes) => {
                let lines: Vec<String> = pokes.iter().map(Poke::to_string).collect();
                f.write_str(&lines.join("\n"))
            }
        }
    }
}
