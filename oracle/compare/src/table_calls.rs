//! Random calls on a builder and a table alone, drawn from their present bytes so that keys, offsets and lengths fall around
//! each limit.

use crate::random::Random;
use crate::saved::{self, places, Place};
use crate::tables::{trimmed, TableCall, Tables};
use original::table;

pub fn draw(random: &mut Random, tables: &Tables) -> TableCall {
    match random.below(100) {
        0..=3 => TableCall::NewBuilder,
        4..=11 => TableCall::LoadBuilder(builder_bytes(random, tables)),
        12..=41 => push(random, tables),
        42..=48 => TableCall::Build,
        49..=54 => TableCall::BuilderMemory,
        55..=61 => TableCall::Load(saved_bytes(random, tables, 640)),
        62..=75 => write(random, tables),
        76..=81 => TableCall::Get(key(random, tables)),
        82..=87 => TableCall::SetValues(saved_bytes(random, tables, 2000)),
        88..=89 => TableCall::Clear,
        90..=91 => TableCall::Raw,
        92..=94 => TableCall::Memory,
        _ => TableCall::Read(saved_bytes(random, tables, 2000)),
    }
}

/// Of a builder, most of the time; else of a table with values, or spoiled.
fn builder_bytes(random: &mut Random, tables: &Tables) -> Vec<u8> {
    let mut bytes = match random.below(3) {
        0 => trimmed(&tables.builder),
        1 => trimmed(&tables.table),
        _ => saved::sound(random, 640),
    };
    if random.once_in(2) {
        // a builder has no values yet
        let index = bytes.first().map_or(0, |count| 4 + 4 * usize::from(*count));
        bytes.iter_mut().skip(index).for_each(|byte| *byte = 0);
    }
    if random.once_in(4) {
        bytes = saved::spoiled(random, bytes);
    }
    bytes.truncate(640);
    bytes
}

/// A table of at most `most` bytes: the present one or another, whole or spoiled.
pub fn saved_bytes(random: &mut Random, tables: &Tables, most: usize) -> Vec<u8> {
    let mut bytes = match random.below(4) {
        0 => tables.table.to_vec(),
        1 => trimmed(&tables.builder),
        _ => saved::sound(random, most),
    };
    if random.once_in(3) {
        bytes = saved::spoiled(random, bytes);
    }
    bytes.truncate(most);
    bytes
}

fn push(random: &mut Random, tables: &Tables) -> TableCall {
    let last = last_key_of(tables);
    let variable = random.once_in(2);
    let key = match random.below(16) {
        0 => last,
        1 => last.wrapping_sub(1),
        2 => random.pick(&[0, 1, 0x7FFF, 0x8000, 0xFFFF]),
        3 => last.wrapping_add(0x200),
        _ => last + 1,
    };
    let left = 640usize.saturating_sub(end(tables) + 4 + 2 * usize::from(variable));
    let len = match random.below(10) {
        0 => random.near(&[512]),
        1 => random.pick(&[511, 0x7FFF, 0xFFFF]),
        2 => random.near(&[left]),
        3 => left,
        4 => random.near(&[left / 2]),
        _ => random.near(&[0, 1, 2, 8, 20]),
    };
    TableCall::Push {
        key,
        len: len as u16,
        variable,
    }
}

/// The builder's last key, where its bytes are a builder's.
fn last_key_of(tables: &Tables) -> u16 {
    if table::is_builder(&tables.builder) {
        table::last_key(&tables.builder)
    } else {
        0
    }
}

/// Where the builder's values end.
fn end(tables: &Tables) -> usize {
    let [a, b, c, d, ..] = tables.builder;
    4 + 4 * usize::from(u16::from_le_bytes([a, b])) + usize::from(u16::from_le_bytes([c, d]))
}

fn present(tables: &Tables) -> Vec<Place> {
    if table::is_table(&tables.table) {
        places(&tables.table)
    } else {
        Vec::new()
    }
}

/// Most are in the table; some are beside, or no key at all.
fn key(random: &mut Random, tables: &Tables) -> u16 {
    let places = present(tables);
    let listed = places
        .get(random.below(places.len().max(1)))
        .map_or(1, |place| place.key);
    match random.below(12) {
        0 => listed | 0x8000,
        1 => listed.wrapping_add(1),
        2 => listed.wrapping_sub(1),
        3 => random.pick(&[0, 1, 0x7FFF, 0x8000, 0xFFFF]),
        _ => listed,
    }
}

fn write(random: &mut Random, tables: &Tables) -> TableCall {
    let key = key(random, tables);
    let place = present(tables).into_iter().find(|place| place.key == key);
    let (len, capacity) = place.map_or((0, 4), |place| (place.len, place.capacity));
    let offset = match random.below(8) {
        0 => random.near(&[len, capacity]),
        1 => random.pick(&[0xFFFF, 0x1_0000, 0xFFFF_FFFF]),
        2 => random.below(len + 1),
        3 => len,
        _ => 0,
    };
    let left = capacity.saturating_sub(offset);
    let count = match random.below(4) {
        0 => random.near(&[left, 0]),
        1 => random.below(left + 1),
        2 => 0,
        _ => left,
    };
    TableCall::Write {
        key,
        offset,
        data: random.bytes(count),
    }
}
