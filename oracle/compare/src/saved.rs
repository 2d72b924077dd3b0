//! Random bytes of client tables: sound by the reading rules, around every limit of them, and spoiled.

use crate::random::Random;

/// An entry of a table's index, with the place of its value.
pub struct Place {
    pub key: u16,
    pub len: usize,
    pub capacity: usize,
}

/// A table of at most `most` bytes that the reading rules accept. It may have loose bytes before its first value, values over
/// 512 bytes, and bytes after its end.
pub fn sound(random: &mut Random, most: usize) -> Vec<u8> {
    let mut values = vec![0xAB; random.pick(&[0, 0, 0, 1, 5])];
    let mut index: Vec<u8> = Vec::new();
    let mut key = random.pick(&[1, 1, 2, 0x100, 0x7FF0]);
    for _ in 0..random.pick(&[0, 1, 2, 3, 5, 8, 30]) {
        let variable = random.once_in(2);
        let value = value(random, variable);
        if key > 0x7FFF || 8 + index.len() + values.len() + value.len() > most {
            break;
        }
        index.extend((key | u16::from(variable) << 15).to_le_bytes());
        index.extend((values.len() as u16).to_le_bytes());
        values.extend(value);
        key += random.pick(&[1, 1, 2, 0x80]);
    }
    let count = (index.len() / 4) as u16;
    let mut table = [count.to_le_bytes(), (values.len() as u16).to_le_bytes()].concat();
    table.extend(index);
    table.extend(values);
    let spare = random.pick(&[0, 0, 1, 9]).min(most - table.len());
    table.extend(random.bytes(spare));
    table
}

/// A value's bytes, a variable one's length before them and old bytes behind.
fn value(random: &mut Random, variable: bool) -> Vec<u8> {
    let capacity = random.near(&[0, 1, 2, 8, 20, 100, 512]);
    let mut value = random.bytes(capacity);
    if variable {
        let len = random.pick(&[0, 1.min(capacity), capacity / 2, capacity]) as u16;
        value = [len.to_le_bytes().to_vec(), value].concat();
    }
    value
}

/// A table cut, damaged in its header, index or values, made longer, or left alone.
pub fn spoiled(random: &mut Random, mut table: Vec<u8>) -> Vec<u8> {
    let end = end(&table).min(table.len());
    match random.below(6) {
        0 => table.truncate(end.saturating_sub(1)),
        1 => table.truncate(random.below(end + 1)),
        2 => table.truncate(random.below(5)),
        3 | 4 => damage(random, &mut table, end),
        _ => table.extend(random.bytes(3)),
    }
    table
}

/// Changes a few bytes; most of them where counts, keys and offsets stand.
fn damage(random: &mut Random, table: &mut [u8], end: usize) {
    let index = table
        .first()
        .map_or(1, |count| 4 + 4 * usize::from(*count))
        .clamp(1, end.max(1));
    for _ in 0..random.within(1, 2) {
        let bound = if random.once_in(3) { end.max(1) } else { index };
        let at = random.below(bound);
        if let Some(byte) = table.get_mut(at) {
            *byte = match random.below(4) {
                0 => byte.wrapping_add(1),
                1 => byte.wrapping_sub(1),
                2 => *byte ^ 0x80,
                _ => random.pick(&[0, 1, 2, 0x7F, 0xFF]),
            };
        }
    }
}

/// The values' end by the header.
fn end(table: &[u8]) -> usize {
    match table {
        &[a, b, c, d, ..] => 4 + 4 * usize::from(u16::from_le_bytes([a, b])) + usize::from(u16::from_le_bytes([c, d])),
        _ => table.len(),
    }
}

/// The entries of a table that the reading rules accept.
pub fn places(table: &[u8]) -> Vec<Place> {
    let word = |at: usize| u16::from_le_bytes([table[at], table[at + 1]]);
    let count = usize::from(word(0));
    let offset = |i: usize| usize::from(if i < count { word(6 + 4 * i) } else { word(2) });
    let place = |i: usize| {
        let (key, size) = (word(4 + 4 * i), offset(i + 1) - offset(i));
        let variable = key & 0x8000 != 0;
        let capacity = size - 2 * usize::from(variable);
        let len = if variable {
            word(4 + 4 * count + offset(i)).into()
        } else {
            capacity
        };
        Place {
            key: key & 0x7FFF,
            len,
            capacity,
        }
    };
    (0..count).map(place).collect()
}
