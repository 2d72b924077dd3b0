//! Rows of slots and tables, written by hand.
//!
//! A row is a word of eight letters: a capital is a tablet that is here, a small letter one that is away, `.` an empty slot,
//! `,` an empty one that is marked connected. `x` is a tablet of a kind above 1, which no call leads to.

use crate::pokes::Poke;
use original::slots::{Slot, Table};
use original::{Entry, Hub, Identity};

/// The tablet of a letter.
pub fn tablet(letter: char) -> Identity {
    let kind = if letter.eq_ignore_ascii_case(&'x') { 2 } else { 1 };
    Identity([kind, letter.to_ascii_lowercase() as u8, 2, 3, 4, 5, 0xC0])
}

/// Puts a row in place. The values of each tablet tell its slot.
pub fn row(hub: &Hub, word: &str) -> Poke {
    let slot = |(i, letter): (usize, char)| {
        let slot = match letter {
            '.' | ',' => Slot {
                id: Identity::default(),
                connected: letter == ',',
                table: *hub.blank(),
            },
            _ => Slot {
                id: tablet(letter),
                connected: letter.is_ascii_uppercase(),
                table: filled(hub, 0x31 + i as u8),
            },
        };
        Poke::Slot(i, Box::new(slot))
    };
    Poke::Several(word.chars().enumerate().map(slot).collect())
}

/// A table of the list with one byte all over its values. Variable ones have half their capacity, and old bytes behind.
pub fn filled(hub: &Hub, byte: u8) -> Table {
    let mut table = *hub.blank();
    for (entry, at) in clients(hub.list()) {
        let start = at + 2 * usize::from(entry.variable);
        table[start..start + usize::from(entry.capacity)].fill(byte);
        if entry.variable {
            table[at..start].copy_from_slice(&(entry.capacity / 2).to_le_bytes());
        }
    }
    table
}

/// Client values with their places in a table. A variable one starts with its length.
pub fn clients(list: &[Entry]) -> Vec<(&Entry, usize)> {
    let clients = list.iter().filter(|entry| !entry.shared);
    let mut at = 4 + 4 * clients.clone().count();
    let place = |entry| {
        let here = at;
        at += size(entry);
        (entry, here)
    };
    clients.map(place).collect()
}

/// The bytes of a client value in a table, its length's two included.
pub fn size(entry: &Entry) -> usize {
    usize::from(entry.capacity) + 2 * usize::from(entry.variable)
}
