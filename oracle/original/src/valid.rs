//! Which states are valid, as the requirements say. The original can't be in another state by itself.

use crate::hub::Hub;
use crate::list;
use crate::slots::{Slot, Table, SLOTS};
use crate::{Call, Entry, Identity};

impl Hub {
    /// Whether the state that a call is lent is valid: list, store, slots, tables, and the record where there is one.
    pub fn is_valid_for(&self, call: &Call) -> bool {
        let record_holds = match call {
            Call::Process { record, .. } => {
                let record = self.record(*record);
                record.len <= 512 && (record.handle != 0 || record.len == 0)
            }
            _ => true,
        };
        record_holds
            && !list::is_refused(&self.present_list(), &self.store())
            && (0..SLOTS).all(|i| slot_holds(&self.slot(i), self.blank(), self.list()))
    }

    /// The list with the present lengths.
    fn present_list(&self) -> Vec<Entry> {
        let mut list = self.list().to_vec();
        for (entry, length) in list.iter_mut().zip(self.lengths()) {
            entry.len = length.unwrap_or(entry.len);
        }
        list
    }
}

/// `blank` is a clear table of the list.
fn slot_holds(slot: &Slot, blank: &Table, list: &[Entry]) -> bool {
    let clients = list.iter().filter(|entry| !entry.shared);
    let mut at = 4 + 4 * clients.clone().count();
    let index_holds = slot.table[..at] == blank[..at];
    let mut lengths_hold = true;
    for entry in clients {
        if entry.variable {
            lengths_hold &= u16::from_le_bytes([slot.table[at], slot.table[at + 1]]) <= entry.capacity;
            at += 2;
        }
        at += usize::from(entry.capacity);
    }
    let rest_is_zero = slot.table[at..].iter().all(|byte| *byte == 0);
    let clear_if_empty = slot.id != Identity::default() || slot.table == *blank;
    index_holds && lengths_hold && rest_is_zero && clear_if_empty
}
