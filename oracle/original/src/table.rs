//! The original's client table and its builder by themselves, over bytes.

use crate::attribute_server::{ClientAttTable, ClientAttTableBuilder, ClientAttTableView};
use crate::hub::{caught, failed};
use crate::slots::Table;
use crate::Answer;
use std::mem::{size_of, transmute};

/// Whether the original's reading rules accept these bytes.
pub fn is_table(bytes: &[u8]) -> bool {
    ClientAttTableView::try_from_raw(bytes).is_ok()
}

/// The part of a saved table up to its values' end.
pub fn read(saved: &[u8]) -> Answer {
    view(saved, |table| Answer::Value(table.raw().to_vec()))
}

/// The value of a key of a saved table.
pub fn get(saved: &[u8], key: u16) -> Answer {
    view(saved, |table| {
        table
            .get(key)
            .map_or(Answer::Nothing, |value| Answer::Value(value.to_vec()))
    })
}

pub fn write(table: &mut Table, key: u16, offset: usize, value: &[u8]) -> Answer {
    change(table, |table| match table.write(key, offset, value) {
        Ok(()) => Answer::Done,
        Err(code) => Answer::Att(code.to_u8()),
    })
}

/// Where a variable value has become shorter than it was in `before`, the requirements have zeros from its length up to the
/// former one; the original leaves what stood there. Puts the zeros, and tells whether anything else was there.
pub fn clear_dropped(before: &Table, table: &mut Table) -> bool {
    let word = |bytes: &Table, at: usize| usize::from(u16::from_le_bytes([bytes[at], bytes[at + 1]]));
    let count = word(before, 0);
    let mut found = false;
    for entry in (4..).step_by(4).take(count) {
        let at = 4 + 4 * count + word(before, entry + 2);
        if word(before, entry) & 0x8000 == 0 || word(table, at) >= word(before, at) {
            continue;
        }
        let dropped = at + 2 + word(table, at)..at + 2 + word(before, at);
        found |= table[dropped.clone()].iter().any(|byte| *byte != 0);
        table[dropped].fill(0);
    }
    found
}

pub fn set_values(table: &mut Table, saved: &[u8]) -> Answer {
    change(table, |table| {
        view(saved, |saved| {
            table.set_values(&saved);
            Answer::Done
        })
    })
}

pub fn clear(table: &mut Table) -> Answer {
    change(table, |table| {
        table.clear();
        Answer::Done
    })
}

fn view(saved: &[u8], f: impl FnOnce(ClientAttTableView<'_>) -> Answer) -> Answer {
    ClientAttTableView::try_from_raw(saved).map_or_else(failed, f)
}

fn change(bytes: &mut Table, f: impl FnOnce(&mut ClientAttTable) -> Answer) -> Answer {
    if !is_table(bytes) {
        return Answer::Refused(4);
    }
    const { assert!(size_of::<ClientAttTable>() == size_of::<Table>()) };
    // SAFETY: the struct is one array of these bytes, and they are a table by the original's own rules.
    let mut table: ClientAttTable = unsafe { transmute(*bytes) };
    let answer = caught(|| f(&mut table));
    // SAFETY: as above.
    *bytes = unsafe { transmute::<ClientAttTable, Table>(table) };
    answer
}

/// A builder's bytes: a table whose values are zero, and zeros after.
pub fn is_builder(bytes: &Table) -> bool {
    let count = usize::from(u16::from_le_bytes([bytes[0], bytes[1]]));
    is_table(bytes) && bytes[4 + 4 * count..].iter().all(|byte| *byte == 0)
}

/// A push under the requirements' numbers.
pub fn push(bytes: &mut Table, key: u16, len: u16, variable: bool) -> Answer {
    if !is_builder(bytes) {
        return Answer::Refused(4);
    }
    match try_push(bytes, key, len, variable) {
        (Answer::Done, Ok(built)) => {
            *bytes = built;
            Answer::Done
        }
        (Answer::Stopped(why), _) if !why.contains("overflow") => Answer::Refused(5),
        _ => Answer::Refused(no_room(bytes, key)),
    }
}

/// The number of a push that does not fit. The original looks at the keys' order only where an entry fits; the requirements
/// have the lowest number first.
fn no_room(bytes: &Table, key: u16) -> u8 {
    if key <= last_key(bytes) {
        5
    } else {
        6
    }
}

/// The key of a builder's last entry; 0 without one.
pub fn last_key(bytes: &Table) -> u16 {
    match usize::from(u16::from_le_bytes([bytes[0], bytes[1]])) {
        0 => 0,
        count => u16::from_le_bytes([bytes[4 * count], bytes[4 * count + 1]]) & 0x7FFF,
    }
}

/// What the original does with a push onto a builder's bytes, and with `build` after it: either may stop.
pub fn try_push(bytes: &Table, key: u16, len: u16, variable: bool) -> (Answer, Result<Table, Answer>) {
    let mut builder = builder(bytes);
    let pushed = caught(|| {
        builder.push(key, len, variable);
        Answer::Done
    });
    let mut table = *bytes;
    let built = caught(|| {
        table = whole(&builder.build());
        Answer::Done
    });
    (pushed, if built == Answer::Done { Ok(table) } else { Err(built) })
}

pub fn build(bytes: &Table) -> Result<Table, Answer> {
    if is_builder(bytes) {
        Ok(whole(&builder(bytes).build()))
    } else {
        Err(Answer::Refused(4))
    }
}

/// The bytes up to the values' end; a built table has zeros after.
pub(crate) fn whole(table: &ClientAttTable) -> Table {
    let mut bytes = [0; 640];
    bytes[..table.raw().len()].copy_from_slice(table.raw());
    bytes
}

/// The original's builder with these bytes. It keeps the values' length twice: also in a field of its own.
fn builder(bytes: &Table) -> ClientAttTableBuilder {
    type Memory = [u8; 642];
    let mut trial = ClientAttTable::builder();
    trial.push(0x111, 0x55, false);
    const { assert!(size_of::<ClientAttTableBuilder>() == size_of::<Memory>()) };
    // SAFETY: the struct is an array of 640 bytes and a `u16`, so its 642 bytes have no gap.
    let trial: Memory = unsafe { transmute(trial) };
    let bytes_first = trial[..4] == [1, 0, 0x55, 0];
    assert!(
        bytes_first || trial[2..6] == [1, 0, 0x55, 0],
        "the fields of the builder were not found"
    );
    let (at, length_at) = if bytes_first { (0, 640) } else { (2, 0) };
    let mut memory: Memory = [0; 642];
    memory[at..at + 640].copy_from_slice(bytes);
    memory[length_at..length_at + 2].copy_from_slice(&bytes[2..4]);
    // SAFETY: as above; any bytes are an array and a `u16`.
    unsafe { transmute(memory) }
}
