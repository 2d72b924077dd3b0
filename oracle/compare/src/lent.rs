//! Lent states that the original can't be put in: another number of slots or tables, and a list that breaks rule 1. Every
//! call must refuse them with 1 and leave every byte.

use crate::differences::Kind;
use crate::lists::{sample_lists, List};
use crate::ours::Ours;
use crate::states::calls;
use crate::{Fault, Totals};
use original::Answer;
use ropethatch::raw::Slot;

type Spoil = (&'static str, fn(&mut Ours));

const SPOILS: [Spoil; 24] = [
    ("seven slots", |ours| ours.slots.truncate(7)),
    ("nine slots", |ours| ours.slots.push(Slot::default())),
    ("no slot", |ours| ours.slots.clear()),
    ("seven tables", |ours| ours.tables.truncate(7)),
    ("nine tables", |ours| ours.tables.push(ours.tables[0])),
    ("no table", |ours| ours.tables.clear()),
    ("a store of 4,097 bytes", |ours| ours.store.resize(4097, 0)),
    ("a store a byte short", |ours| ours.store.truncate(ours.store.len() - 1)),
    ("65 entries", |ours| {
        let last = *ours.list.last().expect("an entry");
        ours.list.resize(65, last);
    }),
    ("handle 0", |ours| set(ours, 0, 0)),
    ("a handle twice", |ours| {
        let last = ours.list.len() - 1;
        let before = ours.list[last - 1];
        ours.list[last][..2].copy_from_slice(&before[..2]);
    }),
    ("a handle of 0x8000", |ours| {
        let last = ours.list.len() - 1;
        ours.list[last][..2].copy_from_slice(&[0x00, 0x80]);
    }),
    ("handles that fall", |ours| ours.list.swap(0, 1)),
    ("a capacity of 513", |ours| set(ours, 2, 513)),
    ("a start a byte early", |ours| {
        let shared = ours.list.iter_mut().filter(|record| record[10] & 2 == 0);
        let second = shared
            .skip(1)
            .find(|record| record[4..6] != [0, 0])
            .expect("two shared values");
        second[4] -= 1;
    }),
    ("a start past the store", |ours| set(ours, 4, 4096)),
    ("a need of 4 for reading", |ours| ours.list[0][8] = 4),
    ("a need of 255 for writing", |ours| ours.list[0][9] = 255),
    ("a UUID of no bytes", |ours| ours.list[0][11] = 0),
    ("a UUID of 1 byte", |ours| ours.list[0][11] = 1),
    ("a UUID of 3 bytes", |ours| ours.list[0][11] = 3),
    ("a UUID of 15 bytes", |ours| ours.list[0][11] = 15),
    ("a UUID of 17 bytes", |ours| ours.list[0][11] = 17),
    ("a fixed value turned into a client's", |ours| ours.list[0][10] |= 2),
];

/// Sets a number of the first record, which is a shared value's.
fn set(ours: &mut Ours, at: usize, number: u16) {
    ours.list[0][at..at + 2].copy_from_slice(&number.to_le_bytes());
}

pub fn run(totals: &mut Totals) -> Result<(), Fault> {
    let list = sample_lists().swap_remove(0);
    for (name, spoil) in SPOILS {
        try_all(&list, name, spoil, totals)?;
    }
    Ok(())
}

fn try_all(list: &List, name: &str, spoil: fn(&mut Ours), totals: &mut Totals) -> Result<(), Fault> {
    let mut ours = Ours::open(&list.entries, &list.store).map_err(|_| fault(list, name, "the list is refused"))?;
    spoil(&mut ours);
    for call in calls(&list.entries) {
        let mut after = ours.clone();
        let (answer, clean) = after.call(&call, None);
        if answer != Answer::Refused(1) || !clean {
            return Err(fault(
                list,
                name,
                &format!("{call} is answered {answer:02X?}, not refused 1"),
            ));
        }
        if after != ours {
            return Err(fault(
                list,
                name,
                &format!("{call} is refused and has changed the state"),
            ));
        }
        totals.counts.add([Kind::BadState]);
        totals.count(&call, &answer);
    }
    Ok(())
}

fn fault(list: &List, name: &str, what: &str) -> Fault {
    Fault {
        origin: format!("a lent state with {name}"),
        list: list.clone(),
        steps: Vec::new(),
        what: what.to_string(),
    }
}
