//! Every short order of joining and leaving, on rows that are full or nearly so.

use crate::lists::{sample_lists, List};
use crate::pair::{Pair, Step};
use crate::rows::{row, tablet};
use crate::{Fault, Totals};
use original::slots::Slot;
use original::{Call, Identity};

/// Rows, and the tablets that join and leave: in the row first and last, and not in it.
const ROWS: [(&str, &str, usize); 12] = [
    ("ABCDEFG.", "agi", 5),
    (".BCDEFGH", "bhi", 5),
    ("ABCDEFGh", "ahi", 5),
    ("aBCDEFGH", "ahi", 5),
    ("ABCDEFGH", "ahij", 4),
    ("ABCDEF..", "afij", 4),
    ("..CDEFGH", "chij", 4),
    ("aBCDEFGh", "ahij", 4),
    ("abcdefgh", "ahij", 4),
    ("ABCDEF,g", "agij", 4),
    (".bCDEFGb", "bgij", 4),
    ("bBCDEFG.", "bgij", 4),
];

pub fn run(totals: &mut Totals) -> Result<(), Fault> {
    let list = sample_lists().swap_remove(1);
    for (word, letters, length) in ROWS {
        let pair = Pair::open(&list, &mut totals.counts)
            .ok()
            .flatten()
            .expect("a sound list");
        totals.hubs += 1;
        let first = Step {
            poke: Some(row(&pair.hub, word)),
            ..Step::from(Call::GetTable(tablet('a')))
        };
        let mut walk = Walk {
            pair,
            list: &list,
            calls: letters.chars().flat_map(|letter| moves(tablet(letter))).collect(),
            path: Vec::new(),
            totals,
        };
        walk.take(first)?;
        walk.go(length)?;
    }
    Ok(())
}

fn moves(who: Identity) -> [Call; 3] {
    let leave = |bonded| Call::Disconnect { who, bonded };
    [Call::Connect(who), leave(true), leave(false)]
}

/// A walk over every order of some calls.
struct Walk<'a> {
    pair: Pair,
    list: &'a List,
    calls: Vec<Call>,
    /// The steps that lead to the present state.
    path: Vec<Step>,
    totals: &'a mut Totals,
}

impl Walk<'_> {
    fn go(&mut self, length: usize) -> Result<(), Fault> {
        if length == 0 {
            return Ok(());
        }
        for i in 0..self.calls.len() {
            let before: Vec<Slot> = (0..8).map(|i| self.pair.hub.slot(i)).collect();
            let bytes = (self.pair.ours.slots.clone(), self.pair.ours.tables.clone());
            self.take(Step::from(self.calls[i].clone()))?;
            self.go(length - 1)?;
            self.path.pop();
            (self.pair.ours.slots, self.pair.ours.tables) = bytes;
            before
                .iter()
                .enumerate()
                .for_each(|(i, slot)| self.pair.hub.poke_slot(i, slot));
        }
        Ok(())
    }

    fn take(&mut self, step: Step) -> Result<(), Fault> {
        self.path.push(step);
        let step = &self.path[self.path.len() - 1];
        match self.pair.step(step, &mut self.totals.counts) {
            Ok(answer) => {
                self.totals.count(&step.call, &answer);
                Ok(())
            }
            Err(what) => Err(Fault {
                origin: "the orders of joining and leaving".to_string(),
                list: self.list.clone(),
                steps: self.path.clone(),
                what,
            }),
        }
    }
}
