//! One hub on both sides, driven by the same calls.

use crate::boundary::Spelling;
use crate::corners::Corners;
use crate::differences::{self, Kind};
use crate::lists::List;
use crate::ours::{self, Ours};
use crate::pokes::Poke;
use original::{table, Answer, Call, Hub};
use std::collections::BTreeMap;
use std::fmt;

/// A call, and a change from outside before it. A change to a state that is not valid is undone after the call.
#[derive(Clone)]
pub struct Step {
    pub poke: Option<Poke>,
    pub call: Call,
    /// `None`: the library is called through its Rust crate.
    pub spelling: Option<Spelling>,
}

impl From<Call> for Step {
    fn from(call: Call) -> Step {
        Step {
            poke: None,
            call,
            spelling: None,
        }
    }
}

impl fmt::Display for Step {
    fn fmt(&self, f: &mut fmt::Formatter<'_>) -> fmt::Result {
        if let Some(poke) = &self.poke {
            writeln!(f, "{poke}")?;
        }
        if let Some(spelling) = &self.spelling {
            writeln!(f, "# where the call leaves a choice: {spelling:02X?}")?;
        }
        self.call.fmt(f)
    }
}

/// How often each kind of difference was seen, and each corner of the state met by a call.
#[derive(Default)]
pub struct Counts {
    pub kinds: BTreeMap<Kind, u64>,
    pub corners: Corners,
}

impl Counts {
    pub fn add(&mut self, kinds: impl IntoIterator<Item = Kind>) {
        for kind in kinds {
            *self.kinds.entry(kind).or_default() += 1;
        }
    }
}

pub struct Pair {
    pub ours: Ours,
    pub hub: Hub,
}

impl Pair {
    /// Opens both; `Ok(None)` where both refuse the list.
    pub fn open(list: &List, counts: &mut Counts) -> Result<Option<Pair>, String> {
        let ours = Ours::open(&list.entries, &list.store);
        if let Some((kind, expected)) = differences::bad_list(list) {
            counts.add([kind]);
            return refused_alike(ours, expected);
        }
        match (ours, Hub::open(&list.entries, &list.store)) {
            (Ok(ours), Ok(hub)) => Ok(Some(Pair { ours, hub })),
            (ours, Err(theirs)) => {
                counts.add(differences::list_too_long(&theirs));
                refused_alike(ours, theirs)
            }
            (Err(ours), Ok(_)) => Err(format!("open: ours {ours:?}, the Rust opens")),
        }
    }

    /// Takes a step on both sides and compares answers and states. Gives the library's answer.
    pub fn step(&mut self, step: &Step, counts: &mut Counts) -> Result<Answer, String> {
        self.step_back(step, counts).map(|(answer, _)| answer)
    }

    /// Takes a step, and also gives the change by which a state that was not valid has been left again.
    pub fn step_back(&mut self, step: &Step, counts: &mut Counts) -> Result<(Answer, Option<Poke>), String> {
        let undo = step.poke.as_ref().map(|poke| poke.apply(&mut self.ours, &mut self.hub));
        let valid = undo.is_none() || self.hub.is_valid_for(&step.call);
        if undo.is_some() {
            counts.corners.see(&self.hub, &step.call, valid);
        }
        let answer = self.call(step, valid, counts)?;
        let undo = undo.filter(|_| !valid);
        if let Some(undo) = &undo {
            undo.apply(&mut self.ours, &mut self.hub);
        }
        Ok((answer, undo))
    }

    fn call(&mut self, step: &Step, valid: bool, counts: &mut Counts) -> Result<Answer, String> {
        let call = &step.call;
        if let Call::SetTable { saved, .. } = call {
            ends_alike(saved)?;
        }
        let (ours, clean) = self.ours.call(call, step.spelling.as_ref());
        if !clean {
            return Err(format!("ours wrote past its answer {ours:02X?}"));
        }
        match differences::unknown_refusal(call, valid) {
            Some((kind, expected)) if ours == expected => counts.add([kind]),
            Some((_, expected)) => return Err(format!("ours {ours:02X?}, by the requirements {expected:?}")),
            None => self.compare(call, &ours, counts)?,
        }
        match differences::of_states(call, &self.ours, &self.hub) {
            Some(what) => Err(format!("after the answer {ours:02X?} {what}")),
            None => Ok(ours),
        }
    }

    fn compare(&mut self, call: &Call, ours: &Answer, counts: &mut Counts) -> Result<(), String> {
        if let Some((kind, expected)) = differences::no_such_uuid(call, &self.hub) {
            counts.add([kind]);
            return if *ours == expected {
                Ok(())
            } else {
                Err(format!("ours {ours:02X?}, of a UUID that no entry has {expected:02X?}"))
            };
        }
        let (theirs, clean, dropped) = self.hub.call_and_clear(call);
        counts.add(dropped.then_some(Kind::DroppedTail));
        if *ours != theirs {
            let kinds = differences::explain(call, &self.hub, ours, &theirs);
            counts.add(kinds.ok_or_else(|| format!("ours {ours:02X?}\nRust {theirs:02X?}"))?);
        } else {
            counts.add(differences::own_error(call, &theirs));
        }
        if !clean && !matches!(theirs, Answer::Stopped(_)) {
            let kind = differences::row_left_behind(call, clean);
            counts.add([kind.ok_or_else(|| format!("the Rust wrote past its answer {theirs:02X?}"))?]);
        }
        Ok(())
    }
}

/// Where a saved table ends, or that the bytes are none: it is a call of its own, on no hub.
fn ends_alike(saved: &[u8]) -> Result<(), String> {
    match (ours::read(saved), table::read(saved)) {
        (ours, theirs) if ours == theirs => Ok(()),
        (ours, theirs) => Err(format!("saved_length: ours {ours:02X?}\nRust {theirs:02X?}")),
    }
}

fn refused_alike(ours: Result<Ours, Answer>, expected: Answer) -> Result<Option<Pair>, String> {
    match ours {
        Err(answer) if answer == expected => Ok(None),
        Err(answer) => Err(format!("open: ours {answer:?}, expected {expected:?}")),
        Ok(_) => Err(format!("open: ours opens, expected {expected:?}")),
    }
}
