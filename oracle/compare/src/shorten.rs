//! Leaves out of sessions and lists what is not needed to show the same.

use crate::fixed::{show, Shown};
use crate::lists::List;
use crate::pokes::Poke;
use crate::script::{Model, Totals, Turn};

/// A turn, and what it must go on to show.
#[derive(Clone)]
pub struct Item {
    pub turn: Turn,
    pub kept: Option<Shown>,
}

/// Turns that show the same with less, on a hub that may be smaller.
pub fn session(whole: Option<List>, items: Vec<Item>) -> (Option<List>, Vec<Item>) {
    let last = items
        .iter()
        .rposition(|item| item.kept.is_some())
        .map_or(0, |last| last + 1);
    let mut items = items[..last].to_vec();
    for size in [64, 16, 4, 1] {
        let mut end = items.len();
        while end > 0 {
            let start = end.saturating_sub(size);
            let idle = |i: usize, item: &Item| item.kept.is_none() && (start..end).contains(&i);
            let stay = items.iter().enumerate().filter(|(i, item)| !idle(*i, item));
            let fewer: Vec<Item> = stay.map(|(_, item)| item.clone()).collect();
            if fewer.len() < items.len() && holds(whole.as_ref(), &fewer) {
                items = fewer;
            }
            end = start;
        }
    }
    let smaller = whole.map(|whole| list(whole, |fewer| holds(Some(fewer), &items)));
    (smaller, items)
}

/// Whether all that is kept shows as before.
fn holds(list: Option<&List>, items: &[Item]) -> bool {
    let mut unused = Totals::default();
    let Some(mut model) = opened(list) else {
        return false;
    };
    items.iter().all(|Item { turn, kept }| match (turn, kept) {
        (Turn::Hub(step), _) if !has_place(list, step.poke.as_ref()) => false,
        (_, Some(kept)) => show(&mut model, turn).as_ref() == Some(kept),
        (_, None) => model.take(turn, &mut unused).is_ok(),
    })
}

/// A fresh hub, or none where there is no list; `None` where the list is refused.
pub fn opened(list: Option<&List>) -> Option<Model> {
    let Some(list) = list else {
        return Some(Model::closed());
    };
    let (model, _) = Model::open(list, &mut Totals::default()).ok()?;
    model.pair.is_some().then_some(model)
}

/// Whether what is to be changed from outside is there.
fn has_place(list: Option<&List>, poke: Option<&Poke>) -> bool {
    let Some(list) = list else {
        return poke.is_none();
    };
    match poke {
        Some(Poke::Length(handle, _)) => list.entries.iter().any(|entry| entry.handle == *handle),
        Some(Poke::Store(at, bytes)) => at + bytes.len() <= list.store.len(),
        _ => true,
    }
}

/// A list that still does with fewer entries, and without the end of the store that no value has.
pub fn list(mut list: List, does: impl Fn(&List) -> bool) -> List {
    for i in (0..list.entries.len()).rev() {
        let mut fewer = list.clone();
        fewer.entries.remove(i);
        if does(&fewer) {
            list = fewer;
        }
    }
    let shared = list.entries.iter().filter(|entry| entry.shared);
    let end = shared
        .map(|entry| usize::from(entry.start) + usize::from(entry.capacity))
        .max();
    let mut shorter = list.clone();
    shorter.store.truncate(end.unwrap_or(0));
    if does(&shorter) {
        return shorter;
    }
    list
}
