//! A short session that shows every sort of answer: parts of random sessions, chosen and shortened.
//!
//! The sessions of many seeds are walked, their turns on the hub and those on builder and table apart; first for those that show
//! much. One is kept where enough of its answers are of sorts that were not shown often enough; then all is left out of it
//! without which these answers, and what they change, stay the same. Nothing here depends on anything but the seed.

use crate::differences;
use crate::lists::List;
use crate::script::{self, Model, Totals, Turn};
use crate::shorten::{self, Item};
use crate::tables::{self, TableCall};
use crate::transcript::Transcript;
use crate::Options;
use original::{Call, Entry};
use std::collections::{BTreeMap, BTreeSet};
use std::path::Path;

/// How many seeds are walked.
const SEEDS: u64 = 1500;

/// How often each sort of answer is to be shown.
const OFTEN: usize = 8;

/// The same for lists alone, and how long their store may be, walk by walk.
const LIST_WALKS: [(usize, usize); 2] = [(4, 300), (2, usize::MAX)];

/// How many wanted answers a session has to bring, and how long its store may be, walk by walk.
const WALKS: [(usize, usize); 5] = [(12, 300), (6, 300), (3, 300), (1, 300), (1, 4096)];

/// A call's word, and what kind of answer it is.
type Sort = (String, String);

/// What a turn showed.
#[derive(Clone, PartialEq)]
pub struct Shown {
    sort: Sort,
    answers: Vec<String>,
    /// Not looked at where the state was changed from outside before.
    change: Vec<Change>,
}

/// What kind of part of the state was changed, and its bytes from the first that differs to the last, before and after.
type Change = (&'static str, Vec<u8>, Vec<u8>);

/// Turns of a session on its hub or, without a list, on builder and table, with what they show.
struct Played {
    list: Option<List>,
    turns: Vec<Turn>,
    shown: Vec<Shown>,
    taken: bool,
}

/// What is chosen so far.
#[derive(Default)]
struct Chosen {
    shown: BTreeMap<Sort, usize>,
    text: Transcript,
}

pub fn run(options: &Options, folder: &Path) -> Result<String, String> {
    let (mut lists, mut played) = (Vec::new(), Vec::new());
    for seed in options.seed..options.seed + SEEDS {
        let (script, lines) = script::draw(seed, &mut Totals::default());
        lines.map_err(|what| format!("seed {seed}: {what}"))?;
        let (hub, tables) = script.turns.into_iter().filter(is_call).partition(is_of_hub);
        played.extend(play(Some(script.list.clone()), hub));
        played.extend(play(None, tables));
        lists.push(script.list);
    }
    let mut chosen = Chosen::default();
    for (often, longest) in LIST_WALKS {
        for list in lists.iter().filter(|list| list.store.len() <= longest) {
            chosen.list(list, often)?;
        }
    }
    for (least, longest) in WALKS {
        let is_short = |one: &&mut Played| one.list.as_ref().is_none_or(|list| list.store.len() <= longest);
        for one in played.iter_mut().filter(is_short) {
            chosen.session(one, least)?;
        }
    }
    chosen.text.write(folder)?;
    let (sorts, lines) = (chosen.shown.len(), chosen.text.lines);
    print(chosen.shown);
    Ok(format!(
        "fixed: ok, {sorts} sorts of answers, {lines} lines, seed {}",
        options.seed
    ))
}

/// Whether it is more than a look at the state. Looks come back where there is something to see.
fn is_call(turn: &Turn) -> bool {
    !matches!(turn, Turn::State | Turn::Tail)
}

fn is_of_hub(turn: &Turn) -> bool {
    matches!(turn, Turn::Hub(_))
}

/// `None` where the list is refused.
fn play(list: Option<List>, turns: Vec<Turn>) -> Option<Played> {
    let mut model = shorten::opened(list.as_ref())?;
    let shown: Option<Vec<Shown>> = turns.iter().map(|turn| show(&mut model, turn)).collect();
    Some(Played {
        list,
        turns,
        shown: shown?,
        taken: false,
    })
}

impl Chosen {
    fn count(&mut self, sort: &Sort) {
        *self.shown.entry(sort.clone()).or_default() += 1;
    }

    /// Keeps a list that is opened or refused at a limit that was shown less than `often`.
    fn list(&mut self, list: &List, often: usize) -> Result<(), String> {
        let mut wanted = openings(list);
        wanted.retain(|sort| self.shown.get(sort).is_none_or(|count| *count < often));
        if wanted.is_empty() {
            return Ok(());
        }
        wanted.iter().for_each(|sort| self.count(sort));
        let shows = |fewer: &List| wanted.is_subset(&openings(fewer));
        self.text.play(Some(&shorten::list(list.clone(), shows)), &[])
    }

    /// Keeps a session that brings `least` wanted answers.
    fn session(&mut self, one: &mut Played, least: usize) -> Result<(), String> {
        let wanted = self.wanted(&one.shown);
        if one.taken || wanted.len() < least {
            return Ok(());
        }
        one.taken = true;
        let item = |(i, turn): (usize, &Turn)| Item {
            turn: turn.clone(),
            kept: wanted.contains(&i).then(|| one.shown[i].clone()),
        };
        let items = one.turns.iter().enumerate().map(item).collect();
        wanted.iter().for_each(|i| self.count(&one.shown[*i].sort));
        let (list, items) = shorten::session(one.list.clone(), items);
        let turns: Vec<Turn> = items.into_iter().flat_map(|item| with_look(item.turn)).collect();
        let last = list.is_some().then_some(Turn::State);
        let turns: Vec<Turn> = turns.into_iter().chain(last).collect();
        self.text.play(list.as_ref(), &turns)
    }

    /// The places of the sorts that are wanted.
    fn wanted(&self, shown: &[Shown]) -> BTreeSet<usize> {
        let mut more: BTreeMap<&Sort, usize> = BTreeMap::new();
        let mut places = BTreeSet::new();
        for (i, Shown { sort, .. }) in shown.iter().enumerate() {
            let count = more.entry(sort).or_insert(self.shown.get(sort).copied().unwrap_or(0));
            if *count < OFTEN {
                *count += 1;
                places.insert(i);
            }
        }
        places
    }
}

/// A turn, and a look at what it may have changed.
fn with_look(turn: Turn) -> Vec<Turn> {
    let look = match &turn {
        Turn::Hub(step) if step.poke.is_some() => Some(Turn::State),
        Turn::Hub(step) if matches!(step.call, Call::Process { .. }) => Some(Turn::Tail),
        Turn::Table(TableCall::Push { .. }) => Some(Turn::Table(TableCall::BuilderMemory)),
        Turn::Table(TableCall::Build | TableCall::Write { .. } | TableCall::SetValues(_) | TableCall::Clear) => {
            Some(Turn::Table(TableCall::Memory))
        }
        _ => None,
    };
    [turn].into_iter().chain(look).collect()
}

/// How a list is opened, with each limit of rule 1 that it meets or passes.
fn openings(list: &List) -> BTreeSet<Sort> {
    let opened = Model::open(list, &mut Totals::default());
    let answer = match opened.map(|(_, mut lines)| lines.answers.pop()) {
        Ok(Some(answer)) => answer,
        _ => return BTreeSet::new(),
    };
    let limits = limits(list).into_iter().map(|limit| format!("{answer} + {limit}"));
    let all = limits.chain([answer.clone()]);
    all.map(|sort| ("open".to_string(), sort)).collect()
}

fn limits(list: &List) -> Vec<&'static str> {
    let (count, store) = (list.entries.len(), list.store.len());
    let any = |test: fn(&Entry) -> bool| list.entries.iter().any(test);
    let marks = [
        ("64 entries", count == 64),
        ("65 entries", count == 65),
        ("store 4096", store == 4096),
        ("store above", store > 4096),
        ("handle 0", any(|entry| entry.handle == 0)),
        ("handle 7FFF", any(|entry| entry.handle == 0x7FFF)),
        ("handle above", any(|entry| entry.handle > 0x7FFF)),
        ("capacity 512", any(|entry| entry.capacity == 512)),
        ("capacity above", any(|entry| entry.capacity > 512)),
        ("length above", any(|entry| entry.shared && entry.len > entry.capacity)),
        (
            "length under",
            any(|entry| entry.shared && !entry.variable && entry.len < entry.capacity),
        ),
        ("need above", any(|entry| entry.read > 3 || entry.write > 3)),
        ("UUID of no length", any(|entry| !matches!(entry.uuid.len(), 2 | 16))),
    ];
    marks.iter().filter(|(_, met)| *met).map(|(mark, _)| *mark).collect()
}

/// Takes a turn; `None` where it is not answered as expected.
pub fn show(model: &mut Model, turn: &Turn) -> Option<Shown> {
    let mut totals = Totals::default();
    let poked = matches!(turn, Turn::Hub(step) if step.poke.is_some());
    let before = parts(model);
    let lines = model.take(turn, &mut totals).ok()?;
    let change = if poked {
        Vec::new()
    } else {
        change(before, parts(model))
    };
    let answer = lines.asked.iter().position(|line| !line.starts_with("poke"))?;
    let mut sort = vec![sort(&lines.answers[answer])];
    // what a write drops stands in the state; no answer tells it
    let hubs = totals
        .counts
        .kinds
        .keys()
        .filter(|kind| **kind != differences::Kind::DroppedTail);
    let tables = totals.kinds.keys().filter(|kind| **kind != tables::Kind::DroppedTail);
    sort.extend(hubs.map(|kind| format!("{kind:?}")));
    sort.extend(tables.map(|kind| format!("{kind:?}")));
    let changed: BTreeSet<&str> = change.iter().map(|(part, _, _)| *part).collect();
    sort.extend(changed.into_iter().map(String::from));
    Some(Shown {
        sort: (word(turn, &lines.asked[answer]), sort.join(" + ")),
        answers: lines.answers,
        change,
    })
}

/// The word of a request, or of another call.
fn word(turn: &Turn, line: &str) -> String {
    match turn {
        Turn::Hub(step) => crate::word(&step.call),
        _ => line.split(' ').next().unwrap_or_default().to_string(),
    }
}

/// The code or the number of an answer where there is one, else its first word.
fn sort(answer: &str) -> String {
    let (word, rest) = answer.split_once(' ').unwrap_or((answer, ""));
    match word {
        "att" | "refused" => answer.to_string(),
        "rsp" if rest.starts_with("01") => format!("error {}", &rest[8..10]),
        _ if rest == "-" => format!("{word} (empty)"),
        _ => word.to_string(),
    }
}

/// The parts of the state, each with the name of its kind.
fn parts(model: &Model) -> Vec<(&'static str, Vec<u8>)> {
    let tables = &model.tables;
    let mut parts = vec![("builder", tables.builder.to_vec()), ("table", tables.table.to_vec())];
    let Some(pair) = &model.pair else {
        return parts;
    };
    let ours = &pair.ours;
    parts.push(("store", ours.store.clone()));
    parts.extend(ours.list.iter().map(|record| ("length", record[6..8].to_vec())));
    for (i, slot) in ours.slots.iter().enumerate() {
        parts.push(("identity", pair.hub.slot(i).id.0.to_vec()));
        parts.push(("connected", vec![u8::from(slot.connected != 0)]));
        parts.push(("slot's table", ours.tables[i].to_vec()));
    }
    for (record, bytes) in &ours.records {
        let numbers = [record.handle, record.offset, record.len];
        let numbers = numbers.into_iter().flat_map(u16::to_le_bytes);
        let len = usize::from(record.len).min(bytes.len());
        parts.push(("record", numbers.chain(bytes[..len].iter().copied()).collect()));
    }
    parts
}

/// The parts that differ.
fn change(before: Vec<(&'static str, Vec<u8>)>, after: Vec<(&'static str, Vec<u8>)>) -> Vec<Change> {
    let both = before.into_iter().zip(after);
    both.filter(|((_, before), (_, after))| before != after)
        .map(|((part, before), (_, after))| {
            let (before, after) = differing(&before, &after);
            (part, before, after)
        })
        .collect()
}

/// What is left without the bytes that are the same at both ends.
fn differing(before: &[u8], after: &[u8]) -> (Vec<u8>, Vec<u8>) {
    let same = |(a, b): &(&u8, &u8)| a == b;
    let start = before.iter().zip(after).take_while(same).count();
    let (before, after) = (&before[start..], &after[start..]);
    let end = before.iter().rev().zip(after.iter().rev()).take_while(same).count();
    (
        before[..before.len() - end].to_vec(),
        after[..after.len() - end].to_vec(),
    )
}

/// A line a call: its sorts with their counts.
fn print(shown: BTreeMap<Sort, usize>) {
    let mut words: BTreeMap<String, Vec<String>> = BTreeMap::new();
    for ((word, sort), count) in shown {
        words.entry(word).or_default().push(format!("{sort} {count}"));
    }
    for (word, sorts) in words {
        println!("{word}: {}", sorts.join(", "));
    }
}
