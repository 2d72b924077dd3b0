//! A session from a seed, and what is expected line by line: for a call on a hub what the library and the original answered side
//! by side; for a call on a builder or a table alone, which the library does not export, what the original's own types answer,
//! or what a listed difference has instead.

use crate::generate::Calls;
use crate::lists::{self, List};
use crate::pair::{Counts, Pair, Step};
use crate::pokes::Poke;
use crate::random::Random;
use crate::session_lines;
use crate::table_calls;
use crate::tables::{Kind, TableCall, Tables};
use original::calls::Hex;
use original::{list, Answer, Call};
use std::collections::BTreeMap;

/// One turn of a session.
#[derive(Clone)]
pub enum Turn {
    Hub(Box<Step>),
    State,
    Tail,
    Table(TableCall),
    /// A saved table is printed.
    Print(Vec<u8>),
}

/// A session: one hub, and turns on it and on a builder and a table.
pub struct Script {
    pub seed: u64,
    pub list: List,
    pub turns: Vec<Turn>,
}

/// Lines of a session and the lines that are answered.
#[derive(Default)]
pub struct Lines {
    pub asked: Vec<String>,
    pub answers: Vec<String>,
}

impl Lines {
    fn add(&mut self, line: String, answer: impl Into<String>) {
        self.asked.push(line);
        self.answers.push(answer.into());
    }

    /// A line whose answer has several.
    fn add_long(&mut self, line: String, answer: &str) {
        self.asked.push(line);
        self.answers.extend(answer.lines().map(str::to_string));
    }
}

#[derive(Default)]
pub struct Totals {
    pub sessions: u64,
    pub calls: u64,
    pub answers: BTreeMap<String, BTreeMap<String, u64>>,
    pub kinds: BTreeMap<Kind, u64>,
    pub counts: Counts,
}

/// What is expected, turn by turn.
pub struct Model {
    /// `None`: the hub's list was refused, and calls on it are answered `closed`.
    pub pair: Option<Pair>,
    pub tables: Tables,
}

impl Model {
    /// Without a hub.
    pub fn closed() -> Model {
        Model {
            pair: None,
            tables: Tables::new(),
        }
    }

    pub fn open(list: &List, totals: &mut Totals) -> Result<(Model, Lines), String> {
        let pair = Pair::open(list, &mut totals.counts)?;
        let answer = match &pair {
            Some(_) => "ok",
            None if list::is_refused(&list.entries, &list.store) => "refused 1",
            None => "refused 6",
        };
        let mut lines = Lines::default();
        for line in session_lines(list) {
            lines.add(line, "ok");
        }
        lines.add("open".to_string(), answer);
        let tables = Tables::new();
        Ok((Model { pair, tables }, lines))
    }

    pub fn take(&mut self, turn: &Turn, totals: &mut Totals) -> Result<Lines, String> {
        let mut lines = Lines::default();
        match (turn, &mut self.pair) {
            (Turn::Table(call), _) => {
                let (answer, kind) = self.tables.call(call)?;
                kind.into_iter()
                    .for_each(|kind| *totals.kinds.entry(kind).or_default() += 1);
                lines.add(call.to_string(), told_of_table(call, answer));
            }
            (Turn::Print(saved), _) => lines.add_long(format!("tprint {}", Hex(saved)), &session::printed(saved)),
            (Turn::Hub(step), None) => lines.add(step.call.to_string(), "closed"),
            (Turn::State, None) => lines.add("state".to_string(), "closed"),
            (Turn::Tail, None) => lines.add("tail".to_string(), "closed"),
            (Turn::Tail, Some(_)) => lines.add("tail".to_string(), "clean"),
            (Turn::State, Some(pair)) => lines.add_long("state".to_string(), &session::state(&pair.hub)),
            (Turn::Hub(step), Some(pair)) => {
                let (answer, undo) = pair.step_back(step, &mut totals.counts)?;
                poke_lines(step.poke.as_ref(), &mut lines);
                lines.add(step.call.to_string(), session::told(&step.call, answer));
                poke_lines(undo.as_ref(), &mut lines);
            }
        }
        Ok(lines)
    }
}

fn poke_lines(poke: Option<&Poke>, lines: &mut Lines) {
    let text = poke.map_or_else(String::new, Poke::to_string);
    text.lines().for_each(|line| lines.add(line.to_string(), "ok"));
}

fn told_of_table(call: &TableCall, answer: Answer) -> String {
    let name = match call {
        TableCall::BuilderMemory | TableCall::Memory => "mem",
        TableCall::Raw | TableCall::Read(_) => "table",
        _ => "val",
    };
    session::shown(name, "ok", answer)
}

/// Draws a session from its seed, with what is expected. One that is not answered as expected is given as far as it came.
pub fn draw(seed: u64, totals: &mut Totals) -> (Script, Result<Vec<Lines>, String>) {
    let mut random = Random::new(seed);
    let list = lists::list(&mut random);
    let mut turns = Vec::new();
    totals.sessions += 1;
    let lines = draw_turns(&list, random, &mut turns, totals);
    (Script { seed, list, turns }, lines)
}

/// Draws the turns, each from the state that the ones before it left. The last looks at the whole state.
fn draw_turns(
    list: &List,
    mut random: Random,
    turns: &mut Vec<Turn>,
    totals: &mut Totals,
) -> Result<Vec<Lines>, String> {
    let (mut model, opened) = Model::open(list, totals)?;
    let mut all = vec![opened];
    let mut calls = Calls::new(&list.entries, Random::new(random.next()));
    for _ in 0..random.pick(&[50, 200, 400]) {
        for turn in next(&mut random, &mut calls, &model) {
            turns.push(turn.clone());
            all.push(model.take(&turn, totals)?);
        }
    }
    turns.push(Turn::State);
    all.push(model.take(&Turn::State, totals)?);
    Ok(all)
}

/// A call, and at times a look at what it left.
fn next(random: &mut Random, calls: &mut Calls<'_>, model: &Model) -> Vec<Turn> {
    let Some(pair) = model.pair.as_ref().filter(|_| !random.once_in(3)) else {
        return next_of_tables(random, model);
    };
    let mut step = calls.step(&pair.ours, &pair.hub);
    step.poke = step.poke.filter(can_be_said);
    let is_request = matches!(step.call, Call::Process { .. });
    let tail = (is_request && random.once_in(6)).then_some(Turn::Tail);
    let state = random.once_in(20).then_some(Turn::State);
    [Turn::Hub(Box::new(step))]
        .into_iter()
        .chain(tail)
        .chain(state)
        .collect()
}

fn next_of_tables(random: &mut Random, model: &Model) -> Vec<Turn> {
    if random.once_in(20) {
        return vec![Turn::Print(table_calls::saved_bytes(random, &model.tables, 2000))];
    }
    let call = table_calls::draw(random, &model.tables);
    let look = match call {
        TableCall::Push { .. } | TableCall::LoadBuilder(_) => TableCall::BuilderMemory,
        _ => TableCall::Memory,
    };
    let closed = (model.pair.is_none() && random.once_in(10)).then_some(Turn::State);
    let look = random.once_in(2).then_some(Turn::Table(look));
    [Turn::Table(call)].into_iter().chain(look).chain(closed).collect()
}

/// A session can't prepare more than 512 bytes.
fn can_be_said(poke: &Poke) -> bool {
    !matches!(poke, Poke::Record(_, record) if record.len > 512)
}
