//! Runs the proved library and the Rust original side by side on random hubs and calls.
//!
//!     compare [--seed N] [--calls N]
//!     compare [--seed N] [--calls N] --sessions PROGRAM
//!     compare [--seed N] [--calls N] --transcript DIR
//!     compare [--seed N] --fixed DIR
//!
//! After each call the answers and the whole states are compared. A difference must be of a kind that `differences.rs`
//! knows; any other is printed, as the shortest session found that shows it, and the program fails. With `--sessions` it is
//! PROGRAM, the project's `session`, that answers. `--transcript` writes such sessions, with what is expected, to a folder,
//! `--fixed` a short one that shows every sort of answer.

mod boundary;
mod corners;
mod differences;
mod fixed;
mod generate;
mod lent;
mod limits;
mod lists;
mod numbers;
mod orders;
mod ours;
mod own_list;
mod pair;
mod pokes;
mod random;
mod rows;
mod saved;
mod script;
mod sessions;
mod shorten;
mod states;
mod systematic;
mod table_calls;
mod tables;
mod transcript;

use differences::Kind;
use generate::Calls;
use lists::List;
use original::calls::Hex;
use original::{Answer, Call, Entry};
use pair::{Counts, Pair, Step};
use random::Random;
use std::collections::BTreeMap;
use std::path::PathBuf;
use std::process::ExitCode;
use std::sync::atomic::{AtomicUsize, Ordering};
use std::thread;

struct Options {
    seed: u64,
    calls: u64,
    /// The program that runs sessions.
    sessions: Option<String>,
    /// Where random sessions are written to.
    transcript: Option<PathBuf>,
    /// Where the session of every sort of answer is written to.
    fixed: Option<PathBuf>,
}

/// A difference of no known kind, and the calls that lead to it.
struct Fault {
    origin: String,
    list: List,
    steps: Vec<Step>,
    what: String,
}

#[derive(Default)]
struct Totals {
    hubs: u64,
    calls: u64,
    /// Answers by the word that names the call in a session, then by what kind of answer.
    answers: BTreeMap<String, BTreeMap<String, u64>>,
    counts: Counts,
    own_list: own_list::Counts,
}

impl Totals {
    fn count(&mut self, call: &Call, answer: &Answer) {
        self.calls += 1;
        let answers = self.answers.entry(word(call)).or_default();
        *answers.entry(sort(call, answer)).or_default() += 1;
    }

    /// Adds the totals of another part.
    fn add(&mut self, part: Totals) {
        self.hubs += part.hubs;
        self.calls += part.calls;
        for (call, sorts) in part.answers {
            add_counts(self.answers.entry(call).or_default(), sorts);
        }
        add_counts(&mut self.counts.kinds, part.counts.kinds);
        self.counts.corners.add(&part.counts.corners);
        add_counts(&mut self.own_list, part.own_list);
    }
}

fn add_counts<K: Ord>(to: &mut BTreeMap<K, u64>, counts: BTreeMap<K, u64>) {
    for (kind, count) in counts {
        *to.entry(kind).or_default() += count;
    }
}

fn main() -> ExitCode {
    let options = match options() {
        Ok(options) => options,
        Err(why) => {
            eprintln!("compare: {why}\nusage: compare [--seed N] [--calls N] [--sessions PROGRAM | --transcript DIR | --fixed DIR]");
            return ExitCode::from(2);
        }
    };
    if let Some(program) = &options.sessions {
        return sessions::run(&options, program);
    }
    if let Some(folder) = &options.transcript {
        return ended(transcript::run(&options, folder));
    }
    if let Some(folder) = &options.fixed {
        return ended(fixed::run(&options, folder));
    }
    let mut totals = Totals::default();
    if let Err(fault) = run(&options, &mut totals) {
        report(&shrunk(fault));
        println!("compare: failed after {} calls", totals.calls);
        return ExitCode::FAILURE;
    }
    print_totals(&options, &totals)
}

/// Prints how the writing of a session ended.
fn ended(result: Result<String, String>) -> ExitCode {
    match result {
        Ok(what) => {
            println!("{what}");
            ExitCode::SUCCESS
        }
        Err(why) => {
            println!("compare: {why}");
            ExitCode::FAILURE
        }
    }
}

/// The parts of a run, the longest first. None needs anything of another.
const PARTS: [Part; 7] = [
    |_, totals| limits::run(totals),
    |options, totals| draw(options, totals),
    |_, totals| orders::run(totals),
    |_, totals| states::run(totals),
    |options, totals| own_list::run(options.seed, totals),
    |_, totals| numbers::run(totals),
    |_, totals| lent::run(totals),
];

type Part = fn(&Options, &mut Totals) -> Result<(), Fault>;

/// What is enumerated and what is drawn, as many parts at a time as there are processors.
fn run(options: &Options, totals: &mut Totals) -> Result<(), Fault> {
    let next = AtomicUsize::new(0);
    let work = || {
        let mut own = Totals::default();
        while let Some(part) = PARTS.get(next.fetch_add(1, Ordering::Relaxed)) {
            part(options, &mut own)?;
        }
        Ok(own)
    };
    let processors = thread::available_parallelism().map_or(1, |n| n.get());
    thread::scope(|scope| {
        let workers: Vec<_> = (0..processors).map(|_| scope.spawn(work)).collect();
        for worker in workers {
            totals.add(worker.join().expect("a part that ends")?);
        }
        Ok(())
    })
}

/// Random hubs, until there are as many calls as asked for.
fn draw(options: &Options, totals: &mut Totals) -> Result<(), Fault> {
    let last = totals.calls + options.calls;
    let mut seed = options.seed;
    while totals.calls < last {
        run_hub(seed, totals)?;
        seed = seed.wrapping_add(1);
    }
    Ok(())
}

fn options() -> Result<Options, String> {
    let mut options = Options {
        seed: 1,
        calls: 200_000,
        sessions: None,
        transcript: None,
        fixed: None,
    };
    let mut words = std::env::args().skip(1);
    while let Some(word) = words.next() {
        let value = words.next().ok_or(format!("{word} needs a value"))?;
        let number = value.parse().map_err(|_| format!("{word} needs a number"));
        match word.as_str() {
            "--seed" => options.seed = number?,
            "--calls" => options.calls = number?,
            "--sessions" => options.sessions = Some(value),
            "--transcript" => options.transcript = Some(value.into()),
            "--fixed" => options.fixed = Some(value.into()),
            _ => return Err(format!("{word} is no option")),
        }
    }
    Ok(options)
}

/// One hub: its list and all its calls come from the seed.
fn run_hub(seed: u64, totals: &mut Totals) -> Result<(), Fault> {
    let mut random = Random::new(seed);
    let list = lists::list(&mut random);
    let mut steps = Vec::new();
    totals.hubs += 1;
    match run_steps(&list, random, totals, &mut steps) {
        Ok(()) => Ok(()),
        Err(what) => Err(Fault {
            origin: format!("seed {seed}"),
            list,
            steps,
            what,
        }),
    }
}

fn run_steps(list: &List, mut random: Random, totals: &mut Totals, steps: &mut Vec<Step>) -> Result<(), String> {
    totals.calls += 1;
    let Some(mut pair) = Pair::open(list, &mut totals.counts)? else {
        return Ok(());
    };
    let length = random.pick(&[20, 60, 100, 300]);
    let mut calls = Calls::new(&list.entries, random);
    for _ in 0..length {
        let step = calls.step(&pair.ours, &pair.hub);
        steps.push(step.clone());
        let answer = pair.step(&step, &mut totals.counts)?;
        totals.count(&step.call, &answer);
    }
    Ok(())
}

/// What kind of answer it is.
fn sort(call: &Call, answer: &Answer) -> String {
    match (call, answer) {
        (Call::Process { .. }, Answer::Value(bytes)) if bytes[0] == 0x01 => format!("error {:02X}", bytes[4]),
        (Call::Process { .. }, Answer::Value(_)) => "response".to_string(),
        (_, Answer::Value(_)) => "value".to_string(),
        (_, Answer::Done) => "done".to_string(),
        (_, Answer::Nothing) => "nothing".to_string(),
        (_, Answer::Att(code)) => format!("error {code:02X}"),
        (_, Answer::Refused(number)) => format!("refused {number}"),
        (_, other) => format!("{other:?}"),
    }
}

/// The word that names a call, or its request, in a session.
fn word(call: &Call) -> String {
    let text = match call {
        Call::Process { request, .. } => request.to_string(),
        call => call.to_string(),
    };
    text.split(' ').next().unwrap_or_default().to_string()
}

/// Leaves out steps without which there still is a fault.
fn shrunk(mut fault: Fault) -> Fault {
    let mut at = fault.steps.len();
    while at > 0 {
        at -= 1;
        let mut fewer = fault.steps.clone();
        fewer.remove(at);
        if let Some((end, what)) = replay(&fault.list, &fewer) {
            fewer.truncate(end);
            at = at.min(end);
            fault.steps = fewer;
            fault.what = what;
        }
    }
    fault
}

/// How many steps lead to a fault, and which.
fn replay(list: &List, steps: &[Step]) -> Option<(usize, String)> {
    let mut unused = Counts::default();
    let mut pair = Pair::open(list, &mut unused).ok()??;
    let results = steps.iter().map(|step| pair.step(step, &mut unused));
    results
        .enumerate()
        .find_map(|(i, result)| result.err().map(|what| (i + 1, what)))
}

/// Prints a fault as a session.
fn report(fault: &Fault) {
    println!("# a difference of no known kind, from {}", fault.origin);
    session_lines(&fault.list).iter().for_each(|line| println!("{line}"));
    println!("open");
    fault.steps.iter().for_each(|step| println!("{step}"));
    println!("# {}", fault.what.replace('\n', "\n# "));
}

/// The lines of a session that give a list and a store.
fn session_lines(list: &List) -> Vec<String> {
    let line = |entry: &Entry| {
        let kind = match (entry.shared, entry.variable) {
            (true, true) => "sv",
            (true, false) => "sf",
            (false, true) => "cv",
            (false, false) => "cf",
        };
        let (uuid, handle) = (Hex(&entry.uuid), entry.handle);
        let (read, write, capacity) = (entry.read, entry.write, entry.capacity);
        let (start, len) = (entry.start, entry.len);
        format!("attr {handle:X} {uuid} {read:X} {write:X} {kind} {capacity:X} {start:X} {len:X}")
    };
    let mut lines = vec!["new".to_string()];
    lines.extend(list.entries.iter().map(line));
    lines.push(format!("store {}", Hex(&list.store)));
    lines
}

/// Prints what was seen. It fails where a corner of the state was met by no call.
fn print_totals(options: &Options, totals: &Totals) -> ExitCode {
    for (word, answers) in &totals.answers {
        let count: u64 = answers.values().sum();
        let sorts: Vec<String> = answers.iter().map(|(sort, count)| format!("{sort} {count}")).collect();
        println!("{count:>10} {word}: {}", sorts.join(", "));
    }
    println!("differences, all of kinds that docs/DIFFERENCES.md lists:");
    for kind in Kind::ALL {
        println!("{:>10} {kind}", totals.counts.kinds.get(&kind).unwrap_or(&0));
    }
    println!("differences of the crate's own list, all of kinds that docs/DIFFERENCES.md lists:");
    for kind in own_list::Kind::ALL {
        println!("{:>10} {}", totals.own_list.get(&kind).unwrap_or(&0), kind.sentence());
    }
    println!("corners of the state, and the calls that met them:");
    let corners = totals.counts.corners.counts();
    corners.iter().for_each(|(name, count)| println!("{count:>10} {name}"));
    if let Some((name, _)) = corners.iter().find(|(_, count)| *count == 0) {
        println!("compare: failed, no call met the corner \"{name}\"");
        return ExitCode::FAILURE;
    }
    let differences: u64 = totals.counts.kinds.values().sum();
    println!(
        "compare: ok, {} calls, {} hubs, seed {}, {differences} listed differences, no other",
        totals.calls, totals.hubs, options.seed
    );
    ExitCode::SUCCESS
}
