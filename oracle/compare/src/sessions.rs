//! The project's program `session` beside the library and the original: random sessions are written to it, and every line that
//! it answers is held to what is expected.

use crate::lists;
use crate::script::{self, Lines, Model, Script, Totals, Turn};
use crate::tables::Kind;
use crate::Options;
use std::io::{self, Write as _};
use std::process::{Command, ExitCode, Stdio};
use std::thread;

/// Runs random sessions until there are as many calls as asked for.
pub fn run(options: &Options, program: &str) -> ExitCode {
    let mut totals = Totals::default();
    let mut seed = options.seed;
    while totals.calls < options.calls {
        if let Err((script, what)) = run_script(seed, program, &mut totals) {
            report(&shrunk(script, what, program));
            println!("compare: sessions failed after {} calls", totals.calls);
            return ExitCode::FAILURE;
        }
        seed = seed.wrapping_add(1);
    }
    print_totals(options, &totals);
    ExitCode::SUCCESS
}

/// A session from a seed.
fn run_script(seed: u64, program: &str, totals: &mut Totals) -> Result<(), (Script, String)> {
    let (script, lines) = script::draw(seed, totals);
    lines
        .and_then(|lines| hold(&lines, program, totals))
        .map_err(|what| (script, what))
}

/// Writes the lines to the program and holds its answers to the expected ones.
fn hold(expected: &[Lines], program: &str, totals: &mut Totals) -> Result<(), String> {
    let asked: Vec<&str> = expected
        .iter()
        .flat_map(|lines| &lines.asked)
        .map(String::as_str)
        .collect();
    let output = answers(program, &asked).map_err(|error| format!("{program}: {error}"))?;
    let mut given = output.lines();
    for lines in expected {
        for answer in &lines.answers {
            let given = given.next().unwrap_or("nothing more");
            if given != answer {
                let asked = lines.asked.join("\n");
                return Err(format!(
                    "{asked}\nthe program answers {given}\nexpected            {answer}"
                ));
            }
        }
        lines.count(totals);
    }
    match given.next() {
        Some(line) => Err(format!("the program also answers {line}")),
        None => Ok(()),
    }
}

impl Lines {
    fn count(&self, totals: &mut Totals) {
        totals.calls += self.asked.len() as u64;
        for (line, answer) in self.asked.iter().zip(&self.answers) {
            let name = line.split(' ').next().unwrap_or_default();
            let answers = totals.answers.entry(name.to_string()).or_default();
            *answers.entry(sort(name, answer).to_string()).or_default() += 1;
        }
    }
}

/// What kind of answer it is: a refusal or a code whole, of another its first word.
fn sort<'a>(name: &str, answer: &'a str) -> &'a str {
    match answer.split(' ').next().unwrap_or_default() {
        "refused" | "att" => answer,
        word if name != "state" || word == "closed" => word,
        _ => "shown",
    }
}

/// What the program answers to these lines.
fn answers(program: &str, asked: &[&str]) -> io::Result<String> {
    let mut child = Command::new(program)
        .stdin(Stdio::piped())
        .stdout(Stdio::piped())
        .spawn()?;
    let mut input = child.stdin.take().expect("a pipe");
    let text = asked.join("\n") + "\n";
    // Beside the reading, for a pipe holds less than a session. A program that ends early has answered too few lines.
    let writer = thread::spawn(move || drop(input.write_all(text.as_bytes())));
    let output = child.wait_with_output()?;
    writer.join().expect("the writer ends");
    Ok(String::from_utf8_lossy(&output.stdout).into_owned())
}

/// Leaves out turns without which there still is a fault.
fn shrunk(mut script: Script, mut what: String, program: &str) -> (Script, String) {
    let mut at = script.turns.len();
    while at > 0 {
        at -= 1;
        let turn = script.turns.remove(at);
        match replay(&script, program) {
            Some(again) => what = again,
            None => script.turns.insert(at, turn),
        }
    }
    if script.turns.iter().all(|turn| matches!(turn, Turn::Table(_))) {
        script.list = lists::written(&[]);
    }
    (script, what)
}

fn replay(script: &Script, program: &str) -> Option<String> {
    let mut unused = Totals::default();
    let (mut model, opened) = Model::open(&script.list, &mut unused).ok()?;
    let mut all = vec![opened];
    for turn in &script.turns {
        all.push(model.take(turn, &mut unused).ok()?);
    }
    hold(&all, program, &mut unused).err()
}

fn report((script, what): &(Script, String)) {
    println!("# an answer of no known kind, from seed {}", script.seed);
    let mut unused = Totals::default();
    if let Ok((mut model, opened)) = Model::open(&script.list, &mut unused) {
        opened.asked.iter().for_each(|line| println!("{line}"));
        for turn in &script.turns {
            let lines = model.take(turn, &mut unused).unwrap_or_default();
            lines.asked.iter().for_each(|line| println!("{line}"));
        }
    }
    println!("# {}", what.replace('\n', "\n# "));
}

fn print_totals(options: &Options, totals: &Totals) {
    for (word, answers) in &totals.answers {
        let count: u64 = answers.values().sum();
        let sorts: Vec<String> = answers.iter().map(|(sort, count)| format!("{sort} {count}")).collect();
        println!("{count:>10} {word}: {}", sorts.join(", "));
    }
    println!("differences of builders and tables, all of kinds that docs/DIFFERENCES.md lists:");
    for kind in Kind::ALL {
        println!("{:>10} {}", totals.kinds.get(&kind).unwrap_or(&0), kind.sentence());
    }
    let differences: u64 = totals.kinds.values().sum();
    println!(
        "compare: sessions ok, {} calls, {} sessions, seed {}, {differences} listed differences of builders and tables, no other",
        totals.calls, totals.sessions, options.seed
    );
}
