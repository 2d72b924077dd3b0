//! Random sessions written to a folder: the lines to `stdin`, what is expected to `stdout`, as the program `session` prints it.

use crate::limits;
use crate::lists::{self, List};
use crate::random::Random;
use crate::script::{self, Lines, Model, Totals, Turn};
use crate::tables::TableCall;
use crate::Options;
use std::fs;
use std::path::Path;

/// A session in the making.
#[derive(Default)]
pub struct Transcript {
    stdin: String,
    stdout: String,
    /// How many lines are asked.
    pub lines: u64,
}

impl Transcript {
    /// `closed` is left out: the hub of a session before may be open.
    fn add(&mut self, lines: &Lines) {
        if lines.answers.iter().any(|answer| answer == "closed") {
            return;
        }
        lines
            .asked
            .iter()
            .for_each(|line| self.stdin.extend([line.as_str(), "\n"]));
        lines
            .answers
            .iter()
            .for_each(|line| self.stdout.extend([line.as_str(), "\n"]));
        self.lines += lines.asked.len() as u64;
    }

    /// Takes turns on a fresh hub or, without a list, on a fresh builder and table.
    pub fn play(&mut self, list: Option<&List>, turns: &[Turn]) -> Result<(), String> {
        let mut unused = Totals::default();
        let mut model = match list {
            Some(list) => {
                let (model, opened) = Model::open(list, &mut unused)?;
                self.add(&opened);
                model
            }
            None => {
                self.clear_tables()?;
                Model::closed()
            }
        };
        for turn in turns {
            self.add(&model.take(turn, &mut unused)?);
        }
        Ok(())
    }

    /// As a session starts with them.
    fn clear_tables(&mut self) -> Result<(), String> {
        for call in [TableCall::NewBuilder, TableCall::Load(Vec::new())] {
            let lines = Model::closed().take(&Turn::Table(call), &mut Totals::default())?;
            self.add(&lines);
        }
        Ok(())
    }

    pub fn write(&self, folder: &Path) -> Result<(), String> {
        let put = |name, text: &str| fs::write(folder.join(name), text);
        fs::create_dir_all(folder)
            .and_then(|()| put("stdin", &self.stdin))
            .and_then(|()| put("stdout", &self.stdout))
            .map_err(|error| format!("{}: {error}", folder.display()))
    }
}

/// How many lists are opened, to be refused most of the time.
const LISTS: u32 = 1000;

/// Writes random sessions until there are as many lines as calls asked for; then what these meet seldom: rows behind which there
/// is every room, and lists that break a rule.
pub fn run(options: &Options, folder: &Path) -> Result<String, String> {
    let mut totals = Totals::default();
    let mut text = Transcript::default();
    let mut seed = options.seed;
    while text.lines < options.calls {
        let (_, lines) = script::draw(seed, &mut totals);
        let lines = lines.map_err(|what| format!("seed {seed}: {what}"))?;
        text.clear_tables()?;
        lines.iter().for_each(|lines| text.add(lines));
        seed = seed.wrapping_add(1);
    }
    let (list, steps) = limits::on_rows();
    let turns: Vec<Turn> = steps.into_iter().map(|step| Turn::Hub(Box::new(step))).collect();
    text.play(Some(&list), &turns)?;
    let mut random = Random::new(options.seed);
    for _ in 0..LISTS {
        text.play(Some(&lists::spoiled(&mut random)), &[])?;
    }
    text.write(folder)?;
    Ok(format!(
        "transcript: ok, {} lines, {} sessions, seed {}",
        text.lines, totals.sessions, options.seed
    ))
}
