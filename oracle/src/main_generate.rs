//! `generate [--beyond] [--brief] [--select] CALLS SEED`: generated calls as line form on standard output.
//!
//! Without `--beyond` every call is in the oracle's domain. `--select` keeps, of many short
//! sequences, those that reach a row of the coverage table not yet reached often, or tell a
//! misreading apart that is not yet told apart often, and fills up with others.

#![allow(dead_code)]

mod coverage;
mod engine;
mod generate;
mod line;
mod misread;
mod model;
mod state;

use std::io::Write;

use coverage::{Coverage, Row, TEXTS};
use generate::{Options, Sink, Sizes, scenario};
use line::{Answer, Command, perform};
use misread::MISREADINGS;
use model::Model;
use state::State;

/// A sum after every second call.
const SUM_AFTER: u64 = 2;

struct Text {
    model: Model,
    state: Box<State>,
    in_domain: bool,
    calls: u64,
    commands: Vec<Command>,
}

impl Sink for Text {
    fn send(&mut self, c: Command) -> Answer {
        if self.in_domain && matches!(c, Command::Get(_)) {
            let mut trial = Model::new(0);
            perform(&c, &mut self.state.clone(), &mut trial);
            if trial.coverage.counts[Row::FarNoLocals as usize] > 0 {
                return Answer::Nothing;
            }
        }
        self.commands.push(c);
        let answer = perform(&c, &mut self.state, &mut self.model);
        if answer != Answer::Nothing {
            self.calls += 1;
            if self.calls % SUM_AFTER == 0 {
                self.commands.push(Command::Sum);
            }
        }
        answer
    }
    fn state(&self) -> &State {
        &self.state
    }
}

/// Whether a misreading answers some command otherwise; a panic of a misread model counts.
fn told_apart(begin: &State, commands: &[Command], misreading: u32) -> bool {
    let told = std::panic::catch_unwind(|| {
        let (mut a, mut b) = (Box::new(begin.clone()), Box::new(begin.clone()));
        let (mut right, mut wrong) = (Model::new(0), Model::new(misreading));
        commands.iter().any(|c| perform(c, &mut a, &mut right) != perform(c, &mut b, &mut wrong))
    });
    told.unwrap_or(true)
}

struct List {
    coverage: Coverage,
    told: Vec<u64>,
    calls: u64,
    state: Box<State>,
    sequences: u64,
}

const ROW_TARGET: u64 = 10;
const TOLD_TARGET: u64 = 3;

/// Rows of the coverage table that the oracle has no answer for.
fn of_rules_alone(row: usize) -> bool {
    let text = TEXTS[row];
    let rows = [
        Row::GetBoundsWrap,
        Row::GetClassAbove,
        Row::GetLocal,
        Row::GetLocalNone,
        Row::FarNoLocals,
        Row::PutLocalRefused,
        Row::StatsRows,
    ];
    text.contains("Broken") || rows.iter().any(|&r| r as usize == row)
}
/// Misreadings that show in such calls alone.
const OF_RULES_ALONE: &[u32] = &[4, 6, 7, 83, 84, 86, 92, 95, 96];

fn main() {
    let args: Vec<String> = std::env::args().skip(1).collect();
    let flag = |name: &str| args.iter().any(|a| a == name);
    let numbers: Vec<u64> = args.iter().filter_map(|a| a.parse().ok()).collect();
    let [calls, seed] = numbers[..] else {
        eprintln!("generate [--beyond] [--brief] [--select] CALLS SEED");
        std::process::exit(1)
    };
    std::panic::set_hook(Box::new(|_| {}));
    let beyond = flag("--beyond");
    let select = flag("--select");
    let dense = beyond && select;
    let options = Options {
        sizes: Sizes::Usual,
        beyond,
        damage: if dense { 4 } else { 60 },
        refused: if dense { 200 } else { 25 },
        brief: flag("--brief") || select,
    };
    let mut list = List {
        coverage: Coverage::new(),
        told: vec![0; MISREADINGS.len()],
        calls: 0,
        state: State::new(),
        sequences: 0,
    };
    let mut out = std::io::BufWriter::new(std::io::stdout());
    let mut say = |text: String| out.write_all(text.as_bytes()).unwrap_or_else(|e| line::fail("write", "standard output", e));
    let mut candidate = 0;
    while list.calls < calls {
        let own = seed.wrapping_mul(1_000_000_007).wrapping_add(candidate);
        candidate += 1;
        let mut text = Text { model: Model::new(0), state: list.state.clone(), in_domain: !beyond, calls: 0, commands: Vec::new() };
        scenario(&mut text, own, options);
        text.commands.push(Command::Sum);
        if select {
            let reaches = text
                .model
                .coverage
                .counts
                .iter()
                .zip(&list.coverage.counts)
                .enumerate()
                .any(|(row, (&new, &old))| new > 0 && old < ROW_TARGET && (!beyond || of_rules_alone(row)));
            let mut told: Vec<usize> = Vec::new();
            let wanted = |i: usize| list.told[i] < TOLD_TARGET && (!beyond || OF_RULES_ALONE.contains(&MISREADINGS[i].0));
            // The first candidates are for rows and misreadings, the last fifth of the list is for all.
            let search = candidate < 4000 && list.calls < calls / 5 * 4;
            if search {
                for (i, (number, _)) in MISREADINGS.iter().enumerate() {
                    if wanted(i) && told_apart(&list.state, &text.commands, *number) {
                        told.push(i);
                    }
                }
            }
            if search && !reaches && told.is_empty() {
                continue;
            }
            // Sequences on many trees are dear in text: only where they are wanted.
            if !search && text.commands.len() > 400 {
                continue;
            }
            told.iter().for_each(|&i| list.told[i] += 1);
        }
        list.sequences += 1;
        say(format!("# sequence {} of seed {own}\n", list.sequences));
        for c in &text.commands {
            say(format!("{c}\n"));
        }
        for (sum, new) in list.coverage.counts.iter_mut().zip(&text.model.coverage.counts) {
            *sum += new;
        }
        list.calls += text.calls;
        list.state = text.state;
    }
    drop(say);
    out.flush().unwrap_or_else(|e| line::fail("write", "standard output", e));
    if select {
        for (row, (text, count)) in TEXTS.iter().zip(&list.coverage.counts).enumerate() {
            if *count < ROW_TARGET && of_rules_alone(row) == beyond {
                eprintln!("reached {count} times: {text}");
            }
        }
        for (i, (number, text)) in MISREADINGS.iter().enumerate() {
            if list.told[i] == 0 && OF_RULES_ALONE.contains(number) == beyond {
                eprintln!("not told apart by a chosen sequence: {number} {text}");
            }
        }
        eprintln!("{} calls in {} sequences of {candidate}", list.calls, list.sequences);
    }
}
