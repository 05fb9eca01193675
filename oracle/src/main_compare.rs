//! `compare CALLS SEED [MISREADING]`: generated calls through the oracle and the second model, compared after every call.

#![allow(dead_code)]

mod coverage;
mod domain;
mod engine;
mod generate;
mod line;
mod model;
mod rust;
mod state;

use std::time::Instant;

use coverage::Row;
use engine::Said;
use generate::{Options, Sink, Sizes, scenario};
use line::{Answer, Command, perform};
use model::Model;
use rust::Oracle;
use state::{ROOM_LOCALS, ROOM_TREES, ROOM_WORDS, State};

struct Both {
    model: Model,
    oracle: Oracle,
    of_model: Box<State>,
    of_oracle: Box<State>,
    calls: u64,
    outside: u64,
    seed: u64,
    log: Vec<Command>,
    /// A set-up line since the last call on a sound state.
    set_up: bool,
    /// Most tries above looks of gets without a name, most tries of named gets, gets with the most looks.
    tries_above: i64,
    tries_named: u64,
    most_looks: u64,
}

/// Why the oracle has no answer, where the rules give this one.
fn why_outside(c: &Command, a: &Answer, no_locals: bool) -> bool {
    let Some(number) = a.number() else { return false };
    let (Command::Get(ask) | Command::Put(ask)) = c else { return number == 1 || number == 11 };
    match number {
        1 | 6 => true,
        3 => ask.frame.is_some_and(|f| f.checked_add(1 << ask.order).is_none()),
        5 => ask.class > 7,
        _ => no_locals,
    }
}

impl Both {
    /// Looks and tries are within document 01's bounds, and a call leaves a sound state sound.
    fn bounds(&mut self, c: &Command, a: &Answer) -> bool {
        let broken = a.number() == Some(1);
        let kept = self.set_up || !broken;
        if !broken && !matches!(c, Command::Start(_)) || a.number() == Some(0) {
            self.set_up = false;
        }
        let (Command::Get(ask), Answer::Get(Said::Is(g))) = (c, a) else { return kept };
        if ask.frame.is_some() {
            self.tries_named = self.tries_named.max(g.tries);
            return kept && g.looks == 0 && g.tries <= 4;
        }
        let n = self.of_model.lent().0 as u64;
        let most = n + (n / 16).max(4) - 1;
        self.tries_above = self.tries_above.max(g.tries as i64 - g.looks as i64);
        self.most_looks += (g.looks == most) as u64;
        kept && g.looks <= most && g.tries <= g.looks + 3
    }

    fn differ(&self, c: &Command, by_model: &Answer, by_oracle: &Answer) -> ! {
        println!("difference: seed {} call {}: {c}", self.seed, self.calls);
        print!("model:  {by_model}oracle: {by_oracle}");
        if by_model == by_oracle {
            println!("the words differ");
        }
        let name = "target/oracle/difference.txt";
        let text: String = self.log.iter().map(|c| format!("{c}\n")).collect::<String>() + "dump\n";
        std::fs::write(name, text).unwrap_or_else(|e| line::fail("write", name, e));
        println!("its lines are in {name}");
        std::process::exit(1)
    }
}

impl Sink for Both {
    fn send(&mut self, c: Command) -> Answer {
        self.log.push(c);
        let steals = self.model.coverage.counts[Row::FarNoLocals as usize];
        let by_model = perform(&c, &mut self.of_model, &mut self.model);
        let by_oracle = perform(&c, &mut self.of_oracle, &mut self.oracle);
        if by_model == Answer::Nothing {
            self.set_up = true;
            return by_model;
        }
        self.calls += 1;
        if !self.bounds(&c, &by_model) {
            println!("a bound of looks or tries, or a standing rule after a call, does not hold");
            self.differ(&c, &by_model, &by_oracle);
        }
        let no_locals = self.model.coverage.counts[Row::FarNoLocals as usize] > steals;
        let outside = matches!(
            by_oracle,
            Answer::Get(Said::Outside) | Answer::Put(Said::Outside) | Answer::Drain(Said::Outside) | Answer::Stats(Said::Outside)
        );
        if outside && why_outside(&c, &by_model, no_locals) {
            self.outside += 1;
            self.of_oracle.copy_words(&self.of_model);
        } else if by_model != by_oracle || !self.of_model.same_words(&self.of_oracle) {
            self.differ(&c, &by_model, &by_oracle);
        }
        by_model
    }
    fn state(&self) -> &State {
        &self.of_model
    }
}

fn main() {
    let args: Vec<u64> = std::env::args().skip(1).filter_map(|a| a.parse().ok()).collect();
    let (calls, seed, misreading) = match args[..] {
        [calls, seed] => (calls, seed, 0),
        [calls, seed, misreading] => (calls, seed, misreading as u32),
        _ => {
            eprintln!("compare CALLS SEED [MISREADING]");
            std::process::exit(1)
        }
    };
    let begun = Instant::now();
    let mut both = Both {
        model: Model::new(misreading),
        oracle: Oracle::new(),
        of_model: State::new(),
        of_oracle: State::new(),
        calls: 0,
        outside: 0,
        seed: 0,
        log: Vec::new(),
        set_up: true,
        tries_above: i64::MIN,
        tries_named: 0,
        most_looks: 0,
    };
    let mut sequences = 0;
    while both.calls < calls {
        both.seed = seed.wrapping_mul(1_000_000_007).wrapping_add(sequences);
        both.log.clear();
        both.log_header();
        let own = both.seed;
        scenario(&mut both, own, Options { sizes: Sizes::Usual, beyond: true, damage: 60, refused: 25, brief: false });
        sequences += 1;
    }
    print!("{}", both.model.coverage.table());
    println!(
        "{} calls in {sequences} sequences from seed {seed}: no difference; {} outside the oracle's domain; {:.1} s",
        both.calls,
        both.outside,
        begun.elapsed().as_secs_f64()
    );
    println!(
        "no name: tries at most looks + {}, {} gets with looks n + near - 1; named: tries at most {}",
        both.tries_above, both.most_looks, both.tries_named
    );
    let unreached: Vec<&str> = coverage::ROWS
        .iter()
        .filter(|&&r| r != Row::Stuck && both.model.coverage.counts[r as usize] == 0)
        .map(|&r| coverage::TEXTS[r as usize])
        .collect();
    if !unreached.is_empty() {
        println!("not reached: {}", unreached.join("; "));
    }
    if both.model.coverage.counts[Row::Stuck as usize] > 0 {
        println!("Stuck was reached");
        std::process::exit(1)
    }
}

impl Both {
    /// The header that stands from the sequence before, so that the log can be run by itself.
    fn log_header(&mut self) {
        let s = &self.of_model;
        self.log.push(Command::Frames(s.frames));
        self.log.push(Command::Default(s.default));
        self.log.push(Command::Lend(s.lend));
        self.log.push(Command::Rows(s.rows));
        for c in 0..8 {
            self.log.push(Command::Class(c, s.classes[c]));
            for e in 0..8 {
                self.log.push(Command::Pair(c, e, s.table[c][e]));
            }
        }
        for i in 0..ROOM_TREES {
            self.log.push(Command::Entry(i, s.trees[i]));
        }
        for i in 0..ROOM_LOCALS {
            self.log.push(Command::Local(i, s.locals[i]));
        }
        for i in 0..ROOM_WORDS {
            self.log.push(Command::Word(i, s.bitmap[i]));
        }
    }
}
