//! `port CALLS SEED [MISREADING]`: generated calls through the port's archive, the oracle and the second model: answer, counts and every word after every call, every tally row after statistics.

#![allow(dead_code)]

mod coverage;
mod domain;
mod engine;
mod generate;
mod guarded;
mod line;
mod model;
mod port;
mod rust;
mod state;

use std::time::Instant;

use engine::Said;
use generate::{Options, Sink, Sizes, scenario};
use guarded::Rows;
use line::{Answer, Command, perform};
use model::Model;
use port::Port;
use rust::Oracle;
use state::{ROOM_TREES, State, WIDE_TREES};

/// One sequence in so many has more trees than the line form has room for.
const WIDE_ONE_IN: u64 = 10;

struct Three {
    model: Model,
    oracle: Oracle,
    port: Port,
    of_model: Box<State>,
    of_oracle: Box<State>,
    of_port: Box<State>,
    calls: u64,
    with_rust: u64,
    /// Calls on more trees than the line form has room for, and on 1,024 of them; of these so many answered by the Rust.
    wide: u64,
    wide_with_rust: u64,
    most: u64,
    most_with_rust: u64,
    seed: u64,
}

/// The Rust has an answer of its own.
fn answered(a: &Answer) -> bool {
    !matches!(
        a,
        Answer::Get(Said::Outside | Said::Panic)
            | Answer::Put(Said::Outside | Said::Panic)
            | Answer::Drain(Said::Outside | Said::Panic)
            | Answer::Stats(Said::Outside | Said::Panic)
    )
}

impl Three {
    fn count(&mut self, with_rust: bool) {
        let trees = self.of_model.tree_words().len();
        let (wide, most) = ((trees > ROOM_TREES) as u64, (trees == 1024) as u64);
        self.calls += 1;
        self.wide += wide;
        self.most += most;
        if with_rust {
            self.with_rust += 1;
            self.wide_with_rust += wide;
            self.most_with_rust += most;
        }
    }
    fn differ(&self, c: &Command, with: &str, theirs: &Answer, ours: &Answer) -> ! {
        println!("difference with the {with}: seed {} call {}: {c}", self.seed, self.calls);
        print!("{with}: {theirs}port: {ours}");
        std::process::exit(1)
    }
}

impl Sink for Three {
    fn send(&mut self, c: Command) -> Answer {
        let by_model = perform(&c, &mut self.of_model, &mut self.model);
        let by_oracle = perform(&c, &mut self.of_oracle, &mut self.oracle);
        let by_port = perform(&c, &mut self.of_port, &mut self.port);
        if by_model == Answer::Nothing {
            return by_model;
        }
        self.count(answered(&by_oracle));
        if by_port != by_model || !self.of_port.same_words(&self.of_model) {
            self.differ(&c, "second model", &by_model, &by_port);
        }
        if !self.port.rows.stand() {
            self.differ(&c, "rows as lent", &by_model, &by_port);
        }
        if answered(&by_oracle) {
            if by_port != by_oracle || !self.of_port.same_words(&self.of_oracle) {
                self.differ(&c, "Rust", &by_oracle, &by_port);
            }
        } else {
            self.of_oracle.copy_words(&self.of_model);
        }
        by_port
    }
    fn state(&self) -> &State {
        &self.of_model
    }
}

fn main() {
    let args: Vec<u64> = std::env::args().skip(1).filter_map(|a| a.parse().ok()).collect();
    let (calls, seed, misreading) = match args[..] {
        [calls, seed] => (calls, seed, 0),
        [calls, seed, misreading] => (calls, seed, misreading as u32),
        _ => {
            eprintln!("port CALLS SEED [MISREADING]");
            std::process::exit(1)
        }
    };
    let begun = Instant::now();
    let mut three = Three {
        model: Model::new(misreading),
        oracle: Oracle::new(),
        port: Port { rows: Rows::new() },
        of_model: State::with_room(WIDE_TREES),
        of_oracle: State::with_room(WIDE_TREES),
        of_port: State::with_room(WIDE_TREES),
        calls: 0,
        with_rust: 0,
        wide: 0,
        wide_with_rust: 0,
        most: 0,
        most_with_rust: 0,
        seed: 0,
    };
    let mut sequences = 0;
    while three.calls < calls {
        three.seed = seed.wrapping_mul(1_000_000_007).wrapping_add(sequences);
        let own = three.seed;
        let sizes = if sequences % WIDE_ONE_IN == WIDE_ONE_IN - 1 { Sizes::Wide } else { Sizes::Usual };
        scenario(&mut three, own, Options { sizes, beyond: true, damage: 60, refused: 25, brief: false });
        sequences += 1;
    }
    print!("{}", three.model.coverage.table());
    println!(
        "{} calls in {sequences} sequences from seed {seed}: no difference between port and second model; {} of them answered by the Rust, no difference; {:.1} s",
        three.calls,
        three.with_rust,
        begun.elapsed().as_secs_f64()
    );
    println!(
        "of these on more than {ROOM_TREES} trees: {} calls, {} answered by the Rust; on 1024 trees: {} calls, {} answered by the Rust",
        three.wide, three.wide_with_rust, three.most, three.most_with_rust
    );
}
