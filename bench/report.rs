//! What was measured, as tables in Markdown; whether each goal is met is worked out here.

use crate::calls::TREES;
use crate::measure::{Case, Times, row};
use crate::stack::{Deepest, KINDS};

#[derive(Clone, Copy, PartialEq)]
pub enum Kind {
    /// A single part against the same algorithm in plain Rust.
    Part,
    Call,
    Worst,
}

/// The greatest ratio that is wanted.
fn goal(kind: Kind) -> f64 {
    match kind {
        Kind::Call => 1.2,
        Kind::Part | Kind::Worst => 1.5,
    }
}

const GROWTH: f64 = 18.0;
const STACK: usize = 4096;

/// Ends the name of a row whose calls begin with their words in no cache.
pub const COLD: &str = ", cold";

/// What is known of rows slower than the goal: how the name begins, what it has in it, and the reason.
const REASONS: [(&str, &str, &str); 1] = [(
    "get",
    " unnamed",
    "An unnamed get: the routes hand their results on by value through memory, as structs with an enum inside; the samples of a profile gather on the copies of these. It shows on few trees, where the state test, most of a call from 64 trees on, is short.",
)];

/// What is to be timed for a row: its cases by number of trees.
pub struct Asked {
    kind: Kind,
    name: String,
    cases: Vec<(usize, Case)>,
}

/// All rows of calls, as they are to be timed.
#[derive(Default)]
pub struct Cases(pub Vec<Asked>);

impl Cases {
    pub fn add(&mut self, kind: Kind, name: &str, trees: usize, case: Case) {
        match self.0.iter_mut().find(|a| a.kind == kind && a.name == name) {
            Some(a) => a.cases.push((trees, case)),
            None => self.0.push(Asked { kind, name: name.into(), cases: vec![(trees, case)] }),
        }
    }
}

pub struct Row {
    pub kind: Kind,
    pub name: String,
    /// By number of trees, 0 for a part.
    pub times: Vec<(usize, Times)>,
    /// Time of the port at 1,024 trees over that at 64, of each pass.
    growths: Vec<f64>,
}

impl Row {
    pub fn at(&self, n: usize) -> Option<Times> {
        self.times.iter().find(|t| t.0 == n).map(|t| t.1)
    }
    /// The middle one of the passes' growths.
    fn growth(&self) -> Option<f64> {
        let mut all = self.growths.clone();
        all.sort_by(f64::total_cmp);
        all.get(all.len() / 2).copied()
    }
    /// Takes times of one pass in; of several the best of each side stays.
    fn take(&mut self, pass: &[(usize, Times)]) {
        for &(n, new) in pass {
            eprintln!("{}, {n} trees: {} {} {:.2}", self.name, micros(new.port), micros(new.rust), new.ratio());
            match self.times.iter_mut().find(|t| t.0 == n) {
                Some((_, t)) => *t = t.best(new),
                None => self.times.push((n, new)),
            }
        }
        let port = |n: usize| pass.iter().find(|t| t.0 == n).map(|t| t.1.port);
        self.growths.extend(port(1024).zip(port(64)).map(|(a, b)| a / b));
    }
    /// The growth that the goal counts: not that of a start on words in a cache, which is the caches' own.
    fn counted(&self) -> Option<f64> {
        if self.name.starts_with("start") && !self.name.ends_with(COLD) { None } else { self.growth() }
    }
    /// Whether it grows by more than the goal.
    fn grows(&self) -> bool {
        self.counted().is_some_and(|g| g > GROWTH)
    }
    /// Whether it is slower than the goal, at so many trees.
    fn slow_at(&self, n: usize) -> bool {
        self.at(n).is_some_and(|t| t.ratio() > goal(self.kind))
    }
    /// Whether it is slower than the goal somewhere.
    fn slow(&self) -> bool {
        self.times.iter().any(|t| self.slow_at(t.0))
    }
    /// Whether its time at so many trees is part of a figure above a goal.
    fn misses_at(&self, n: usize) -> bool {
        self.slow_at(n) || self.grows() && (n == 64 || n == 1024)
    }
}

#[derive(Default)]
pub struct Report {
    pub rows: Vec<Row>,
    /// Only cases above a goal are timed.
    pub above_alone: bool,
}

fn met(yes: bool) -> &'static str {
    if yes { "met" } else { "NOT met" }
}

/// A number of microseconds with three figures that count.
fn micros(seconds: f64) -> String {
    let us = seconds * 1e6;
    let digits = if us < 10.0 { 3 } else { 1 };
    format!("{us:.digits$}")
}

/// A number with so many digits after the point, in bold where it is above the goal.
fn bold(value: f64, digits: usize, goal: f64) -> String {
    if value > goal { format!("**{value:.digits$}**") } else { format!("{value:.digits$}") }
}

impl Report {
    /// Whether some row is above a goal.
    pub fn misses(&self) -> bool {
        self.rows.iter().any(|r| r.slow() || r.grows())
    }

    /// The row of this name, a new one where there is none.
    fn row(&mut self, kind: Kind, name: &str) -> &mut Row {
        let at = self.rows.iter().position(|r| r.kind == kind && r.name == name).unwrap_or(self.rows.len());
        if at == self.rows.len() {
            self.rows.push(Row { kind, name: name.into(), times: vec![], growths: vec![] });
        }
        &mut self.rows[at]
    }

    /// Whether a case is to be timed in this pass.
    fn asks(&self, kind: Kind, name: &str, trees: usize) -> bool {
        !self.above_alone || self.rows.iter().any(|r| r.kind == kind && r.name == name && r.misses_at(trees))
    }

    /// Times a part, where it is asked for.
    pub fn part(&mut self, name: &str, measure: impl FnOnce() -> Times) {
        if self.asks(Kind::Part, name, 0) {
            self.row(Kind::Part, name).take(&[(0, measure())]);
        }
    }

    /// Times those cases of a row that are asked for.
    pub fn calls(&mut self, asked: &Asked) {
        let (trees, cases): (Vec<usize>, Vec<&Case>) = asked.cases.iter().filter(|c| self.asks(asked.kind, &asked.name, c.0)).map(|c| (c.0, &c.1)).unzip();
        if !cases.is_empty() {
            let pass: Vec<(usize, Times)> = trees.into_iter().zip(row(&cases)).collect();
            self.row(asked.kind, &asked.name).take(&pass);
        }
    }

    fn of(&self, kind: Kind) -> impl Iterator<Item = &Row> {
        self.rows.iter().filter(move |r| r.kind == kind)
    }

    /// A line a row: by number of trees the ratio port / Rust and the microseconds of the port, then the growth.
    /// What is above its goal stands in bold.
    pub fn table(&self, kind: Kind) -> String {
        let trees: Vec<usize> = TREES.into_iter().filter(|&n| self.of(kind).any(|r| r.at(n).is_some())).collect();
        let heads: Vec<String> = trees.iter().map(|&n| thousands(n)).collect();
        let mut s = format!("| trees | {} | 1,024 / 64 |\n|---|{}\n", heads.join(" | "), "---:|".repeat(trees.len() + 1));
        let cell = |t: Times| format!("{} · {}", bold(t.ratio(), 2, goal(kind)), micros(t.port));
        for r in self.of(kind) {
            let cells: Vec<String> = trees.iter().map(|&n| r.at(n).map_or(String::new(), cell)).collect();
            let growth = r.counted().map(|g| bold(g, 1, GROWTH)).or(r.growth().map(|g| format!("({g:.1})")));
            s += &format!("| {} | {} | {} |\n", r.name, cells.join(" | "), growth.unwrap_or_default());
        }
        s
    }

    pub fn parts(&self) -> String {
        let mut s = String::from("| | port, us | Rust, us | port / Rust |\n|---|---:|---:|---:|\n");
        for r in self.of(Kind::Part) {
            let t = r.times[0].1;
            s += &format!("| {} | {} | {} | {} |\n", r.name, micros(t.port), micros(t.rust), bold(t.ratio(), 2, goal(Kind::Part)));
        }
        s
    }

    /// Each goal, the worst figure, and where that was.
    pub fn goals(&self, stack: &[Deepest]) -> String {
        let mut s = String::from("| Goal | Worst | Where | |\n|---|---:|---|---|\n");
        for (kind, what) in [(Kind::Call, "calls"), (Kind::Worst, "worst cases"), (Kind::Part, "single parts")] {
            let all: Vec<(f64, &str, usize)> = self.of(kind).flat_map(|r| r.times.iter().map(|t| (t.1.ratio(), r.name.as_str(), t.0))).collect();
            let worst = all.iter().max_by(|a, b| a.0.total_cmp(&b.0)).expect("cases");
            let above = all.iter().filter(|a| a.0 > goal(kind)).count();
            let trees = if worst.2 > 0 { format!(", {} trees", thousands(worst.2)) } else { String::new() };
            let name = format!("{}{trees}; {above} of {} above", worst.1, all.len());
            s += &format!("| {what}: port / Rust at most {} | {:.2} | {name} | {} |\n", goal(kind), worst.0, met(above == 0));
        }
        let grown: Vec<(f64, &str)> = self.rows.iter().filter_map(|r| Some((r.counted()?, r.name.as_str()))).collect();
        let worst = grown.iter().max_by(|a, b| a.0.total_cmp(&b.0)).expect("cases");
        let above = grown.iter().filter(|g| g.0 > GROWTH).count();
        s += &format!("| time at 1,024 trees at most {GROWTH} times that at 64 | {:.1} | {}; {above} of {} above | {} |\n", worst.0, worst.1, grown.len(), met(above == 0));
        let caches: Vec<(f64, &str)> = self.rows.iter().filter(|r| r.counted().is_none()).filter_map(|r| Some((r.growth()?, r.name.as_str()))).collect();
        if let Some(worst) = caches.iter().max_by(|a, b| a.0.total_cmp(&b.0)) {
            s += &format!("| the same of a start on words that a cache holds: no goal | {:.1} | {} | not counted |\n", worst.0, worst.1);
        }
        let (at, deepest) = stack.iter().enumerate().max_by_key(|d| d.1.bytes).expect("calls");
        s += &format!("| stack of a call at most {} bytes | {} | {} | {} |\n", thousands(STACK), thousands(deepest.bytes), KINDS[at], met(deepest.bytes <= STACK));
        s
    }

    /// Why goals are not met: the reasons that are known, and the rows for which none is. Nothing where all are met.
    pub fn reasons(&self) -> String {
        let is_of = |r: &Row, begins: &str, has: &str| r.name.starts_with(begins) && r.name.contains(has);
        let slow: Vec<&Row> = self.rows.iter().filter(|r| r.slow()).collect();
        let mut said: Vec<String> = vec![];
        for (begins, has, reason) in REASONS {
            if slow.iter().any(|r| is_of(r, begins, has)) {
                said.push(format!("- {reason}\n"));
            }
        }
        for r in slow.iter().filter(|r| !REASONS.iter().any(|(begins, has, _)| is_of(r, begins, has))) {
            said.push(format!("- {}: no reason is known.\n", r.name));
        }
        for r in self.rows.iter().filter(|r| r.grows()) {
            said.push(format!("- The growth of \"{}\": no reason is known.\n", r.name));
        }
        if said.is_empty() { String::new() } else { format!("\nWhere a goal is not met:\n\n{}", said.concat()) }
    }

    pub fn stack(&self, stack: &[Deepest]) -> String {
        let mut s = String::from("| Call | bytes | calls tried | the deepest |\n|---|---:|---:|---|\n");
        for (name, d) in KINDS.iter().zip(stack) {
            s += &format!("| {name} | {} | {} | {} |\n", thousands(d.bytes), thousands(d.calls), d.which);
        }
        s
    }
}

/// A number with a comma before each three digits.
pub fn thousands(n: usize) -> String {
    if n < 1000 { n.to_string() } else { format!("{},{:03}", thousands(n / 1000), n % 1000) }
}
