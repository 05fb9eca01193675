//! `damaged CALLS SEED`: damaged stores and arguments at every limit, through the port's archive and the second model.
//! `damaged --planted`: that each of a list of wrong answers, planted in the port's, is reported.

#![allow(dead_code)]

mod coverage;
mod damage;
mod domain;
mod engine;
mod generate;
mod guarded;
mod line;
mod model;
mod planted;
mod port;
mod raw;
mod state;

use std::time::Instant;

use coverage::TEXTS;
use damage::{ROWS, STATES, calls, copied_words, limits, played, random_header, random_lengths, random_table, random_words, told};
use engine::{Counted, Got, NAMES, Said};
use generate::Random;
use line::{Answer, Command, perform};
use model::Model;
use planted::{PLANTED, plant, plant_both};
use raw::{Lending, Part, Raw};
use state::{State, WIDE_TREES};

/// Parts of a store of which every bit is flipped.
const FLIPS: [(&str, Part); 7] = [
    ("a bit of F", Part::Frames),
    ("a bit of the default", Part::Default),
    ("a bit of the places", Part::Places),
    ("a bit of the table", Part::Table),
    ("a bit of a tree word", Part::Trees),
    ("a bit of a local word", Part::Locals),
    ("a bit of a bitmap word", Part::Bitmap),
];
/// Damage that is drawn.
const DRAWN: [(&str, fn(&mut Random, &mut Raw)); 7] = [
    ("several bits", several_bits),
    ("random header", random_header),
    ("random table", random_table),
    ("random lengths", random_lengths),
    ("random words", random_words),
    ("words copied", copied_words),
    ("two of the last six", two_of_these),
];
/// Kinds of damage: the flips, those that are drawn, and none.
const KINDS: usize = FLIPS.len() + DRAWN.len() + 1;
const LIMITS: usize = KINDS - 1;

fn name(kind: usize) -> &'static str {
    let names = FLIPS.iter().map(|f| f.0).chain(DRAWN.iter().map(|d| d.0));
    names.chain(["none: arguments at limits"]).nth(kind).unwrap_or("")
}

/// Stores of each kind of drawn damage for a sound state.
const DRAWN_STORES: usize = 700;
/// Bits flipped on a store of each size at the limits of F.
const SIZE_FLIPS: usize = 30;

/// F at its limits, each with exact lengths; the last asks for 1,025 trees.
const SIZES: [u64; 11] = [1, 63, 64, 65, 2047, 2048, 2049, 4097, 2_097_151, 2_097_152, 2_097_153];

#[derive(Clone, Copy, Default)]
struct Counts {
    stores: u64,
    sound: u64,
    calls: u64,
    answers: [u64; 12],
}

struct Driver {
    model: Model,
    state: Box<State>,
    lending: Lending,
    raw: Raw,
    kind: usize,
    accepted: bool,
    sound: bool,
    counts: [Counts; KINDS],
    calls: u64,
    planted: usize,
}

impl Driver {
    fn new(planted: usize) -> Self {
        let state = State::with_room(WIDE_TREES);
        let raw = Raw::of(&state);
        Driver {
            model: Model::new(0),
            lending: Lending::new(&raw),
            state,
            raw,
            kind: 0,
            accepted: false,
            sound: false,
            counts: [Counts::default(); KINDS],
            calls: 0,
            planted,
        }
    }

    /// The store that the next calls are lent.
    fn take(&mut self, kind: usize, raw: Raw) {
        raw.head_to(&mut self.state);
        raw.words_to(&mut self.state);
        self.raw = raw;
        self.kind = kind;
        self.accepted = domain::accepted(&self.state);
        self.sound = domain::sound(&self.state);
        self.counts[kind].stores += 1;
        self.counts[kind].sound += self.sound as u64;
    }

    /// The number that refuses a call before its routes, by the tests of domain.rs, which the second model does not use.
    fn refusal(&self, c: &Command) -> Option<u8> {
        match c {
            Command::Start(_) => (!self.accepted).then_some(10),
            _ if !self.sound => Some(1),
            Command::Get(ask) | Command::Put(ask) => domain::argument(&self.state, ask).or_else(|| {
                let count = self.state.classes[ask.class as usize].unwrap_or(0) as u64;
                ask.local.is_some_and(|l| l >= count).then_some(6)
            }),
            Command::Stats => (self.state.rows != 8).then_some(11),
            _ => None,
        }
    }

    /// One call on the store, by both. Err says what does not hold.
    fn call(&mut self, c: &Command) -> Result<(), String> {
        let refusal = self.refusal(c);
        let mut by_model = perform(c, &mut self.state, &mut self.model);
        self.lending.load(&self.raw);
        let mut by_port = self.lending.call(c);
        plant(self.planted, &mut by_port, &mut self.lending);
        plant_both(self.planted, &mut by_model, &mut self.state, &mut by_port, &mut self.lending);
        self.calls += 1;
        let counts = &mut self.counts[self.kind];
        counts.calls += 1;
        if let Some(n) = by_model.number() {
            counts.answers[n as usize] += 1;
        }
        let wrong = self.wrong(c, refusal, &by_model, &by_port);
        self.raw.words_to(&mut self.state);
        match wrong {
            None => Ok(()),
            Some(what) => Err(format!(
                "call {} (damage: {}): {c}: {what}\nsecond model: {by_model}port: {by_port}",
                self.calls,
                name(self.kind)
            )),
        }
    }

    /// What does not hold after a call.
    fn wrong(&self, c: &Command, refusal: Option<u8>, by_model: &Answer, by_port: &Answer) -> Option<&'static str> {
        if by_port != by_model {
            return Some("the answers differ");
        }
        if !ruled(refusal, by_port) {
            return Some("the tests of domain.rs ask for another answer");
        }
        if !self.lending.has_words_of(&self.state) {
            return Some("the words differ");
        }
        let may_change = matches!(by_port.number(), Some(0 | 7 | 9)) && *c != Command::Stats;
        if !may_change && !self.lending.unchanged(&self.raw) {
            return Some("a word is changed");
        }
        if !self.lending.guards_stand(&self.raw) {
            return Some("a word outside the lent ones, of the table, or of a row not to be filled, is changed");
        }
        None
    }
}

/// Whether an answer is the one of this refusal, or, where the call is not refused before its routes, one that can follow.
fn ruled(refusal: Option<u8>, answer: &Answer) -> bool {
    match (answer, refusal) {
        (Answer::Get(said), Some(number)) => *said == Said::Is(Got { number, ..Got::default() }),
        (Answer::Stats(said), Some(number)) => *said == Said::Is(Counted { number, ..Counted::default() }),
        (_, Some(number)) => answer.number() == Some(number),
        (Answer::Get(_), None) => matches!(answer.number(), Some(0 | 7)),
        (Answer::Put(_), None) => matches!(answer.number(), Some(0 | 8)),
        (_, None) => answer.number() == Some(0),
    }
}

/// Each kind of call on a store.
fn each_call(d: &mut Driver, r: &mut Random, sound: &State, kind: usize, raw: Raw) -> Result<(), String> {
    d.take(kind, raw);
    calls(r, sound).iter().try_for_each(|c| d.call(c))
}

/// Each kind of call on a sound store with one bit flipped; a flip's part is its kind of damage.
fn flipped(d: &mut Driver, r: &mut Random, sound: &State, raw: &mut Raw, kind: usize, bit: usize) -> Result<(), String> {
    let part = FLIPS[kind].1;
    raw.flip(part, bit);
    each_call(d, r, sound, kind, raw.clone())?;
    raw.flip(part, bit);
    Ok(())
}

/// Every single bit of a sound store flipped.
fn every_flip(d: &mut Driver, r: &mut Random, sound: &State) -> Result<(), String> {
    let mut raw = Raw::of(sound);
    let bits = FLIPS.map(|(_, part)| raw.bits(part));
    let flips = (0..FLIPS.len()).flat_map(|kind| (0..bits[kind]).map(move |bit| (kind, bit)));
    for (kind, bit) in flips {
        flipped(d, r, sound, &mut raw, kind, bit)?;
    }
    Ok(())
}

/// Some single bits of a sound store flipped.
fn some_flips(d: &mut Driver, r: &mut Random, sound: &State) -> Result<(), String> {
    let mut raw = Raw::of(sound);
    for kind in (0..SIZE_FLIPS).map(|i| i % FLIPS.len()) {
        let bit = r.below(raw.bits(FLIPS[kind].1) as u64) as usize;
        flipped(d, r, sound, &mut raw, kind, bit)?;
    }
    Ok(())
}

fn several_bits(r: &mut Random, raw: &mut Raw) {
    for _ in 0..2 + r.below(4) {
        let (_, part) = r.pick(&FLIPS);
        let bits = raw.bits(part) as u64;
        if bits > 0 {
            raw.flip(part, r.below(bits) as usize);
        }
    }
}

fn two_of_these(r: &mut Random, raw: &mut Raw) {
    for _ in 0..2 {
        let (_, damage) = DRAWN[r.below(DRAWN.len() as u64 - 1) as usize];
        damage(r, raw);
    }
}

fn drawn_stores(d: &mut Driver, r: &mut Random, sound: &State) -> Result<(), String> {
    for i in 0..DRAWN_STORES * DRAWN.len() {
        let kind = i % DRAWN.len();
        let mut raw = Raw::of(sound);
        DRAWN[kind].1(r, &mut raw);
        each_call(d, r, sound, FLIPS.len() + kind, raw)?;
    }
    Ok(())
}

/// Statistics with each number of lent rows, on a store as it is.
fn every_rows(d: &mut Driver, raw: &Raw) -> Result<(), String> {
    for rows in ROWS {
        d.take(LIMITS, Raw { rows, ..raw.clone() });
        d.call(&Command::Stats)?;
    }
    Ok(())
}

/// A sound state: every flip, damage that is drawn, every limit.
fn round(d: &mut Driver, r: &mut Random, sound: &State) -> Result<(), String> {
    assert!(domain::sound(sound));
    every_flip(d, r, sound)?;
    drawn_stores(d, r, sound)?;
    let raw = Raw::of(sound);
    every_rows(d, &raw)?;
    let mut broken = raw.clone();
    broken.flip(Part::Bitmap, 0);
    every_rows(d, &broken)?;
    d.take(LIMITS, raw);
    limits(sound).iter().try_for_each(|c| d.call(c))
}

/// A store of so many frames: starts, then on what they leave calls, some bits flipped, and a share of the arguments at
/// limits.
fn at_size(d: &mut Driver, r: &mut Random, frames: u64) -> Result<(), String> {
    let small = told(STATES[0]);
    let mut s = State::with_room(WIDE_TREES);
    (s.frames, s.default, s.classes, s.table) = (frames, small.default, small.classes, small.table);
    d.take(LIMITS, Raw::of(&s));
    d.call(&Command::Start(false))?;
    d.call(&Command::Start(true))?;
    perform(&Command::Start(true), &mut s, &mut Model::new(0));
    some_flips(d, r, &s)?;
    each_call(d, r, &s, LIMITS, Raw::of(&s))?;
    let all = limits(&s);
    (0..1000).try_for_each(|_| d.call(&r.pick(&all)))
}

fn run(d: &mut Driver, calls: u64, seed: u64) -> Result<(), String> {
    let mut r = Random(seed);
    SIZES.into_iter().try_for_each(|frames| at_size(d, &mut r, frames))?;
    STATES.into_iter().try_for_each(|text| round(d, &mut r, &told(text)))?;
    while d.calls < calls {
        let sound = played(&mut r);
        round(d, &mut r, &sound)?;
    }
    Ok(())
}

/// Whether a run reports each planted wrong answer.
fn every_planted() -> bool {
    let mut all = true;
    for (i, text) in PLANTED.iter().enumerate() {
        let mut d = Driver::new(i + 1);
        match run(&mut d, 0, 1) {
            Err(report) => println!("reported: {text}: {}", report.lines().next().unwrap_or("")),
            Ok(()) => {
                println!("not reported: {text}");
                all = false;
            }
        }
    }
    all
}

/// A row for each kind of damage: stores, those that are sound, calls, answers by number.
fn print_table(counts: &[Counts]) {
    print!("{:30} {:>7} {:>7} {:>8}", "damage", "stores", "sound", "calls");
    NAMES.iter().for_each(|name| print!(" {name:>10}"));
    println!();
    let mut sum = Counts::default();
    for (kind, c) in counts.iter().enumerate() {
        print_row(name(kind), c);
        sum.stores += c.stores;
        sum.sound += c.sound;
        sum.calls += c.calls;
        sum.answers.iter_mut().zip(c.answers).for_each(|(sum, n)| *sum += n);
    }
    print_row("all", &sum);
}

/// A row for each reason of Broken and Config that the second model knows. Whether every one was met.
fn print_reasons(counts: &[u64]) -> bool {
    let reasons = TEXTS.iter().zip(counts).filter(|(text, _)| text.starts_with("Broken:") || text.starts_with("start: Config"));
    let mut all = true;
    for (text, times) in reasons {
        println!("{times:>12}  {text}");
        all &= *times > 0;
    }
    all
}

fn print_row(name: &str, c: &Counts) {
    print!("{name:30} {:>7} {:>7} {:>8}", c.stores, c.sound, c.calls);
    c.answers.iter().for_each(|n| print!(" {n:>10}"));
    println!();
}

fn main() {
    let args: Vec<String> = std::env::args().skip(1).collect();
    if args == ["--planted"] {
        std::process::exit(!every_planted() as i32);
    }
    let numbers: Vec<u64> = args.iter().filter_map(|a| a.parse().ok()).collect();
    let [calls, seed] = numbers[..] else {
        eprintln!("damaged CALLS SEED, or damaged --planted");
        std::process::exit(1)
    };
    let begun = Instant::now();
    let mut d = Driver::new(0);
    if let Err(report) = run(&mut d, calls, seed) {
        println!("difference: seed {seed} {report}");
        std::process::exit(1)
    }
    print_table(&d.counts);
    if !print_reasons(&d.model.coverage.counts) {
        println!("a reason of Broken or Config was not met");
        std::process::exit(1)
    }
    let flips: u64 = d.counts[..FLIPS.len()].iter().map(|c| c.stores).sum();
    let sound: u64 = d.counts[..FLIPS.len()].iter().map(|c| c.sound).sum();
    println!(
        "{} calls from seed {seed}: no difference; {flips} stores with one bit flipped, {sound} of them sound; {:.1} s",
        d.calls,
        begun.elapsed().as_secs_f64()
    );
}
