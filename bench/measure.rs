//! Timing: the cases of a row are timed in alternating samples, port then Rust, and the best of each side counts.

use std::arch::x86_64::{_mm_clflush, _mm_mfence};
use std::hint::black_box;
use std::time::Instant;

use crate::port::Port;
use crate::rust::Rust;
use crate::side::{Call, Header, Report, Side, Table, Tally, Words};

const SAMPLES: usize = 40;
/// Seconds of one sample with all that belongs to it, about.
const SAMPLE: f64 = 0.0015;

/// Seconds of one call.
#[derive(Clone, Copy)]
pub struct Times {
    pub port: f64,
    pub rust: f64,
}

impl Times {
    /// Before anything was timed.
    pub const NONE: Self = Self { port: f64::MAX, rust: f64::MAX };
    /// The better one of each side.
    pub fn best(self, other: Self) -> Self {
        Self { port: self.port.min(other.port), rust: self.rust.min(other.rust) }
    }
    pub fn ratio(self) -> f64 {
        self.port / self.rust
    }
}

/// What reading the clock twice takes, at best.
fn clock() -> f64 {
    (0..1000).map(|_| Instant::now().elapsed().as_secs_f64()).fold(f64::MAX, f64::min)
}

/// How many rounds a sample has, by what ten of each side take.
fn rounds(port: &mut impl FnMut(usize) -> f64, rust: &mut impl FnMut(usize) -> f64) -> usize {
    let t = Instant::now();
    port(10);
    rust(10);
    let round = t.elapsed().as_secs_f64() / 20.0;
    ((SAMPLE / round) as usize).clamp(1, 100_000)
}

/// Two functions that answer the same and need no words set.
pub fn both(mut port: impl FnMut() -> usize, mut rust: impl FnMut() -> usize) -> Times {
    assert_eq!(port(), rust(), "the two sides answer differently");
    fn timed(f: &mut impl FnMut() -> usize, repeat: usize) -> f64 {
        let repeat = 16 * repeat;
        let t = Instant::now();
        for _ in 0..repeat {
            black_box(f());
        }
        t.elapsed().as_secs_f64() / repeat as f64
    }
    let n = rounds(&mut |n| timed(&mut port, n), &mut |n| timed(&mut rust, n));
    let mut t = Times::NONE;
    for _ in 0..SAMPLES {
        t = t.best(Times { port: timed(&mut port, n), rust: timed(&mut rust, n) });
    }
    t
}

/// Takes words out of all caches.
pub fn flush<T>(words: &[T]) {
    let (at, bytes) = (words.as_ptr().cast::<u8>(), size_of_val(words));
    for i in (0..bytes).step_by(64).chain(bytes.checked_sub(1)) {
        unsafe { _mm_clflush(at.add(i)) };
    }
}

/// Calls that are made one after the other from these words. `want` is the number that every call has to end in; `cold`: the
/// words are in no cache when the calls begin.
pub struct Case {
    pub h: Header,
    pub table: Table,
    pub words: Words,
    pub calls: Vec<Call>,
    pub want: usize,
    pub cold: bool,
}

/// Seconds of one of the case's calls, made on each of the sides, the words set before each round.
fn timed<S: Side>(sides: &mut [S], case: &Case, repeat: usize, clock: f64) -> f64 {
    let mut sum = 0.0;
    for _ in 0..repeat {
        for s in sides.iter_mut() {
            s.set(&case.words);
            if case.cold {
                s.flush();
            }
        }
        unsafe { _mm_mfence() };
        let t = Instant::now();
        for s in sides.iter_mut() {
            for &c in &case.calls {
                black_box(s.call(black_box(c)));
            }
        }
        sum += t.elapsed().as_secs_f64() - clock;
    }
    sum / (repeat * sides.len() * case.calls.len()) as f64
}

/// A case with its sides: more than one of each where the calls are too short for the clock.
struct Ready<'a> {
    case: &'a Case,
    ports: Vec<Port>,
    rusts: Vec<Rust>,
}

impl<'a> Ready<'a> {
    /// Compares each answer and all words after each call.
    fn new(case: &'a Case) -> Self {
        let count = (32 / (case.h.trees() * case.calls.len())).max(1);
        let mut ports: Vec<Port> = (0..count).map(|_| Side::new(case.h, case.table)).collect();
        let mut rusts: Vec<Rust> = (0..count).map(|_| Side::new(case.h, case.table)).collect();
        agree(&mut ports[0], &mut rusts[0], &case.words, &case.calls, case.want);
        Self { case, ports, rusts }
    }
    fn rounds(&mut self, clock: f64) -> usize {
        rounds(&mut |n| timed(&mut self.ports, self.case, n, clock), &mut |n| timed(&mut self.rusts, self.case, n, clock))
    }
    fn sample(&mut self, n: usize, clock: f64) -> Times {
        Times { port: timed(&mut self.ports, self.case, n, clock), rust: timed(&mut self.rusts, self.case, n, clock) }
    }
    fn same_words(&self) -> bool {
        self.ports.iter().zip(&self.rusts).all(|(p, r)| p.words() == r.words())
    }
}

/// Times the cases of a row, over the same table: sample by sample in turn, so that a slow time of the machine meets all of them.
/// Before that each answer and all words after each call are compared, and the words again when all is timed.
pub fn row(cases: &[&Case]) -> Vec<Times> {
    let clock = clock();
    let mut all: Vec<Ready> = cases.iter().map(|c| Ready::new(c)).collect();
    let repeat: Vec<usize> = all.iter_mut().map(|r| r.rounds(clock)).collect();
    let mut times = vec![Times::NONE; all.len()];
    for _ in 0..SAMPLES {
        for ((r, &n), t) in all.iter_mut().zip(&repeat).zip(&mut times) {
            *t = t.best(r.sample(n, clock));
        }
    }
    assert!(all.iter().all(Ready::same_words), "the two sides left different words");
    times
}

/// What a side's statistics tell, on rows that hold numbers which no statistics give.
fn told(side: &mut impl Side) -> (Report, [Tally; 8]) {
    let mut rows = [Tally { free: usize::MAX, alloc: usize::MAX, used: usize::MAX }; 8];
    (side.statistics(&mut rows), rows)
}

/// The two sides answer each call alike, tell the same statistics and leave the same words.
pub fn agree(p: &mut impl Side, r: &mut impl Side, words: &Words, calls: &[Call], want: usize) {
    p.set(words);
    r.set(words);
    for &c in calls {
        let (a, b) = (p.call(c), r.call(c));
        assert!(a == b && a.number == want, "{c:?}: port {a:?}, Rust {b:?}, wanted {want}");
        assert_eq!(told(p), told(r), "statistics after {c:?}");
        assert!(p.words() == r.words(), "words after {c:?}");
    }
}
