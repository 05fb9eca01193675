//! Stack high-water: a call is made on a stack of its own that was painted before; the lowest word that lost the paint
//! tells how deep it went. The frame of the caller here, with the call's arguments and its answer, is counted in.

use crate::calls::{TREES, header, reserved};
use crate::port::Port;
use crate::side::{Ask, Call, Header, Reply, Side, Table, Words, table, table_of_eight};
use crate::worst::{many_locals, one_frame};

const WORDS: usize = 8192;
const PAINT: u64 = 0x5a17_c0de_90a5_7e11;

// Calls f(run) on another stack.
std::arch::global_asm!(
    ".globl bench_on_stack",
    "bench_on_stack:",
    "push rbp",
    "mov rbp, rsp",
    "mov rsp, rdi",
    "mov rdi, rdx",
    "call rsi",
    "mov rsp, rbp",
    "pop rbp",
    "ret",
);

#[allow(improper_ctypes)]
unsafe extern "C" {
    fn bench_on_stack(top: *mut u64, f: extern "C" fn(&mut Run), run: &mut Run);
}

struct Run {
    port: Port,
    call: Call,
    reply: Reply,
}

extern "C" fn perform(run: &mut Run) {
    run.reply = run.port.call(run.call);
}

/// The kinds of call that are told apart.
pub const KINDS: [&str; 8] =
    ["start", "get, unnamed, no local", "get, unnamed, local", "get, named, no local", "get, named, local", "put", "drain", "statistics"];

fn kind(call: Call) -> usize {
    match call {
        Call::Start(_) | Call::New(_) => 0,
        Call::Get(frame, q) => 1 + 2 * frame.is_some() as usize + q.local.is_some() as usize,
        Call::Put(..) => 5,
        Call::Drain => 6,
        _ => 7,
    }
}

/// The deepest of the calls of a kind, how many calls that was over, and the deepest itself with its answer.
#[derive(Clone, Default)]
pub struct Deepest {
    pub bytes: usize,
    pub calls: usize,
    pub which: String,
}

pub struct Stack {
    words: Vec<u64>,
    pub deepest: Vec<Deepest>,
}

impl Stack {
    /// Bytes that f takes of the stack: it begins at a multiple of 16.
    fn depth(&mut self, f: extern "C" fn(&mut Run), run: &mut Run) -> usize {
        self.words.fill(PAINT);
        let end = self.words.as_mut_ptr_range().end as usize / 16 * 16;
        unsafe { bench_on_stack(end as *mut u64, f, run) };
        let low = self.words.iter().position(|&w| w != PAINT).expect("a call writes its return address");
        assert!(low > 64, "the stack of the bench is too small");
        end - &raw const self.words[low] as usize
    }

    fn call(&mut self, run: &mut Run, call: Call) -> Reply {
        run.call = call;
        let bytes = self.depth(perform, run);
        let d = &mut self.deepest[kind(call)];
        d.calls += 1;
        if bytes > d.bytes {
            (d.bytes, d.which) = (bytes, format!("trees {}, {}: {}", run.port.trees(), told(call), run.reply.number));
        }
        run.reply
    }

    /// Every kind of call at every order, from these words.
    fn all(&mut self, h: Header, table: Table, words: &Words) {
        let mut run = Run { port: Port::new(h, table), call: Call::Drain, reply: Reply::default() };
        let named = [None, Some(0), Some(h.frames / 2 / 2048 * 2048)];
        let mut calls = vec![Call::Drain, Call::Statistics, Call::Start(true), Call::Start(false)];
        for order in 0..12 {
            for class in 0..2 {
                for local in [None, Some(0)] {
                    let q = Ask { order, class, local };
                    calls.extend(named.map(|frame| Call::Get(frame, q)));
                    calls.push(Call::Put(0, q));
                }
            }
        }
        for call in calls {
            run.port.set(words);
            self.call(&mut run, call);
        }
    }

    /// So many calls drawn at random, one after the other, that fill and empty a memory of few trees.
    fn drawn(&mut self, h: Header, table: Table, count: usize, random: &mut Random) {
        let mut run = Run { port: Port::new(h, table), call: Call::Drain, reply: Reply::default() };
        let mut held: Vec<(usize, usize)> = vec![];
        self.call(&mut run, Call::Start(true));
        for _ in 0..count {
            let class = random.below(8);
            let locals = (h.places[class] as usize).saturating_sub(1);
            let local = (locals > 0 && random.below(3) > 0).then(|| random.below(locals.max(1)));
            let q = Ask { order: random.below(12).min(random.below(12)), class, local };
            match random.below(100) {
                0 => drop(self.call(&mut run, Call::Drain)),
                1 => drop(self.call(&mut run, Call::Statistics)),
                r if r < 60 || held.is_empty() => {
                    let frame = (random.below(3) == 0).then(|| random.below(h.frames) >> q.order << q.order);
                    let a = self.call(&mut run, Call::Get(frame, q));
                    if a.number == 0 {
                        held.push((a.frame, q.order));
                    }
                }
                _ => {
                    let (frame, order) = held.swap_remove(random.below(held.len()));
                    self.call(&mut run, Call::Put(frame, Ask { order, ..q }));
                }
            }
        }
    }
}

fn told(call: Call) -> String {
    match call {
        Call::Get(_, q) | Call::Put(_, q) => format!("order {}, class {}", q.order, q.class),
        Call::Start(free) | Call::New(free) => (if free { "all free" } else { "all held" }).into(),
        _ => "no arguments".into(),
    }
}

struct Random(u64);
impl Random {
    fn below(&mut self, n: usize) -> usize {
        self.0 ^= self.0 << 13;
        self.0 ^= self.0 >> 7;
        self.0 ^= self.0 << 17;
        (self.0 >> 11) as usize % n
    }
}

/// A caller of known depth, to try the measure.
extern "C" fn known(run: &mut Run) {
    let mut room = [0u8; 3000];
    std::hint::black_box(&mut room);
    run.reply = Reply::of(room[0] as usize);
}

pub fn run() -> Vec<Deepest> {
    let mut s = Stack { words: vec![0; WORDS], deepest: vec![Deepest::default(); KINDS.len()] };
    let mut run = Run { port: Port::new(header(1), table()), call: Call::Drain, reply: Reply::default() };
    assert!((3000..3200).contains(&s.depth(known, &mut run)), "the measure of the stack is wrong");
    for n in TREES {
        s.all(header(n), table(), &reserved(n));
        let (h, words) = one_frame(n);
        s.all(h, table(), &words);
        for free in [2048, 0] {
            let (h, words) = many_locals(n, free);
            s.all(h, table_of_eight(), &words);
        }
    }
    let mut random = Random(0x9E3779B97F4A7C15);
    for frames in [1, 2048, 3 * 2048 + 7, 8 * 2048, 33 * 2048] {
        s.drawn(Header { frames, ..header(8) }, table(), 5000, &mut random);
        for places in [[33; 8], [2; 8], [1, 2, 3, 4, 5, 6, 7, 8]] {
            s.drawn(Header { frames, default: 7, places }, table_of_eight(), 5000, &mut random);
        }
    }
    s.deepest
}
