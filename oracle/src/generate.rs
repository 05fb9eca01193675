//! The generator of call sequences, by seed: headers, tables, states and calls of every kind.

use crate::engine::{Ask, Said};
use crate::line::{Answer, Command};
use crate::state::{Pair, State};

/// Where commands go; it answers as the second model does.
pub trait Sink {
    fn send(&mut self, c: Command) -> Answer;
    fn state(&self) -> &State;
}

/// SplitMix64.
pub struct Random(pub u64);
impl Random {
    pub fn next(&mut self) -> u64 {
        self.0 = self.0.wrapping_add(0x9e3779b97f4a7c15);
        let z = (self.0 ^ self.0 >> 30).wrapping_mul(0xbf58476d1ce4e5b9);
        let z = (z ^ z >> 27).wrapping_mul(0x94d049bb133111eb);
        z ^ z >> 31
    }
    /// Below `n`, which is not 0.
    pub fn below(&mut self, n: u64) -> u64 {
        self.next() % n
    }
    pub fn chance(&mut self, percent: u64) -> bool {
        self.below(100) < percent
    }
    pub fn pick<T: Copy>(&mut self, from: &[T]) -> T {
        from[self.below(from.len() as u64) as usize]
    }
}

/// The trees of a sequence's header.
#[derive(Clone, Copy, PartialEq, Eq)]
pub enum Sizes {
    /// 1 to 3.
    Few,
    /// 1 to 200, what the line form has room for.
    Usual,
    /// 201 to 1,024.
    Wide,
}

#[derive(Clone, Copy)]
pub struct Options {
    pub sizes: Sizes,
    /// Calls that only the rules answer too: damaged states, locals out of range, and the like.
    pub beyond: bool,
    /// Damage in one call of this many, where `beyond`.
    pub damage: u64,
    /// Of a thousand calls so many have arguments meant to be refused.
    pub refused: u64,
    /// Short sequences and few words a state, for lists kept as text.
    pub brief: bool,
}

struct Scenario<'a, S: Sink> {
    sink: &'a mut S,
    r: Random,
    o: Options,
    n: usize,
    classes: Vec<usize>,
    /// Blocks got and not put: frame, order, class, local.
    held: Vec<(u64, u64, u64, Option<u64>)>,
    /// How large blocks are, how many gets against puts, how often a name, how often a local.
    big: u64,
    gets: u64,
    names: u64,
    locals: u64,
}

/// One sequence; it sets the whole header, so that it stands by itself.
pub fn scenario<S: Sink>(sink: &mut S, seed: u64, o: Options) {
    let mut x = Scenario {
        sink,
        r: Random(seed),
        o,
        n: 0,
        classes: Vec::new(),
        held: Vec::new(),
        big: 0,
        gets: 0,
        names: 0,
        locals: 0,
    };
    x.header();
    x.begin();
    x.calls();
}

impl<S: Sink> Scenario<'_, S> {
    /// Sends a set-up line where it changes something.
    fn set(&mut self, c: Command) {
        let s = self.sink.state();
        let same = match c {
            Command::Frames(v) => s.frames == v,
            Command::Default(d) => s.default == d,
            Command::Class(c, k) => s.classes[c] == k,
            Command::Pair(r, t, p) => s.table[r][t] == p,
            Command::Lend(l) => s.lend == l,
            Command::Rows(r) => s.rows == r,
            Command::Entry(i, w) => s.trees[i] == w,
            Command::Local(i, w) => s.locals[i] == w,
            Command::Word(i, w) => s.bitmap[i] == w,
            Command::Fill(from, count, w) => s.bitmap[from..from + count].iter().all(|&v| v == w),
            _ => false,
        };
        if !same {
            self.sink.send(c);
        }
    }

    fn header(&mut self) {
        let r = &mut self.r;
        self.n = match self.o.sizes {
            Sizes::Few => 1 + r.below(3) as usize,
            Sizes::Usual => usual_trees(r),
            Sizes::Wide => wide_trees(r),
        };
        if self.o.brief && self.n > 100 && r.chance(70) {
            self.n = 80 + r.below(20) as usize;
        }
        let n = self.n as u64;
        let frames = match r.below(8) {
            0..4 => 2048 * n,
            4 => 2048 * (n - 1) + 1,
            5 => 2048 * (n - 1) + 64 * r.below(32) + 1 + r.below(64).min(62),
            6 => 2048 * n - 1,
            _ => 2048 * (n - 1) + 1 + r.below(2048),
        };
        let few = [0, 1, 2, 3, 4, n.saturating_sub(1), n, n + 1, 32, 7];
        let count = |r: &mut Random| (if r.chance(60) { 1 + r.below(4) } else if r.chance(25) { 0 } else { r.pick(&few) }).min(32) as u8;
        let mut classes = [None; 8];
        let mut table = [[Pair::default(); 8]; 8];
        let mut default;
        if r.chance(35) {
            // Table T.
            classes[0] = Some(count(r));
            classes[1] = Some(count(r));
            table[0][0] = Pair { kind: 3, cut: 0, low: 0, high: 255 };
            table[1][1] = table[0][0];
            table[0][1].kind = 2;
            table[1][0].kind = 1;
            default = 1;
        } else {
            loop {
                classes = [None; 8];
                let many = if r.chance(60) { 1 + r.below(4) } else { 1 + r.below(8) } as usize;
                while classes.iter().flatten().count() < many {
                    classes[r.below(8) as usize] = Some(count(r));
                }
                let on: Vec<usize> = (0..8).filter(|&c| classes[c].is_some()).collect();
                default = r.pick(&on);
                if let Some(t) = random_table(r, &on, default) {
                    table = t;
                    break;
                }
            }
        }
        self.classes = (0..8).filter(|&c| classes[c].is_some()).collect();
        self.set(Command::Lend([None; 3]));
        self.set(Command::Rows(8));
        for c in 0..8 {
            self.set(Command::Class(c, classes[c]));
        }
        for o in 0..8 {
            for e in 0..8 {
                self.set(Command::Pair(o, e, table[o][e]));
            }
        }
        self.set(Command::Default(default as u8));
        self.set(Command::Frames(frames));
        self.big = self.r.pick(&[0, 5, 20, 50, 90]);
        self.gets = self.r.pick(&[30, 50, 55, 60, 75, 95]);
        self.names = self.r.pick(&[0, 5, 20, 60]);
        self.locals = self.r.pick(&[0, 50, 80, 100]);
    }

    fn begin(&mut self) {
        while self.r.chance(35) {
            self.wrong_start();
        }
        if self.r.chance(6) && self.n < 40 {
            // A start must write every word: begin with dirty ones.
            let (t, l, _) = self.sink.state().lent();
            let (i, w) = (self.r.below(t as u64) as usize, self.r.next());
            self.set(Command::Entry(i, w as u32));
            self.set(Command::Word(32 * i + 5, w));
            if l > 0 {
                let j = self.r.below(l as u64) as usize;
                self.set(Command::Local(j, w));
            }
        }
        match self.r.below(10) {
            0..4 => drop(self.sink.send(Command::Start(true))),
            4 => drop(self.sink.send(Command::Start(false))),
            _ => self.made_state(),
        }
    }

    /// A start that is refused, or that is accepted by chance; the header is set right after it.
    fn wrong_start(&mut self) {
        let s = self.sink.state();
        let (frames, default, classes, table) = (s.frames, s.default, s.classes, s.table);
        let c = self.damage_header();
        self.sink.send(c);
        let free = self.r.chance(70);
        self.sink.send(Command::Start(free));
        self.repair_header(frames, default, classes, table);
    }

    fn repair_header(&mut self, frames: u64, default: u8, classes: [Option<u8>; 8], table: [[Pair; 8]; 8]) {
        self.set(Command::Frames(frames));
        self.set(Command::Default(default));
        self.set(Command::Lend([None; 3]));
        self.set(Command::Rows(8));
        for c in 0..8 {
            self.set(Command::Class(c, classes[c]));
            for e in 0..8 {
                self.set(Command::Pair(c, e, table[c][e]));
            }
        }
    }

    /// A set-up line that makes the header or table wrong, or by chance another right one.
    fn damage_header(&mut self) -> Command {
        let s = self.sink.state();
        let (t, l, b) = s.lent();
        let room = s.room;
        let (frames, d, table) = (s.frames, s.default as usize, s.table);
        let off = |r: &mut Random, v: usize, most: usize| Some(if r.chance(50) { v.saturating_sub(1) } else { (v + 1).min(most) });
        let r = &mut self.r;
        let c = r.pick(&self.classes);
        let e = r.pick(&self.classes);
        match r.below(14) {
            0 => Command::Frames(r.pick(&[0, 2_097_152, 2_097_153, u64::MAX, 1 << 40, frames + 2048, frames + 1])),
            1 => Command::Class(c, r.pick(&[Some(33), Some(200), Some(64), None])),
            2 => Command::Class(r.below(8) as usize, r.pick(&[Some(0), Some(1), Some(32)])),
            3 => Command::Default(r.pick(&[8, 200, 7, 6, 5, 0, 1, 2, 54])),
            4 => Command::Default(r.pick(&self.classes) as u8),
            5 => Command::Lend([off(r, t, room), None, None]),
            6 => Command::Lend([None, off(r, l, 256), None]),
            7 => Command::Lend([None, None, off(r, b, 32 * room)]),
            8 => Command::Pair(c, e, Pair { kind: 3, cut: r.pick(&[2049, 16383, 4096, 2048]), low: 1, high: 2 }),
            9 => Command::Pair(
                c,
                e,
                Pair {
                    kind: r.below(3) as u8,
                    cut: r.pick(&[0, 1]),
                    low: r.pick(&[0, 1]),
                    high: r.pick(&[0, 1]),
                },
            ),
            10 => Command::Pair(r.below(8) as usize, r.below(8) as usize, Pair { kind: r.below(4) as u8, ..Pair::default() }),
            11 => Command::Pair(c, c, Pair { kind: r.below(3) as u8, ..Pair::default() }),
            12 => Command::Pair(c, d, Pair { kind: r.below(4) as u8, ..Pair::default() }),
            _ => {
                let kind = if table[c][e].kind == 2 { 1 } else { 2 };
                Command::Pair(c, e, Pair { kind, ..Pair::default() })
            }
        }
    }

    /// A state that passes the standing rules, whether or not play reaches it.
    fn made_state(&mut self) {
        let s = self.sink.state();
        let (frames, classes, table) = (s.frames, s.classes, s.table);
        let n = self.n;
        let style = self.r.below(9);
        let density = self.r.below(65);
        let mut entries: Vec<(u64, usize, bool)> = Vec::new();
        let shared = self.r.next();
        let one_class = self.r.chance(40).then(|| self.r.pick(&self.classes));
        for t in 0..n {
            let pattern = if style < 8 { style } else { self.r.below(8) };
            let r = &mut self.r;
            let mut words = [0u64; 32];
            match pattern {
                0 => words.fill(0),
                1 => words.fill(u64::MAX),
                2 => words.fill(r.pick(&[0x5555_5555_5555_5555, 1, 1 << 63, 0x0f0f_0f0f_0f0f_0f0f, !1, u64::MAX >> 1])),
                3 => {
                    // One free block of 512.
                    words.fill(u64::MAX);
                    let h = 8 * r.below(4) as usize;
                    words[h..h + 8].fill(0);
                }
                4 => {
                    // A few free frames.
                    words.fill(u64::MAX);
                    for _ in 0..1 + r.below(3) {
                        words[r.below(32) as usize] &= !(r.pick(&[1, 3, 0xf, 0xff, u64::MAX]) << (8 * r.below(8)));
                    }
                }
                5 => {
                    // A few held frames.
                    for _ in 0..1 + r.below(3) {
                        words[r.below(32) as usize] |= r.pick(&[1, 3, 0xf, u64::MAX]);
                    }
                }
                6 if !self.o.brief => {
                    for w in &mut words {
                        *w = (0..64).fold(0, |w, _| w << 1 | (r.below(64) < density) as u64);
                    }
                }
                _ => {
                    let w = if r.chance(50) { shared } else { 0 };
                    let at = r.below(33) as usize;
                    words[..at].fill(u64::MAX);
                    words[at..].fill(w);
                }
            }
            for (i, w) in words.iter_mut().enumerate() {
                let first = (2048 * t + 64 * i) as u64;
                let below = frames.saturating_sub(first).min(64);
                if below < 64 {
                    *w |= u64::MAX << below;
                }
            }
            let usual = {
                let mut sorted = words;
                sorted.sort_unstable();
                sorted[16]
            };
            self.set(Command::Fill(32 * t, 32, usual));
            for (i, w) in words.iter().enumerate() {
                self.set(Command::Word(32 * t + i, *w));
            }
            let clear = words.iter().map(|w| w.count_zeros() as u64).sum();
            let class = one_class.unwrap_or_else(|| self.r.pick(&self.classes));
            entries.push((clear, class, false));
        }
        let hold = self.r.pick(&[0, 10, 50, 100]);
        let mut place = 0;
        for c in 0..8 {
            for _ in 0..classes[c].unwrap_or(0) {
                let t = self.r.below(n as u64) as usize;
                let (clear, class, reserved) = entries[t];
                let mut word = 0;
                if self.r.chance(hold) && !reserved && table[c][class].kind >= 2 && place < 256 {
                    let r = &mut self.r;
                    let free = match r.below(6) {
                        0 => 0,
                        1 => clear,
                        2 => clear.min(r.below(4)),
                        3 => clear - clear.min(r.below(4)),
                        4 => clear.min(r.pick(&[1, 2, 64, 128, 512, 1024])),
                        _ => r.below(clear + 1),
                    };
                    let row = 32 * t as u64 + r.below(32);
                    word = 1 << 63 | free << 44 | row;
                    entries[t] = (clear - free, class, true);
                }
                if place < 256 {
                    self.set(Command::Local(place, word));
                }
                place += 1;
            }
        }
        for (t, (free, class, reserved)) in entries.into_iter().enumerate() {
            self.set(Command::Entry(t, free as u32 | (reserved as u32) << 28 | (class as u32) << 29));
        }
    }

    fn calls(&mut self) {
        let most = match (self.o.brief, self.n) {
            (true, _) if self.o.damage < 10 => 5 + self.r.below(40),
            (true, 0..40) => 20 + self.r.below(100),
            (true, _) => 10 + self.r.below(40),
            (false, 0..9) => 30 + self.r.below(500),
            (false, 9..40) => 30 + self.r.below(500),
            (false, _) => 30 + self.r.below(300),
        };
        let phase = 10 + self.r.below(most);
        for i in 0..most {
            if i % phase == phase - 1 {
                // Another phase: run memory out, give it back, or mix.
                match self.r.below(4) {
                    0 => (self.gets, self.big) = (97, 60),
                    1 => (self.gets, self.big) = (20, 20),
                    2 => (self.gets, self.names) = (60, 50),
                    _ => (self.gets, self.big) = (60, 10),
                }
                if self.r.chance(30) {
                    self.sink.send(Command::Drain);
                }
            }
            self.call();
        }
    }

    fn ask(&mut self, names: u64) -> Ask {
        let class = self.r.pick(&self.classes);
        let s = self.sink.state();
        let count = s.classes[class].unwrap_or(0) as u64;
        let frames = s.frames;
        let local = (count > 0 && self.r.chance(self.locals)).then(|| self.r.below(count));
        let order = if self.r.chance(self.big) {
            self.r.pick(&[9, 9, 10, 11, 8, 7])
        } else if self.r.chance(50) {
            0
        } else {
            self.r.below(12)
        };
        let frame = self.r.chance(names).then(|| {
            let size = 1u64 << order;
            let s = self.sink.state();
            let near = match self.r.below(4) {
                // In a tree that a local holds.
                0 => {
                    let words: Vec<u64> = s.local_words().iter().copied().filter(|w| w >> 63 == 1).collect();
                    if words.is_empty() { self.r.below(frames) } else { (self.r.pick(&words) & 0xfff_ffff_ffff) * 64 }
                }
                1 => self.held.last().map_or(0, |h| h.0 + (1 << h.1)),
                _ => self.r.below(frames),
            };
            near.min(frames - 1) / size * size
        });
        Ask { frame, order, class: class as u64, local }
    }

    fn call(&mut self) {
        let roll = self.r.below(1000);
        if self.o.beyond && self.r.below(self.o.damage) == 0 {
            return self.damaged();
        }
        match roll {
            0..12 => drop(self.sink.send(Command::Stats)),
            12..20 => drop(self.sink.send(Command::Drain)),
            20.. if roll < 20 + self.o.refused => self.refusal(),
            _ if self.r.chance(self.gets) => self.get(),
            _ => self.put(),
        }
    }

    fn get(&mut self) {
        let names = self.names;
        let mut ask = self.ask(names);
        if ask.frame.is_none() && (1 << ask.order) > self.sink.state().frames && self.r.chance(90) {
            ask.order = 0;
        }
        if let Answer::Get(Said::Is(got)) = self.sink.send(Command::Get(ask))
            && got.number == 0
        {
            self.held.push((got.frame, ask.order, ask.class, ask.local));
        }
    }

    fn put(&mut self) {
        let mut ask = self.ask(100);
        if !self.held.is_empty() && self.r.chance(75) {
            let i = self.r.below(self.held.len() as u64) as usize;
            let (frame, order, class, local) = self.held.swap_remove(i);
            ask.frame = Some(frame);
            ask.order = order;
            if order > 0 && self.r.chance(10) {
                // A part, or a larger block.
                ask.order = self.r.below(12);
                let size = 1 << ask.order;
                ask.frame = Some(frame / size * size);
            }
            if self.r.chance(60) {
                (ask.class, ask.local) = (class, local);
            }
        } else if self.r.chance(70) {
            // A held frame or block, however it came to be held.
            let s = self.sink.state();
            let t = self.r.below(self.n as u64) as usize;
            let w = 32 * t + self.r.below(32) as usize;
            let word = s.bitmap[w];
            if word == u64::MAX && self.r.chance(60) {
                ask.order = self.r.pick(&[0, 3, 6, 6, 7, 9, 10, 11]);
                ask.frame = Some(64 * w as u64 >> ask.order << ask.order);
            } else if word != 0 {
                ask.order = 0;
                ask.frame = Some(64 * w as u64 + word.trailing_zeros() as u64);
            }
        }
        self.sink.send(Command::Put(ask));
    }

    /// Arguments that are refused.
    fn refusal(&mut self) {
        let mut ask = self.ask(70);
        let frames = self.sink.state().frames;
        let unconfigured: Vec<u64> = (0..8).filter(|&c| self.sink.state().classes[c as usize].is_none()).collect();
        let count = self.sink.state().classes[ask.class as usize].unwrap_or(0) as u64;
        for _ in 0..1 + self.r.below(2) {
            match self.r.below(if self.o.beyond { 11 } else { 7 }) {
                0 => ask.order = self.r.pick(&[12, 13, 63, 64, 65, u64::MAX, 1 << 32]),
                1 => {
                    ask.order = self.r.below(12);
                    ask.frame = Some((frames >> ask.order) + 1 << ask.order);
                }
                2 => {
                    ask.order = 11;
                    ask.frame = Some(frames);
                }
                3 => {
                    ask.order = 1 + self.r.below(11);
                    ask.frame = Some(1 + self.r.below(frames));
                }
                4 => {
                    ask.order = 11 - self.r.below(2);
                    ask.frame = None;
                }
                5 | 6 if !unconfigured.is_empty() => {
                    ask.class = self.r.pick(&unconfigured);
                    if !self.o.beyond {
                        ask.local = self.r.pick(&[None, Some(0), Some(40)]);
                    }
                }
                7 => ask.class = self.r.pick(&[8, 9, 255, 256, 1 << 32, u64::MAX]),
                8 | 9 => ask.local = Some(self.r.pick(&[count, count + 1, 32, 256, 1 << 32, u64::MAX])),
                10 => {
                    ask.order = self.r.below(12);
                    ask.frame = Some((u64::MAX >> ask.order << ask.order).wrapping_sub(self.r.pick(&[0, 0, 1])));
                }
                _ => {}
            }
        }
        if self.r.chance(50) || ask.frame.is_none() {
            self.sink.send(Command::Get(ask));
        } else {
            self.sink.send(Command::Put(ask));
        }
    }

    /// A call on a state with one thing wrong in it, which is set right after.
    fn damaged(&mut self) {
        let names = self.names;
        let mut ask = self.ask(names.max(30));
        let s = self.sink.state();
        let (frames, default, classes, table) = (s.frames, s.default, s.classes, s.table);
        let (t, l, b) = s.lent();
        let kind = self.r.below(12);
        let mut back = Vec::new();
        match kind {
            0..2 => {
                let c = self.damage_header();
                self.sink.send(c);
            }
            2 => drop(self.sink.send(Command::Rows(self.r.pick(&[0, 7, 9, 16])))),
            3..6 => {
                let i = self.r.below(t as u64) as usize;
                let w = self.sink.state().trees[i];
                let r = &mut self.r;
                let new = match r.below(6) {
                    0 => w ^ 1 << 28,
                    1 => w ^ 1 << 29 + r.below(3),
                    2 => w ^ 1 << r.below(12),
                    3 => w & !0xfff_ffff | 2049,
                    4 => w.wrapping_add(1),
                    _ => r.next() as u32,
                };
                back.push(Command::Entry(i, w));
                self.sink.send(Command::Entry(i, new));
            }
            6..10 if l > 0 => {
                let i = self.r.below(l as u64) as usize;
                let j = self.r.below(l as u64) as usize;
                let (w, other) = (self.sink.state().locals[i], self.sink.state().locals[j]);
                let r = &mut self.r;
                let new = match r.below(8) {
                    0 => w & !(1 << 63),
                    1 => w ^ 1 << 44 + r.below(12),
                    2 => w ^ 1 << r.below(10),
                    3 => w | 1 << 63,
                    4 => 0,
                    5 => other,
                    6 => w & !0xfff_ffff_ffff | 32 * t as u64,
                    _ => r.next(),
                };
                back.push(Command::Local(i, w));
                self.sink.send(Command::Local(i, new));
            }
            _ => {
                let i = if self.r.chance(50) { b - 1 } else { self.r.below(b as u64) as usize };
                let w = self.sink.state().bitmap[i];
                let r = &mut self.r;
                let new = match r.below(3) {
                    0 => w ^ 1 << r.below(64),
                    1 => w.rotate_left(1),
                    _ => !w,
                };
                back.push(Command::Word(i, w));
                self.sink.send(Command::Word(i, new));
            }
        }
        let answer = match self.r.below(if kind == 2 { 3 } else { 6 }) {
            0..2 => self.sink.send(Command::Stats),
            2 => self.sink.send(Command::Drain),
            3 => {
                ask.frame = ask.frame.or(Some(0));
                self.sink.send(Command::Put(ask))
            }
            4 if self.r.chance(30) => {
                ask.order = 12;
                self.sink.send(Command::Get(ask))
            }
            _ => self.sink.send(Command::Get(ask)),
        };
        let refused = match answer {
            Answer::Get(Said::Is(g)) => g.number == 1,
            Answer::Put(Said::Is(n)) | Answer::Drain(Said::Is(n)) => n == 1,
            Answer::Stats(Said::Is(c)) => c.number != 0,
            _ => true,
        };
        // Damage that leaves a sound state is no damage: play goes on from it. The header is set right always.
        if refused {
            for c in back {
                self.sink.send(c);
            }
        }
        self.repair_header(frames, default, classes, table);
        if !refused {
            self.begin_if_broken();
        }
    }

    /// After a header that was sound in another way the words may not fit the old one.
    fn begin_if_broken(&mut self) {
        if let Answer::Stats(Said::Is(c)) = self.sink.send(Command::Stats)
            && c.number != 0
        {
            self.sink.send(Command::Start(true));
            self.held.clear();
        }
    }
}

fn usual_trees(r: &mut Random) -> usize {
    match r.below(100) {
        0..8 => 1,
        8..18 => 2,
        18..28 => 3,
        28..55 => 4 + r.below(9) as usize,
        55..72 => 9 + r.below(24) as usize,
        72..80 => 33 + r.below(47) as usize,
        80..87 => r.pick(&[16, 64, 65, 79, 80, 81, 95, 96, 112, 200]),
        _ => 80 + r.below(121) as usize,
    }
}

fn wide_trees(r: &mut Random) -> usize {
    match r.below(100) {
        0..40 => 1024,
        40..60 => r.pick(&[201, 255, 256, 257, 511, 512, 513, 527, 528, 1023]),
        _ => 201 + r.below(823) as usize,
    }
}

/// A random table over the configured classes, mended until it is accepted.
fn random_table(r: &mut Random, on: &[usize], d: usize) -> Option<[[Pair; 8]; 8]> {
    let mut t = [[Pair::default(); 8]; 8];
    let plain = r.chance(30);
    for &o in on {
        for &e in on {
            t[o][e].kind = if o == e { if r.chance(85) { 3 } else { 2 } } else { r.below(4) as u8 };
        }
    }
    let good = |p: Pair| p.kind >= 2;
    for _ in 0..200 {
        let mut wrong = false;
        for &o in on {
            for &e in on {
                if good(t[o][e]) && t[e][d].kind != 0 && !good(t[o][d]) {
                    wrong = true;
                    if o == e || r.chance(60) {
                        t[o][d].kind = if o != e && r.chance(50) { 2 } else { r.pick(&[0, 2, 3, 3]) };
                    } else {
                        t[o][e].kind = r.below(2) as u8;
                    }
                }
                for &c in on {
                    if good(t[o][e]) && t[c][o].kind == 2 && !good(t[c][e]) {
                        wrong = true;
                        if c != o && r.chance(50) {
                            t[c][o].kind = r.pick(&[0, 1, 3]);
                        } else {
                            t[c][e].kind = 2 + r.below(2) as u8;
                        }
                    }
                }
            }
        }
        for &c in on {
            if !good(t[c][c]) {
                wrong = true;
                t[c][c].kind = 3;
            }
        }
        if !wrong {
            for &o in on {
                for &e in on {
                    if t[o][e].kind == 3 {
                        let any = [r.below(256) as u8, r.below(256) as u8];
                        let (low, high) = if plain {
                            (0, 255)
                        } else {
                            (r.pick(&[0, 1, 254, 255, any[0]]), r.pick(&[0, 2, 254, 255, any[1]]))
                        };
                        let cut = r.pick(&[0, 1, 2, 32, 512, 1024, 2047, 2048, any[0] as u16 * 8]);
                        t[o][e] = Pair { kind: 3, cut, low, high };
                    }
                }
            }
            return Some(t);
        }
    }
    None
}
