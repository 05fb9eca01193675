//! Sound small states, the damage done to them, and the calls that follow.

use crate::engine::Ask;
use crate::generate::{Options, Random, Sink, Sizes, scenario};
use crate::line::{Answer, Command, lines, parse, perform};
use crate::model::Model;
use crate::port::Header;
use crate::raw::Raw;
use crate::state::{ROOM_LOCALS, State, WIDE_TREES};

/// Sound states of 1 to 3 trees, in line form, each with reservations, frames held and, but for the second, a last tree
/// that is not whole.
pub const STATES: [&str; 4] = [
    "frames 1700\nclass 0 1\nclass 1 1\npair 0 0 3 0 0 255\npair 1 1 3 0 0 255\npair 0 1 2 0 0 0\npair 1 0 1 0 0 0\ndefault 1\n\
     start free\nentry 0 0x300004b0\nlocal 0 0x801f400000000003\nget 0 3 1 -\nget 1024 5 0 0\n",
    "frames 4096\nclass 0 1\nclass 1 1\npair 0 0 3 0 0 255\npair 1 1 3 0 0 255\npair 0 1 2 0 0 0\npair 1 0 1 0 0 0\ndefault 1\n\
     start free\nget - 0 0 0\nget - 3 1 0\nget 1000 0 1 -\nget - 9 1 -\n",
    "frames 4700\nclass 0 2\nclass 3 1\nclass 7 0\npair 0 0 3 1024 3 200\npair 3 3 3 0 0 255\npair 7 7 3 512 5 6\n\
     pair 0 3 2 0 0 0\npair 3 0 1 0 0 0\npair 7 3 3 64 1 2\npair 3 7 1 0 0 0\ndefault 3\n\
     start free\nget - 9 7 -\nget - 0 0 0\nget - 2 0 1\nget 4200 0 3 -\nget 4608 6 3 -\n",
    "frames 2049\nclass 0 1\nclass 1 1\npair 0 0 3 0 0 255\npair 1 1 3 0 0 255\npair 0 1 2 0 0 0\npair 1 0 1 0 0 0\ndefault 1\n\
     start held\nput 512 9 0 -\nput 1024 3 1 -\nput 2048 0 1 -\nget - 0 0 0\nput 64 6 0 0\n",
];

/// A state of line form, by the second model.
pub fn told(text: &str) -> Box<State> {
    let (mut s, mut model) = (State::new(), Model::new(0));
    for line in lines(text.as_bytes()) {
        let command = parse(line).expect("a line of the form").expect("a command");
        let answer = perform(&command, &mut s, &mut model);
        assert!(answer == Answer::Nothing || answer.number() == Some(0), "{command}: {answer}");
    }
    s
}

struct Play {
    state: Box<State>,
    model: Model,
}
impl Sink for Play {
    fn send(&mut self, c: Command) -> Answer {
        perform(&c, &mut self.state, &mut self.model)
    }
    fn state(&self) -> &State {
        &self.state
    }
}

/// The state after a generated sequence on 1 to 3 trees, with so few locals that every bit can be flipped.
pub fn played(r: &mut Random) -> Box<State> {
    loop {
        let mut play = Play { state: State::new(), model: Model::new(0) };
        scenario(&mut play, r.next(), Options { sizes: Sizes::Few, beyond: false, damage: 1, refused: 0, brief: false });
        if play.state.lent().1 <= 24 {
            return play.state;
        }
    }
}

// The calls.

fn ask(r: &mut Random, s: &State, with_local: bool) -> Ask {
    let fits = |&c: &usize| s.classes[c].is_some_and(|k| !with_local || k > 0);
    let classes: Vec<usize> = (0..8).filter(fits).collect();
    let class = if classes.is_empty() { 0 } else { r.pick(&classes) };
    let count = s.classes[class].unwrap_or(0).max(1) as u64;
    let order = if r.chance(50) { 0 } else { r.below(12) };
    Ask { frame: None, order, class: class as u64, local: with_local.then(|| r.below(count)) }
}

/// A frame to name: in a tree that a local holds, or any.
fn any_frame(r: &mut Random, s: &State) -> u64 {
    let held: Vec<u64> = s.local_words().iter().copied().filter(|w| w >> 63 == 1).collect();
    if held.is_empty() || r.chance(50) {
        return r.below(s.frames);
    }
    let row = r.pick(&held) & 0xfff_ffff_ffff;
    (row / 32 * 2048 + r.below(2048)).min(s.frames - 1)
}

/// A frame that is held, where a few draws find one.
fn held_frame(r: &mut Random, s: &State) -> u64 {
    let drawn: Vec<u64> = (0..20).map(|_| r.below(s.frames)).collect();
    let held = |f: &&u64| s.bitmap[(**f / 64) as usize] >> (**f % 64) & 1 == 1;
    *drawn.iter().find(held).unwrap_or(&drawn[0])
}

/// Each kind of call, with arguments that fit the sound state.
pub fn calls(r: &mut Random, s: &State) -> Vec<Command> {
    let mut calls = vec![Command::Start(true), Command::Start(false), Command::Drain, Command::Stats];
    for with_local in [false, true] {
        let unnamed = ask(r, s, with_local);
        let mut named = ask(r, s, with_local);
        named.frame = Some(any_frame(r, s) >> named.order << named.order);
        let mut put = ask(r, s, with_local);
        put.frame = Some(held_frame(r, s) >> put.order << put.order);
        calls.extend([Command::Get(unnamed), Command::Get(named), Command::Put(put)]);
    }
    calls
}

const ORDERS: [u64; 12] = [0, 1, 5, 6, 9, 10, 11, 12, 63, 64, 1 << 32, u64::MAX];

/// The frames at the limits of a block size: at 0, at F, and at 2^64.
fn limit_frames(frames: u64, size: u64) -> Vec<Option<u64>> {
    let at_zero = [0, 1, size - 1, size];
    let last = frames.saturating_sub(size);
    let at_end = [last / size * size, last, last + 1, frames - 1, frames, frames + 1, frames.next_multiple_of(size)];
    let at_wrap = [1 << 63, 0u64.wrapping_sub(size), 0u64.wrapping_sub(size) - 1, u64::MAX];
    let mut all: Vec<u64> = at_zero.into_iter().chain(at_end).chain(at_wrap).collect();
    all.sort_unstable();
    all.dedup();
    std::iter::once(None).chain(all.into_iter().map(Some)).collect()
}

/// Class and local at their limits.
fn limit_classes(s: &State) -> Vec<(u64, Option<u64>)> {
    let mut all = Vec::new();
    for class in (0..9).chain([255, 256, 1 << 32, u64::MAX]) {
        let count = s.classes.get(class as usize).copied().flatten().unwrap_or(0) as u64;
        let mut locals = vec![0, count.saturating_sub(1), count, count + 1, 31, 32, 1 << 32, u64::MAX];
        locals.sort_unstable();
        locals.dedup();
        all.push((class, None));
        all.extend(locals.into_iter().map(|l| (class, Some(l))));
    }
    all
}

/// Gets and puts with every argument at every limit.
pub fn limits(s: &State) -> Vec<Command> {
    let classes = limit_classes(s);
    let blocks = ORDERS.into_iter().flat_map(|order| limit_frames(s.frames, 1 << order.min(11)).into_iter().map(move |f| (order, f)));
    let mut all = Vec::new();
    for (order, frame) in blocks {
        let asks = classes.iter().map(|&(class, local)| Ask { frame, order, class, local });
        all.extend(asks.flat_map(|ask| [Command::Get(ask), Command::Put(Ask { frame: frame.or(Some(0)), ..ask })]));
    }
    all
}

/// Lent tally rows; the last number has 8 in its lowest byte.
pub const ROWS: [usize; 6] = [0, 1, 7, 8, 9, 264];

// The damage.

const FRAMES: [u64; 18] = [
    0, 1, 63, 64, 65, 2047, 2048, 2049, 4096, 6144, 6145, 16384, 2_097_151, 2_097_152, 2_097_153, 1 << 32, 1 << 63, u64::MAX,
];

/// A number of any width.
fn any_width(r: &mut Random) -> u64 {
    r.next() >> r.below(64)
}

/// Makes the lengths those of the header, where it asks for at most eight trees.
fn make_exact(r: &mut Random, raw: &mut Raw) {
    let n = raw.header.frames.div_ceil(2048) as usize;
    let locals: usize = raw.header.places.iter().map(|p| p.saturating_sub(1) as usize).sum();
    if n <= 8 && locals <= ROOM_LOCALS {
        raw.trees.resize(n, r.next() as u32);
        raw.locals.resize(locals, 0);
        raw.bitmap.resize(32 * n, r.pick(&[0, u64::MAX]));
    }
}

pub fn random_header(r: &mut Random, raw: &mut Raw) {
    for _ in 0..1 + r.below(3) {
        match r.below(3) {
            0 => raw.header.frames = if r.chance(70) { r.pick(&FRAMES) } else { any_width(r) },
            1 => raw.header.default = if r.chance(70) { r.below(10) } else { any_width(r) },
            _ => {
                let any = r.next() as u8;
                raw.header.places[r.below(8) as usize] = r.pick(&[0, 1, 2, 3, 32, 33, 34, 128, 255, any]);
            }
        }
    }
    if r.chance(10) {
        raw.header = Header { frames: any_width(r), default: any_width(r), places: r.next().to_le_bytes() };
    }
    if r.chance(60) {
        make_exact(r, raw);
    }
}

pub fn random_table(r: &mut Random, raw: &mut Raw) {
    let on: Vec<usize> = (0..8).filter(|&c| raw.header.places[c] > 0).collect();
    let at = |r: &mut Random| if on.is_empty() || r.chance(20) { r.below(64) as usize } else { 8 * r.pick(&on) + r.pick(&on) };
    match r.below(5) {
        0 => raw.table[at(r)] = r.next() as u32,
        1 => raw.table.fill_with(|| r.next() as u32),
        2 => {
            for _ in 0..1 + r.below(3) {
                raw.table[at(r)] = r.below(4) as u32;
            }
        }
        3 => raw.table[at(r)] = 3 + 4 * r.pick(&[0, 2047, 2048, 2049, 16383]) + ((r.next() as u32) << 16),
        _ => {
            for i in on.iter().flat_map(|o| on.iter().map(move |e| 8 * o + e)) {
                raw.table[i] = r.below(4) as u32;
            }
        }
    }
}

fn other_length(r: &mut Random, length: usize) -> usize {
    let any = r.below(2 * length as u64 + 4) as usize;
    r.pick(&[0, 1, length.saturating_sub(1), length + 1, length + 32, 2 * length, any])
}

pub fn random_lengths(r: &mut Random, raw: &mut Raw) {
    for _ in 0..1 + r.below(2) {
        let any = r.next();
        let fill = r.pick(&[0, any, u64::MAX]);
        match r.below(4) {
            0 => raw.trees.resize(other_length(r, raw.trees.len()).min(WIDE_TREES), fill as u32),
            1 => raw.locals.resize(other_length(r, raw.locals.len()).min(ROOM_LOCALS + 1), fill),
            2 => raw.rows = r.pick(&ROWS),
            _ => raw.bitmap.resize(other_length(r, raw.bitmap.len()).min(32 * WIDE_TREES), fill),
        }
    }
}

fn any_tree_word(r: &mut Random) -> u32 {
    let any = r.next() as u32;
    let free = r.pick(&[0, 1, 512, 2047, 2048, 2049, 4096, 0xfff_ffff, any & 0xfff_ffff]);
    r.pick(&[free | any & 0xf000_0000, any])
}

fn any_local_word(r: &mut Random, trees: usize) -> u64 {
    let any = r.next();
    let last = 32 * trees as u64;
    let row = r.pick(&[0, 31, 32, last.saturating_sub(1), last, last + 1, (1 << 44) - 1, any & 0xfff_ffff_ffff]);
    let free = r.pick(&[0, 1, 512, 2047, 2048, 2049, (1 << 19) - 1]);
    r.pick(&[1 << 63 | free << 44 | row, free << 44 | row, any, 0])
}

pub fn random_words(r: &mut Random, raw: &mut Raw) {
    let trees = raw.trees.len();
    let all = r.chance(15);
    for i in 0..trees {
        if all || r.chance(25) {
            raw.trees[i] = any_tree_word(r);
        }
    }
    for i in 0..raw.locals.len() {
        if all || r.chance(15) {
            raw.locals[i] = any_local_word(r, trees);
        }
    }
    let words = raw.bitmap.len() as u64;
    for _ in 0..if all { words } else { r.below(words.min(3) + 1) } {
        let any = r.next();
        raw.bitmap[r.below(words) as usize] = r.pick(&[any, 0, u64::MAX]);
    }
}

/// A word given the value of another of its kind.
pub fn copied_words(r: &mut Random, raw: &mut Raw) {
    for _ in 0..1 + r.below(2) {
        let (i, j) = (r.next() as usize, r.next() as usize);
        let (t, l, b) = (raw.trees.len(), raw.locals.len(), raw.bitmap.len());
        match r.below(3) {
            0 if t > 0 => raw.trees[i % t] = raw.trees[j % t],
            1 if l > 0 => raw.locals[i % l] = raw.locals[j % l],
            _ if b > 0 => raw.bitmap[i % b] = raw.bitmap[j % b],
            _ => {}
        }
    }
}
