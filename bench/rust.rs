//! The Rust side: LLFree's llfree.rs, trees.rs and local.rs over the bench's stand-ins. Before each call it makes the
//! argument tests and the state test of document 01, written plainly, as the port does.

use std::hint::black_box;
use std::slice::{from_raw_parts, from_raw_parts_mut};
use std::sync::atomic::{AtomicU32, Ordering::Relaxed};

use llfree::{Alloc, Class, Classing, FrameId, Init, LLFree, MetaData, Policy};

use crate::measure::flush;
use crate::parts::plain;
use crate::side::{Ask, Header, Reply, Report, Side, Table, Tally, Words};

/// The table behind the policy function, which is a plain function in the Rust. All sides alive have the same.
static TABLE: [AtomicU32; 64] = [const { AtomicU32::new(0) }; 64];

fn policy(requested: Class, target: Class, free: usize) -> Policy {
    let w = TABLE[requested.0 as usize % 8 * 8 + target.0 as usize % 8].load(Relaxed);
    match w % 4 {
        0 => Policy::Invalid,
        1 => Policy::Steal,
        2 => Policy::Demote,
        _ => Policy::Match(if free >= (w / 4 % 16384) as usize { (w >> 24) as u8 } else { (w >> 16) as u8 }),
    }
}

/// The clear bits of a tree.
fn clear(bits: &[u64], t: usize) -> usize {
    2048 - bits[32 * t..32 * t + 32].iter().map(|w| w.count_ones() as usize).sum::<usize>()
}

/// The state test: one pass over the locals with a bit for each tree held, one over the entries.
/// A local takes eight words in the Rust's layout, of which the first is its word.
#[inline(never)]
fn stands(h: Header, table: &Table, trees: &[u32], locals: &[u64], bits: &[u64]) -> bool {
    let n = h.trees();
    if !plain::accepts(h, table) || trees.len() != n || locals.len() != 8 * h.locals() || bits.len() != 32 * n {
        return false;
    }
    let mut held = [0u64; 16];
    let mut words = locals.iter().step_by(8);
    for class in 0..8 {
        for &w in words.by_ref().take((h.places[class] as usize).saturating_sub(1)) {
            if w >> 63 == 0 {
                if w != 0 {
                    return false;
                }
                continue;
            }
            let t = (w & 0xfff_ffff_ffff) as usize / 32;
            if t >= n || held[t / 64] >> (t % 64) & 1 == 1 {
                return false;
            }
            held[t / 64] |= 1 << (t % 64);
            let (free, reserved, of) = entry(trees[t]);
            if !reserved || table[class * 8 + of] % 4 < 2 || free + (w << 1 >> 45) as usize != clear(bits, t) {
                return false;
            }
        }
    }
    for (t, &w) in trees.iter().enumerate() {
        let (free, reserved, of) = entry(w);
        if free > 2048 || h.places[of] == 0 || reserved != (held[t / 64] >> (t % 64) & 1 == 1) {
            return false;
        }
        if !reserved && free != clear(bits, t) {
            return false;
        }
    }
    let at = h.frames / 64;
    at >= bits.len() || (bits[at] >> (h.frames % 64) == !0 >> (h.frames % 64) && bits[at + 1..].iter().all(|&w| w == !0))
}

/// Free, reserved and class of a tree word.
fn entry(w: u32) -> (usize, bool, usize) {
    ((w & 0xfff_ffff) as usize, w >> 28 & 1 == 1, (w >> 29) as usize)
}

#[repr(C, align(64))]
#[derive(Clone)]
struct Line([u64; 8]);

/// So many bytes, which live as long as the program, with a line more before and after: the source does not take a
/// buffer at the beginning or the end of a memory.
fn lines(bytes: usize) -> *mut u8 {
    let v = Box::leak(vec![Line([0; 8]); bytes.div_ceil(64) + 2].into_boxed_slice());
    unsafe { v.as_mut_ptr().add(1).cast() }
}

/// LLFree's modules over buffers of their own layout. The allocator object is made once.
pub struct Rust {
    h: Header,
    table: Table,
    classing: Classing,
    alloc: LLFree<'static>,
    trees: *mut u32,
    locals: *mut u64,
    bits: *mut u64,
}

impl Rust {
    fn all_words(&self) -> (&[u32], &[u64], &[u64]) {
        let n = self.h.trees();
        unsafe { (from_raw_parts(self.trees, n), from_raw_parts(self.locals, self.h.locals() * 8), from_raw_parts(self.bits, 32 * n)) }
    }
    fn all_words_mut(&mut self) -> (&mut [u32], &mut [u64], &mut [u64]) {
        let n = self.h.trees();
        unsafe { (from_raw_parts_mut(self.trees, n), from_raw_parts_mut(self.locals, self.h.locals() * 8), from_raw_parts_mut(self.bits, 32 * n)) }
    }
    /// The argument tests of document 01, in its order.
    fn check(&self, frame: usize, q: Ask) -> usize {
        if q.order > 11 {
            2
        } else if self.h.frames < 1 << q.order || frame > self.h.frames - (1 << q.order) {
            3
        } else if frame % (1 << q.order) != 0 {
            4
        } else if q.class > 7 || self.h.places[q.class] == 0 {
            5
        } else if q.local.is_some_and(|l| l + 1 >= self.h.places[q.class] as usize) {
            6
        } else {
            0
        }
    }
    fn request(q: Ask) -> llfree::Request {
        llfree::Request::new(q.order, Class(q.class as u8), q.local)
    }
    /// Of the first `free` frames those that lie in a tree.
    fn share(free: usize, tree: usize) -> u32 {
        free.saturating_sub(2048 * tree).min(2048) as u32
    }
}

fn make(h: &Header, init: Init, classing: &Classing, locals: *mut u64, trees: *mut u32, bits: *mut u64) -> Option<LLFree<'static>> {
    let size = LLFree::metadata_size(classing, h.frames);
    let meta = unsafe {
        MetaData {
            local: from_raw_parts_mut(locals.cast(), size.local),
            trees: from_raw_parts_mut(trees.cast(), size.trees),
            lower: from_raw_parts_mut(bits.cast(), size.lower),
        }
    };
    LLFree::new(h.frames, init, classing, meta).ok()
}

impl Side for Rust {
    fn new(h: Header, table: Table) -> Self {
        for (to, &w) in TABLE.iter().zip(&table) {
            to.store(w, Relaxed);
        }
        let classes: Vec<(Class, usize)> = (0..8u8).filter(|&c| h.places[c as usize] > 0).map(|c| (Class(c), h.places[c as usize] as usize - 1)).collect();
        let classing = Classing::new(&classes, Class(h.default as u8), policy);
        let size = LLFree::metadata_size(&classing, h.frames);
        let (locals, trees, bits) = (lines(size.local).cast(), lines(size.trees).cast(), lines(size.lower).cast());
        let alloc = make(&h, Init::FreeAll, &classing, locals, trees, bits).unwrap();
        Self { h, table, classing, alloc, trees, locals, bits }
    }
    fn set(&mut self, words: &Words) {
        let (trees, locals, bits) = self.all_words_mut();
        trees.copy_from_slice(&words.trees);
        bits.copy_from_slice(&words.bits);
        for (to, &w) in locals.iter_mut().step_by(8).zip(&words.locals) {
            *to = w;
        }
    }
    fn words(&self) -> Words {
        let (trees, locals, bits) = self.all_words();
        Words { trees: trees.to_vec(), locals: locals.iter().step_by(8).copied().collect(), bits: bits.to_vec() }
    }
    fn flush(&self) {
        let (trees, locals, bits) = self.all_words();
        flush(trees);
        flush(locals);
        flush(bits);
    }
    /// Acceptance test and lengths, then plain fills for any F.
    fn start(&mut self, free: bool) -> usize {
        let h = black_box(self.h);
        if !plain::accepts(h, &self.table) {
            return 10;
        }
        let (n, frames) = (h.trees(), if free { h.frames } else { 0 });
        let (trees, locals, bits) = self.all_words_mut();
        if trees.len() != n || locals.len() != 8 * h.locals() || bits.len() != 32 * n {
            return 10;
        }
        let class = (h.default as u32) << 29;
        trees.fill(class | Self::share(frames, 0));
        trees[n - 1] = class | Self::share(frames, n - 1);
        locals.fill(0);
        llfree::lower::fill_from(bits, frames);
        0
    }
    fn start_new(&mut self, free: bool) -> usize {
        let h = black_box(self.h);
        if !plain::accepts(h, &self.table) {
            return 10;
        }
        self.all_words_mut().1.fill(0);
        let init = if free { Init::FreeAll } else { Init::AllocAll };
        match make(&h, init, &self.classing, self.locals, self.trees, self.bits) {
            Some(alloc) => self.alloc = alloc,
            None => return 10,
        }
        0
    }
    fn get(&mut self, frame: Option<usize>, q: Ask) -> Reply {
        if !self.stands() {
            return Reply::of(1);
        }
        let number = self.check(frame.unwrap_or(0), q);
        if number != 0 {
            return Reply::of(number);
        }
        llfree::atomic::LOOKS.set(0);
        llfree::lower::TRIES.set(0);
        let r = match self.alloc.get(frame.map(FrameId), Self::request(q)) {
            Ok((FrameId(frame), Class(class))) => Reply { frame, class: class as usize, ..Reply::default() },
            Err(_) => Reply::of(7),
        };
        Reply { looks: llfree::atomic::LOOKS.get() as usize, tries: llfree::lower::TRIES.get() as usize, ..r }
    }
    fn put(&mut self, frame: usize, q: Ask) -> usize {
        if !self.stands() {
            return 1;
        }
        match self.check(frame, q) {
            0 => self.alloc.put(FrameId(frame), Self::request(q)).map_or(8, |()| 0),
            number => number,
        }
    }
    fn drain(&mut self) -> usize {
        if !self.stands() {
            return 1;
        }
        self.alloc.drain();
        0
    }
    /// The Rust's tree statistics; the added column is worked out beside them.
    fn statistics(&mut self, rows: &mut [Tally; 8]) -> Report {
        if !self.stands() {
            return Report { number: 1, ..Report::default() };
        }
        let stats = self.alloc.tree_stats();
        *rows = [Tally::default(); 8];
        for (row, c) in rows.iter_mut().zip(&stats.classes) {
            (row.free, row.alloc) = (c.free_frames, c.alloc_frames);
        }
        let (trees, locals, _) = self.all_words();
        for &w in trees {
            let (free, _, of) = entry(w);
            rows[of].used += 2048 - free;
        }
        for &w in locals.iter().step_by(8).filter(|&w| w >> 63 == 1) {
            let tree = (w & 0xfff_ffff_ffff) as usize / 32;
            rows[entry(trees[tree]).2].used -= (w << 1 >> 45) as usize;
        }
        Report { number: 0, free: stats.free_frames, trees: stats.free_trees }
    }
    fn stands(&self) -> bool {
        let (t, l, b) = self.all_words();
        stands(black_box(self.h), black_box(&self.table), t, l, b)
    }
}
