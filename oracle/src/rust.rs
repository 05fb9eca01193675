//! The oracle: LLFree's modules run on a store's words.

use std::cell::Cell;
use std::panic::{AssertUnwindSafe, catch_unwind, set_hook, take_hook};
use std::slice::from_raw_parts_mut;

use llfree::{Alloc, Class, Classing, Error, FrameId, Init, LLFree, MetaData, Policy, Request};

use crate::domain;
use crate::engine::{Ask, Counted, Engine, Got, Said, Tally};
use crate::state::{Aligned, Pair, ROOM_LOCALS, State};

thread_local! {
    static IN_RUST: Cell<bool> = const { Cell::new(false) };
    /// The table behind the policy function, which is a plain function in the Rust.
    static TABLE: Cell<[[Pair; 8]; 8]> = const { Cell::new([[Pair { kind: 0, cut: 0, low: 0, high: 0 }; 8]; 8]) };
}

fn policy(requested: Class, target: Class, free: usize) -> Policy {
    let p = TABLE.with(|t| unsafe { (*t.as_ptr())[requested.0 as usize][target.0 as usize] });
    match p.kind {
        0 => Policy::Invalid,
        1 => Policy::Steal,
        2 => Policy::Demote,
        _ => Policy::Match(if free >= p.cut as usize { p.high } else { p.low }),
    }
}

/// A local of the Rust takes 64 bytes, its word the first eight.
type Wide = Aligned<u64>;

pub struct Oracle {
    /// The first one is never lent, so that no lent buffer lies at the beginning of the memory.
    locals: Vec<Wide>,
    /// The lent tree and bitmap words before the call.
    trees: Vec<u32>,
    bitmap: Vec<u64>,
}

enum Fault {
    NoLocals,
    Other,
}

impl Oracle {
    pub fn new() -> Self {
        // Panics of the Rust are answers; others are said as ever.
        let usual = take_hook();
        set_hook(Box::new(move |info| {
            if !IN_RUST.get() {
                usual(info)
            }
        }));
        Self { locals: vec![Aligned(0); ROOM_LOCALS + 1], trees: Vec::new(), bitmap: Vec::new() }
    }

    /// Runs `f` on the Rust over the store's words. After a panic the words are as before the call.
    fn with<R>(
        &mut self,
        s: &mut State,
        init: Init,
        f: impl FnOnce(&LLFree) -> R,
    ) -> Result<R, Fault> {
        self.trees.clear();
        self.trees.extend_from_slice(s.tree_words());
        self.bitmap.clear();
        self.bitmap.extend_from_slice(s.bitmap_words());
        TABLE.with(|t| t.set(s.table));
        let classes: Vec<(Class, usize)> = (0..8u8)
            .filter_map(|c| s.classes[c as usize].map(|k| (Class(c), k as usize)))
            .collect();
        let classing = Classing::new(&classes, Class(s.default), policy);
        let (_, locals, words) = s.lent();
        for i in 0..locals {
            // "locals are absent" after a start: the Rust wants them handed to it zeroed.
            self.locals[i + 1].0 = if init == Init::None { s.locals[i] } else { 0 };
        }
        let meta = unsafe {
            MetaData {
                local: from_raw_parts_mut(self.locals.as_mut_ptr().add(1).cast::<u8>(), locals * 64),
                trees: from_raw_parts_mut(s.trees.as_mut_ptr().cast::<u8>(), size_of_val(&*s.trees)),
                lower: from_raw_parts_mut(s.bitmap.as_mut_ptr().cast::<u8>(), words * 8),
            }
        };
        let frames = s.frames as usize;
        IN_RUST.set(true);
        let result = catch_unwind(AssertUnwindSafe(|| {
            let alloc = LLFree::new(frames, init, &classing, meta).expect("constructor");
            f(&alloc)
        }));
        IN_RUST.set(false);
        match result {
            Ok(r) => {
                for i in 0..locals {
                    s.locals[i] = self.locals[i + 1].0;
                }
                Ok(r)
            }
            Err(e) => {
                s.trees[..self.trees.len()].copy_from_slice(&self.trees);
                s.bitmap[..self.bitmap.len()].copy_from_slice(&self.bitmap);
                let text = e.downcast_ref::<String>().map_or("", |t| t.as_str());
                Err(if text.starts_with("No locals for class") { Fault::NoLocals } else { Fault::Other })
            }
        }
    }
}

/// Outside: a frame sum past 2^64 - 1, a class above 7 and a local out of range, where the call is
/// not refused before they are looked at.
fn outside(s: &State, ask: &Ask) -> bool {
    if !domain::sound(s) {
        return true;
    }
    match domain::argument(s, ask) {
        Some(3) => ask.frame.unwrap_or(0).checked_add(1 << ask.order).is_none(),
        Some(5) => ask.class > 7,
        Some(_) => false,
        None => ask.local.is_some_and(|l| l >= s.classes[ask.class as usize].unwrap() as u64),
    }
}

fn request(ask: &Ask) -> Request {
    // Only orders refused by the Rust and classes of refused requests are cut here.
    Request::new(ask.order as usize, Class((ask.class & 7) as u8), ask.local.map(|l| l as usize))
}

fn lost<T>(fault: Fault) -> Said<T> {
    match fault {
        Fault::NoLocals => Said::Outside,
        Fault::Other => Said::Panic,
    }
}

impl Engine for Oracle {
    fn start(&mut self, s: &mut State, free: bool) -> Said<u8> {
        if !domain::accepted(s) {
            return Said::Is(10);
        }
        match self.with(s, if free { Init::FreeAll } else { Init::AllocAll }, |_| ()) {
            Ok(()) => Said::Is(0),
            Err(fault) => lost(fault),
        }
    }

    fn get(&mut self, s: &mut State, ask: &Ask) -> Said<Got> {
        if outside(s, ask) {
            return Said::Outside;
        }
        let frame = ask.frame.map(|f| FrameId(f as usize));
        let said = self.with(s, Init::None, |a| {
            llfree::atomic::LOOKS.set(0);
            llfree::lower::TRIES.set(0);
            a.get(frame, request(ask))
        });
        let mut got = Got { looks: llfree::atomic::LOOKS.get(), tries: llfree::lower::TRIES.get(), ..Got::default() };
        match said {
            Ok(Ok((FrameId(frame), Class(class)))) => {
                got.frame = frame as u64;
                got.class = class;
            }
            Ok(Err(Error::Memory)) => got.number = 7,
            Ok(Err(_)) => match domain::argument(s, ask) {
                Some(number) => got.number = number,
                None => return Said::Disagrees,
            },
            Err(fault) => return lost(fault),
        }
        Said::Is(got)
    }

    fn put(&mut self, s: &mut State, ask: &Ask) -> Said<u8> {
        if outside(s, ask) {
            return Said::Outside;
        }
        let frame = FrameId(ask.frame.unwrap_or(0) as usize);
        match self.with(s, Init::None, |a| a.put(frame, request(ask))) {
            Ok(Ok(())) => Said::Is(0),
            Ok(Err(Error::Memory)) => Said::Is(8),
            Ok(Err(_)) => domain::argument(s, ask).map_or(Said::Disagrees, Said::Is),
            Err(fault) => lost(fault),
        }
    }

    fn drain(&mut self, s: &mut State) -> Said<u8> {
        if !domain::sound(s) {
            return Said::Outside;
        }
        match self.with(s, Init::None, |a| a.drain()) {
            Ok(()) => Said::Is(0),
            Err(fault) => lost(fault),
        }
    }

    /// The Rust's tree statistics; the added column is worked out beside it. Rows (11) is no case of the Rust.
    fn stats(&mut self, s: &mut State) -> Said<Counted> {
        if !domain::sound(s) || s.rows != 8 {
            return Said::Outside;
        }
        let stats = match self.with(s, Init::None, |a| a.tree_stats()) {
            Ok(stats) => stats,
            Err(fault) => return lost(fault),
        };
        let mut rows = [Tally::default(); 8];
        for (row, c) in rows.iter_mut().zip(&stats.classes) {
            row.free = c.free_frames as u64;
            row.alloc = c.alloc_frames as u64;
        }
        for w in s.tree_words() {
            rows[(w >> 29) as usize].used += 2048 - (w & 0xfff_ffff) as u64;
        }
        for w in s.local_words().iter().filter(|&w| w >> 63 == 1) {
            let tree = (w & 0xfff_ffff_ffff) as usize / 32;
            rows[(s.trees[tree] >> 29) as usize].used -= w << 1 >> 45;
        }
        Said::Is(Counted { number: 0, free: stats.free_frames as u64, trees: stats.free_trees as u64, rows })
    }
}
