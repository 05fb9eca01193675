//! The store of the line form: header, table and lent words, right or wrong.

use std::ops::{Deref, DerefMut};
use std::slice::{from_raw_parts, from_raw_parts_mut};

/// The room of the line form's programs.
pub const ROOM_TREES: usize = 200;
pub const ROOM_LOCALS: usize = 256;
pub const ROOM_WORDS: usize = 6400;
pub const ROOM_ROWS: usize = 16;
/// The trees of the drivers' room: the 1,024 that document 01 allows, and some more, so that lengths above them can be lent.
pub const WIDE_TREES: usize = 1088;

/// One pair of the policy table: kind 0 Invalid, 1 Steal, 2 Demote, 3 Match.
#[derive(Clone, Copy, PartialEq, Eq, Debug, Default)]
pub struct Pair {
    pub kind: u8,
    pub cut: u16,
    pub low: u8,
    pub high: u8,
}

/// The Rust modules want their buffers on 64 bytes, and tree words in multiples of 64.
#[derive(Clone)]
#[repr(C, align(64))]
pub struct Aligned<T>(pub T);

/// A buffer of words as the Rust modules want it.
#[derive(Clone)]
pub struct Words<T>(Vec<Aligned<[T; 64]>>);
impl<T: Copy + Default> Words<T> {
    fn new(count: usize) -> Self {
        Words(vec![Aligned([T::default(); 64]); count.div_ceil(64)])
    }
}
impl<T> Deref for Words<T> {
    type Target = [T];
    fn deref(&self) -> &[T] {
        unsafe { from_raw_parts(self.0.as_ptr().cast(), 64 * self.0.len()) }
    }
}
impl<T> DerefMut for Words<T> {
    fn deref_mut(&mut self) -> &mut [T] {
        unsafe { from_raw_parts_mut(self.0.as_mut_ptr().cast(), 64 * self.0.len()) }
    }
}

#[derive(Clone)]
pub struct State {
    /// An exact length of more trees than this cannot be lent.
    pub room: usize,
    pub trees: Words<u32>,
    pub bitmap: Words<u64>,
    pub locals: Words<u64>,
    pub frames: u64,
    pub default: u8,
    /// The number of locals of each configured class.
    pub classes: [Option<u8>; 8],
    /// By requested, then target class.
    pub table: [[Pair; 8]; 8],
    /// Lent lengths: tree words, local words, bitmap words; None is the exact length.
    pub lend: [Option<usize>; 3],
    pub rows: usize,
}

impl State {
    /// A store of the line form's room.
    pub fn new() -> Box<State> {
        State::with_room(ROOM_TREES)
    }
    /// A store with room for so many trees.
    pub fn with_room(trees: usize) -> Box<State> {
        Box::new(State {
            room: trees,
            trees: Words::new(trees),
            bitmap: Words::new(32 * trees),
            // One more, so that a length above the most can be lent.
            locals: Words::new(ROOM_LOCALS + 1),
            frames: 0,
            default: 0,
            classes: [None; 8],
            table: [[Pair::default(); 8]; 8],
            lend: [None; 3],
            rows: 8,
        })
    }

    /// Lengths of the lent tree words, local words and bitmap words. An exact length that does not
    /// fit is cut to the room.
    pub fn lent(&self) -> (usize, usize, usize) {
        let trees = (self.frames / 2048 + (self.frames % 2048 != 0) as u64).min(self.room as u64) as usize;
        let locals: usize = self.classes.iter().flatten().map(|&k| k as usize).sum();
        (
            self.lend[0].unwrap_or(trees),
            self.lend[1].unwrap_or(locals.min(ROOM_LOCALS)),
            self.lend[2].unwrap_or(32 * trees),
        )
    }

    pub fn tree_words(&self) -> &[u32] {
        &self.trees[..self.lent().0]
    }
    pub fn local_words(&self) -> &[u64] {
        &self.locals[..self.lent().1]
    }
    pub fn bitmap_words(&self) -> &[u64] {
        &self.bitmap[..self.lent().2]
    }

    /// Whether every lent word is the same.
    pub fn same_words(&self, other: &State) -> bool {
        self.tree_words() == other.tree_words()
            && self.local_words() == other.local_words()
            && self.bitmap_words() == other.bitmap_words()
    }
    /// Takes the lent words of another store with the same header.
    pub fn copy_words(&mut self, other: &State) {
        let (t, l, b) = other.lent();
        self.trees[..t].copy_from_slice(&other.trees[..t]);
        self.locals[..l].copy_from_slice(&other.locals[..l]);
        self.bitmap[..b].copy_from_slice(&other.bitmap[..b]);
    }
}
