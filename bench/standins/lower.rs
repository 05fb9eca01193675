//! The oracle's stand-in for lower.rs (oracle/standins/lower.rs) by whole words, for the bench alone: same layout, same
//! answers, same count of gets.

use core::cell::Cell;

use crate::bitfield::RowId;
use crate::trees::TreeId;
use crate::{Error, FrameId, HUGE_FRAMES, Init, Result, Stats, TREE_FRAMES, TREE_ORDER};

const ROWS: usize = TREE_FRAMES / 64;

std::thread_local! {
    /// Calls of `get`.
    pub static TRIES: Cell<u64> = const { Cell::new(0) };
}

pub struct HugeId(pub usize);

pub struct Lower<'a> {
    frames: usize,
    words: &'a [Cell<u64>],
}

/// 2^order ones, for orders below 6.
fn ones(order: usize) -> u64 {
    (1 << (1 << order)) - 1
}

/// The first clear aligned block of 2^order bits in a word, for orders below 6.
fn clear_block(word: u64, order: usize) -> Option<usize> {
    /// The first bits of the aligned blocks, by order.
    const FIRST: [u64; 6] = [!0, !0 / 3, !0 / 15, !0 / 255, !0 / 65535, !0 / 0xffff_ffff];
    let mut held = word;
    for i in 0..order {
        held |= held >> (1 << i);
    }
    let clear = !held & FIRST[order];
    (clear != 0).then(|| clear.trailing_zeros() as usize)
}

impl<'a> Lower<'a> {
    pub const fn metadata_size(frames: usize) -> usize {
        frames.div_ceil(TREE_FRAMES) * TREE_FRAMES / 8
    }
    pub fn new(frames: usize, init: Init, buffer: &'a mut [u8]) -> Result<Self> {
        let len = Self::metadata_size(frames) / 8;
        assert!(buffer.len() >= len * 8);
        let words: &'a mut [u64] = unsafe { core::slice::from_raw_parts_mut(buffer.as_mut_ptr().cast(), len) };
        match init {
            Init::None => {}
            Init::Recover => return Err(Error::Initialization),
            Init::FreeAll => fill_from(words, frames),
            Init::AllocAll => fill_from(words, 0),
        }
        Ok(Self { frames, words: Cell::from_mut(words).as_slice_of_cells() })
    }
    pub unsafe fn metadata(&mut self) -> &'a mut [u8] {
        unsafe { core::slice::from_raw_parts_mut(self.words.as_ptr().cast_mut().cast(), self.words.len() * 8) }
    }
    pub fn frames(&self) -> usize {
        self.frames
    }

    fn block(&self, first: usize, order: usize) -> &[Cell<u64>] {
        &self.words[first / 64..][..1 << (order - 6)]
    }
    /// Whether every bit of the block is the same as `held`; if so they are turned.
    fn turn(&self, first: usize, order: usize, held: bool) -> bool {
        if order < 6 {
            let (word, mask) = (&self.words[first / 64], ones(order) << (first % 64));
            let as_said = word.get() & mask == if held { mask } else { 0 };
            if as_said {
                word.set(word.get() ^ mask);
            }
            return as_said;
        }
        let (block, full) = (self.block(first, order), if held { !0 } else { 0 });
        let as_said = block.iter().all(|w| w.get() == full);
        if as_said {
            block.iter().for_each(|w| w.set(!full));
        }
        as_said
    }
    /// The first wholly free block of an order below 6 in a row; it is taken.
    fn take_in(&self, row: usize, order: usize) -> Option<FrameId> {
        let word = &self.words[row];
        let bit = clear_block(word.get(), order)?;
        word.set(word.get() | ones(order) << bit);
        Some(FrameId(row * 64 + bit))
    }

    pub fn get(&self, hint: RowId, order: usize, frame: Option<FrameId>) -> Result<FrameId> {
        TRIES.with(|t| t.set(t.get() + 1));
        if let Some(FrameId(first)) = frame {
            return if self.turn(first, order, false) { Ok(FrameId(first)) } else { Err(Error::Memory) };
        }
        let tree = hint.as_tree().as_frame().0;
        let found = if order < 6 {
            let (first, end) = (tree / 64, tree / 64 + ROWS);
            (hint.0..end).chain(first..hint.0).find_map(|row| self.take_in(row, order))
        } else {
            let (from, blocks) = ((hint.as_frame().0 - tree) >> order, TREE_FRAMES >> order);
            (from..blocks).chain(0..from).map(|b| tree + (b << order)).find(|&first| self.turn(first, order, false)).map(FrameId)
        };
        found.ok_or(Error::Memory)
    }

    pub fn put(&self, frame: FrameId, order: usize) -> Result<()> {
        if self.turn(frame.0, order, true) { Ok(()) } else { Err(Error::Memory) }
    }

    fn free_in(&self, first: usize, count: usize) -> usize {
        count - self.words[first / 64..][..count / 64].iter().map(|w| w.get().count_ones() as usize).sum::<usize>()
    }
    pub fn stats(&self) -> Stats {
        let mut sum = Stats::default();
        for tree in 0..self.words.len() / ROWS {
            let one = self.stats_at(TreeId(tree).as_frame(), TREE_ORDER);
            sum.free_frames += one.free_frames;
            sum.free_huge += one.free_huge;
            sum.free_trees += one.free_trees;
        }
        sum
    }
    pub fn stats_at(&self, frame: FrameId, order: usize) -> Stats {
        assert!(order == TREE_ORDER);
        let tree = frame.as_tree().as_frame().0;
        let free_frames = self.free_in(tree, TREE_FRAMES);
        Stats {
            free_frames,
            free_huge: (0..TREE_FRAMES / HUGE_FRAMES).filter(|h| self.free_in(tree + h * HUGE_FRAMES, HUGE_FRAMES) == HUGE_FRAMES).count(),
            free_trees: free_frames / TREE_FRAMES,
        }
    }
}

/// The first `free` frames are free, those from there on held.
pub fn fill_from(words: &mut [u64], free: usize) {
    let (clear, rest) = words.split_at_mut(free / 64);
    clear.fill(0);
    if let Some((part, held)) = rest.split_first_mut() {
        *part = !0 << (free % 64);
        held.fill(!0);
    }
}
