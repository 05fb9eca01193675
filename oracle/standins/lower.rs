//! Stand-in for lower.rs: a plain bitmap, 32 words a tree, a set bit is a held frame; gets are counted.

use core::cell::Cell;

use crate::bitfield::RowId;
use crate::trees::TreeId;
use crate::{Error, FrameId, HUGE_FRAMES, Init, Result, Stats, TREE_FRAMES, TREE_ORDER};

std::thread_local! {
    /// Calls of `get`.
    pub static TRIES: Cell<u64> = const { Cell::new(0) };
}

pub struct HugeId(pub usize);

pub struct Lower<'a> {
    frames: usize,
    words: &'a [Cell<u64>],
}

impl<'a> Lower<'a> {
    pub const fn metadata_size(frames: usize) -> usize {
        frames.div_ceil(TREE_FRAMES) * TREE_FRAMES / 8
    }
    /// "all free, or all held"; "Bits at and past F are set". `Init::None` takes the words as they are.
    pub fn new(frames: usize, init: Init, buffer: &'a mut [u8]) -> Result<Self> {
        let len = Self::metadata_size(frames) / 8;
        assert!(buffer.len() >= len * 8);
        let words: &'a [Cell<u64>] =
            unsafe { core::slice::from_raw_parts(buffer.as_mut_ptr().cast(), len) };
        let lower = Self { frames, words };
        match init {
            Init::None => {}
            Init::Recover => return Err(Error::Initialization),
            Init::FreeAll | Init::AllocAll => {
                for frame in 0..len * 64 {
                    lower.set(frame, init == Init::AllocAll || frame >= frames);
                }
            }
        }
        Ok(lower)
    }
    pub unsafe fn metadata(&mut self) -> &'a mut [u8] {
        unsafe { core::slice::from_raw_parts_mut(self.words.as_ptr().cast_mut().cast(), self.words.len() * 8) }
    }
    pub fn frames(&self) -> usize {
        self.frames
    }

    fn held(&self, frame: usize) -> bool {
        self.words[frame / 64].get() >> (frame % 64) & 1 == 1
    }
    fn set(&self, frame: usize, held: bool) {
        let word = &self.words[frame / 64];
        let bit = 1 << (frame % 64);
        word.set(if held { word.get() | bit } else { word.get() & !bit });
    }
    fn wholly_free(&self, first: usize, order: usize) -> bool {
        (first..first + (1 << order)).all(|f| !self.held(f))
    }
    fn take(&self, first: usize, order: usize) -> Result<FrameId> {
        (first..first + (1 << order)).for_each(|f| self.set(f, true));
        Ok(FrameId(first))
    }

    /// "Named block: taken if wholly free, else Memory. No name: the first wholly free aligned block
    /// of the hint row's tree, upward from the one holding the row's first frame, then from the
    /// tree's first; else Memory."
    pub fn get(&self, hint: RowId, order: usize, frame: Option<FrameId>) -> Result<FrameId> {
        TRIES.with(|t| t.set(t.get() + 1));
        if let Some(FrameId(first)) = frame {
            if self.wholly_free(first, order) {
                return self.take(first, order);
            }
            return Err(Error::Memory);
        }
        let tree = hint.as_tree().as_frame().0;
        let from = (hint.as_frame().0 - tree) >> order;
        let blocks = TREE_FRAMES >> order;
        for block in (from..blocks).chain(0..from) {
            let first = tree + (block << order);
            if self.wholly_free(first, order) {
                return self.take(first, order);
            }
        }
        Err(Error::Memory)
    }

    /// "A put needs every frame of the block held and clears their bits."
    pub fn put(&self, frame: FrameId, order: usize) -> Result<()> {
        let block = frame.0..frame.0 + (1 << order);
        if !block.clone().all(|f| self.held(f)) {
            return Err(Error::Memory);
        }
        block.for_each(|f| self.set(f, false));
        Ok(())
    }

    fn free_in(&self, first: usize, count: usize) -> usize {
        (first..first + count).filter(|&f| !self.held(f)).count()
    }
    pub fn stats(&self) -> Stats {
        let mut sum = Stats::default();
        for tree in 0..self.words.len() / (TREE_FRAMES / 64) {
            let one = self.stats_at(TreeId(tree).as_frame(), TREE_ORDER);
            sum.free_frames += one.free_frames;
            sum.free_huge += one.free_huge;
            sum.free_trees += one.free_trees;
        }
        sum
    }
    /// Whole trees only: the figure from which a start fills the entries.
    pub fn stats_at(&self, frame: FrameId, order: usize) -> Stats {
        assert!(order == TREE_ORDER);
        let tree = frame.as_tree().as_frame().0;
        let free_frames = self.free_in(tree, TREE_FRAMES);
        Stats {
            free_frames,
            free_huge: (0..TREE_FRAMES / HUGE_FRAMES)
                .filter(|h| self.free_in(tree + h * HUGE_FRAMES, HUGE_FRAMES) == HUGE_FRAMES)
                .count(),
            free_trees: free_frames / TREE_FRAMES,
        }
    }
}
