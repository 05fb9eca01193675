//! The port: the library's archive, and the single parts that c_bench exports.

use std::hint::black_box;

use crate::measure::flush;
use crate::side::{Ask, Header, Reply, Report, Side, Table, Tally, Words};

#[rustfmt::skip]
unsafe extern "C" {
    fn bench_stands(h: Header, table: *const u32, t: *const u32, tn: usize, l: *const u64, ln: usize, b: *const u64, bn: usize) -> bool;
    fn llfree_start(h: Header, table: *const u32, t: *mut u32, tn: usize, l: *mut u64, ln: usize, b: *mut u64, bn: usize, all_free: bool) -> usize;
    fn llfree_get(h: Header, table: *const u32, t: *mut u32, tn: usize, l: *mut u64, ln: usize, b: *mut u64, bn: usize,
        named: bool, frame: usize, order: usize, class: usize, given: bool, local: usize) -> Reply;
    fn llfree_put(h: Header, table: *const u32, t: *mut u32, tn: usize, l: *mut u64, ln: usize, b: *mut u64, bn: usize,
        frame: usize, order: usize, class: usize, given: bool, local: usize) -> usize;
    fn llfree_drain(h: Header, table: *const u32, t: *mut u32, tn: usize, l: *mut u64, ln: usize, b: *mut u64, bn: usize) -> usize;
    fn llfree_statistics(h: Header, table: *const u32, t: *const u32, tn: usize, l: *const u64, ln: usize, b: *const u64, bn: usize,
        rows: *mut Tally, rn: usize) -> Report;
}

pub struct Port {
    h: Header,
    table: Table,
    w: Words,
}

impl Port {
    pub fn trees(&self) -> usize {
        self.w.trees.len()
    }
}

#[rustfmt::skip]
impl Side for Port {
    fn new(h: Header, table: Table) -> Self {
        Self { h, table, w: Words::empty(&h) }
    }
    fn set(&mut self, words: &Words) {
        self.w.trees.copy_from_slice(&words.trees);
        self.w.locals.copy_from_slice(&words.locals);
        self.w.bits.copy_from_slice(&words.bits);
    }
    fn words(&self) -> Words {
        self.w.clone()
    }
    fn flush(&self) {
        flush(&self.w.trees);
        flush(&self.w.locals);
        flush(&self.w.bits);
    }
    fn start(&mut self, free: bool) -> usize {
        let (h, p, w) = (self.h, self.table.as_ptr(), &mut self.w);
        unsafe { llfree_start(h, p, w.trees.as_mut_ptr(), w.trees.len(), w.locals.as_mut_ptr(), w.locals.len(), w.bits.as_mut_ptr(), w.bits.len(), free) }
    }
    fn start_new(&mut self, free: bool) -> usize {
        self.start(free)
    }
    fn get(&mut self, frame: Option<usize>, q: Ask) -> Reply {
        let (h, p, w) = (self.h, self.table.as_ptr(), &mut self.w);
        unsafe {
            llfree_get(h, p, w.trees.as_mut_ptr(), w.trees.len(), w.locals.as_mut_ptr(), w.locals.len(), w.bits.as_mut_ptr(), w.bits.len(),
                frame.is_some(), frame.unwrap_or(0), q.order, q.class, q.local.is_some(), q.local.unwrap_or(0))
        }
    }
    fn put(&mut self, frame: usize, q: Ask) -> usize {
        let (h, p, w) = (self.h, self.table.as_ptr(), &mut self.w);
        unsafe {
            llfree_put(h, p, w.trees.as_mut_ptr(), w.trees.len(), w.locals.as_mut_ptr(), w.locals.len(), w.bits.as_mut_ptr(), w.bits.len(),
                frame, q.order, q.class, q.local.is_some(), q.local.unwrap_or(0))
        }
    }
    fn drain(&mut self) -> usize {
        let (h, p, w) = (self.h, self.table.as_ptr(), &mut self.w);
        unsafe { llfree_drain(h, p, w.trees.as_mut_ptr(), w.trees.len(), w.locals.as_mut_ptr(), w.locals.len(), w.bits.as_mut_ptr(), w.bits.len()) }
    }
    fn statistics(&mut self, rows: &mut [Tally; 8]) -> Report {
        let (h, p, w) = (self.h, self.table.as_ptr(), &self.w);
        unsafe {
            llfree_statistics(h, p, w.trees.as_ptr(), w.trees.len(), w.locals.as_ptr(), w.locals.len(), w.bits.as_ptr(), w.bits.len(),
                rows.as_mut_ptr(), rows.len())
        }
    }
    fn stands(&self) -> bool {
        let (h, p, w) = (black_box(self.h), self.table.as_ptr(), &self.w);
        unsafe { bench_stands(h, p, w.trees.as_ptr(), w.trees.len(), w.locals.as_ptr(), w.locals.len(), w.bits.as_ptr(), w.bits.len()) }
    }
}
