//! The port: the library's archive, run on a store's words or on any header, table and buffers.

use crate::engine::{Ask, Counted, Engine, Got, Said, Tally};
use crate::guarded::Rows;
use crate::state::State;

/// The header as the library takes it: a class's place is its number of locals plus one, 0 where it is unconfigured.
#[repr(C)]
#[derive(Clone, Copy, PartialEq, Eq, Debug)]
pub struct Header {
    pub frames: u64,
    pub default: u64,
    pub places: [u8; 8],
}

#[repr(C)]
struct Reply {
    number: u64,
    frame: u64,
    class: u64,
    looks: u64,
    tries: u64,
}

#[repr(C)]
struct Report {
    number: u64,
    free: u64,
    trees: u64,
}

unsafe extern "C" {
    fn llfree_start(h: Header, table: *const u32, t: *mut u32, tn: usize, l: *mut u64, ln: usize, b: *mut u64, bn: usize, all_free: bool) -> u64;
    fn llfree_get(h: Header, table: *const u32, t: *mut u32, tn: usize, l: *mut u64, ln: usize, b: *mut u64, bn: usize,
        named: bool, frame: u64, order: u64, class: u64, given: bool, local: u64) -> Reply;
    fn llfree_put(h: Header, table: *const u32, t: *mut u32, tn: usize, l: *mut u64, ln: usize, b: *mut u64, bn: usize,
        frame: u64, order: u64, class: u64, given: bool, local: u64) -> u64;
    fn llfree_drain(h: Header, table: *const u32, t: *mut u32, tn: usize, l: *mut u64, ln: usize, b: *mut u64, bn: usize) -> u64;
    fn llfree_statistics(h: Header, table: *const u32, t: *const u32, tn: usize, l: *const u64, ln: usize, b: *const u64, bn: usize,
        rows: *mut Tally, rn: usize) -> Report;
}

/// What a call is lent.
pub struct Lent<'a> {
    pub header: Header,
    pub table: &'a [u32; 64],
    pub trees: &'a mut [u32],
    pub locals: &'a mut [u64],
    pub bitmap: &'a mut [u64],
}

/// A number or class as the other runners give it; one that is too large for that is 255, which none of them gives.
fn small(v: u64) -> u8 {
    u8::try_from(v).unwrap_or(u8::MAX)
}

/// A call of the library on what is lent, its own arguments last. A frame or local that is not given is handed over as
/// the largest number, since the library must not look at it.
macro_rules! call {
    ($lent:expr, $name:ident $(, $argument:expr)*) => {{
        let x = $lent;
        unsafe {
            $name(x.header, x.table.as_ptr(), x.trees.as_mut_ptr(), x.trees.len(), x.locals.as_mut_ptr(), x.locals.len(),
                x.bitmap.as_mut_ptr(), x.bitmap.len() $(, $argument)*)
        }
    }};
}

impl Lent<'_> {
    pub fn start(self, free: bool) -> u8 {
        small(call!(self, llfree_start, free))
    }
    pub fn get(self, ask: &Ask) -> Got {
        let (frame, local) = (ask.frame.unwrap_or(u64::MAX), ask.local.unwrap_or(u64::MAX));
        let a = call!(self, llfree_get, ask.frame.is_some(), frame, ask.order, ask.class, ask.local.is_some(), local);
        Got { number: small(a.number), frame: a.frame, class: small(a.class), looks: a.looks, tries: a.tries }
    }
    pub fn put(self, ask: &Ask) -> u8 {
        let (frame, local) = (ask.frame.unwrap_or(0), ask.local.unwrap_or(u64::MAX));
        small(call!(self, llfree_put, frame, ask.order, ask.class, ask.local.is_some(), local))
    }
    pub fn drain(self) -> u8 {
        small(call!(self, llfree_drain))
    }
    /// Statistics with so many rows.
    pub fn stats(self, rows: &mut Rows, count: usize) -> Counted {
        let lent = rows.lend(count);
        let a = call!(self, llfree_statistics, lent.as_mut_ptr(), lent.len());
        Counted { number: small(a.number), free: a.free, trees: a.trees, rows: rows.left(a.number == 0) }
    }
}

pub fn header(s: &State) -> Header {
    Header { frames: s.frames, default: s.default as u64, places: s.classes.map(|k| k.map_or(0, |k| k + 1)) }
}

pub fn table(s: &State) -> [u32; 64] {
    std::array::from_fn(|i| {
        let p = s.table[i / 8][i % 8];
        p.kind as u32 + 4 * p.cut as u32 + 65536 * p.low as u32 + 16777216 * p.high as u32
    })
}

fn lent<'a>(s: &'a mut State, table: &'a [u32; 64]) -> Lent<'a> {
    let (t, l, b) = s.lent();
    Lent { header: header(s), table, trees: &mut s.trees[..t], locals: &mut s.locals[..l], bitmap: &mut s.bitmap[..b] }
}

/// The port, with the rows that it was lent last.
pub struct Port {
    pub rows: Rows,
}

impl Engine for Port {
    fn start(&mut self, s: &mut State, free: bool) -> Said<u8> {
        let table = table(s);
        Said::Is(lent(s, &table).start(free))
    }
    fn get(&mut self, s: &mut State, ask: &Ask) -> Said<Got> {
        let table = table(s);
        Said::Is(lent(s, &table).get(ask))
    }
    fn put(&mut self, s: &mut State, ask: &Ask) -> Said<u8> {
        let table = table(s);
        Said::Is(lent(s, &table).put(ask))
    }
    fn drain(&mut self, s: &mut State) -> Said<u8> {
        let table = table(s);
        Said::Is(lent(s, &table).drain())
    }
    fn stats(&mut self, s: &mut State) -> Said<Counted> {
        let (table, count) = (table(s), s.rows);
        Said::Is(lent(s, &table).stats(&mut self.rows, count))
    }
}
