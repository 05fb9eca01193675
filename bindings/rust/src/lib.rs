//! LLFree's upper layer, proved, behind safe Rust: start, get, put, drain, statistics over words that the caller lends.
//! No dependencies. Nothing is tested here that the library tests itself: every call answers on any header, table,
//! lengths, words, rows and arguments.
//!
//! Build with Cargo: the archive is taken from target/staticlib, where `bash tools/archive` puts it, or from the folder
//! that LLFREE_ARCHIVE names. Without Cargo, FOLDER being that of libllfree_c.a:
//! `rustc --edition 2024 -O --crate-type rlib --crate-name llfree -L FOLDER -l static=llfree_c src/lib.rs`.
//!
//! ```
//! use llfree::{Frames, Header, Pair, Request, Table, Tally};
//! // two classes with two locals each; default 1; table: (0,0), (1,1) Match, (0,1) Demote, (1,0) Steal
//! let header = Header::new(16_384, 1, [Some(2), Some(2), None, None, None, None, None, None]);
//! let table = Table::new()
//!     .with(0, 0, Pair::Match { cut: 0, low: 0, high: 255 })
//!     .with(1, 1, Pair::Match { cut: 0, low: 0, high: 255 })
//!     .with(0, 1, Pair::Demote)
//!     .with(1, 0, Pair::Steal);
//! let (mut trees, mut locals, mut bits) = (vec![0; header.trees()], vec![0; header.locals()], vec![0; header.words()]);
//! let mut frames = Frames { header, table: &table, trees: &mut trees, locals: &mut locals, bits: &mut bits };
//! frames.start(true).unwrap();
//! let got = frames.get(None, Request { order: 0, class: 0, local: Some(0) });
//! assert_eq!(got.answer, Ok((14_336, 0)));
//! frames.put(14_336, Request { order: 0, class: 0, local: Some(0) }).unwrap();
//! frames.drain().unwrap();
//! let mut rows = [Tally::default(); 8];
//! assert_eq!(frames.statistics(&mut rows).unwrap().free, 16_384);
//! assert_eq!(rows[1].used, 0);
//! ```
#![no_std]

/// The refusals with document 01's numbers. Done, 0, is `Ok`.
#[derive(Clone, Copy, PartialEq, Eq, Debug)]
pub enum Refusal {
    /// The state fails a standing rule.
    Broken = 1,
    /// Order above 11.
    Order = 2,
    /// frame + 2^order above F (no named frame: 0).
    Bounds = 3,
    /// Frame not a multiple of 2^order.
    Misaligned = 4,
    /// Class above 7 or unconfigured.
    Class = 5,
    /// A local given, not below its class's number.
    Local = 6,
    /// Every route of a get came back empty.
    Memory = 7,
    /// Put of a block with a free frame.
    NotHeld = 8,
    /// A return of a reservation finds its entry unreserved or its pair not good.
    Stuck = 9,
    /// Start: F, classes, default unconfigured, table, or a length is wrong.
    Config = 10,
    /// Statistics: the lent tally rows are not eight.
    Rows = 11,
    /// A number that this binding does not know: the archive is of a later version.
    Unknown = 255,
}

impl Refusal {
    /// Of the library's number: 0 to 11.
    fn of(number: u64) -> Result<(), Refusal> {
        Err(match number {
            0 => return Ok(()),
            1 => Refusal::Broken,
            2 => Refusal::Order,
            3 => Refusal::Bounds,
            4 => Refusal::Misaligned,
            5 => Refusal::Class,
            6 => Refusal::Local,
            7 => Refusal::Memory,
            8 => Refusal::NotHeld,
            9 => Refusal::Stuck,
            10 => Refusal::Config,
            11 => Refusal::Rows,
            _ => Refusal::Unknown,
        })
    }
}

/// The header: frames, default class, and for each class its place: 0 where it is unconfigured, else its number of locals plus one.
#[repr(C)]
#[derive(Clone, Copy, PartialEq, Eq, Debug)]
pub struct Header {
    pub frames: u64,
    pub default: u64,
    pub places: [u8; 8],
}

impl Header {
    /// By the number of locals of each configured class. A number above 32 is refused by the library.
    pub fn new(frames: u64, default: u64, locals: [Option<u8>; 8]) -> Self {
        Self { frames, default, places: locals.map(|n| n.map_or(0, |n| n.saturating_add(1))) }
    }
    /// The number of tree words that are to be lent.
    pub fn trees(&self) -> usize {
        self.frames.div_ceil(2048) as usize
    }
    /// The number of local words that are to be lent.
    pub fn locals(&self) -> usize {
        self.places.iter().map(|&p| (p as usize).saturating_sub(1)).sum()
    }
    /// The number of bitmap words that are to be lent.
    pub fn words(&self) -> usize {
        self.trees().saturating_mul(32)
    }
}

/// What the policy says of a pair (requested, target).
#[derive(Clone, Copy, PartialEq, Eq, Debug)]
pub enum Pair {
    Invalid,
    Steal,
    Demote,
    /// `high` where the free argument is at least the cut (0 to 2,048), else `low`.
    Match { cut: u16, low: u8, high: u8 },
}

/// The policy table: the pair (requested, target) is the word 8 * requested + target.
#[derive(Clone, PartialEq, Eq, Debug)]
pub struct Table(pub [u32; 64]);

impl Table {
    /// Every pair Invalid.
    pub const fn new() -> Self {
        Self([0; 64])
    }
    /// With one pair set. Panics at a class above 7.
    pub fn with(mut self, requested: usize, target: usize, pair: Pair) -> Self {
        assert!(requested < 8 && target < 8);
        self.0[8 * requested + target] = match pair {
            Pair::Invalid => 0,
            Pair::Steal => 1,
            Pair::Demote => 2,
            // A cut that does not fit its field is kept too large, for the library to refuse.
            Pair::Match { cut, low, high } => {
                3 + 4 * cut.min(16383) as u32 + 65536 * low as u32 + 16777216 * high as u32
            }
        };
        self
    }
}

impl Default for Table {
    fn default() -> Self {
        Self::new()
    }
}

/// What a get or a put asks for, beside its frame.
#[derive(Clone, Copy, PartialEq, Eq, Debug)]
pub struct Request {
    pub order: u64,
    pub class: u64,
    pub local: Option<u64>,
}

/// What a get answers: frame and class, or the refusal; and its counts.
#[derive(Clone, Copy, PartialEq, Eq, Debug)]
pub struct Got {
    pub answer: Result<(u64, u64), Refusal>,
    /// Entries read by walks.
    pub looks: u64,
    /// Lower calls.
    pub tries: u64,
}

/// A row of the statistics: the source's free and allocated frames, and frames in use.
#[repr(C)]
#[derive(Clone, Copy, PartialEq, Eq, Debug, Default)]
pub struct Tally {
    pub free: u64,
    pub alloc: u64,
    pub used: u64,
}

/// What statistics answer beside the rows: total free and free trees.
#[derive(Clone, Copy, PartialEq, Eq, Debug)]
pub struct Totals {
    pub free: u64,
    pub trees: u64,
}

#[repr(C)]
struct RawReply {
    number: u64,
    frame: u64,
    class: u64,
    looks: u64,
    tries: u64,
}

#[repr(C)]
struct RawReport {
    number: u64,
    free: u64,
    trees: u64,
}

unsafe extern "C" {
    fn llfree_start(h: Header, table: *const u32, trees: *mut u32, n: usize, locals: *mut u64, k: usize, bits: *mut u64, w: usize, all_free: bool) -> u64;
    fn llfree_get(h: Header, table: *const u32, trees: *mut u32, n: usize, locals: *mut u64, k: usize, bits: *mut u64, w: usize, named: bool, frame: u64, order: u64, class: u64, given: bool, local: u64) -> RawReply;
    fn llfree_put(h: Header, table: *const u32, trees: *mut u32, n: usize, locals: *mut u64, k: usize, bits: *mut u64, w: usize, frame: u64, order: u64, class: u64, given: bool, local: u64) -> u64;
    fn llfree_drain(h: Header, table: *const u32, trees: *mut u32, n: usize, locals: *mut u64, k: usize, bits: *mut u64, w: usize) -> u64;
    fn llfree_statistics(h: Header, table: *const u32, trees: *const u32, n: usize, locals: *const u64, k: usize, bits: *const u64, w: usize, rows: *mut Tally, rows_len: usize) -> RawReport;
}

/// Header, table and the lent words. Exact lengths are `header.trees()`, `header.locals()` and `header.words()`.
pub struct Frames<'a> {
    pub header: Header,
    pub table: &'a Table,
    pub trees: &'a mut [u32],
    pub locals: &'a mut [u64],
    pub bits: &'a mut [u64],
}

// Every pointer below is a slice's, with its length, but the table's, of 64 words; the buffers, rows too, are lent apart from each other by the borrow checker.
impl Frames<'_> {
    /// A start, all free or all held. Every lent word is written, or, refused with Config, none.
    pub fn start(&mut self, all_free: bool) -> Result<(), Refusal> {
        Refusal::of(unsafe {
            llfree_start(
                self.header, self.table.0.as_ptr(), self.trees.as_mut_ptr(), self.trees.len(), self.locals.as_mut_ptr(),
                self.locals.len(), self.bits.as_mut_ptr(), self.bits.len(), all_free,
            )
        })
    }

    /// A get, of the block at the named frame or of any.
    pub fn get(&mut self, frame: Option<u64>, q: Request) -> Got {
        let r = unsafe {
            llfree_get(
                self.header, self.table.0.as_ptr(), self.trees.as_mut_ptr(), self.trees.len(), self.locals.as_mut_ptr(),
                self.locals.len(), self.bits.as_mut_ptr(), self.bits.len(), frame.is_some(), frame.unwrap_or(0),
                q.order, q.class, q.local.is_some(), q.local.unwrap_or(0),
            )
        };
        Got { answer: Refusal::of(r.number).map(|()| (r.frame, r.class)), looks: r.looks, tries: r.tries }
    }

    /// A put of the block at a frame.
    pub fn put(&mut self, frame: u64, q: Request) -> Result<(), Refusal> {
        Refusal::of(unsafe {
            llfree_put(
                self.header, self.table.0.as_ptr(), self.trees.as_mut_ptr(), self.trees.len(), self.locals.as_mut_ptr(),
                self.locals.len(), self.bits.as_mut_ptr(), self.bits.len(), frame, q.order, q.class, q.local.is_some(),
                q.local.unwrap_or(0),
            )
        })
    }

    /// Every reservation is returned.
    pub fn drain(&mut self) -> Result<(), Refusal> {
        Refusal::of(unsafe {
            llfree_drain(
                self.header, self.table.0.as_ptr(), self.trees.as_mut_ptr(), self.trees.len(), self.locals.as_mut_ptr(),
                self.locals.len(), self.bits.as_mut_ptr(), self.bits.len(),
            )
        })
    }

    /// Statistics. Each of the eight rows, one for each class, is written, or, refused with Broken or with Rows where they are not eight, none.
    pub fn statistics(&self, rows: &mut [Tally]) -> Result<Totals, Refusal> {
        let r = unsafe {
            llfree_statistics(
                self.header, self.table.0.as_ptr(), self.trees.as_ptr(), self.trees.len(), self.locals.as_ptr(),
                self.locals.len(), self.bits.as_ptr(), self.bits.len(), rows.as_mut_ptr(), rows.len(),
            )
        };
        Refusal::of(r.number).map(|()| Totals { free: r.free, trees: r.trees })
    }
}
