//! A store as the library takes it: any header, any table words, buffers of any lengths; and the same between guard words.

use crate::engine::Said;
use crate::guarded::{Guarded, Rows};
use crate::line::{Answer, Command};
use crate::port::{Header, Lent, header, table};
use crate::state::{Pair, State};

#[derive(Clone, PartialEq, Eq)]
pub struct Raw {
    pub header: Header,
    pub table: [u32; 64],
    pub trees: Vec<u32>,
    pub locals: Vec<u64>,
    pub bitmap: Vec<u64>,
    pub rows: usize,
}

/// A part of a store whose bits can be flipped.
#[derive(Clone, Copy, PartialEq, Eq)]
pub enum Part {
    Frames,
    Default,
    Places,
    Table,
    Trees,
    Locals,
    Bitmap,
}

impl Raw {
    pub fn of(s: &State) -> Raw {
        Raw {
            header: header(s),
            table: table(s),
            trees: s.tree_words().to_vec(),
            locals: s.local_words().to_vec(),
            bitmap: s.bitmap_words().to_vec(),
            rows: s.rows,
        }
    }

    /// Header and table as the second model takes them, with the lent lengths. Only the default can be too large for it:
    /// every default above 255 stands as 255, as no default above 7 is a class.
    pub fn head_to(&self, s: &mut State) {
        s.frames = self.header.frames;
        s.default = self.header.default.min(255) as u8;
        s.classes = self.header.places.map(|p| p.checked_sub(1));
        for (i, w) in self.table.iter().enumerate() {
            s.table[i / 8][i % 8] = Pair { kind: (w & 3) as u8, cut: (w >> 2 & 0x3fff) as u16, low: (w >> 16) as u8, high: (w >> 24) as u8 };
        }
        s.lend = [Some(self.trees.len()), Some(self.locals.len()), Some(self.bitmap.len())];
        s.rows = self.rows;
    }
    pub fn words_to(&self, s: &mut State) {
        s.trees[..self.trees.len()].copy_from_slice(&self.trees);
        s.locals[..self.locals.len()].copy_from_slice(&self.locals);
        s.bitmap[..self.bitmap.len()].copy_from_slice(&self.bitmap);
    }

    pub fn bits(&self, part: Part) -> usize {
        match part {
            Part::Frames | Part::Default | Part::Places => 64,
            Part::Table => 32 * 64,
            Part::Trees => 32 * self.trees.len(),
            Part::Locals => 64 * self.locals.len(),
            Part::Bitmap => 64 * self.bitmap.len(),
        }
    }
    pub fn flip(&mut self, part: Part, bit: usize) {
        match part {
            Part::Frames => self.header.frames ^= 1 << bit,
            Part::Default => self.header.default ^= 1 << bit,
            Part::Places => self.header.places[bit / 8] ^= 1 << (bit % 8),
            Part::Table => self.table[bit / 32] ^= 1 << (bit % 32),
            Part::Trees => self.trees[bit / 32] ^= 1 << (bit % 32),
            Part::Locals => self.locals[bit / 64] ^= 1 << (bit % 64),
            Part::Bitmap => self.bitmap[bit / 64] ^= 1 << (bit % 64),
        }
    }
}

/// What the port is lent in a call.
pub struct Lending {
    header: Header,
    count: usize,
    pub rows: Rows,
    pub table: Guarded<u32>,
    pub trees: Guarded<u32>,
    pub locals: Guarded<u64>,
    pub bitmap: Guarded<u64>,
}
impl Lending {
    pub fn new(of: &Raw) -> Self {
        let (small, large) = (0xa5c3_961b, 0xa5c3_961b_7e2d_4f80);
        let mut new = Lending {
            header: of.header,
            count: of.rows,
            rows: Rows::new(),
            table: Guarded::new(small),
            trees: Guarded::new(small),
            locals: Guarded::new(large),
            bitmap: Guarded::new(large),
        };
        new.load(of);
        new
    }
    pub fn load(&mut self, from: &Raw) {
        self.header = from.header;
        self.count = from.rows;
        self.table.load(&from.table);
        self.trees.load(&from.trees);
        self.locals.load(&from.locals);
        self.bitmap.load(&from.bitmap);
    }
    /// The port's answer to a call.
    pub fn call(&mut self, c: &Command) -> Answer {
        let table: &[u32; 64] = (&*self.table.lent()).try_into().expect("64 words");
        let lent = Lent {
            header: self.header,
            table,
            trees: self.trees.lent(),
            locals: self.locals.lent(),
            bitmap: self.bitmap.lent(),
        };
        match c {
            Command::Start(free) => Answer::Start(Said::Is(lent.start(*free))),
            Command::Get(ask) => Answer::Get(Said::Is(lent.get(ask))),
            Command::Put(ask) => Answer::Put(Said::Is(lent.put(ask))),
            Command::Drain => Answer::Drain(Said::Is(lent.drain())),
            Command::Stats => Answer::Stats(Said::Is(lent.stats(&mut self.rows, self.count))),
            _ => Answer::Nothing,
        }
    }
    pub fn has_words_of(&self, s: &State) -> bool {
        self.trees.holds(s.tree_words()) && self.locals.holds(s.local_words()) && self.bitmap.holds(s.bitmap_words())
    }
    pub fn unchanged(&self, from: &Raw) -> bool {
        self.trees.holds(&from.trees) && self.locals.holds(&from.locals) && self.bitmap.holds(&from.bitmap)
    }
    /// The guard words, the table, which is only read, and the tally rows that are not to be filled.
    pub fn guards_stand(&self, from: &Raw) -> bool {
        self.table.holds(&from.table)
            && self.table.guards_stand()
            && self.trees.guards_stand()
            && self.locals.guards_stand()
            && self.bitmap.guards_stand()
            && self.rows.stand()
    }
}
