//! What both sides answer to: the lent words, the calls, and the trait of a side.

#[repr(C)]
#[derive(Clone, Copy)]
pub struct Header {
    pub frames: usize,
    pub default: usize,
    pub places: [u8; 8],
}

impl Header {
    pub fn trees(&self) -> usize {
        self.frames.div_ceil(2048)
    }
    pub fn locals(&self) -> usize {
        self.places.iter().map(|&p| (p as usize).saturating_sub(1)).sum()
    }
}

pub type Table = [u32; 64];

/// A pair of kind Match that is tried at once: cut 0, low 0, high 255.
pub const MATCH: u32 = 3 + 16777216 * 255;

/// Table T: (0,0), (1,1) Match, cut 0, low 0, high 255; (0,1) Demote; (1,0) Steal.
pub fn table() -> Table {
    let mut t = [0; 64];
    (t[0], t[9], t[1], t[8]) = (MATCH, MATCH, 2, 1);
    t
}

/// Eight classes, default 7: each matches its own trees, demotes the default's and steals from the others.
pub fn table_of_eight() -> Table {
    std::array::from_fn(|i| match (i / 8, i % 8) {
        (o, e) if o == e => MATCH,
        (_, 7) => 2,
        _ => 1,
    })
}

#[derive(Clone, PartialEq)]
pub struct Words {
    pub trees: Vec<u32>,
    pub locals: Vec<u64>,
    pub bits: Vec<u64>,
}

impl Words {
    pub fn empty(h: &Header) -> Self {
        Self { trees: vec![0; h.trees()], locals: vec![0; h.locals()], bits: vec![0; 32 * h.trees()] }
    }
}

/// What a get or a put asks for.
#[derive(Clone, Copy, Debug)]
pub struct Ask {
    pub order: usize,
    pub class: usize,
    pub local: Option<usize>,
}

#[derive(Clone, Copy, Debug)]
pub enum Call {
    /// A start, all free or all held. The Rust side fills the buffers plainly.
    Start(bool),
    /// The same. The Rust side runs the source's `LLFree::new`.
    New(bool),
    Get(Option<usize>, Ask),
    Put(usize, Ask),
    Drain,
    Statistics,
    /// The state test alone.
    Stands,
}

#[repr(C)]
#[derive(Clone, Copy, PartialEq, Debug, Default)]
pub struct Reply {
    pub number: usize,
    pub frame: usize,
    pub class: usize,
    pub looks: usize,
    pub tries: usize,
}

impl Reply {
    pub fn of(number: usize) -> Self {
        Self { number, ..Self::default() }
    }
}

#[repr(C)]
#[derive(Clone, Copy, PartialEq, Debug, Default)]
pub struct Tally {
    pub free: usize,
    pub alloc: usize,
    pub used: usize,
}

/// What statistics answer beside the lent rows.
#[repr(C)]
#[derive(Clone, Copy, PartialEq, Debug, Default)]
pub struct Report {
    pub number: usize,
    pub free: usize,
    pub trees: usize,
}

/// A side over words of its own.
pub trait Side {
    fn new(h: Header, table: Table) -> Self;
    fn set(&mut self, words: &Words);
    fn words(&self) -> Words;
    /// Takes the lent words out of all caches.
    fn flush(&self);
    fn start(&mut self, free: bool) -> usize;
    /// A start by the source's own way, where the side has one.
    fn start_new(&mut self, free: bool) -> usize;
    fn get(&mut self, frame: Option<usize>, q: Ask) -> Reply;
    fn put(&mut self, frame: usize, q: Ask) -> usize;
    fn drain(&mut self) -> usize;
    fn statistics(&mut self, rows: &mut [Tally; 8]) -> Report;
    fn stands(&self) -> bool;

    /// The call's answer; that of statistics is its sums alone.
    #[inline(always)]
    fn call(&mut self, call: Call) -> Reply {
        match call {
            Call::Start(free) => Reply::of(self.start(free)),
            Call::New(free) => Reply::of(self.start_new(free)),
            Call::Get(frame, q) => self.get(frame, q),
            Call::Put(frame, q) => Reply::of(self.put(frame, q)),
            Call::Drain => Reply::of(self.drain()),
            Call::Statistics => {
                let mut rows = [Tally::default(); 8];
                let r = self.statistics(&mut rows);
                std::hint::black_box(&rows);
                Reply { number: r.number, frame: r.free, class: r.trees, ..Reply::default() }
            }
            Call::Stands => Reply::of(1 - self.stands() as usize),
        }
    }
}
