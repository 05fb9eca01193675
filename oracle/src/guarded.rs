//! What the port is lent, between guards that no call may write: words, and tally rows.

use crate::engine::Tally;

/// Guard words on either side.
pub const GUARDS: usize = 16;

/// Words between guard words.
pub struct Guarded<T> {
    pub words: Vec<T>,
    guard: T,
}
impl<T: Copy + PartialEq> Guarded<T> {
    pub fn new(guard: T) -> Self {
        Guarded { words: Vec::new(), guard }
    }
    pub fn load(&mut self, from: &[T]) {
        self.words.clear();
        self.words.resize(GUARDS, self.guard);
        self.words.extend_from_slice(from);
        self.words.resize(from.len() + 2 * GUARDS, self.guard);
    }
    pub fn lent(&mut self) -> &mut [T] {
        let end = self.words.len() - GUARDS;
        &mut self.words[GUARDS..end]
    }
    pub fn holds(&self, lent: &[T]) -> bool {
        self.words[GUARDS..self.words.len() - GUARDS] == *lent
    }
    pub fn guards_stand(&self) -> bool {
        let end = self.words.len() - GUARDS;
        self.words[..GUARDS].iter().chain(&self.words[end..]).all(|w| *w == self.guard)
    }
}

/// A row whose fields are numbers of its own, which no statistics give.
pub fn mark(i: usize) -> Tally {
    let own = 0xa5c3_961b_0000_0000 + 3 * i as u64;
    Tally { free: own, alloc: own + 1, used: own + 2 }
}

/// Tally rows between guard rows, each marked before a call.
pub struct Rows {
    pub rows: Guarded<Tally>,
    marks: Vec<Tally>,
    done: bool,
}
impl Rows {
    pub fn new() -> Self {
        let mut new = Rows { rows: Guarded::new(mark(1 << 20)), marks: Vec::new(), done: false };
        new.lend(0);
        new
    }
    /// So many rows, marked anew.
    pub fn lend(&mut self, count: usize) -> &mut [Tally] {
        self.marks.clear();
        self.marks.extend((0..count).map(mark));
        self.rows.load(&self.marks);
        self.done = false;
        self.rows.lent()
    }
    /// The rows that a call has left if it is Done, zeros where it is refused.
    pub fn left(&mut self, done: bool) -> [Tally; 8] {
        self.done = done;
        let lent = if done { &*self.rows.lent() } else { &[] };
        std::array::from_fn(|i| lent.get(i).copied().unwrap_or_default())
    }
    /// Whether no row was written but those that a call which is Done fills.
    pub fn stand(&self) -> bool {
        self.rows.guards_stand() && (self.done || self.rows.holds(&self.marks))
    }
}
