//! The oracle's stand-in for util.rs, for the bench alone with the list of the best N in an array: its own takes memory
//! from the heap.

#[path = "../../oracle/standins/util.rs"]
mod oracle;
pub use oracle::*;

/// The best stands last, as in the oracle's.
pub struct SortedBuffer<const N: usize, T: Ord> {
    worst_first: [Option<T>; N],
    len: usize,
}
impl<const N: usize, T: Ord> SortedBuffer<N, T> {
    pub fn new() -> Self {
        Self { worst_first: [const { None }; N], len: 0 }
    }
    pub fn add(&mut self, value: T) {
        let value = Some(value);
        if self.len == N {
            if value <= self.worst_first[0] {
                return;
            }
            self.worst_first.rotate_left(1);
            self.len -= 1;
        }
        let at = self.worst_first[..self.len].iter().position(|v| *v >= value).unwrap_or(self.len);
        self.worst_first[self.len] = value;
        self.len += 1;
        self.worst_first[at..self.len].rotate_right(1);
    }
    pub fn iter(&self) -> impl DoubleEndedIterator<Item = &T> {
        self.worst_first[..self.len].iter().flatten()
    }
}
