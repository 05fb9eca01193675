//! Stand-in for util.rs: alignment, slices at an offset, and the list of the best N.

use core::cmp::Ordering;
use core::marker::PhantomData;

#[repr(align(64))]
pub struct Align<T = ()>(pub T);

pub const fn align_down(v: usize, align: usize) -> usize {
    v / align * align
}

/// A slice of T stored at an offset in a byte buffer.
pub struct OffsetSlice<T> {
    offset: usize,
    length: usize,
    _p: PhantomData<T>,
}
impl<T> OffsetSlice<T> {
    pub fn new(offset: usize, length: usize) -> Self {
        Self { offset, length, _p: PhantomData }
    }
    pub fn len(&self) -> usize {
        self.length
    }
    pub fn as_slice<'a>(&self, buffer: &'a [u8]) -> &'a [T] {
        assert!(self.offset + self.length * size_of::<T>() <= buffer.len());
        unsafe { core::slice::from_raw_parts(buffer.as_ptr().add(self.offset).cast(), self.length) }
    }
}

/// "a list of the best N [..]; equals keep found order, and a full list admits only a strictly
/// better one, dropping its last. The list is tried best first."
///
/// `search_best` tries `iter().rev()`, so that the best stands last here.
pub struct SortedBuffer<const N: usize, T: Ord> {
    worst_first: Vec<T>,
}
impl<const N: usize, T: Ord> SortedBuffer<N, T> {
    pub fn new() -> Self {
        Self { worst_first: Vec::new() }
    }
    pub fn add(&mut self, value: T) {
        if self.worst_first.len() == N {
            if value <= self.worst_first[0] {
                return;
            }
            self.worst_first.remove(0);
        }
        // Before its equals, so that those found earlier are tried earlier.
        let at = self.worst_first.iter().position(|v| *v >= value).unwrap_or(self.worst_first.len());
        self.worst_first.insert(at, value);
    }
    pub fn iter(&self) -> impl DoubleEndedIterator<Item = &T> {
        self.worst_first.iter()
    }
}

/// A pair ordered by its first part alone.
pub struct OrdBy<K: Ord, V>(pub K, pub V);
impl<K: Ord, V> Ord for OrdBy<K, V> {
    fn cmp(&self, other: &Self) -> Ordering {
        self.0.cmp(&other.0)
    }
}
impl<K: Ord, V> PartialOrd for OrdBy<K, V> {
    fn partial_cmp(&self, other: &Self) -> Option<Ordering> {
        Some(self.cmp(other))
    }
}
impl<K: Ord, V> PartialEq for OrdBy<K, V> {
    fn eq(&self, other: &Self) -> bool {
        self.0 == other.0
    }
}
impl<K: Ord, V> Eq for OrdBy<K, V> {}
