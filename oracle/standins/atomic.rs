//! Stand-in for the atomics: one caller, so that a step is a load and a store; loads of tree words are counted.

use core::cell::Cell;
use core::fmt;
use core::sync::atomic::Ordering::Relaxed;
use core::sync::atomic::{AtomicU32, AtomicU64};

std::thread_local! {
    /// Tree words read by `load`. In a get only a walk reads by `load`; every other step is an update.
    pub static LOOKS: Cell<u64> = const { Cell::new(0) };
}

/// A word of the underlying atomic.
pub trait Word {
    type V: Copy;
    fn make(v: Self::V) -> Self;
    fn read(&self) -> Self::V;
    fn write(&self, v: Self::V);
}
impl Word for AtomicU32 {
    type V = u32;
    fn make(v: u32) -> Self {
        Self::new(v)
    }
    fn read(&self) -> u32 {
        self.load(Relaxed)
    }
    fn write(&self, v: u32) {
        self.store(v, Relaxed)
    }
}
impl Word for AtomicU64 {
    type V = u64;
    fn make(v: u64) -> Self {
        Self::new(v)
    }
    fn read(&self) -> u64 {
        self.load(Relaxed)
    }
    fn write(&self, v: u64) {
        self.store(v, Relaxed)
    }
}

/// A type kept in an atomic word.
pub trait Atomic: Sized + Copy + Into<<Self::I as Word>::V> + From<<Self::I as Word>::V> {
    type I: Word;
}

#[repr(transparent)]
pub struct Atom<T: Atomic>(pub T::I);

impl<T: Atomic> Atom<T> {
    pub fn new(v: T) -> Self {
        Self(T::I::make(v.into()))
    }
    pub fn load(&self) -> T {
        // Tree words have four bytes, local words eight.
        if size_of::<T::I>() == 4 {
            LOOKS.with(|l| l.set(l.get() + 1));
        }
        self.0.read().into()
    }
    /// Stores the new value and yields the old one.
    pub fn swap(&self, v: T) -> T {
        let old = self.0.read().into();
        self.0.write(v.into());
        old
    }
    /// Stores what `f` makes of the value, if anything; yields the old value either way.
    pub fn try_update(&self, mut f: impl FnMut(T) -> Option<T>) -> Result<T, T> {
        let old: T = self.0.read().into();
        match f(old) {
            Some(new) => {
                self.0.write(new.into());
                Ok(old)
            }
            None => Err(old),
        }
    }
    pub fn update(&self, mut f: impl FnMut(T) -> T) -> T {
        let old: T = self.0.read().into();
        self.0.write(f(old).into());
        old
    }
}
impl<T: Atomic + fmt::Debug> fmt::Debug for Atom<T> {
    fn fmt(&self, f: &mut fmt::Formatter<'_>) -> fmt::Result {
        let v: T = self.0.read().into();
        v.fmt(f)
    }
}
