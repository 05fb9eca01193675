//! What a runner answers to a call, and the trait that the oracle and the second model share.

use crate::state::State;

pub const NAMES: [&str; 12] = [
    "Done", "Broken", "Order", "Bounds", "Misaligned", "Class", "Local", "Memory", "NotHeld", "Stuck", "Config", "Rows",
];

/// A number's name.
pub fn outcome(number: u8) -> &'static str {
    NAMES.get(number as usize).unwrap_or(&"no number of document 01")
}

/// An answer, or why there is none.
#[derive(Clone, Copy, PartialEq, Eq, Debug)]
pub enum Said<T> {
    Is(T),
    /// The call is outside the oracle's domain.
    Outside,
    /// The Rust panicked.
    Panic,
    /// The Rust refused the arguments where document 01 does not.
    Disagrees,
}

#[derive(Clone, Copy, PartialEq, Eq, Debug)]
pub struct Ask {
    pub frame: Option<u64>,
    pub order: u64,
    pub class: u64,
    pub local: Option<u64>,
}

#[derive(Clone, Copy, PartialEq, Eq, Debug, Default)]
pub struct Got {
    pub number: u8,
    pub frame: u64,
    pub class: u8,
    pub looks: u64,
    pub tries: u64,
}

/// A row of the statistics, laid out as the library takes it.
#[repr(C)]
#[derive(Clone, Copy, PartialEq, Eq, Debug, Default)]
pub struct Tally {
    pub free: u64,
    pub alloc: u64,
    pub used: u64,
}

/// What statistics answer, with the rows that are then filled; zeros where they are refused.
#[derive(Clone, Copy, PartialEq, Eq, Debug, Default)]
pub struct Counted {
    pub number: u8,
    pub free: u64,
    pub trees: u64,
    pub rows: [Tally; 8],
}

pub trait Engine {
    fn start(&mut self, s: &mut State, free: bool) -> Said<u8>;
    fn get(&mut self, s: &mut State, ask: &Ask) -> Said<Got>;
    /// The ask has a frame.
    fn put(&mut self, s: &mut State, ask: &Ask) -> Said<u8>;
    fn drain(&mut self, s: &mut State) -> Said<u8>;
    fn stats(&mut self, s: &mut State) -> Said<Counted>;
}
