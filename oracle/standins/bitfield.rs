//! Stand-in for bitfield.rs: a row is 64 frames.

use crate::trees::TreeId;
use crate::{BITFIELD_ROW, FrameId};

#[derive(Clone, Copy, PartialEq, Eq, Debug)]
pub struct RowId(pub usize);
impl RowId {
    pub const fn as_frame(self) -> FrameId {
        FrameId(self.0 * BITFIELD_ROW)
    }
    pub const fn as_tree(self) -> TreeId {
        self.as_frame().as_tree()
    }
    pub const fn into_bits(self) -> u64 {
        self.0 as u64
    }
    pub const fn from_bits(bits: u64) -> Self {
        Self(bits as usize)
    }
}
