//! Stand-in for core/src/frame.rs, which lib.rs and wrapper.rs name.
//! Only wrapper.rs uses it, and no run here uses wrapper.rs.

#[repr(align(0x1000))]
pub struct Frame {
    bytes: [u8; Frame::SIZE],
}

impl Frame {
    pub const SIZE: usize = crate::FRAME_SIZE;

    pub fn cast<T>(&mut self) -> &mut T {
        assert!(size_of::<T>() <= Self::SIZE && align_of::<T>() <= align_of::<Self>());
        unsafe { &mut *self.bytes.as_mut_ptr().cast() }
    }
}
