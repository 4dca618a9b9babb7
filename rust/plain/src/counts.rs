//! The two counts of a frame, as types that never stand in for each other.

#[derive(Clone, Copy, Debug, Default, PartialEq, Eq)]
pub struct MasterCount(pub u8);

#[derive(Clone, Copy, Debug, Default, PartialEq, Eq)]
pub struct ChannelCount(pub u8);

impl MasterCount {
    pub fn next(self) -> Self {
        Self(self.0.wrapping_add(1))
    }
}

impl ChannelCount {
    pub fn next(self) -> Self {
        Self(self.0.wrapping_add(1))
    }

    /// How many frames are missing between the last one heard and this one.
    pub fn gap_after(self, last: ChannelCount) -> u8 {
        self.0.wrapping_sub(last.0).wrapping_sub(1)
    }
}
