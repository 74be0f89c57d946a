//! Stand-in for `crate::phy_mfsk`: names that the ladder uses.

#[derive(Clone, Copy, Debug, PartialEq, Eq, Hash)]
pub enum MfskMode {
    R0,
    R1,
}

#[derive(Clone, Copy, Debug, PartialEq, Eq, Hash)]
#[allow(dead_code)]
pub struct MfskLayout(usize);

impl MfskLayout {
    pub const fn scaled(times: usize) -> Self {
        Self(times)
    }
}
