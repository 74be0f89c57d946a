//! Stand-in for `crate::phy`: names that the ladder uses, and which power
//! table the profile asks for.

#[derive(Clone, Copy, Debug, PartialEq, Eq)]
pub enum Constellation {
    Qpsk,
    Psk8,
    Qam16,
    Qam64,
}

#[derive(Clone, Copy, Debug, PartialEq, Eq)]
pub enum Pilots {
    Robust,
}

pub fn td_clip_on() -> bool {
    crate::active::td_clip()
}
