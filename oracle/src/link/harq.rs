//! Stand-in for harq.rs, from document 01, module 2.

use crate::active;
use std::cmp::Ordering;

pub const MAX_SLOTS: usize = 64;
pub const PARTIAL_MAX: usize = 62;

/// Twice the mother length: a piece is held below it.
pub struct HeldLimit;

pub const H_MAX: HeldLimit = HeldLimit;

impl PartialEq<HeldLimit> for usize {
    fn eq(&self, _: &HeldLimit) -> bool {
        *self == 2 * active::mother()
    }
}

impl PartialOrd<HeldLimit> for usize {
    fn partial_cmp(&self, _: &HeldLimit) -> Option<Ordering> {
        self.partial_cmp(&(2 * active::mother()))
    }
}

/// Where the next bits of a codeword with `held` bits start.
pub fn start(held: usize) -> usize {
    held % active::mother()
}

/// The bits sent next: up to the smallest rate end above, else a slot.
pub fn increment(held: usize, slot: usize) -> usize {
    match active::ends().into_iter().filter(|&end| end > held).min() {
        Some(end) => end - held,
        None => slot,
    }
}

pub fn partial_field(parity: usize, stored: usize) -> u16 {
    if parity == stored { 0 } else { parity.min(62) as u16 + 1 }
}

pub fn burst_check_bits(stored: usize, field: u16) -> u8 {
    let n = stored + (field != 0) as usize;
    if n == 0 { 0 } else { 1 + (n % 3) as u8 }
}

#[cfg(test)]
mod tests {
    use super::*;

    /// Document 01's reckoned examples P1 to P4.
    #[test]
    fn reckoned() {
        let n = active::Numbers {
            short_bytes: 32,
            long_bytes: 180,
            slots: [2880; 17],
            mother: 5760,
            ends: [5760, 4320, 2880, 2160, 1920, 1728],
            cue_s: 0.0,
            td_clip: false,
        };
        active::set(&n, 0);
        assert_eq!(increment(2880, 2880), 1440);
        assert_eq!((increment(5760, 2880), start(5760)), (2880, 0));
        assert_eq!(
            (partial_field(3, 3), partial_field(3, 5), partial_field(62, 64)),
            (0, 4, 63)
        );
        assert_eq!(burst_check_bits(5, 4), 1);
        assert!(11519usize < H_MAX && 11520usize >= H_MAX);
    }
}
