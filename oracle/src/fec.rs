//! Stand-in for `crate::fec`: sizes and code lengths are the profile's.

use crate::active;
use std::ops::{Div, Mul};

#[derive(Clone, Copy, Debug, PartialEq, Eq)]
#[allow(non_camel_case_types, dead_code)]
pub enum Rate {
    R1_4,
    R1_3,
    R1_2,
    R2_3,
    R3_4,
    R5_6,
}

impl Rate {
    pub fn n(self) -> usize {
        active::slot()
    }
}

/// Information bits of a codeword; the original only divides them by 8.
pub struct Bits(fn() -> usize);

pub const K: Bits = Bits(active::long_bytes);
pub const K_SHORT: Bits = Bits(active::short_bytes);

impl Div<usize> for Bits {
    type Output = usize;

    fn div(self, by: usize) -> usize {
        self.0() * 8 / by
    }
}

pub fn n_short() -> usize {
    active::slot()
}

/// GF(32) symbols; the original multiplies them by five bits each.
pub struct Symbols;

impl Mul<Symbols> for usize {
    type Output = usize;

    fn mul(self, _: Symbols) -> usize {
        assert_eq!(self, 5);
        active::slot()
    }
}

pub mod nb {
    pub fn n_for(_: super::Rate) -> super::Symbols {
        super::Symbols
    }
}
