//! The profile's numbers in the place of build-time constants of the original
//! (`fec::K`, code lengths, `harq::H_MAX`, `cue_s`). They belong to the thread
//! and are set before each call, so the six files stay as they are.

use std::cell::Cell;

thread_local! {
    static SHORT_BYTES: Cell<usize> = const { Cell::new(0) };
    static LONG_BYTES: Cell<usize> = const { Cell::new(0) };
    static SLOTS: Cell<[usize; 17]> = const { Cell::new([0; 17]) };
    static SLOT: Cell<usize> = const { Cell::new(0) };
    static MOTHER: Cell<usize> = const { Cell::new(0) };
    static ENDS: Cell<[usize; 6]> = const { Cell::new([0; 6]) };
    static CUE_S: Cell<f64> = const { Cell::new(0.0) };
    static TD_CLIP: Cell<bool> = const { Cell::new(false) };
}

#[derive(Clone, Copy, Debug)]
pub struct Numbers {
    pub short_bytes: usize,
    pub long_bytes: usize,
    pub slots: [usize; 17],
    pub mother: usize,
    pub ends: [usize; 6],
    pub cue_s: f64,
    pub td_clip: bool,
}

/// `level` is the one whose slot `Level::coded_bits` gives: `data_burst` asks
/// for the station's own level only.
pub fn set(n: &Numbers, level: usize) {
    SHORT_BYTES.set(n.short_bytes);
    LONG_BYTES.set(n.long_bytes);
    SLOTS.set(n.slots);
    SLOT.set(n.slots[level]);
    MOTHER.set(n.mother);
    ENDS.set(n.ends);
    CUE_S.set(n.cue_s);
    TD_CLIP.set(n.td_clip);
}

pub fn short_bytes() -> usize {
    SHORT_BYTES.get()
}

pub fn long_bytes() -> usize {
    LONG_BYTES.get()
}

pub fn slot_of(level: usize) -> usize {
    SLOTS.get()[level]
}

pub fn slot() -> usize {
    SLOT.get()
}

pub fn mother() -> usize {
    MOTHER.get()
}

pub fn ends() -> [usize; 6] {
    ENDS.get()
}

pub fn cue_s() -> f64 {
    CUE_S.get()
}

pub fn td_clip() -> bool {
    TD_CLIP.get()
}
