//! The second box (document 02, Change 10): a map from offset to byte. A frame is what the original's `Frame::decode` gives, an answer what its
//! `AckInfo::to_bytes` writes. The original's own receiver is not among its files, so the box's logic is compared with this.

use std::collections::BTreeMap;

use crate::link::frame::{AckInfo, Frame, Kind, crc32};
use crate::rng::Rng;

/// Bytes from the first missing one on.
pub const REACH: u64 = 32_768;
/// Past every offset that a frame's 24 bits name.
pub const OFFSETS: u64 = 1 << 24;

/// A decoded frame, with its slot number.
pub type Slotted = (u8, Vec<u8>);

/// What a reception answers.
#[derive(Clone, Debug, PartialEq)]
pub struct Heard {
    pub payload: Vec<u8>,
    /// Frames left out by 16, and by 17.
    pub wrong: usize,
    pub beyond: usize,
    pub handed: Vec<u8>,
}

#[derive(Clone, Default)]
pub struct Listener {
    /// The first missing byte.
    pub first: u64,
    /// Bytes that are there, by offset.
    pub kept: BTreeMap<u64, u8>,
}

impl Listener {
    /// Refusals 3, 6 and 10; `places` and `out` are what is lent.
    pub fn refuses(&self, number: u8, places: u64, out: u64) -> Option<u8> {
        if places < REACH {
            return Some(3);
        }
        if number > 3 {
            return Some(6);
        }
        (out < REACH).then_some(10)
    }

    pub fn receive(&mut self, number: u8, db: u8, frames: &[Slotted]) -> Heard {
        let (mut wrong, mut beyond, mut bitmap, mut next) = (0, 0, 0u64, 0u8);
        let start = self.first;
        for (slot, bytes) in frames {
            let fits = (18..=512).contains(&bytes.len()) && (next..64).contains(slot);
            let frame = Frame::decode(bytes).filter(|f| fits && f.kind == Kind::Data && (1..=254).contains(&f.payload.len()));
            let Some(frame) = frame else {
                wrong += 1;
                continue;
            };
            let from = frame.field as u64;
            let end = from + frame.payload.len() as u64;
            if end > OFFSETS.min(start + REACH) {
                beyond += 1;
                continue;
            }
            for (offset, byte) in (from..).zip(frame.payload).filter(|x| x.0 >= start) {
                self.kept.entry(offset).or_insert(byte);
            }
            bitmap |= 1 << slot;
            next = slot + 1;
        }
        let mut handed = Vec::new();
        while let Some(byte) = self.kept.remove(&self.first) {
            handed.push(byte);
            self.first += 1;
        }
        let info = AckInfo {
            burst: number,
            bitmap,
            snr_db: db as f32 - 24.0,
            delivered: (self.first % OFFSETS) as u32,
            report: None,
        };
        let payload = info.to_bytes();
        debug_assert_eq!(AckInfo::from_bytes(&payload), Some(info));
        Heard { payload, wrong, beyond, handed }
    }
}

// Generated receptions.

/// A byte of the stream that honest frames carry.
fn streamed(offset: u64) -> u8 {
    (offset.wrapping_mul(0x9E37_79B9_7F4A_7C15) >> 56) as u8
}

/// An offset for `len` bytes, where the first missing byte is `first`: on both sides of every limit, over what is there, or anywhere.
fn offset(r: &mut Rng, first: u64, len: u64) -> u64 {
    let side = r.below(3);
    let at = match r.below(16) {
        0 => (first + REACH + side).saturating_sub(len + 1),
        1 => (OFFSETS + side).saturating_sub(len + 1),
        2 => (first + side).saturating_sub(len + 1),
        3 => first.saturating_sub(r.below(len + 2)),
        4 => r.below(OFFSETS),
        5..=8 => first,
        9..=11 => first + r.below(400),
        _ => first + r.below(REACH),
    };
    at % OFFSETS
}

/// A frame's bytes; `hostile`: it carries other bytes than the stream's.
fn frame(r: &mut Rng, first: u64, hostile: bool) -> Vec<u8> {
    let size = match r.below(24) {
        0 => r.pick(&[0, 1, 9, 10, 17, 513, 514, 600]),
        1..=3 => r.pick(&[18, 19, 264, 265, 511, 512]),
        4..=9 => 180,
        10..=14 => 60,
        _ => r.within(18, 512) as usize,
    };
    if size < 10 {
        return r.bytes(size);
    }
    let most = (size - 10).min(254) as u64;
    let len = match r.below(10) {
        0 => r.pick(&[0, most, 254.min(most + 1), 255, (size as u64).saturating_sub(9).min(255)]),
        1 | 2 => most,
        _ => r.within(most.min(1), most),
    };
    let at = offset(r, first, len);
    let kind = if r.once_in(30) { r.pick(&[0, 1, 2, 4, 5, 6, 255]) } else { 3 };
    let mut bytes = vec![kind, if r.once_in(4) { r.below(256) as u8 } else { 0 }];
    bytes.extend(&at.to_le_bytes()[..3]);
    bytes.push(len as u8);
    let carried = len.min(size as u64 - 10);
    bytes.extend((at..at + carried).map(|o| streamed(o) ^ if hostile { 0x5A } else { 0 }));
    let fill = if r.once_in(3) { r.below(256) as u8 } else { 0 };
    bytes.resize(size - 4, fill);
    bytes.extend(crc32(&bytes).to_le_bytes());
    if r.once_in(20) {
        let place = r.below(size as u64) as usize;
        bytes[place] ^= 1 << r.below(8);
    }
    bytes
}

/// The frames of a reception.
pub fn frames(r: &mut Rng, first: u64) -> Vec<Slotted> {
    let most = r.pick(&[0, 1, 3, 8, 20, 53, 64, 70]);
    let hostile_in = r.pick(&[2, 9, 1000]);
    let mut slot = 0u64;
    (0..most)
        .map(|_| {
            let here = match r.below(40) {
                0 => r.pick(&[62, 63, 64, 65, 128, 255]),
                1 | 2 => slot.saturating_sub(1 + r.below(2)),
                _ => slot,
            };
            slot = (slot + 1 + if r.once_in(12) { r.below(3) } else { 0 }).min(255);
            let hostile = r.once_in(hostile_in);
            (here as u8, frame(r, first, hostile))
        })
        .collect()
}

/// Any box that document 02 calls sound.
#[cfg(feature = "port")]
pub fn sound(r: &mut Rng) -> Listener {
    let first = match r.below(6) {
        0 => 0,
        1 => OFFSETS - r.below(4),
        2 => OFFSETS - r.below(2 * REACH),
        3 => OFFSETS - REACH + r.below(3) - 1,
        _ => r.below(OFFSETS),
    };
    let mut kept = BTreeMap::new();
    for _ in 0..r.pick(&[0, 1, 5, 40]) {
        let (from, len) = (first + 1 + r.below(REACH - 1), 1 + r.below(300));
        let shift = if r.once_in(5) { 0x33 } else { 0 };
        let end = (from + len).min(first + REACH).min(OFFSETS);
        kept.extend((from..end).map(|o| (o, streamed(o) ^ shift)));
    }
    Listener { first, kept }
}
