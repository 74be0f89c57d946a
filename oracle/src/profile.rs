//! The profile: its lines in a call list, the range of each value, and the
//! original's settings made from it.

use std::fmt;

use crate::active::Numbers;
use crate::link::frame::Frame;
use crate::link::station::{Air, Config, Gear};

#[derive(Clone, Copy, Debug)]
pub enum Range {
    Whole(u64, u64),
    F64(f64, f64),
    F32(f32, f32),
    MaybeF32(f32, f32),
    MaybeWhole(u64, u64),
    Choice(&'static [&'static str]),
    Flag,
}

#[derive(Clone, Copy, Debug)]
pub enum Value {
    Whole(u64),
    F64(f64),
    F32(f32),
    None,
    Choice(usize),
    Flag(bool),
}

use Range::{Choice, F32, F64, Flag, MaybeF32, MaybeWhole, Whole};

const DB: Range = F32(-100.0, 100.0);
const FRAME: Range = Whole(18, 512);
const BITS: Range = Whole(1, 16384);
const HOLD: Range = F64(0.0, 1_000_000.0);
const LEVEL: (&str, &[Range]) = (
    "level",
    &[BITS, F64(0.0, 60.0), F64(1.0, 100_000.0), Whole(1, 0xFFFF_FFFF)],
);

/// The lines after `profile`, in order.
pub const LINES: [(&str, &[Range]); 33] = [
    LEVEL,
    LEVEL,
    LEVEL,
    LEVEL,
    LEVEL,
    LEVEL,
    LEVEL,
    LEVEL,
    LEVEL,
    LEVEL,
    LEVEL,
    LEVEL,
    LEVEL,
    LEVEL,
    LEVEL,
    LEVEL,
    LEVEL,
    ("ack_s", &[F64(0.0, 60.0); 6]),
    ("cue_s", &[F64(0.0, 10.0)]),
    ("frame_bytes", &[FRAME; 2]),
    ("harq", &[BITS; 7]),
    (
        "burst",
        &[F64(1.0, 1000.0), F64(1.0, 1000.0), F64(0.01, 1.0), F64(0.0, 60.0)],
    ),
    ("hold", &[F64(1.0, 100_000.0), HOLD, HOLD]),
    ("thresholds_db", &[DB; 17]),
    ("eff_thresholds_db", &[DB; 17]),
    ("db", &[DB; 4]),
    ("start_margin_db", &[MaybeF32(-100.0, 100.0)]),
    ("burst_climb_db", &[MaybeF32(-100.0, 100.0)]),
    ("levels", &[Whole(0, 16), Whole(0, 17)]),
    ("pin_level", &[MaybeWhole(0, 16)]),
    ("gear", &[Choice(&["goodput", "ladder"])]),
    ("power", &[Choice(&["none", "mean", "td"])]),
    ("on", &[Flag; 10]),
];

pub const ACK_S: usize = 17;
pub const CUE_S: usize = 18;
pub const FRAME_BYTES: usize = 19;
pub const HARQ: usize = 20;
pub const BURST: usize = 21;
pub const HOLDS: usize = 22;
pub const THRESHOLDS: usize = 23;
pub const EFF_THRESHOLDS: usize = 24;
pub const DBS: usize = 25;
pub const START_MARGIN: usize = 26;
pub const CLIMB: usize = 27;
pub const LEVELS: usize = 28;
pub const PIN: usize = 29;
pub const GEAR: usize = 30;
pub const POWER: usize = 31;
pub const ON: usize = 32;

/// Places in the line `on`.
pub mod on {
    pub const HARQ: usize = 0;
    pub const PICK_FAMILY: usize = 1;
    pub const EFF_SNR: usize = 2;
    pub const BURST_ADAPT: usize = 3;
    pub const SMOOTH_TARGET: usize = 4;
    pub const HOLD_BY_GOODPUT: usize = 5;
    pub const SLICE_SLOTS: usize = 6;
    pub const MERGE_PIECES: usize = 7;
    pub const CUE: usize = 8;
    pub const HARQ_PARTIAL: usize = 9;
}

impl Range {
    /// Whether document 01 accepts `v` here.
    pub fn accepts(self, v: Value) -> bool {
        match (self, v) {
            (Whole(lo, hi) | MaybeWhole(lo, hi), Value::Whole(x)) => lo <= x && x <= hi,
            (F64(lo, hi), Value::F64(x)) => lo <= x && x <= hi,
            (F32(lo, hi) | MaybeF32(lo, hi), Value::F32(x)) => lo <= x && x <= hi,
            _ => true,
        }
    }

    /// The value that `word` gives, None where it breaks the lexical rules.
    pub fn read(self, word: &[u8]) -> Option<Value> {
        use crate::list::{read_f32, read_f64, read_flag, read_whole};
        if word == b"none" && matches!(self, MaybeF32(..) | MaybeWhole(..)) {
            return Some(Value::None);
        }
        match self {
            Whole(..) | MaybeWhole(..) => read_whole(word).map(Value::Whole),
            F64(..) => read_f64(word).map(Value::F64),
            F32(..) | MaybeF32(..) => read_f32(word).map(Value::F32),
            Choice(names) => names.iter().position(|n| n.as_bytes() == word).map(Value::Choice),
            Flag => read_flag(word).map(Value::Flag),
        }
    }
}

#[derive(Clone, Debug)]
pub struct Profile {
    pub values: Vec<Vec<Value>>,
}

impl Profile {
    /// The numbers of the example profile: the original's defaults over a
    /// plausible radio.
    pub fn usual() -> Self {
        let slots = [
            1024, 1024, 770, 515, 385, 4320, 2880, 5760, 2880, 4320, 2880, 2160, 2160, 2160, 1920, 1920, 1728,
        ];
        let pre = [
            2.6, 0.9, 0.9, 0.9, 0.9, 0.8, 0.8, 0.5, 0.5, 0.4, 0.4, 0.4, 0.4, 0.4, 0.4, 0.4, 0.4,
        ];
        let rate = [
            40.0, 150.0, 150.0, 150.0, 150.0, 750.0, 750.0, 2000.0, 2000.0, 2800.0, 2800.0, 2800.0, 4200.0, 5600.0,
            5600.0, 8400.0, 8400.0,
        ];
        let mut values: Vec<Vec<Value>> = (0..17)
            .map(|l| {
                vec![
                    Value::Whole(slots[l]),
                    Value::F64(pre[l]),
                    Value::F64(rate[l]),
                    Value::Whole(0xFFFF_FFFF),
                ]
            })
            .collect();
        let f64s = |xs: &[f64]| xs.iter().map(|&x| Value::F64(x)).collect::<Vec<_>>();
        let f32s = |xs: &[f32]| xs.iter().map(|&x| Value::F32(x)).collect::<Vec<_>>();
        let wholes = |xs: &[u64]| xs.iter().map(|&x| Value::Whole(x)).collect::<Vec<_>>();
        values.push(f64s(&[12.0, 3.2, 1.1, 0.9, 0.6, 0.5]));
        values.push(f64s(&[1.12]));
        values.push(wholes(&[32, 180]));
        values.push(wholes(&[5760, 5760, 4320, 2880, 2160, 1920, 1728]));
        values.push(f64s(&[8.0, 32.0, 0.12, 0.3]));
        values.push(f64s(&[30.0, 480.0, 15.0]));
        values.push(f32s(&crate::level::THRESHOLDS_DB));
        values.push(f32s(&crate::level::EFF_THRESHOLDS_DB));
        values.push(f32s(&[-1.0, 0.0, 7.0, 3.0]));
        values.push(f32s(&[3.0]));
        values.push(vec![Value::None]);
        values.push(wholes(&[16, 8]));
        values.push(vec![Value::None]);
        values.push(vec![Value::Choice(0)]);
        values.push(vec![Value::Choice(0)]);
        values.push(vec![Value::Flag(true); 10]);
        Self { values }
    }

    /// Refusals 1 and 2.
    pub fn refusal(&self) -> Option<u8> {
        let whole = LINES
            .iter()
            .zip(&self.values)
            .all(|((_, ranges), values)| ranges.iter().zip(values).all(|(r, &v)| r.accepts(v)));
        if !whole {
            Some(1)
        } else if self.whole(FRAME_BYTES, 0) > self.whole(FRAME_BYTES, 1) {
            Some(2)
        } else {
            None
        }
    }

    pub fn whole(&self, line: usize, at: usize) -> u64 {
        match self.values[line][at] {
            Value::Whole(x) => x,
            other => panic!("no whole number: {other:?}"),
        }
    }

    pub fn f64(&self, line: usize, at: usize) -> f64 {
        match self.values[line][at] {
            Value::F64(x) => x,
            other => panic!("no f64: {other:?}"),
        }
    }

    pub fn f32(&self, line: usize, at: usize) -> f32 {
        match self.values[line][at] {
            Value::F32(x) => x,
            other => panic!("no f32: {other:?}"),
        }
    }

    pub fn on(&self, at: usize) -> bool {
        matches!(self.values[ON][at], Value::Flag(true))
    }

    pub fn choice(&self, line: usize) -> usize {
        match self.values[line][0] {
            Value::Choice(x) => x,
            other => panic!("no choice: {other:?}"),
        }
    }

    pub fn maybe_f32(&self, line: usize) -> Option<f32> {
        match self.values[line][0] {
            Value::F32(x) => Some(x),
            _ => None,
        }
    }

    fn size(&self, line: usize, at: usize) -> usize {
        self.whole(line, at) as usize
    }

    pub fn numbers(&self) -> Numbers {
        Numbers {
            short_bytes: self.size(FRAME_BYTES, 0),
            long_bytes: self.size(FRAME_BYTES, 1),
            slots: std::array::from_fn(|l| self.size(l, 0)),
            mother: self.size(HARQ, 0),
            ends: std::array::from_fn(|i| self.size(HARQ, i + 1)),
            cue_s: self.f64(CUE_S, 0),
            td_clip: self.choice(POWER) == 2,
        }
    }

    pub fn air(&self) -> Air {
        Air {
            pre_s: std::array::from_fn(|l| self.f64(l, 1)),
            rate: std::array::from_fn(|l| self.f64(l, 2)),
            max_bits: std::array::from_fn(|l| self.size(l, 3)),
            ack_s: std::array::from_fn(|w| self.f64(ACK_S, w)),
        }
    }

    /// The original's `Config` with every value that the profile carries.
    pub fn config(&self) -> Config {
        let mut c = Config::new("N0CALL");
        c.max_burst_s = self.f64(BURST, 0);
        c.max_burst_long_s = self.f64(BURST, 1);
        c.burst_overhead = self.f64(BURST, 2);
        c.turnaround_s = self.f64(BURST, 3);
        c.fail_hold_s = self.f64(HOLDS, 0);
        c.fail_hold_max_s = self.f64(HOLDS, 1);
        c.loss_hold_s = self.f64(HOLDS, 2);
        c.thresholds_db = (0..17).map(|l| self.f32(THRESHOLDS, l)).collect();
        c.eff_thresholds_db = (0..17).map(|l| self.f32(EFF_THRESHOLDS, l)).collect();
        c.margin_db = self.f32(DBS, 0);
        c.eff_margin_db = self.f32(DBS, 1);
        c.cue_below_db = self.f32(DBS, 2);
        c.burst_steady_db = self.f32(DBS, 3);
        c.start_margin_db = self.maybe_f32(START_MARGIN);
        c.burst_climb_db = self.maybe_f32(CLIMB);
        c.max_level = self.size(LEVELS, 0);
        c.skip_slices_from = self.size(LEVELS, 1);
        c.pin_level = match self.values[PIN][0] {
            Value::Whole(l) => Some(l as usize),
            _ => None,
        };
        c.gear = [Gear::Goodput, Gear::Ladder][self.choice(GEAR)];
        c.power_aware = self.choice(POWER) != 0;
        c.harq = self.on(on::HARQ);
        c.pick_family = self.on(on::PICK_FAMILY);
        c.eff_snr = self.on(on::EFF_SNR);
        c.burst_adapt = self.on(on::BURST_ADAPT);
        c.smooth_target = self.on(on::SMOOTH_TARGET);
        c.hold_by_goodput = self.on(on::HOLD_BY_GOODPUT);
        c.slice_slots = self.on(on::SLICE_SLOTS);
        // Retired (document 02, Change 11).
        c.harq_stretch = false;
        c.merge_pieces = self.on(on::MERGE_PIECES);
        c.cue = self.on(on::CUE);
        c.harq_partial = self.on(on::HARQ_PARTIAL);
        c.compress = false;
        c.stream = false;
        c.lifeline = false;
        c
    }
}

/// Whether the original was edited to payloads of at most 254 bytes (`oracle/run-edited`).
pub fn edited() -> bool {
    Frame::max_payload(512) == 254
}

/// What answers here.
pub fn original() -> &'static str {
    if edited() {
        "the original, edited to payloads of at most 254 bytes"
    } else {
        "the original"
    }
}

/// Payload bytes of a frame of `size` bytes, as document 02 (Change 5) has them.
pub fn payload_of(size: u64) -> usize {
    (size as usize - 10).min(254)
}

impl fmt::Display for Profile {
    fn fmt(&self, f: &mut fmt::Formatter) -> fmt::Result {
        writeln!(f, "profile")?;
        for ((name, ranges), values) in LINES.iter().zip(&self.values) {
            write!(f, "{name}")?;
            for (range, value) in ranges.iter().zip(values) {
                match (range, *value) {
                    (_, Value::Whole(x)) => write!(f, " {x}")?,
                    (_, Value::F64(x)) => write!(f, " 0x{:016x}", x.to_bits())?,
                    (_, Value::F32(x)) => write!(f, " 0x{:08x}", x.to_bits())?,
                    (_, Value::None) => write!(f, " none")?,
                    (Choice(names), Value::Choice(i)) => write!(f, " {}", names[i])?,
                    (_, Value::Choice(i)) => write!(f, " {i}")?,
                    (_, Value::Flag(b)) => write!(f, " {}", b as u8)?,
                }
            }
            writeln!(f)?;
        }
        Ok(())
    }
}
