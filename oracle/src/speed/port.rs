//! A call list's profile as the port takes it.

use vanitycrow as port;

use crate::profile::*;

fn air(p: &Profile) -> port::Air {
    port::Air {
        slot_bits: std::array::from_fn(|l| p.whole(l, 0) as u32),
        pre_s: std::array::from_fn(|l| p.f64(l, 1)),
        rate: std::array::from_fn(|l| p.f64(l, 2)),
        max_bits: std::array::from_fn(|l| p.whole(l, 3) as u32),
        ack_s: std::array::from_fn(|w| p.f64(ACK_S, w)),
        cue_s: p.f64(CUE_S, 0),
    }
}

fn maybe_db(x: Option<f32>) -> port::MaybeDb {
    port::MaybeDb {
        set: x.is_some(),
        db: x.unwrap_or(0.0),
    }
}

fn lengths(p: &Profile) -> port::Lengths {
    port::Lengths {
        max_burst_s: p.f64(BURST, 0),
        max_burst_long_s: p.f64(BURST, 1),
        burst_overhead: p.f64(BURST, 2),
        turnaround_s: p.f64(BURST, 3),
        burst_adapt: p.on(on::BURST_ADAPT),
        burst_steady_db: p.f32(DBS, 3),
        burst_climb_db: maybe_db(p.maybe_f32(CLIMB)),
    }
}

fn marks(p: &Profile, line: usize, margin: usize) -> port::Marks {
    port::Marks {
        thresholds_db: std::array::from_fn(|l| p.f32(line, l)),
        margin_db: p.f32(DBS, margin),
    }
}

fn pin_level(p: &Profile) -> port::MaybeLevel {
    let pin = match p.values[PIN][0] {
        Value::Whole(level) => Some(level as usize),
        _ => None,
    };
    port::MaybeLevel {
        set: pin.is_some(),
        level: pin.unwrap_or(0),
    }
}

pub fn profile(p: &Profile) -> port::Profile {
    port::Profile {
        air: air(p),
        short_bytes: p.whole(FRAME_BYTES, 0) as u32,
        long_bytes: p.whole(FRAME_BYTES, 1) as u32,
        codes: port::Codes {
            mother: p.whole(HARQ, 0) as u32,
            ends: std::array::from_fn(|i| p.whole(HARQ, i + 1) as u32),
        },
        lengths: lengths(p),
        hold_times: port::HoldTimes {
            fail_hold_s: p.f64(HOLDS, 0),
            fail_hold_max_s: p.f64(HOLDS, 1),
            loss_hold_s: p.f64(HOLDS, 2),
        },
        plain: marks(p, THRESHOLDS, 0),
        eff: marks(p, EFF_THRESHOLDS, 1),
        eff_snr: p.on(on::EFF_SNR),
        cue_below_db: p.f32(DBS, 2),
        start_margin_db: maybe_db(p.maybe_f32(START_MARGIN)),
        max_level: p.whole(LEVELS, 0) as usize,
        skip_slices_from: p.whole(LEVELS, 1) as usize,
        pin_level: pin_level(p),
        goodput: p.choice(GEAR) == 0,
        power: p.choice(POWER) as u8,
        harq: p.on(on::HARQ),
        pick_family: p.on(on::PICK_FAMILY),
        smooth_target: p.on(on::SMOOTH_TARGET),
        hold_by_goodput: p.on(on::HOLD_BY_GOODPUT),
        slice_slots: p.on(on::SLICE_SLOTS),
        merge_pieces: p.on(on::MERGE_PIECES),
        cue: p.on(on::CUE),
        harq_partial: p.on(on::HARQ_PARTIAL),
    }
}
