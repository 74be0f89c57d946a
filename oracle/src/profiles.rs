//! Generated profiles.

use crate::profile::*;
use crate::rng::Rng;

fn set_f64(p: &mut Profile, line: usize, at: usize, x: f64) {
    p.values[line][at] = Value::F64(x);
}

fn set_f32(p: &mut Profile, line: usize, at: usize, x: f32) {
    p.values[line][at] = Value::F32(x);
}

fn set_whole(p: &mut Profile, line: usize, at: usize, x: u64) {
    p.values[line][at] = Value::Whole(x);
}

/// `p` with frames of at most 264 bytes, unless it is refused: in longer ones the original sends payloads of 255 bytes, which are reserved
/// (document 02, Change 5). A longer one becomes 264, one in eight 263. The edited original is run with frames of all sizes.
pub fn compared(mut p: Profile) -> Profile {
    if !edited() && p.refusal().is_none() {
        let (short, long) = (p.whole(FRAME_BYTES, 0), p.whole(FRAME_BYTES, 1));
        let long = long.min(if long % 8 == 7 { 263 } else { 264 });
        set_whole(&mut p, FRAME_BYTES, 0, short.min(long));
        set_whole(&mut p, FRAME_BYTES, 1, long);
    }
    p
}

fn frame_sizes(r: &mut Rng, p: &mut Profile) {
    let (a, b) = match r.below(8) {
        0 => (18, 512),
        1 => (18, 18),
        2 => (512, 512),
        3 => {
            let n = r.within(18, 512);
            (n, n)
        }
        4 => (r.within(18, 40), r.within(40, 200)),
        5 => (r.within(18, 512), r.within(18, 512)),
        6 => (
            r.pick(&[18, 19, 26, 32, 263, 264, 265, 266]),
            r.pick(&[264, 265, 266, 511, 512]),
        ),
        _ => (32, 180),
    };
    set_whole(p, FRAME_BYTES, 0, a.min(b));
    set_whole(p, FRAME_BYTES, 1, a.max(b));
}

/// The place that harq_stretch had in the line `on` (document 02, Change 11). What was drawn for it still is, and passed over, so that a
/// seed gives the same list as before but for that word.
const RETIRED: usize = 7;

/// Options, gear and small numbers, drawn around the defaults.
fn settings(r: &mut Rng, p: &mut Profile) {
    let mut on: Vec<bool> = (0..11).map(|_| !r.once_in(5)).collect();
    on.remove(RETIRED);
    for (i, &flag) in on.iter().enumerate() {
        p.values[ON][i] = Value::Flag(flag);
    }
    p.values[GEAR][0] = Value::Choice(r.below(2) as usize);
    p.values[POWER][0] = Value::Choice(r.pick(&[0, 0, 1, 2]));
    if r.once_in(10) {
        set_whole(p, PIN, 0, r.within(0, 16));
    }
    if r.once_in(5) {
        set_whole(p, LEVELS, 0, r.within(0, 16));
    }
    if r.once_in(3) {
        set_whole(p, LEVELS, 1, r.within(0, 17));
    }
    for i in 0..2 {
        if r.once_in(3) {
            set_f32(p, DBS, i, r.within(0, 12) as f32 * 0.5 - 3.0);
        }
    }
    if r.once_in(2) {
        set_f32(p, DBS, 2, r.within(0, 30) as f32 - 5.0);
    }
    if r.once_in(2) {
        set_f32(p, DBS, 3, r.within(0, 6) as f32);
    }
    match r.below(6) {
        0 => p.values[START_MARGIN][0] = Value::None,
        1 | 2 => set_f32(p, START_MARGIN, 0, r.within(0, 16) as f32 - 4.0),
        _ => {}
    }
    if r.once_in(3) {
        set_f32(p, CLIMB, 0, r.within(0, 12) as f32 * 0.5 - 1.0);
    }
    if r.once_in(2) {
        let usual = r.pick(&[1.0, 2.0, 4.0, 8.0, 8.0, 16.0, 60.0]);
        set_f64(p, BURST, 0, usual);
        set_f64(p, BURST, 1, r.pick(&[1.0, usual, 16.0, 32.0, 64.0, 200.0]));
        set_f64(p, BURST, 2, r.pick(&[0.01, 0.05, 0.12, 0.3, 1.0]));
        set_f64(p, BURST, 3, r.pick(&[0.0, 0.3, 2.0, 60.0]));
    }
    if r.once_in(2) {
        set_f64(p, HOLDS, 0, r.pick(&[1.0, 30.0, 45.5, 300.0]));
        set_f64(p, HOLDS, 1, r.pick(&[0.0, 100.0, 480.0, 5000.0]));
        set_f64(p, HOLDS, 2, r.pick(&[0.0, 15.0, 200.0]));
    }
}

/// Around the original's defaults.
pub fn usual(r: &mut Rng) -> Profile {
    let mut p = Profile::usual();
    settings(r, &mut p);
    if r.once_in(2) {
        frame_sizes(r, &mut p);
    }
    if r.once_in(3) {
        let times = r.pick(&[0.5, 2.0, 5.0, 10.0]);
        for l in 0..17 {
            let rate = p.f64(l, 2) * times;
            set_f64(&mut p, l, 2, rate);
        }
    }
    if r.once_in(4) {
        for l in 0..17 {
            let bits = p.whole(l, 0) * r.within(1, 12) + r.pick(&[0, 0, 1]) - r.pick(&[0, 0, 1]);
            set_whole(&mut p, l, 3, bits);
        }
    }
    p
}

/// For held pieces: many frames in a burst, increments of all sizes, cues.
/// Comes with how many bytes to queue at most.
pub fn harq(r: &mut Rng) -> (Profile, u64) {
    let mut p = Profile::usual();
    settings(r, &mut p);
    p.values[ON][on::HARQ] = Value::Flag(true);
    p.values[ON][on::MERGE_PIECES] = Value::Flag(!r.once_in(3));
    // Drawn for harq_stretch.
    r.flag();
    p.values[ON][on::HARQ_PARTIAL] = Value::Flag(!r.once_in(3));
    set_whole(&mut p, FRAME_BYTES, 0, r.within(18, 40));
    set_whole(&mut p, FRAME_BYTES, 1, r.within(40, 120));
    set_f32(&mut p, DBS, 2, r.pick(&[7.0, 30.0, 100.0, -20.0]));
    set_f64(&mut p, CUE_S, 0, r.pick(&[0.0, 0.25, 1.12, 1.5, 10.0]));
    let even = r.flag();
    let usual_s = if even {
        r.pick(&[1.0, 2.0, 4.0, 8.0])
    } else {
        r.between(1.0, 20.0)
    };
    set_f64(&mut p, BURST, 0, usual_s);
    set_f64(&mut p, BURST, 1, usual_s * r.pick(&[1.0, 2.0, 4.0, 40.0]));
    let most = r.pick(&[1, 2, 4, 8, 20, 64, 90]);
    for l in 0..17 {
        let slot = if even {
            r.pick(&[64, 128, 256, 1024])
        } else {
            r.within(50, 3000)
        };
        let frames = r.within(1, most) as f64;
        set_whole(&mut p, l, 0, slot);
        set_f64(
            &mut p,
            l,
            1,
            if even {
                r.pick(&[0.0, 0.25, 0.5])
            } else {
                r.between(0.0, 1.0)
            },
        );
        let rate = slot as f64 * frames / usual_s;
        set_f64(&mut p, l, 2, rate.clamp(1.0, 100_000.0));
        if r.once_in(6) {
            set_whole(
                &mut p,
                l,
                3,
                (slot * r.within(1, 20) + r.within(0, 2)).saturating_sub(1).max(1),
            );
        }
    }
    let mother = r.pick(&[64, 256, 1000, 3000, 5760, 16384, 1]);
    set_whole(&mut p, HARQ, 0, mother);
    for i in 1..7 {
        let end = match r.below(4) {
            0 => r.within(1, 16384),
            1 => r.within(1, 2 * mother).min(16384),
            2 => (p.whole(9, 0) * r.within(1, 3) + r.within(0, 2))
                .saturating_sub(1)
                .clamp(1, 16384),
            _ => r.within(1, 400),
        };
        set_whole(&mut p, HARQ, i, end);
    }
    if r.flag() {
        set_whole(&mut p, PIN, 0, r.within(5, 16));
    }
    let mut queue = r.pick(&[20, 500, 2000]);
    match r.below(5) {
        // More increments than fit, behind a cue.
        0 => {
            p.values[ON][on::CUE] = Value::Flag(true);
            p.values[ON][on::HARQ_PARTIAL] = Value::Flag(true);
            set_f32(&mut p, DBS, 2, 100.0);
            set_whole(&mut p, PIN, 0, r.within(7, 16));
            queue = r.pick(&[500, 2000, 8000]);
            large_increments(r, &mut p);
        }
        // More than fit, without a cue.
        1 => {
            // Drawn for harq_stretch.
            r.once_in(3);
            set_f32(&mut p, DBS, 2, -100.0);
            set_whole(&mut p, PIN, 0, r.within(5, 16));
            queue = r.pick(&[500, 2000, 8000]);
            large_increments(r, &mut p);
        }
        // Pieces that stop being held soon, beside pieces that are.
        2 => {
            p.values[ON][on::MERGE_PIECES] = Value::Flag(true);
            set_whole(&mut p, PIN, 0, r.within(5, 16));
            let slot = p.whole(9, 0);
            let mother = (slot * r.within(2, 4) / 2).clamp(1, 16384);
            set_whole(&mut p, HARQ, 0, mother);
            queue = 20;
        }
        _ => {}
    }
    (p, queue)
}

/// Increments several times as long as a slot, of which a burst takes a few.
fn large_increments(r: &mut Rng, p: &mut Profile) {
    let slot = r.within(16, 200);
    let step = slot * r.within(2, 6) + r.within(0, 3);
    let mother = (6 * step).min(16384);
    set_whole(p, HARQ, 0, mother);
    for i in 1..7 {
        set_whole(p, HARQ, i, (slot + step * i as u64).min(16384));
    }
    let usual_s = p.f64(BURST, 0);
    let all = r.once_in(3);
    let fit = if all {
        r.pick(&[62, 63, 63, 64])
    } else {
        r.within(1, 16)
    };
    set_whole(p, FRAME_BYTES, 0, r.within(18, 20));
    set_whole(p, FRAME_BYTES, 1, r.within(20, 40));
    for l in 0..17 {
        set_whole(p, l, 0, slot);
        set_f64(p, l, 1, 0.0);
        set_whole(p, l, 3, 0xFFFF_FFFF);
        set_f64(p, l, 2, ((step * fit) as f64 / usual_s).clamp(1.0, 100_000.0));
    }
    set_f64(p, CUE_S, 0, if all { 0.0 } else { r.pick(&[0.0, 0.125, 0.5]) });
}

/// For splitting and merging: any frame sizes, short levels within reach.
pub fn merge(r: &mut Rng) -> Profile {
    let mut p = usual(r);
    frame_sizes(r, &mut p);
    p.values[ON][on::MERGE_PIECES] = Value::Flag(!r.once_in(6));
    p.values[PIN][0] = Value::None;
    set_whole(&mut p, LEVELS, 0, 16);
    for l in 0..17 {
        let frames = r.within(1, if l < 5 { 7 } else { 24 }) as f64;
        let rate = (p.whole(l, 0) as f64 * frames / 6.0).clamp(1.0, 100_000.0);
        set_f64(&mut p, l, 2, rate);
    }
    p
}

/// For the most bytes and pieces in flight.
pub fn many(r: &mut Rng) -> Profile {
    let mut p = Profile::usual();
    settings(r, &mut p);
    p.values[PIN][0] = Value::None;
    set_whole(&mut p, LEVELS, 0, 16);
    set_whole(&mut p, FRAME_BYTES, 0, r.pick(&[18, 18, 18, 19, 25, 265]));
    set_whole(&mut p, FRAME_BYTES, 1, r.pick(&[265, 265, 266, 512, 300]));
    set_f32(&mut p, START_MARGIN, 0, 0.0);
    for l in 0..17 {
        set_whole(&mut p, l, 0, r.within(1, 64));
        set_f64(&mut p, l, 1, 0.0);
        set_f64(&mut p, l, 2, r.pick(&[100_000.0, 5000.0]));
    }
    p
}

/// Every level alike, so that equal worths meet.
pub fn flat(r: &mut Rng) -> Profile {
    let mut p = Profile::usual();
    settings(r, &mut p);
    let n = r.pick(&[18, 40, 265]);
    set_whole(&mut p, FRAME_BYTES, 0, n);
    set_whole(&mut p, FRAME_BYTES, 1, n);
    let slot = r.within(1, 2000);
    let rate = r.pick(&[100.0, 1000.0, 7777.0]);
    let th = r.within(0, 10) as f32 - 5.0;
    for l in 0..17 {
        set_whole(&mut p, l, 0, slot);
        set_f64(&mut p, l, 1, 0.5);
        set_f64(&mut p, l, 2, rate);
        set_f32(&mut p, THRESHOLDS, l, th);
        set_f32(&mut p, EFF_THRESHOLDS, l, th);
    }
    p
}

/// Values at or within their limits, as many as `share` of 8.
pub fn extreme(r: &mut Rng) -> Profile {
    let mut p = usual(r);
    let share = r.within(1, 8);
    for (line, (_, ranges)) in LINES.iter().enumerate() {
        for (at, range) in ranges.iter().enumerate() {
            if (line, at) == (ON, RETIRED) && r.below(8) < share {
                r.below(4);
                r.flag();
            }
            if r.below(8) >= share {
                continue;
            }
            let side = r.below(4);
            p.values[line][at] = match *range {
                Range::Whole(lo, hi) | Range::MaybeWhole(lo, hi) => Value::Whole(match side {
                    0 => lo,
                    1 => hi,
                    2 => r.within(lo, hi),
                    _ => r.within(lo, hi.min(lo + 300)),
                }),
                Range::F64(lo, hi) => Value::F64(match side {
                    0 => lo,
                    1 => hi,
                    2 => r.between(lo, hi),
                    _ => r.between(lo, hi.min(lo + 10.0)),
                }),
                Range::F32(lo, hi) | Range::MaybeF32(lo, hi) => Value::F32(match side {
                    0 => lo,
                    1 => hi,
                    2 => r.between(lo as f64, hi as f64) as f32,
                    _ => r.within(0, 40) as f32 - 20.0,
                }),
                Range::Choice(names) => Value::Choice(r.below(names.len() as u64) as usize),
                Range::Flag => Value::Flag(r.flag()),
            };
            if matches!(range, Range::MaybeWhole(..) | Range::MaybeF32(..)) && r.flag() {
                p.values[line][at] = Value::None;
            }
        }
    }
    let (a, b) = (p.whole(FRAME_BYTES, 0), p.whole(FRAME_BYTES, 1));
    set_whole(&mut p, FRAME_BYTES, 0, a.min(b));
    set_whole(&mut p, FRAME_BYTES, 1, a.max(b));
    p
}

/// The numbers of a profile, by line and place.
pub fn number_places() -> Vec<(usize, usize)> {
    let mut places = Vec::new();
    for (line, (_, ranges)) in LINES.iter().enumerate() {
        for (at, range) in ranges.iter().enumerate() {
            if !matches!(range, Range::Choice(_) | Range::Flag) {
                places.push((line, at));
            }
        }
    }
    places
}

/// On either side of the limits of one number.
pub const SIDES: u64 = 8;

/// The usual profile with one number on side `side` of its limits.
pub fn limit(r: &mut Rng, (line, at): (usize, usize), side: u64) -> Profile {
    let mut p = if r.flag() { Profile::usual() } else { usual(r) };
    let range = LINES[line].1[at];
    p.values[line][at] = match range {
        Range::Whole(lo, hi) | Range::MaybeWhole(lo, hi) => Value::Whole(match side {
            0 => lo.saturating_sub(1),
            1 => lo,
            2 => hi,
            3 => hi + 1,
            4 => 1 << 32 | lo,
            5 => u64::MAX,
            6 => 256 + lo,
            _ => 65_536 + lo,
        }),
        Range::F64(lo, hi) => Value::F64(match side {
            0 => lo.next_down(),
            1 => lo,
            2 => hi,
            3 => hi.next_up(),
            4 => f64::NAN,
            5 => f64::INFINITY,
            6 => f64::NEG_INFINITY,
            _ => -0.0,
        }),
        Range::F32(lo, hi) | Range::MaybeF32(lo, hi) => Value::F32(match side {
            0 => lo.next_down(),
            1 => lo,
            2 => hi,
            3 => hi.next_up(),
            4 => f32::NAN,
            5 => f32::INFINITY,
            6 => f32::NEG_INFINITY,
            _ => -0.0,
        }),
        Range::Choice(_) | Range::Flag => unreachable!("no number"),
    };
    p
}

/// Frame sizes of which the short one is larger, at times with a number out
/// of range too.
pub fn swapped(r: &mut Rng) -> Profile {
    let mut p = usual(r);
    let long = r.within(18, 511);
    set_whole(&mut p, FRAME_BYTES, 0, r.pick(&[long + 1, 512]));
    set_whole(&mut p, FRAME_BYTES, 1, long);
    if r.once_in(3) {
        set_f64(&mut p, CUE_S, 0, f64::NAN);
    }
    p
}
