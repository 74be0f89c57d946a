//! `oracle levels SEED COUNT`: the levels that the original's `level_for` chooses, for every report, class, power table and highest
//! level, under COUNT random sets of thresholds. In the form that tests/levels.c reads.

use std::collections::BTreeMap;
use std::fmt::Write;

use crate::active;
use crate::level::LADDER;
use crate::link::frame::snr_from_q;
use crate::link::report::ChanClass;
use crate::link::station::Station;
use crate::profile::*;
use crate::rng::Rng;

const COUNT: usize = LADDER.len();
/// A report is a byte.
pub const REPORTS: usize = 256;
/// The power tables: none, AIR_MEAN_DB, AIR_MEAN_TD_DB.
const TABLES: usize = 3;

/// The level for each report, over a channel of this class.
pub fn choices(p: &Profile, class: ChanClass) -> [usize; REPORTS] {
    active::set(&p.numbers(), 0);
    let mut s = Station::new(p.config(), p.air());
    s.peer_class = class;
    std::array::from_fn(|q| s.level_at(snr_from_q(q as u32)))
}

/// The levels for the reports from `low` to `high`, each once, ascending, with the lowest report that gives it.
pub fn within(p: &Profile, class: ChanClass, low: u8, high: u8) -> Vec<(usize, u8)> {
    let levels = choices(p, class);
    let mut lowest = BTreeMap::new();
    for q in low..=high {
        lowest.entry(levels[usize::from(q)]).or_insert(q);
    }
    lowest.into_iter().collect()
}

/// The levels for all reports as letters, `a` for level 0.
fn letters(p: &Profile, class: ChanClass) -> String {
    choices(p, class).iter().map(|&l| (b'a' + l as u8) as char).collect()
}

fn power_db(table: usize, l: usize) -> f32 {
    match table {
        0 => 0.0,
        1 => crate::level::AIR_MEAN_DB[l],
        _ => crate::level::AIR_MEAN_TD_DB[l],
    }
}

/// The float above x or below it, or x.
fn beside(r: &mut Rng, x: f32) -> f32 {
    match r.below(3) {
        0 => x.next_up(),
        1 => x.next_down(),
        _ => x,
    }
}

/// A threshold that some report meets or just misses, under one of the power tables.
fn at_a_report(r: &mut Rng, l: usize, margin: f32) -> f32 {
    let seen = snr_from_q(r.below(125) as u32) + power_db(r.below(TABLES as u64) as usize, l);
    beside(r, seen - margin)
}

/// Thresholds and margin, -100 to 100 each.
fn marks(r: &mut Rng, usual: &[f32; COUNT]) -> ([f32; COUNT], f32) {
    let kind = r.below(6);
    let margin = match r.below(4) {
        0 => 0.0,
        1 => r.within(0, 12) as f32 * 0.5 - 3.0,
        2 => r.pick(&[-100.0, 100.0, -0.0]),
        _ => r.between(-30.0, 30.0) as f32,
    };
    let one = r.between(-100.0, 100.0) as f32;
    let thresholds = std::array::from_fn(|l| {
        let db = match kind {
            0 => usual[l],
            1 => usual[l] + r.within(0, 16) as f32 * 0.5 - 4.0,
            2 => at_a_report(r, l, margin),
            3 => r.between(-40.0, 40.0) as f32,
            4 => r.between(-100.0, 100.0) as f32,
            _ => beside(r, one),
        };
        db.clamp(-100.0, 100.0)
    });
    (thresholds, margin)
}

fn put_marks(p: &mut Profile, line: usize, margin: usize, (thresholds, db): ([f32; COUNT], f32)) {
    p.values[line] = thresholds.iter().map(|&x| Value::F32(x)).collect();
    p.values[DBS][margin] = Value::F32(db);
}

/// Both sets of thresholds with their margins, and which is used.
fn marks_line(p: &Profile) -> String {
    let mut line = format!("marks {}", p.on(on::EFF_SNR) as u8);
    for (at, margin) in [(THRESHOLDS, 0), (EFF_THRESHOLDS, 1)] {
        for l in 0..COUNT {
            write!(line, " {:08x}", p.f32(at, l).to_bits()).expect("a string takes all");
        }
        write!(line, " {:08x}", p.f32(DBS, margin).to_bits()).expect("a string takes all");
    }
    line + "\n"
}

/// The classes of a channel, each heeded, and one of them not.
fn classes(r: &mut Rng) -> [(bool, ChanClass); 5] {
    let class = |n: u64| ChanClass {
        echo: n & 1 == 1,
        doppler: n & 2 == 2,
    };
    let any = class(r.below(4));
    std::array::from_fn(|i| if i < 4 { (true, class(i as u64)) } else { (false, any) })
}

/// The usual profile with random thresholds of both sets, one of them in use.
pub fn profile(r: &mut Rng) -> Profile {
    let mut p = Profile::usual();
    put_marks(&mut p, THRESHOLDS, 0, marks(r, &crate::level::THRESHOLDS_DB));
    put_marks(&mut p, EFF_THRESHOLDS, 1, marks(r, &crate::level::EFF_THRESHOLDS_DB));
    p.values[ON][on::EFF_SNR] = Value::Flag(r.flag());
    p
}

/// Every power table, highest level and class under random thresholds.
fn settings(r: &mut Rng) -> String {
    let mut p = profile(r);
    let mut out = marks_line(&p);
    for table in 0..TABLES {
        p.values[POWER][0] = Value::Choice(table);
        for top in 0..COUNT {
            p.values[LEVELS][0] = Value::Whole(top as u64);
            for (heeded, class) in classes(r) {
                p.values[ON][on::PICK_FAMILY] = Value::Flag(heeded);
                let (echo, doppler) = (class.echo as u8, class.doppler as u8);
                let levels = letters(&p, class);
                writeln!(out, "for {table} {top} {} {echo} {doppler} {levels}", heeded as u8)
                    .expect("a string takes all");
            }
        }
    }
    out
}

/// `oracle levels SEED COUNT`, a set of thresholds at a time.
pub fn levels(seed: u64, count: u64, put: impl Fn(&[u8]) -> Result<(), String>) -> Result<(), String> {
    (0..count).try_for_each(|index| put(settings(&mut Rng::new(seed, index)).as_bytes()))
}

#[cfg(test)]
mod tests {
    use super::*;

    /// Document 01's P11: plain thresholds, margin 0, no power table, every level.
    fn p11() -> Profile {
        let mut p = Profile::usual();
        p.values[ON][on::EFF_SNR] = Value::Flag(false);
        p.values[DBS][0] = Value::F32(0.0);
        p
    }

    #[test]
    fn reckoned() {
        let (p, calm) = (p11(), ChanClass::default());
        let echoes = ChanClass { echo: true, ..calm };
        assert_eq!((choices(&p, calm)[30], choices(&p, calm)[4]), (10, 0));
        assert_eq!(within(&p, calm, 26, 30), [(7, 26), (9, 27), (10, 30)]);
        assert_eq!(within(&p, calm, 27, 27), [(9, 27)]);
        assert_eq!(within(&p, echoes, 26, 32), [(7, 26), (8, 31)]);
        assert_eq!(within(&p, calm, 30, 26), []);
    }
}
