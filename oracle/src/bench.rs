//! The time of the original's on_ack, for bench/run.

use std::hint::black_box;
use std::time::Instant;

use crate::active;
use crate::link::frame::caps;
use crate::link::station::{Sent, Station};
use crate::profile::Profile;

const SAMPLES: usize = 201;
const TIMES: usize = 200;

/// The gear that bench_gear's `tried` makes.
fn tried(p: &Profile) -> Station {
    let mut s = Station::new(p.config(), p.air());
    s.level = 9;
    s.target = 9;
    s.success = [Some(1.0); 17];
    s.success_at = [0.0; 17];
    s.fails = [1; 17];
    s.blocked_until = [0.0; 17];
    s.caps = caps::CUE;
    s
}

/// Nanoseconds an ack of nine frames of ten: the lower quartile, the median and the upper one.
pub fn bench() -> [f64; 3] {
    let p = Profile::usual();
    let frames: Vec<Sent> = (0..10).map(|off| Sent { off, bits: 1, held: 1 }).collect();
    let mut samples: Vec<f64> = (0..SAMPLES)
        .map(|_| {
            let mut s = tried(&p);
            active::set(&p.numbers(), s.level);
            let begin = Instant::now();
            for _ in 0..TIMES {
                s.last_burst.extend_from_slice(&frames);
                s.judge(black_box(0x1FF), black_box(40.0), black_box(100.0));
            }
            let ns = begin.elapsed().as_secs_f64() * 1e9 / TIMES as f64;
            black_box(s.level);
            ns
        })
        .collect();
    samples.sort_by(f64::total_cmp);
    [SAMPLES / 4, SAMPLES / 2, SAMPLES - 1 - SAMPLES / 4].map(|at| samples[at])
}
