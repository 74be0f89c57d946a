//! Decisions of the original's gear: for each reply what the gear reads of it, and the fields that it leaves. In the form
//! that the port's `gear_cases` reads: see its main.rt.

use crate::generate;
use crate::harness::Harness;
use crate::link::frame::caps;
use crate::link::station::{Awaiting, Station};
use crate::list::{Call, Item};
use crate::profile::*;

const LEVELS: usize = 17;
const KINDS: [&str; 6] = ["usual", "ladder", "harq", "extreme", "hostile", "merge"];
const PROFILE_BYTES: usize = 8 * 146 + 4;
const REPLY_BYTES: usize = 60;
const LEVEL_BYTES: usize = 24;
const CALLS: usize = 150;
const LOST: u64 = 260;

/// What the gear reads of a reply.
#[derive(Clone, Copy, Default)]
struct Outcome {
    empty: bool,
    fresh: bool,
    matched: bool,
    sent: u8,
    got: u8,
}

fn bit(bitmap: u64, at: usize) -> bool {
    at < 64 && bitmap >> at & 1 == 1
}

/// Document 01, module 4: the counts that on_ack makes of the outstanding burst.
fn outcome(s: &Station, number: u8, bitmap: u64) -> Outcome {
    let fresh = s.last_burst.iter().any(|f| f.held == f.bits);
    let counts = |at: usize| s.last_burst[at].held == s.last_burst[at].bits || !fresh;
    let places = 0..s.last_burst.len();
    Outcome {
        empty: s.last_burst.is_empty(),
        fresh,
        matched: number == s.burst_id,
        sent: places.clone().filter(|&i| counts(i)).count() as u8,
        got: places.filter(|&i| counts(i) && bit(bitmap, i)).count() as u8,
    }
}

/// A reply that reaches the gear.
struct Reply {
    tag: u8,
    echo: bool,
    doppler: bool,
    cue: bool,
    burst: Outcome,
    wave: u8,
    snr: f32,
    now: f64,
}

/// What the call is to the gear; None where it doesn't reach it.
fn reply(h: &Harness, call: &Call) -> Option<Reply> {
    let s = &h.station;
    let awaited = s.awaiting == Awaiting::Ack;
    let six = |number: u64, bitmap: u64| {
        let all = number as u8 == s.burst_id && s.last_burst.len() > 6 && bitmap == 63;
        if all { u64::MAX } else { bitmap }
    };
    match *call {
        Call::Connect {
            t,
            wave,
            db,
            echo,
            doppler,
            cue,
            ..
        } => Some(Reply {
            tag: 1,
            echo,
            doppler,
            cue: cue && s.cfg.cue,
            burst: Outcome::default(),
            wave: wave as u8,
            snr: db,
            now: t,
        }),
        Call::Short {
            t,
            wave,
            burst,
            bitmap,
            db,
            echo,
            doppler,
            ..
        } if awaited => Some(Reply {
            tag: 2,
            echo,
            doppler,
            cue: false,
            burst: outcome(s, burst as u8, six(burst, bitmap)),
            wave: wave as u8,
            snr: db,
            now: t,
        }),
        Call::Long {
            t, wave, ref payload, ..
        } if awaited => {
            let a = crate::link::frame::AckInfo::from_bytes(payload)?;
            let class = a.report.map(|r| r.class).unwrap_or_default();
            Some(Reply {
                tag: 2,
                echo: class.echo,
                doppler: class.doppler,
                cue: false,
                burst: outcome(s, a.burst, a.bitmap),
                wave: wave as u8,
                snr: match a.report {
                    Some(r) if s.cfg.eff_snr => r.eff_snr_db,
                    _ => a.snr_db,
                },
                now: t,
            })
        }
        Call::Turn { t, wave, here, db } => Some(Reply {
            tag: 3,
            echo: s.peer_class.echo,
            doppler: s.peer_class.doppler,
            cue: false,
            burst: Outcome {
                matched: false,
                got: 0,
                ..outcome(s, s.burst_id, 0)
            },
            wave: wave as u8,
            snr: db.unwrap_or(here),
            now: t,
        }),
        _ => None,
    }
}

/// The fields of one level, as they are written.
fn level(s: &Station, k: usize) -> [u8; LEVEL_BYTES] {
    let mut out = vec![k as u8, s.success[k].is_some() as u8, s.fails[k], s.hold_all[k] as u8];
    out.extend(s.success[k].unwrap_or(0.0).to_bits().to_le_bytes());
    out.extend(s.success_at[k].to_bits().to_le_bytes());
    out.extend(s.blocked_until[k].to_bits().to_le_bytes());
    out.try_into().expect("its length")
}

fn put_reply(out: &mut Vec<u8>, r: &Reply, before: &Station, s: &Station) {
    let changed: Vec<usize> = (0..LEVELS).filter(|&k| level(before, k) != level(s, k)).collect();
    let begin = out.len();
    out.extend([r.tag, r.echo as u8, r.doppler as u8, r.cue as u8]);
    out.extend([r.burst.empty as u8, r.burst.fresh as u8, r.burst.matched as u8]);
    out.extend([r.burst.sent, r.burst.got, r.wave, changed.len() as u8]);
    out.extend([s.level as u8, s.target as u8, s.snr_reports.len() as u8]);
    out.extend([s.aim_db.is_some() as u8, s.last_report_db.is_some() as u8]);
    out.extend(r.snr.to_bits().to_le_bytes());
    out.extend(r.now.to_bits().to_le_bytes());
    out.extend(s.burst_s.to_bits().to_le_bytes());
    out.extend(s.aim_db.unwrap_or(0.0).to_bits().to_le_bytes());
    out.extend(s.last_report_db.unwrap_or(0.0).to_bits().to_le_bytes());
    for place in 0..3 {
        let missing = 3 - s.snr_reports.len();
        let db = if place < missing {
            0.0
        } else {
            s.snr_reports[place - missing]
        };
        out.extend(db.to_bits().to_le_bytes());
    }
    out.extend([s.peer_class.echo as u8, s.peer_class.doppler as u8]);
    out.extend([(s.caps & caps::CUE != 0) as u8, 0]);
    assert_eq!(out.len(), begin + REPLY_BYTES);
    for k in changed {
        out.extend(level(s, k));
    }
}

/// A value as a number of the profile's table: floats by their bits, `none` as the largest number, `goodput` as 1.
fn number(line: usize, value: Value) -> u64 {
    match value {
        Value::Whole(n) => n,
        Value::F64(x) => x.to_bits(),
        Value::F32(x) => x.to_bits().into(),
        Value::None => u64::MAX,
        Value::Choice(at) if line == GEAR => (at == 0).into(),
        Value::Choice(at) => at as u64,
        Value::Flag(b) => b.into(),
    }
}

fn put_profile(out: &mut Vec<u8>, p: &Profile, replies: u32) {
    let begin = out.len();
    for (line, values) in p.values.iter().enumerate() {
        for &value in values {
            out.extend(number(line, value).to_le_bytes());
        }
    }
    out.extend(replies.to_le_bytes());
    assert_eq!(out.len(), begin + PROFILE_BYTES);
}

/// The replies of one sender so far, as they are written.
struct Decisions {
    harness: Harness,
    replies: u64,
    body: Vec<u8>,
}

impl Decisions {
    fn new(profile: Profile) -> Self {
        Self {
            harness: Harness::new(profile),
            replies: 0,
            body: Vec::new(),
        }
    }

    fn call(&mut self, call: &Call) {
        let h = &mut self.harness;
        let to_gear = if h.refuses(call).is_none() {
            reply(h, call)
        } else {
            None
        };
        let before = h.station.clone();
        h.call(call);
        if let Some(r) = to_gear {
            put_reply(&mut self.body, &r, &before, &h.station);
            self.replies += 1;
        }
    }

    /// Writes the profile and the replies, and says how many there are.
    fn put(self, out: &mut Vec<u8>) -> u64 {
        if self.replies > 0 {
            put_profile(out, &self.harness.profile, self.replies as u32);
            out.extend(self.body);
        }
        self.replies
    }
}

/// The decisions of a generated list.
fn generated(seed: u64, index: u64) -> Decisions {
    let kind = KINDS[(index % KINDS.len() as u64) as usize];
    let mut made: Option<Decisions> = None;
    for item in generate::list_of_all_frames(seed, index, CALLS, kind) {
        match item {
            Item::Profile(p) => made = Some(Decisions::new(p)),
            Item::Call(call) => made.as_mut().expect("a profile comes first").call(&call),
            Item::Raw(_) => {}
        }
    }
    made.expect("a profile")
}

/// Every burst lost at a pinned level, until its failures stay at 255.
fn lost(mode: usize) -> Decisions {
    let mut p = Profile::usual();
    p.values[GEAR][0] = Value::Choice(mode);
    p.values[PIN][0] = Value::Whole(9);
    let mut d = Decisions::new(p);
    d.call(&Call::Connect {
        t: 0.0,
        wave: 1,
        here: 0.0,
        session: 1,
        db: 20.0,
        echo: false,
        doppler: false,
        slot: 0,
        cue: true,
    });
    d.call(&Call::queue(vec![7; 100]));
    for i in 0..LOST {
        d.call(&Call::Burst);
        let burst = (d.harness.station.burst_id as u64 + 1) & 3;
        d.call(&Call::Short {
            t: 10.0 * (i + 1) as f64,
            wave: 5,
            here: 0.0,
            burst,
            bitmap: 0,
            db: 20.0,
            want_turn: false,
            want_disc: false,
            stored: false,
            echo: false,
            doppler: false,
            slot: 0,
        });
    }
    d
}

/// `oracle gear SEED COUNT`: COUNT replies or a few more.
pub fn gear(seed: u64, count: u64) -> Vec<u8> {
    let mut out = Vec::new();
    let mut replies: u64 = [0, 1].into_iter().map(|mode| lost(mode).put(&mut out)).sum();
    let mut index = 0;
    while replies < count {
        replies += generated(seed, index).put(&mut out);
        index += 1;
    }
    out
}
