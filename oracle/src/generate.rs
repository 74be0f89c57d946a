//! Generated call lists. The original is driven as a list is written, so
//! replies answer what it sent.

use std::cell::{Cell, RefCell};

use crate::harness::{AREA_BYTES, Answer, Burst, Harness, LAST_SECOND, WAITING_MOST};
use crate::levels;
use crate::link::frame::Frame;
use crate::list::{AREA_MOST, Call, Decoded, Item, LONGEST_LINE, OUT_MOST, Said, text};
use crate::messages::MESSAGES_MOST;
use crate::profile::{DBS, EFF_THRESHOLDS, FRAME_BYTES, LEVELS, ON, POWER, Profile, THRESHOLDS, Value, on};
use crate::profiles;
use crate::rng::Rng;

/// What a list is about. Lists of `lines` may end in an error. `levels`, `classes`, `labels` and `frames` are mixed with no other. In all but `classes`
/// and `labels` every message is of class 3, by default; in all but `labels` none has a label.
pub const KINDS: [&str; 15] = [
    "usual", "ladder", "harq", "merge", "many", "extreme", "hostile", "limits", "profiles", "lines", "levels",
    "classes", "labels", "frames", "box",
];

/// How the far station answers.
#[derive(Clone, Copy, PartialEq)]
enum Far {
    Honest,
    Lossy,
    Fading,
    Hostile,
    /// Hears every burst and decodes next to nothing.
    Deaf,
}

thread_local! {
    /// The list under way: what is left of it where the original panics.
    static MADE: RefCell<Vec<Item>> = const { RefCell::new(Vec::new()) };
    /// Whether frames that are not compared are left as they are.
    static ALL_FRAMES: Cell<bool> = const { Cell::new(false) };
}

/// The list under way, taken.
pub fn made() -> Vec<Item> {
    MADE.take()
}

struct Driver<'a> {
    r: &'a mut Rng,
    h: Harness,
    /// Calls so far.
    made: usize,
    far: Far,
    t: f64,
    snr: f32,
    last: Option<Burst>,
    /// The last number and bitmap that the far station heard.
    heard: (u64, u64),
    /// Reports stay the same, so that bursts grow.
    steady: bool,
    /// One in this many replies has a class.
    class_in: u64,
    /// One in this many calls is a limit's neighbour.
    limit_in: u64,
    /// One in this many replies stands where a decision tips.
    tip_in: u64,
    /// One in this many calls is `state`.
    state_in: u64,
    loss_in: u64,
    largest_queue: u64,
    /// Bytes queued after the connect.
    first_queue: usize,
    /// Messages of classes; None: every queuing gives no class.
    mail: Option<Mail>,
    /// One in this many acks comes as a reception; 0: none does.
    receptions_in: u64,
}

impl<'a> Driver<'a> {
    fn new(r: &'a mut Rng, profile: Profile, far: Far) -> Self {
        let snr = r.within(0, 40) as f32 - 14.0;
        let class_in = r.pick(&[3, 15, 1000]);
        let loss_in = r.pick(&[2, 3, 6, 12]);
        let state_in = r.pick(&[4, 6, 12]);
        let largest_queue = r.pick(&[60, 400, 2000, 6000]);
        let profile = if ALL_FRAMES.get() {
            profile
        } else {
            profiles::compared(profile)
        };
        MADE.with_borrow_mut(|made| made.push(Item::Profile(profile.clone())));
        Self {
            r,
            made: 0,
            h: Harness::new(profile),
            far,
            t: 0.0,
            snr,
            last: None,
            heard: (0, 0),
            steady: false,
            class_in,
            limit_in: 25,
            tip_in: 4,
            state_in,
            loss_in,
            largest_queue,
            first_queue: 0,
            mail: None,
            receptions_in: 0,
        }
    }

    fn call(&mut self, call: Call) -> Answer {
        self.made += 1;
        MADE.with_borrow_mut(|made| made.push(Item::Call(call.clone())));
        let answer = self.h.call(&call);
        if let Some(t) = self.h.last_time {
            self.t = t;
        }
        answer
    }

    fn calls(&self) -> usize {
        self.made
    }

    fn valid(&self) -> bool {
        self.h.profile.refusal().is_none()
    }

    /// A later time, at times the same one, or at a hold's end.
    fn later(&mut self) -> f64 {
        let holds: Vec<f64> = self
            .h
            .station
            .blocked_until
            .iter()
            .copied()
            .filter(|&b| b > self.t && b <= LAST_SECOND)
            .collect();
        if !holds.is_empty() && self.r.once_in(8) {
            let b = self.r.pick(&holds);
            return if self.r.flag() { b } else { b.next_down().max(self.t) };
        }
        let step = match self.r.below(24) {
            0 | 1 => 0.0,
            2 => self.r.between(60.0, 400.0),
            3 => self.r.within(1, 40) as f64,
            4 if self.r.once_in(4) => self.r.between(1e3, 1e5),
            5 if self.r.once_in(20) => self.r.between(1e6, 1e8),
            _ => self.r.between(1.0, 40.0),
        };
        (self.t + step).min(LAST_SECOND)
    }

    /// What the far station reports, dB.
    fn report(&mut self) -> f32 {
        if self.steady && !self.r.once_in(10) {
            return self.snr;
        }
        let p = &self.h.profile;
        let (line, margin) = if p.on(on::EFF_SNR) {
            (EFF_THRESHOLDS, 1)
        } else {
            (THRESHOLDS, 0)
        };
        let db = match self.r.below(20) {
            // A level's limit, exactly or beside it.
            0..=2 => {
                let at = p.f32(line, self.r.below(17) as usize) + p.f32(DBS, margin);
                match self.r.below(5) {
                    0 => at.next_down(),
                    1 => at.next_up(),
                    2 => at + 4.0,
                    _ => at,
                }
            }
            // Just steady, or just not.
            3 => match self.h.station.last_report_db {
                Some(last) => {
                    let steady = p.f32(DBS, 3);
                    let x = if self.r.flag() { last + steady } else { last - steady };
                    if self.r.flag() { x } else { x.next_up() }
                }
                None => self.snr,
            },
            4 if self.far == Far::Hostile => self.r.pick(&[-100.0, 300.0, -0.0, 0.0, 299.5, 100.0]),
            5 => self.r.within(0, 50) as f32 - 20.0,
            6..=9 => self.snr.round(),
            _ => self.snr,
        };
        let walk = if self.far == Far::Fading { 5.0 } else { 1.5 };
        self.snr = (self.snr + self.r.between(-walk, walk) as f32).clamp(-25.0, 35.0);
        db.clamp(-100.0, 300.0)
    }

    fn here(&mut self) -> f32 {
        self.r.within(0, 60) as f32 - 25.0
    }

    fn wave(&mut self) -> u64 {
        match &self.last {
            Some(b) if !self.r.once_in(4) => b.wave as u64,
            _ => self.r.below(6),
        }
    }

    fn class(&mut self) -> (bool, bool) {
        if self.r.once_in(self.class_in) {
            self.r
                .pick(&[(true, false), (false, true), (true, true), (true, false)])
        } else {
            (false, false)
        }
    }

    fn connect(&mut self) {
        let (echo, doppler) = self.class();
        let t = if self.r.once_in(6) { 0.0 } else { self.later() };
        let wave = self.wave();
        let (here, db) = (self.here(), self.report());
        let call = Call::Connect {
            t,
            wave,
            here,
            session: self.r.pick(&[0, 77, 255, 9, 1000]),
            db,
            echo,
            doppler,
            slot: self.r.below(3),
            cue: !self.r.once_in(4),
        };
        let call = if self.r.once_in(self.tip_in) {
            self.tipping(call)
        } else {
            call
        };
        self.call(call);
    }

    fn queue(&mut self) {
        if let Some(mail) = self.mail {
            self.message(mail);
            return;
        }
        let room = WAITING_MOST - self.h.station.out.len();
        let most = self
            .r
            .pick(&[1, 30, self.largest_queue, self.largest_queue])
            .min(room as u64);
        let n = match self.r.below(20) {
            0 => 0,
            1 => room.min(self.largest_queue as usize),
            2 => Frame::max_payload(self.h.profile.whole(FRAME_BYTES, 1) as usize).min(room),
            _ => self.r.within(0, most) as usize,
        };
        let bytes = if self.r.once_in(10) {
            vec![0; n]
        } else {
            self.r.bytes(n)
        };
        self.call(Call::queue(bytes));
    }

    fn burst(&mut self) {
        if let Answer::Burst(b) = self.call(Call::Burst) {
            self.last = Some(b);
        }
    }

    /// Number, bitmap and whether the rest is stored, as the far station says.
    fn verdict(&mut self) -> (u64, u64, bool) {
        let Some(b) = self.last.clone() else {
            return (self.r.below(4), self.r.next(), self.r.flag());
        };
        let n = b.frames.len() as u64;
        let whole = if n >= 64 { u64::MAX } else { (1 << n) - 1 };
        let stored = !self.r.once_in(4);
        let number = b.number() as u64;
        let got = match self.far {
            Far::Honest => whole,
            Far::Lossy => {
                if self.r.once_in(5) {
                    return (self.heard.0, self.heard.1, stored);
                }
                (0..n).fold(0, |m, i| m | (!self.r.once_in(self.loss_in) as u64) << i)
            }
            Far::Fading => {
                let need = self.h.profile.f32(THRESHOLDS, b.code);
                let chance = 1.0 / (1.0 + f64::from(need - self.snr).exp());
                if self.r.unit() > chance && self.r.flag() {
                    return (self.heard.0, self.heard.1, stored);
                }
                (0..n).fold(0, |m, i| m | ((self.r.unit() < chance) as u64) << i)
            }
            Far::Deaf => {
                let got = if self.r.once_in(6) { self.r.next() & whole } else { 0 };
                self.heard = (number, got);
                return (number, got, !self.r.once_in(20));
            }
            Far::Hostile => match self.r.below(8) {
                0 => return (self.r.below(4), self.r.next(), stored),
                1 => 63,
                2 => 62,
                3 => 0,
                4 => u64::MAX,
                5 => self.r.next(),
                6 => return (number + 1, whole, stored),
                _ => whole,
            },
        };
        self.heard = (number, got);
        (number, got, stored)
    }

    fn short(&mut self) -> Call {
        let (number, bitmap, stored) = self.verdict();
        let (echo, doppler) = self.class();
        let six = if bitmap == u64::MAX { 63 } else { bitmap & 63 };
        Call::Short {
            t: self.later(),
            wave: self.wave(),
            here: self.here(),
            burst: number & 3,
            bitmap: if self.r.once_in(12) { 63 } else { six },
            db: self.report(),
            want_turn: self.r.once_in(8),
            want_disc: self.r.once_in(12),
            stored,
            echo,
            doppler,
            slot: self.r.below(3),
        }
    }

    fn long(&mut self) -> Call {
        let (number, bitmap, stored) = self.verdict();
        let (echo, doppler) = self.class();
        let q = |db: f32| (db.round() + 24.0).clamp(0.0, 255.0) as u8;
        let mut payload = vec![number as u8 & 3 | self.r.pick(&[0, 0, 0, 0xFC, 0x14])];
        payload.extend(bitmap.to_le_bytes());
        payload.push(q(self.report()));
        payload.extend(self.r.bytes(3));
        let mut report = [
            echo as u8 | (doppler as u8) << 1 | (self.r.below(4) as u8) << 2 | self.r.pick(&[0, 0, 0x30]),
            q(self.report()),
            self.r.next() as u8,
            self.r.pick(&[0, 2, 7, 8, 9, 254, 255]),
        ];
        if self.r.once_in(20) {
            report[1] = self.r.pick(&[0, 255, 124]);
        }
        let n = self.r.pick(&[0, 1, 3, 4, 4, 4, 4, 4, 4, 4]);
        payload.extend(&report[..n]);
        if n == 4 && self.r.once_in(8) {
            let more = if self.r.once_in(10) {
                300
            } else {
                self.r.within(1, 30) as usize
            };
            payload.extend(self.r.bytes(more));
        }
        Call::Long {
            t: self.later(),
            wave: self.wave(),
            here: self.here(),
            want_turn: self.r.once_in(8),
            want_disc: self.r.once_in(12),
            stored,
            payload,
        }
    }

    /// A reception: some frames of which some are acks, at times none or more than are taken.
    fn reception(&mut self) -> Call {
        let count = self.r.pick(&[0, 1, 1, 2, 3, 5, 15, 16, 16, 17, 64]);
        let mut frames = Vec::new();
        for _ in 0..count {
            let Call::Long { mut payload, stored, .. } = self.long() else {
                unreachable!("a long ack")
            };
            if self.r.once_in(4) {
                payload.resize(self.r.pick(&[0, 1, 12, 12, 13, 16, 17, 18, 300]), 0x55);
            }
            if self.r.once_in(4) {
                payload.truncate(self.r.pick(&[12, 13, 13, 16]));
            }
            if !payload.is_empty() && self.r.once_in(3) {
                payload[0] = self.r.below(4) as u8;
            }
            frames.push(Decoded {
                kind: self.r.pick(&[4, 4, 4, 4, 4, 3, 1, 5, 0, 2, 255, 256 + 4, u64::MAX]),
                flags: self.r.below(4) | (stored as u64) << 2 | self.r.pick(&[0, 0, 8, 0xF0, 256, 1 << 40]),
                payload,
            });
        }
        Call::Frames {
            t: self.later(),
            wave: self.wave(),
            here: self.here(),
            frames,
        }
    }

    /// A reception on one side of a limit: its time, its wave, its dB here, its count.
    fn reception_limit(&mut self) {
        let mut call = self.reception();
        let now = self.t;
        if let Call::Frames { t, wave, here, frames } = &mut call {
            match self.r.below(4) {
                0 => *t = self.r.pick(&[-f64::from_bits(1), f64::NAN, LAST_SECOND.next_up(), now.next_down(), now, -0.0]),
                1 => *wave = self.r.pick(&[5, 6, 256, u64::MAX]),
                2 => *here = self.r.pick(&[-100.0, (-100.0f32).next_down(), 300.0, 300.0f32.next_up(), f32::NAN]),
                _ => {
                    let n = self.r.pick(&[16, 17]);
                    frames.resize(
                        n,
                        Decoded {
                            kind: self.r.pick(&[3, 4]),
                            flags: 0,
                            payload: self.r.bytes(13),
                        },
                    );
                    if self.r.flag() {
                        *wave = 6;
                    }
                }
            }
        }
        self.call(call);
    }

    /// What the original makes of a call, by one of its consequences.
    fn outcome(&self, call: &Call, which: u64) -> [u64; 3] {
        // On the list while it runs, for the case that the original panics.
        let push = |call: Call| MADE.with_borrow_mut(|made| made.push(Item::Call(call)));
        let pop = || MADE.with_borrow_mut(|made| drop(made.pop()));
        let mut h = self.h.clone();
        push(call.clone());
        h.call(call);
        let s = &h.station;
        let fails = s.fails.iter().map(|&n| n as u64).sum();
        let holds = s.hold_all.iter().fold(0, |m, &b| m << 1 | b as u64);
        let outcome = match which {
            0 => [s.level as u64, 0, 0],
            1 => [s.burst_s.to_bits(), 0, 0],
            2 => [fails, holds, 0],
            _ => {
                push(Call::Burst);
                let burst = h.call(&Call::Burst);
                pop();
                match burst {
                    Answer::Burst(b) => [b.code as u64, b.frames.len() as u64, b.cue as u64],
                    _ => [0; 3],
                }
            }
        };
        pop();
        outcome
    }

    /// The call with its dB or its time moved to where a consequence changes,
    /// on one side or the other; as it is where none does.
    fn tipping(&mut self, call: Call) -> Call {
        let which = self.r.below(4);
        let with_db = |x: f32| {
            let mut c = call.clone();
            match &mut c {
                Call::Connect { db, .. } | Call::Short { db, .. } | Call::Turn { db: Some(db), .. } => *db = x,
                _ => {}
            }
            c
        };
        let with_time = |x: f64| {
            let mut c = call.clone();
            match &mut c {
                Call::Connect { t, .. } | Call::Short { t, .. } | Call::Long { t, .. } | Call::Turn { t, .. } => *t = x,
                _ => {}
            }
            c
        };
        let by_time = matches!(call, Call::Long { .. } | Call::Turn { db: None, .. }) || self.r.once_in(3);
        // Halves between two values until no other lies between.
        let halves = |mut lo: i64, mut hi: i64, make: &dyn Fn(i64) -> Call, this: &Self| {
            let first = this.outcome(&make(lo), which);
            if first == this.outcome(&make(hi), which) {
                return None;
            }
            while hi - lo > 1 {
                let middle = lo + (hi - lo) / 2;
                if this.outcome(&make(middle), which) == first {
                    lo = middle;
                } else {
                    hi = middle;
                }
            }
            Some((lo, hi))
        };
        // The order of floats as that of whole numbers.
        let by_bits = |bits: i64| with_time(f64::from_bits(bits as u64));
        let by_place = |n: i64| {
            let x = f32::from_bits(n.unsigned_abs() as u32);
            with_db(if n < 0 { -x } else { x })
        };
        let place = |x: f32| {
            let n = x.abs().to_bits() as i64;
            if x < 0.0 { -n } else { n }
        };
        let (lo, hi, make): (i64, i64, &dyn Fn(i64) -> Call) = if by_time {
            let most = self.r.pick(&[50.0, 400.0, 3000.0]);
            let from = self.t.abs();
            let to = (from + most).min(LAST_SECOND);
            (from.to_bits() as i64, to.to_bits() as i64, &by_bits)
        } else {
            let below = self.r.pick(&[4.0, 20.0]);
            let above = self.r.pick(&[4.0, 20.0]);
            (place(self.snr - below), place(self.snr + above), &by_place)
        };
        let found = halves(lo, hi, make, self);
        let side = self.r.flag();
        match found {
            Some((lo, hi)) => make(if side { lo } else { hi }),
            None => call,
        }
    }

    fn ack(&mut self) {
        if self.receptions_in > 0 && self.r.once_in(self.receptions_in) {
            if self.r.once_in(5) {
                self.reception_limit();
            }
            let call = self.reception();
            self.call(call);
            return;
        }
        let frames = self.last.as_ref().map_or(0, |b| b.frames.len());
        let short = if self.r.once_in(5) { self.r.flag() } else { frames <= 6 };
        let mut call = if short { self.short() } else { self.long() };
        if self.r.once_in(self.tip_in) {
            call = self.tipping(call);
        }
        self.call(call);
    }

    fn turn(&mut self) {
        let report = self.report();
        let call = Call::Turn {
            t: self.later(),
            wave: self.wave(),
            here: self.here(),
            db: if self.r.once_in(3) { None } else { Some(report) },
        };
        let call = if self.r.once_in(self.tip_in) {
            self.tipping(call)
        } else {
            call
        };
        self.call(call);
    }

    fn piece(&mut self) {
        let s = &self.h.station;
        let offsets: Vec<u64> = s.inflight.keys().map(|&o| o as u64).collect();
        let next = s.next_offset as u64;
        let offset = match self.r.below(8) {
            0 => next,
            1 => 0xFFFF_FFFF,
            2 => self
                .r
                .pick(&[1 << 32, u64::MAX, 1 << 32 | offsets.first().copied().unwrap_or(0)]),
            3 => self.r.below(next + 1),
            _ if offsets.is_empty() => 0,
            4 => self.r.pick(&offsets) + 1,
            _ => self.r.pick(&offsets),
        };
        self.call(Call::Piece(offset));
    }

    /// A reply with values in range, for `limit` to change one of them.
    fn reply(&mut self) -> Call {
        if !self.h.station.connected() {
            let (echo, doppler) = self.class();
            return Call::Connect {
                t: self.later(),
                wave: self.wave(),
                here: self.here(),
                session: self.r.pick(&[3, 256, 300, u64::MAX]),
                db: self.report(),
                echo,
                doppler,
                slot: self.r.below(3),
                cue: self.r.flag(),
            };
        }
        match self.r.below(3) {
            0 => self.short(),
            1 => self.long(),
            _ => Call::Turn {
                t: self.later(),
                wave: self.wave(),
                here: self.here(),
                db: Some(self.report()),
            },
        }
    }

    /// A call at one of the limits of the refusals, on either side of it.
    fn limit(&mut self) {
        let dbs = [
            -100.0,
            (-100.0f32).next_down(),
            300.0,
            300.0f32.next_up(),
            f32::NAN,
            f32::INFINITY,
            f32::NEG_INFINITY,
            -0.0,
        ];
        match self.r.below(12) {
            0 => {
                // Times: mostly refused ones, since an accepted late one stays.
                let now = self.t;
                let mut times = vec![
                    -f64::from_bits(1),
                    f64::NAN,
                    f64::INFINITY,
                    f64::NEG_INFINITY,
                    LAST_SECOND.next_up(),
                    now.next_down(),
                    now,
                    now,
                    -0.0,
                    -1.0,
                ];
                if self.r.once_in(40) {
                    times = vec![LAST_SECOND, LAST_SECOND.next_down()];
                }
                let at = self.r.pick(&times);
                let mut call = self.reply();
                match &mut call {
                    Call::Connect { t, .. } | Call::Short { t, .. } | Call::Long { t, .. } | Call::Turn { t, .. } => {
                        *t = at
                    }
                    _ => unreachable!(),
                }
                self.call(call);
            }
            1 => {
                let x = self.r.pick(&dbs);
                let mut call = self.reply();
                match &mut call {
                    Call::Connect { here, .. }
                    | Call::Short { here, .. }
                    | Call::Long { here, .. }
                    | Call::Turn { here, .. } => *here = x,
                    _ => unreachable!(),
                }
                self.call(call);
            }
            2 => {
                let x = self.r.pick(&dbs);
                let mut call = self.reply();
                match &mut call {
                    Call::Connect { db, .. } | Call::Short { db, .. } => *db = x,
                    Call::Turn { db, .. } => *db = Some(x),
                    Call::Long { here, .. } => *here = x,
                    _ => unreachable!(),
                }
                self.call(call);
            }
            3 => {
                let x = self.r.pick(&[5, 6, 0, 7, 256 + 1, (1 << 32) + 2, u64::MAX]);
                let mut call = self.reply();
                match &mut call {
                    Call::Connect { wave, .. }
                    | Call::Short { wave, .. }
                    | Call::Long { wave, .. }
                    | Call::Turn { wave, .. } => *wave = x,
                    _ => unreachable!(),
                }
                self.call(call);
            }
            4 => {
                let mut call = if self.h.station.connected() {
                    self.short()
                } else {
                    self.reply()
                };
                let place = self.r.below(3);
                match &mut call {
                    Call::Short { burst, .. } if place == 0 => *burst = self.r.pick(&[3, 4, 0, 256, u64::MAX]),
                    Call::Short { bitmap, .. } if place == 1 => {
                        *bitmap = self.r.pick(&[63, 64, 62, 256 + 63, (1 << 32) + 1, u64::MAX])
                    }
                    Call::Short { slot, .. } | Call::Connect { slot, .. } => {
                        *slot = self.r.pick(&[2, 3, 4, 256, (1 << 32) + 1, u64::MAX])
                    }
                    _ => unreachable!(),
                }
                self.call(call);
            }
            5 => {
                // Payload lengths, at times with a wave out of range too.
                let mut call = self.long();
                if let Call::Long { payload, wave, .. } = &mut call {
                    payload.resize(self.r.pick(&[0, 1, 12, 12, 13, 14, 16, 17, 18]), 0x55);
                    if self.r.once_in(4) {
                        *wave = 6;
                    }
                }
                self.call(call);
            }
            6 | 7 => {
                let room = WAITING_MOST - self.h.station.out.len();
                let n = self.r.pick(&[room, room + 1, room + 1, WAITING_MOST, WAITING_MOST + 1]);
                // A full queue makes long lists, so the accepted ones are rare.
                if n <= room && n > 2000 && !self.r.once_in(6) {
                    return;
                }
                let bytes = self.r.bytes(n);
                let said = match self.mail {
                    None => Said::Nothing,
                    Some(mail) => self.said(mail),
                };
                self.call(Call::Queue(bytes, said));
            }
            8 => {
                let n = self.r.pick(&[AREA_BYTES - 1, AREA_BYTES + 1, AREA_BYTES, AREA_MOST, 0]);
                self.call(Call::Area(n));
                for _ in 0..self.r.within(1, 3) {
                    self.step();
                }
                let n = self.r.pick(&[AREA_BYTES, AREA_BYTES, AREA_BYTES + 1, AREA_MOST]);
                self.call(Call::Area(n));
            }
            9 => {
                let least = 64 * self.h.profile.whole(FRAME_BYTES, 1).min(512);
                let n = self.r.pick(&[least - 1, least, (least + 1).min(OUT_MOST), 0]);
                self.call(Call::Out(n));
                self.burst();
                let n = self.r.pick(&[OUT_MOST, least, OUT_MOST]);
                self.call(Call::Out(n));
            }
            10 => {
                let call = Call::Connect {
                    t: self.later(),
                    wave: 1,
                    here: 0.0,
                    session: 1,
                    db: 0.0,
                    echo: false,
                    doppler: false,
                    slot: 0,
                    cue: true,
                };
                if self.h.station.connected() {
                    self.call(call);
                }
            }
            _ => {
                self.piece();
            }
        }
    }

    /// One call, or a few that belong together.
    fn step(&mut self) {
        if self.r.once_in(self.state_in) {
            self.call(Call::State);
            return;
        }
        if self.r.once_in(self.limit_in) {
            // `limit` may come back here; the depth is small.
            self.limit_in *= 4;
            self.limit();
            self.limit_in /= 4;
            return;
        }
        let waits = self.h.awaiting();
        let s = &self.h.station;
        if s.out.is_empty() && s.inflight.is_empty() && !waits && self.r.flag() {
            self.queue();
            return;
        }
        match self.r.below(20) {
            0..=3 => self.queue(),
            4..=9 if !waits => self.burst(),
            4..=13 if waits => self.ack(),
            10..=13 if self.r.once_in(3) => self.ack(),
            14 if self.r.once_in(2) => self.turn(),
            15 => self.piece(),
            16 if self.r.once_in(3) => self.burst(),
            _ if waits => self.ack(),
            _ => self.burst(),
        }
    }

    /// Calls before the connect, the connect, and then `calls` in all.
    fn run(&mut self, calls: usize) {
        if self.r.once_in(4) {
            for _ in 0..self.r.within(1, 3) {
                match self.r.below(6) {
                    0 => self.queue(),
                    1 => self.burst(),
                    2 => self.piece(),
                    3 => self.turn(),
                    4 => self.limit(),
                    _ => {
                        self.call(Call::State);
                    }
                }
            }
        }
        for _ in 0..3 {
            if !self.h.station.connected() {
                self.connect();
            }
        }
        if self.first_queue > 0 {
            let bytes = self.r.bytes(self.first_queue);
            self.call(Call::queue(bytes));
        }
        while self.calls() + 1 < calls {
            self.step();
        }
        self.call(Call::State);
    }
}

/// The most bytes in flight, then split into the most pieces.
fn many(r: &mut Rng, calls: usize) {
    let profile = profiles::many(r);
    let far = r.pick(&[Far::Lossy, Far::Hostile, Far::Fading]);
    let mut d = Driver::new(r, profile, far);
    d.snr = 30.0;
    d.state_in = 8;
    d.largest_queue = 16_384;
    d.connect();
    while d.calls() + 1 < calls {
        let fill = WAITING_MOST - d.h.station.out.len();
        if d.r.flag() && fill > 0 {
            let bytes = d.r.bytes(fill);
            d.call(Call::queue(bytes));
        }
        d.burst();
        match d.r.below(4) {
            0 => d.ack(),
            1 => {
                // Down to the short levels.
                let call = Call::Turn {
                    t: d.later(),
                    wave: d.r.below(3),
                    here: 20.0,
                    db: None,
                };
                d.call(call);
                d.burst();
            }
            2 => {
                let call = Call::Short {
                    t: d.later(),
                    wave: 5,
                    here: 20.0,
                    burst: d.r.below(4),
                    bitmap: d.r.pick(&[0, 1, 63]),
                    db: 25.0,
                    want_turn: false,
                    want_disc: false,
                    stored: d.r.flag(),
                    echo: false,
                    doppler: d.r.once_in(3),
                    slot: 0,
                };
                d.call(call);
            }
            _ => {}
        }
        for _ in 0..d.r.within(1, 6) {
            d.step();
        }
    }
    d.call(Call::State);
}

fn profiles_list(r: &mut Rng, index: u64, calls: usize) {
    let places = profiles::number_places();
    let each = 8;
    let count = (calls / each).max(1) as u64;
    for i in 0..count {
        let n = index * count + i;
        let profile = if n % 11 == 10 {
            profiles::swapped(r)
        } else {
            let place = places[(n % places.len() as u64) as usize];
            let side = (n / places.len() as u64 + n) % profiles::SIDES;
            profiles::limit(r, place, side)
        };
        let far = r.pick(&[Far::Honest, Far::Lossy]);
        let mut d = Driver::new(r, profile, far);
        if d.valid() {
            d.run(each);
        } else {
            for call in [
                Call::State,
                Call::queue(vec![1, 2, 3]),
                Call::Burst,
                Call::Piece(0),
                Call::Area(0),
                Call::Burst,
                Call::State,
            ] {
                if d.r.flag() {
                    d.call(call);
                }
            }
            d.connect();
        }
    }
}

/// How the messages of a list are.
#[derive(Clone, Copy)]
struct Mail {
    /// Classes that are drawn from.
    classes: &'static [u64],
    /// Labels that are drawn from; none: no message has one.
    labels: &'static [u64],
    /// Most bytes of most messages.
    most: u64,
}

impl Driver<'_> {
    /// A message's length: few bytes, the payloads of one frame or some, what there is room for, none.
    fn message_len(&mut self, mail: Mail) -> usize {
        let room = WAITING_MOST - self.h.station.out.len();
        let frame = self.r.below(2) as usize;
        let payload = Frame::max_payload(self.h.profile.whole(FRAME_BYTES, frame) as usize);
        let n = match self.r.below(16) {
            0 => 0,
            1 | 2 => payload,
            3 => payload * self.r.within(1, 8) as usize,
            4 => payload + self.r.within(0, 2) as usize - 1,
            5 => self.r.within(0, 2000) as usize,
            6 | 7 => 1,
            _ => self.r.within(1, mail.most) as usize,
        };
        n.min(room)
    }

    /// A label: as a rule one of the list's, now and then one that is as wide as a word may be, or none.
    fn label(&mut self, mail: Mail) -> u64 {
        let label = self.r.pick(mail.labels);
        match self.r.below(12) {
            0 => 65_536 + label,
            1 => self.r.pick(&[0, 65_536, 1 << 32, u64::MAX]),
            _ => label,
        }
    }

    /// A class, and a label where the list has some.
    fn said(&mut self, mail: Mail) -> Said {
        let class = self.r.pick(mail.classes);
        if mail.labels.is_empty() || self.r.once_in(5) {
            Said::Class(class)
        } else {
            Said::Label(class, self.label(mail))
        }
    }

    fn message(&mut self, mail: Mail) {
        let n = self.message_len(mail);
        let bytes = self.r.bytes(n);
        let said = match self.said(mail) {
            Said::Class(3) if self.r.once_in(4) => Said::Nothing,
            said => said,
        };
        self.call(Call::Queue(bytes, said));
        if self.r.once_in(3) {
            self.call(Call::Messages);
        }
    }

    /// Classes and messages on both sides of refusals 11 and 12, with 8 beside them.
    fn class_limit(&mut self, mail: Mail) {
        let room = WAITING_MOST - self.h.station.out.len();
        let class = match self.r.below(3) {
            0 => self.r.pick(mail.classes),
            _ => self.r.pick(&[4, 4, 5, 255, 256, 257, 1 << 32, u64::MAX]),
        };
        let n = self.r.pick(&[0, 1, 1, 20, WAITING_MOST + 1, room + 1]);
        let bytes = self.r.bytes(n);
        let said = if mail.labels.is_empty() {
            Said::Class(class)
        } else {
            Said::Label(class, self.label(mail))
        };
        self.call(Call::Queue(bytes, said));
        self.call(Call::Messages);
    }

    /// A queuing with a label that waits, of as many bytes as there is room for once what it withdraws is gone, or without that, or one more or
    /// less.
    fn label_limit(&mut self, mail: Mail) {
        let label = self.r.pick(mail.labels);
        let (_, gone) = self.h.messages.gone(label as u16, 1);
        let room = WAITING_MOST - self.h.station.out.len();
        let n = self
            .r
            .pick(&[room + gone, room + gone + 1, room + gone + 1, room, room + 1]);
        // A full queue makes long lists, so the accepted ones are rare.
        if n <= room + gone && n > 2000 && !self.r.once_in(4) {
            return;
        }
        let bytes = self.r.bytes(n);
        let class = self.r.pick(mail.classes);
        self.call(Call::Queue(bytes, Said::Label(class, label)));
        self.call(Call::Messages);
    }

    /// Short messages until 256 wait, then a few calls with no room for another.
    fn fill_messages(&mut self, mail: Mail) {
        if !self.h.station.connected() {
            return;
        }
        for _ in 0..2 * MESSAGES_MOST {
            if self.h.messages.len() == MESSAGES_MOST {
                break;
            }
            let n = self.r.within(1, 3) as usize;
            if self.h.station.out.len() + n > WAITING_MOST {
                break;
            }
            let bytes = self.r.bytes(n);
            let class = self.r.pick(mail.classes);
            // A label once in a while, since another of it would withdraw the first.
            let said = if !mail.labels.is_empty() && self.r.once_in(40) {
                Said::Label(class, self.label(mail))
            } else {
                Said::Class(class)
            };
            self.call(Call::Queue(bytes, said));
        }
        self.call(Call::Messages);
        for _ in 0..self.r.within(2, 5) {
            let room = WAITING_MOST - self.h.station.out.len();
            let n = self.r.pick(&[0, 1, 1, 40, room, room + 1]);
            // A full queue makes a long list.
            let n = if n == room && !self.r.once_in(6) { 2 } else { n };
            let bytes = self.r.bytes(n);
            let said = if self.r.once_in(5) {
                Said::Class(4)
            } else {
                self.said(mail)
            };
            self.call(Call::Queue(bytes, said));
        }
        self.call(Call::Messages);
        self.burst();
        self.call(Call::Messages);
    }
}

/// Messages of all classes, or of one, between bursts and replies; with labels where `labelled` says so.
fn messages_list(r: &mut Rng, calls: usize, labelled: bool) {
    let profile = match r.below(8) {
        0 => profiles::extreme(r),
        1 => profiles::merge(r),
        2 => profiles::harq(r).0,
        _ => profiles::usual(r),
    };
    let far = r.pick(&[Far::Honest, Far::Lossy, Far::Lossy, Far::Fading, Far::Hostile]);
    let classes: &[u64] = match r.below(8) {
        0 => &[1],
        1 => &[0, 3],
        2 => &[0],
        _ => &[0, 1, 2, 3],
    };
    let mut mail = Mail {
        classes,
        labels: &[],
        most: r.pick(&[3, 40, 40, 400]),
    };
    if labelled {
        let labels: [&[u64]; 4] = [&[1], &[1, 2], &[1, 2, 3, 65_535], &[1, 255, 256, 257, 4_660, 65_535]];
        mail.labels = r.pick(&labels);
    }
    let mut d = Driver::new(r, profile, far);
    d.mail = Some(mail);
    d.tip_in = 20;
    d.limit_in = 60;
    d.connect();
    let fill = d.r.once_in(5);
    while d.calls() + 2 < calls {
        match d.r.below(16) {
            0..=6 => d.message(mail),
            7 if labelled && d.r.flag() => d.label_limit(mail),
            7 => d.class_limit(mail),
            8 if d.r.once_in(4) => {
                d.call(Call::Messages);
            }
            9 | 10 => {
                d.burst();
                d.call(Call::Messages);
            }
            _ => d.step(),
        }
    }
    if fill {
        d.fill_messages(mail);
        for _ in 0..d.r.below(12) {
            d.step();
        }
    }
    d.call(Call::Messages);
    d.call(Call::State);
}

/// A sender and a box over a channel that loses, with frames from elsewhere.
fn box_list(r: &mut Rng, calls: usize) {
    let profile = match r.below(6) {
        0 => profiles::extreme(r),
        1 => profiles::merge(r),
        2 => profiles::swapped(r),
        _ => profiles::usual(r),
    };
    let mut d = Driver::new(r, profile, Far::Honest);
    d.largest_queue = 6000;
    d.connect();
    while d.calls() + 3 < calls {
        let frames = d.last.as_ref().map_or(0, |b| b.frames.len() as u64);
        match d.r.below(24) {
            0..=3 => d.queue(),
            4..=9 => d.burst(),
            10..=13 if frames > 0 => {
                let loss = d.r.pick(&[2, 4, 1000]);
                let mut places: Vec<u64> = (0..frames).filter(|_| !d.r.once_in(loss)).collect();
                if d.r.once_in(6) {
                    places.extend((0..d.r.below(9)).map(|_| d.r.below(frames)));
                }
                let db = d.r.pick(&[0, 34, 255, 256, u64::MAX]);
                d.call(Call::Arrive { db, places });
            }
            14..=17 => {
                let t = d.later();
                let (wave, here) = (d.r.below(6), d.snr);
                let (want_turn, want_disc, stored) = (d.r.once_in(9), d.r.once_in(30), d.r.flag());
                if d.h.answered() {
                    d.call(Call::Reply {
                        t,
                        wave,
                        here,
                        want_turn,
                        want_disc,
                        stored,
                    });
                }
            }
            18 | 19 => {
                let first = d.h.listener.first;
                let slots = crate::listening::frames(d.r, first);
                for (slot, frame) in slots.into_iter().take(d.h.room()) {
                    let slot = if slot == 255 { d.r.pick(&[255, 256, u64::MAX]) } else { slot as u64 };
                    d.call(Call::Heard(slot, frame));
                }
                let number = if d.r.once_in(8) { d.r.pick(&[4, 255, 256, u64::MAX]) } else { d.r.below(4) };
                let db = d.r.below(300);
                d.call(Call::Receive { number, db });
            }
            20 => {
                let n = d.r.pick(&[0, 32_767, 32_768, 32_769, 65_536]);
                d.call(Call::Window(n));
                if n < 32_768 {
                    d.call(Call::Receive { number: 0, db: 0 });
                    d.call(Call::Window(32_768));
                }
            }
            21 if d.r.once_in(3) => {
                d.call(Call::Out(32_767));
                d.call(Call::Arrive { db: 1, places: Vec::new() });
                d.call(Call::Out(OUT_MOST));
            }
            22 => {
                d.call(Call::Box);
            }
            _ => d.step(),
        }
    }
    d.call(Call::Box);
    d.call(Call::State);
}

/// A profile for the levels within reach; some are refused.
fn levels_profile(r: &mut Rng) -> Profile {
    let places = profiles::number_places();
    match r.below(8) {
        0 => profiles::usual(r),
        1 => profiles::extreme(r),
        2 => profiles::swapped(r),
        3 => {
            let (place, side) = (r.pick(&places), r.below(profiles::SIDES));
            profiles::limit(r, place, side)
        }
        _ => {
            let mut p = levels::profile(r);
            p.values[POWER][0] = Value::Choice(r.below(3) as usize);
            p.values[LEVELS][0] = Value::Whole(r.within(0, 16));
            p.values[ON][on::PICK_FAMILY] = Value::Flag(!r.once_in(4));
            p
        }
    }
}

/// A lowest and a highest report: now and then the other way round, or too wide.
fn reports(r: &mut Rng) -> (u64, u64) {
    let most = r.pick(&[60, 80, 255]);
    let (a, b) = (r.within(0, most), r.within(0, most));
    match r.below(10) {
        0 => (a, a),
        1 => (a + 1, a),
        2 => (a.max(b), a.min(b)),
        3 => (a, r.pick(&[255, 256, 300, u64::MAX])),
        4 => (r.pick(&[254, 255, 256, u64::MAX]), r.pick(&[254, 255, 256, u64::MAX])),
        _ => (a.min(b), a.max(b)),
    }
}

/// Ranges of reports, before and after the connect, with a work area that is too short too.
fn levels_list(r: &mut Rng, calls: usize) {
    let each = 12;
    for _ in 0..(calls / each).max(1) {
        let profile = levels_profile(r);
        let mut d = Driver::new(r, profile, Far::Honest);
        while d.calls() < each {
            match d.r.below(24) {
                0 if d.valid() => d.connect(),
                1 => {
                    let n = d.r.pick(&[0, AREA_BYTES - 1, AREA_BYTES]);
                    d.call(Call::Area(n));
                }
                _ => {
                    let (low, high) = reports(d.r);
                    let (echo, doppler) = (d.r.once_in(3), d.r.once_in(4));
                    d.call(Call::Levels {
                        echo,
                        doppler,
                        low,
                        high,
                    });
                }
            }
        }
    }
}

/// Lines in every spelling that the rules allow, and at the end, as a rule,
/// one that they don't.
fn lines(r: &mut Rng, calls: usize) -> Vec<Item> {
    let profile = profiles::usual(r);
    let mut d = Driver::new(r, profile, Far::Lossy);
    d.run(calls.min(40));
    let items = made();
    let mut out: Vec<Item> = Vec::new();
    for item in &items {
        let plain = String::from_utf8(text(std::slice::from_ref(item))).unwrap();
        let mut spelled = String::new();
        for line in plain.lines() {
            if r.once_in(12) {
                spelled += r.pick(&["\n", "# remark\n", "#\n", "#\t\r 0x queue\n"]);
            }
            let words: Vec<String> = line
                .split(' ')
                .map(|w| {
                    let digits = w.bytes().all(|c| c.is_ascii_digit());
                    if digits && w.len() > 1 && r.once_in(4) {
                        format!("{}{w}", "0".repeat(r.within(1, 24) as usize))
                    } else if w.starts_with("0x") && r.once_in(3) {
                        format!("0x{}", w[2..].to_uppercase())
                    } else {
                        w.to_string()
                    }
                })
                .collect();
            spelled += &words.join(" ");
            spelled.push('\n');
        }
        out.push(Item::Raw(spelled.into_bytes()));
    }
    let t = "0x41cdcd6500000000";
    let odd = [
        "unknown\n".to_string(),
        "Burst\n".to_string(),
        " burst\n".to_string(),
        "burst \n".to_string(),
        "burst\r\n".to_string(),
        "burst 1\n".to_string(),
        "state\t\n".to_string(),
        " \n".to_string(),
        " # remark\n".to_string(),
        "queue\n".to_string(),
        "queue  00\n".to_string(),
        "queue 0\n".to_string(),
        "queue 0A\n".to_string(),
        "queue 00 0 0 0\n".to_string(),
        "queue --\n".to_string(),
        "queue 0x00\n".to_string(),
        "queue 0g\n".to_string(),
        "piece -1\n".to_string(),
        "piece +1\n".to_string(),
        "piece 18446744073709551616\n".to_string(),
        "piece 99999999999999999999999\n".to_string(),
        "piece 0x10\n".to_string(),
        "piece none\n".to_string(),
        "area 65537\n".to_string(),
        "out 32769\n".to_string(),
        "area\n".to_string(),
        "out -\n".to_string(),
        format!("turn {t} 1 0x00000000\n"),
        format!("turn {t} 1 0x0000000 none\n"),
        format!("turn {t} 1 0x000000000 none\n"),
        format!("turn {t} 1 0X00000000 none\n"),
        format!("turn {t} 1 00000000 none\n"),
        format!("turn {t} 1 0x0000000g none\n"),
        format!("turn {t} 1 none none\n"),
        format!("turn {t} none 0x00000000 none\n"),
        format!("turn {t}0 1 0x00000000 none\n"),
        format!("turn {t} 1 0x00000000 NONE\n"),
        format!("turn {t} 1 0x00000000 none none\n"),
        format!("long {t} 1 0x00000000 0 0 2 -\n"),
        format!("long {t} 1 0x00000000 0 0 true -\n"),
        format!("long {t} 1 0x00000000 0 0 00 -\n"),
        format!("long {t} 1 0x00000000 0 0 0\n"),
        format!("short {t} 1 0x00000000 0 0 0x00000000 0 0 0 0 0\n"),
        "connect\n".to_string(),
        "gear goodput\n".to_string(),
        "level 1 0x0000000000000000 0x3ff0000000000000 1\n".to_string(),
        "profile 1\n".to_string(),
        "profile\nburst\n".to_string(),
        "profile\nprofile\n".to_string(),
        "profile\nack_s\n".to_string(),
        "profile\n".to_string(),
        "profile\n\n# remark\n".to_string(),
        "burst".to_string(),
        "# remark".to_string(),
        " ".to_string(),
        format!("#{}\n", "x".repeat(LONGEST_LINE)),
        format!("queue {}\n", "0".repeat(LONGEST_LINE - 5)),
        "\u{e9}\n".to_string(),
        "queue \u{e9}\n".to_string(),
        "# \u{e9}\n".to_string(),
        "\0\n".to_string(),
    ];
    let even = [
        String::new(),
        format!("#{}\n", "x".repeat(LONGEST_LINE - 1)),
        format!("queue {}\n", "0".repeat(LONGEST_LINE - 6)),
        "queue -\n".to_string(),
        "piece 00000000000000000000000000000000000\n".to_string(),
        "piece 18446744073709551615\n".to_string(),
        "area 65536\nout 32768\n".to_string(),
        "turn 0x7ff8000000000000 1 0x00000000 none\n".to_string(),
        "turn 0xfff0000000000001 1 0x00000000 none\n".to_string(),
        format!("turn {t} 1 0x7FC00001 none\n"),
        format!("turn {t} 1 0x00000000 0xffffffff\n"),
        "\n\n\n".to_string(),
    ];
    for _ in 0..r.below(3) {
        let line = &even[r.below(even.len() as u64) as usize];
        out.push(Item::Raw(line.clone().into_bytes()));
    }
    if !r.once_in(12) {
        let line = &odd[r.below(odd.len() as u64) as usize];
        out.push(Item::Raw(line.clone().into_bytes()));
        if line.ends_with('\n') && !line.starts_with("profile\n") && r.flag() {
            out.push(Item::Raw(b"state\nburst\n".to_vec()));
        }
        // A profile cut short.
        if line == "profile\n" && r.flag() {
            let whole = Profile::usual().to_string();
            let lines: Vec<&str> = whole.lines().skip(1).collect();
            let n = r.below(lines.len() as u64) as usize;
            out.push(Item::Raw(
                lines[..n].iter().flat_map(|l| format!("{l}\n").into_bytes()).collect(),
            ));
        }
    }
    if r.once_in(16) {
        // Without a profile.
        return out.split_off(out.len().saturating_sub(1));
    }
    out
}

/// List number `index` of `seed`, of about `calls` calls.
pub fn list(seed: u64, index: u64, calls: usize, kind: &str) -> Vec<Item> {
    let r = &mut Rng::new(seed, index);
    made();
    let mut queue = 0;
    let (profile, far) = match kind {
        "usual" | "ladder" => {
            let mut p = match r.below(12) {
                0 => profiles::flat(r),
                1 => Profile::usual(),
                _ => profiles::usual(r),
            };
            if kind == "ladder" {
                p.values[crate::profile::GEAR][0] = crate::profile::Value::Choice(1);
            }
            (p, r.pick(&[Far::Honest, Far::Lossy, Far::Fading, Far::Fading]))
        }
        "harq" => {
            let (p, most) = profiles::harq(r);
            queue = most;
            (
                p,
                r.pick(&[Far::Lossy, Far::Lossy, Far::Fading, Far::Hostile, Far::Deaf, Far::Deaf]),
            )
        }
        "merge" => (profiles::merge(r), r.pick(&[Far::Lossy, Far::Fading, Far::Hostile])),
        "many" => {
            many(r, calls);
            return made();
        }
        "extreme" => (
            profiles::extreme(r),
            r.pick(&[Far::Honest, Far::Lossy, Far::Fading, Far::Hostile]),
        ),
        "hostile" => (profiles::usual(r), Far::Hostile),
        "limits" => (profiles::usual(r), r.pick(&[Far::Honest, Far::Lossy, Far::Hostile])),
        "profiles" => {
            profiles_list(r, index, calls);
            return made();
        }
        "lines" => return lines(r, calls),
        "levels" => {
            levels_list(r, calls);
            return made();
        }
        "box" => {
            box_list(r, calls);
            return made();
        }
        "classes" | "labels" => {
            messages_list(r, calls, kind == "labels");
            return made();
        }
        "frames" => (
            match r.below(4) {
                0 => profiles::extreme(r),
                1 => profiles::harq(r).0,
                _ => profiles::usual(r),
            },
            r.pick(&[Far::Honest, Far::Lossy, Far::Lossy, Far::Fading, Far::Hostile]),
        ),
        _ => unreachable!("kinds are checked"),
    };
    let mut d = Driver::new(r, profile, far);
    match kind {
        "frames" => {
            d.receptions_in = d.r.pick(&[1, 2, 2]);
            d.tip_in = 20;
        }
        "harq" => {
            d.snr = 12.0;
            d.class_in = 40;
            d.loss_in = d.r.pick(&[2, 2, 3, 8]);
            d.largest_queue = queue;
            d.first_queue = queue as usize;
        }
        "merge" => {
            d.class_in = d.r.pick(&[4, 30]);
            d.largest_queue = 2000;
        }
        "usual" | "ladder" => {
            d.tip_in = 2;
            if d.r.once_in(3) {
                d.steady = true;
                d.far = Far::Honest;
                d.class_in = 1000;
                d.tip_in = 6;
                d.largest_queue = 2000;
                d.first_queue = 1000;
            }
        }
        "limits" => {
            d.limit_in = 2;
            d.largest_queue = 300;
        }
        _ => {}
    }
    d.run(calls);
    made()
}

/// The same with frames of all sizes, for the gear alone: it reads no payload.
pub fn list_of_all_frames(seed: u64, index: u64, calls: usize, kind: &str) -> Vec<Item> {
    ALL_FRAMES.set(true);
    let items = list(seed, index, calls, kind);
    ALL_FRAMES.set(false);
    items
}

/// A kind for list `index` where none is asked for.
pub fn kind_of(seed: u64, index: u64, errors: bool) -> &'static str {
    const WEIGHTS: [(usize, u64); 10] = [
        (0, 4),
        (1, 4),
        (2, 6),
        (3, 4),
        (4, 1),
        (5, 6),
        (6, 4),
        (7, 3),
        (8, 2),
        (9, 1),
    ];
    let kinds = if errors { WEIGHTS.len() } else { WEIGHTS.len() - 1 };
    let all: u64 = WEIGHTS[..kinds].iter().map(|w| w.1).sum();
    let mut n = Rng::new(!seed, index).below(all);
    for (kind, weight) in WEIGHTS {
        if n < weight {
            return KINDS[kind];
        }
        n -= weight;
    }
    KINDS[0]
}

pub fn kind_named(name: &str) -> Result<&'static str, String> {
    KINDS
        .into_iter()
        .find(|k| *k == name)
        .ok_or_else(|| format!("no kind '{name}'; there are {}", KINDS.join(", ")))
}

/// `oracle generate`: the lists one after the other.
pub fn generate(seed: u64, lists: u64, calls: usize, kind: Option<&str>) -> Result<Vec<u8>, String> {
    let mut out = Vec::new();
    for index in 0..lists {
        let kind = match kind {
            Some(name) => kind_named(name)?,
            None => kind_of(seed, index, false),
        };
        out.extend(format!("# seed {seed}, list {index}, {calls} calls, {kind}\n").bytes());
        out.extend(text(&list(seed, index, calls, kind)));
    }
    Ok(out)
}
