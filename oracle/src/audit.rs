//! `oracle audit`: demand 3, the sound record and what a far station cannot
//! force (document 02, Change 14), held against the original after every call
//! of generated lists. The tally is document 01's, kept from
//! the calls and their answers alone. It puts each message at its place when it
//! is queued, and withdraws from that list; messages.rs, which orders the
//! original's bytes, chooses at bursts from those in the order of arrival.

use std::collections::BTreeMap;
use std::fmt::Write;
use std::ops::Range;
use std::panic::{AssertUnwindSafe, catch_unwind};

use crate::generate;
use crate::harness::{Answer, Burst, Harness, LAST_SECOND, TAKEN_MOST, WAITING_MOST};
use crate::link::frame::caps;
use crate::link::station::{Station, wave_rank};
use crate::list::{Call, Item, Said, text};
use crate::messages::{CLASS_MOST, MESSAGES_MOST, Message};
use crate::profile::*;
use crate::progress::Progress;
use crate::shrink::shrink;
use crate::transcript;

const FLYING_MOST: usize = 16_256;
const PIECES_MOST: usize = 2_048;
const HOLD_END_MOST: f64 = 1_001_000_000.0;

type Check = Result<(), String>;

macro_rules! demand {
    ($holds:expr, $($why:tt)*) => {
        // A comparison with NaN is false, so it breaks the demand too.
        let holds: bool = $holds;
        if !holds {
            return Err(format!($($why)*));
        }
    };
}

/// What was met on the way, to show that the lists reach it.
#[derive(Default)]
pub struct Reached {
    pub calls: u64,
    pub lists: u64,
    counts: BTreeMap<&'static str, u64>,
    most: BTreeMap<&'static str, u64>,
    refused: [u64; 16],
    levels: [u64; 17],
}

impl Reached {
    fn count(&mut self, what: &'static str, yes: bool) {
        *self.counts.entry(what).or_default() += yes as u64;
    }

    fn most(&mut self, what: &'static str, n: usize) {
        let m = self.most.entry(what).or_default();
        *m = (*m).max(n as u64);
    }

    pub fn text(&self) -> String {
        let mut s = String::new();
        for (what, n) in &self.counts {
            let _ = writeln!(s, "  {what}: {n}");
        }
        for (what, n) in &self.most {
            let _ = writeln!(s, "  most {what}: {n}");
        }
        let _ = writeln!(s, "  refused by 1 to 15: {:?}", &self.refused[1..]);
        let _ = writeln!(s, "  bursts by level: {:?}", self.levels);
        s
    }
}

/// A message that waits, and which queuing it was.
#[derive(Clone)]
struct Queued {
    number: usize,
    message: Message,
}

/// Document 01's tally.
#[derive(Default)]
struct Tally {
    taken: u64,
    /// Messages queued.
    queuings: usize,
    /// In the order in which they will go; `begun`: bytes of the first have flown.
    waiting: Vec<Queued>,
    begun: bool,
    withdrawn: Vec<Queued>,
    flown: Vec<u8>,
    /// The messages of the flown bytes, in their order: each once if none is broken into.
    began: Vec<usize>,
    acknowledged: Vec<bool>,
    acknowledged_count: u64,
    outstanding: Option<(u8, Vec<(usize, usize)>)>,
}

impl Tally {
    fn burst(&mut self, b: &Burst) {
        let frames: Vec<(usize, usize)> = b.frames.iter().map(|f| (f.offset as usize, f.len)).collect();
        let end = frames.iter().map(|f| f.0 + f.1).max().unwrap_or(0);
        while self.flown.len() < end && !self.waiting.is_empty() {
            let number = self.waiting[0].number;
            let first = &mut self.waiting[0].message.bytes;
            let n = first.len().min(end - self.flown.len());
            self.flown.extend(first.drain(..n));
            self.begun = !first.is_empty();
            if self.began.last() != Some(&number) {
                self.began.push(number);
            }
            if !self.begun {
                self.waiting.remove(0);
            }
        }
        self.acknowledged.resize(self.flown.len(), false);
        self.outstanding = Some((b.number(), frames));
    }

    /// Behind the begun message those with its label go, and it stands behind those of its class and of lower ones.
    fn queue(&mut self, said: Said, bytes: &[u8]) {
        self.taken += bytes.len() as u64;
        if bytes.is_empty() {
            return;
        }
        let (class, label) = (said.class(), said.label());
        let behind = self.waiting.split_off(self.begun as usize);
        let (gone, mut stay): (Vec<Queued>, Vec<Queued>) =
            behind.into_iter().partition(|q| label > 0 && q.message.label == label);
        self.withdrawn.extend(gone);
        let before = stay.iter().take_while(|q| q.message.class <= class).count();
        let new = Queued {
            number: self.queuings,
            message: Message {
                class,
                label,
                bytes: bytes.to_vec(),
            },
        };
        self.queuings += 1;
        stay.insert(before, new);
        self.waiting.extend(stay);
    }

    fn messages(&self) -> Vec<Message> {
        self.waiting.iter().map(|q| q.message.clone()).collect()
    }

    fn withdrawn_bytes(&self) -> u64 {
        self.withdrawn.iter().map(|q| q.message.bytes.len() as u64).sum()
    }

    /// Each message queued is in exactly one: begun, not begun, or withdrawn; of those not begun one at most bears a label.
    fn parted(&self) -> Check {
        let unbegun = &self.waiting[self.begun as usize..];
        let mut numbers = self.began.clone();
        numbers.extend(unbegun.iter().chain(&self.withdrawn).map(|q| q.number));
        numbers.sort();
        demand!(
            numbers.into_iter().eq(0..self.queuings),
            "a message is in none or in two of begun, not begun and withdrawn"
        );
        let mut labels: Vec<u16> = unbegun.iter().map(|q| q.message.label).filter(|&l| l > 0).collect();
        let count = labels.len();
        labels.sort();
        labels.dedup();
        demand!(labels.len() == count, "two messages with a label have not begun");
        Ok(())
    }

    fn waits(&self) -> Vec<u8> {
        self.waiting
            .iter()
            .flat_map(|q| q.message.bytes.iter().copied())
            .collect()
    }

    fn ack(&mut self, number: u8, bitmap: u64, short: bool) {
        let Some((sent, frames)) = self.outstanding.take() else {
            return;
        };
        if sent != number {
            return;
        }
        let all = short && bitmap == 63 && frames.len() > 6;
        for (i, (offset, len)) in frames.into_iter().enumerate() {
            if !all && bitmap >> i & 1 == 0 {
                continue;
            }
            for at in offset..(offset + len).min(self.flown.len()) {
                self.acknowledged_count += !self.acknowledged[at] as u64;
                self.acknowledged[at] = true;
            }
        }
    }

    fn feed(&mut self, call: &Call, answer: &Answer) {
        match (call, answer) {
            (_, Answer::Refused(_)) => {}
            (Call::Queue(bytes, said), _) => self.queue(*said, bytes),
            (Call::Burst, Answer::Burst(b)) => self.burst(b),
            (Call::Short { burst, bitmap, .. }, _) => self.ack(*burst as u8, *bitmap, true),
            (Call::Long { payload, .. }, _) => {
                let bitmap = (0..8).fold(0, |m, i| m | (payload[1 + i] as u64) << (8 * i));
                self.ack(payload[0] % 4, bitmap, false);
            }
            (Call::Frames { frames, .. }, _) => {
                for d in frames.iter().filter(|d| d.kind == 4 && d.payload.len() >= 13) {
                    let bitmap = (0..8).fold(0, |m, i| m | (d.payload[1 + i] as u64) << (8 * i));
                    self.ack(d.payload[0] % 4, bitmap, false);
                }
            }
            (Call::Turn { .. }, _) => self.outstanding = None,
            _ => {}
        }
    }

    /// Every byte in exactly one of the four, with its value and in order.
    fn agrees(&self, h: &Harness, answer: &Answer) -> Check {
        let s = &h.station;
        let flying = self.flown.len() as u64 - self.acknowledged_count;
        let waiting = self.waits();
        demand!(
            self.taken == h.taken,
            "taken is {}, by the tally {}",
            h.taken,
            self.taken
        );
        demand!(
            self.taken == waiting.len() as u64 + flying + self.acknowledged_count + self.withdrawn_bytes(),
            "the tally's taken is not waiting + in flight + acknowledged + withdrawn"
        );
        demand!(
            h.messages.in_order() == self.messages() && h.messages.begun() == self.begun,
            "other messages wait than by the tally"
        );
        demand!(
            h.messages.withdrawn() == self.withdrawn_bytes(),
            "withdrawn {}, by the tally {}",
            h.messages.withdrawn(),
            self.withdrawn_bytes()
        );
        self.parted()?;
        // The original's bytes of several classes are laid in order by a burst.
        let in_order = h.own_order() || matches!(answer, Answer::Burst(_));
        demand!(
            s.out.len() == waiting.len() && (!in_order || s.out == waiting),
            "the waiting bytes are {}, by the tally {}, or others",
            s.out.len(),
            waiting.len()
        );
        demand!(
            h.acked() == self.acknowledged_count,
            "acknowledged {}, by the tally {}",
            h.acked(),
            self.acknowledged_count
        );
        demand!(
            h.flying() as u64 == flying,
            "in flight {}, by the tally {flying}",
            h.flying()
        );
        for (&offset, bytes) in &s.inflight {
            let at = offset as usize;
            demand!(
                self.flown.get(at..at + bytes.len()) == Some(bytes),
                "the piece at {offset} has other bytes than were taken there"
            );
            demand!(
                !self.acknowledged[at..at + bytes.len()].contains(&true),
                "the piece at {offset} has an acknowledged byte"
            );
        }
        Ok(())
    }
}

/// Document 01's sound record.
pub fn sound(h: &Harness) -> Check {
    let (s, p) = (&h.station, &h.profile);
    let short = payload_of(p.whole(FRAME_BYTES, 0));
    let long = payload_of(p.whole(FRAME_BYTES, 1));
    let (mut end, mut flying, mut cut) = (0u64, 0, 0);
    for (&offset, bytes) in &s.inflight {
        let n = bytes.len();
        demand!(offset as u64 >= end, "the piece at {offset} overlaps the one before");
        demand!((1..=long).contains(&n), "the piece at {offset} has {n} bytes");
        end = offset as u64 + n as u64;
        flying += n;
        cut += n.div_ceil(short);
    }
    demand!(end <= s.next_offset as u64, "a piece ends past the next offset");
    demand!(flying <= FLYING_MOST, "{flying} bytes fly");
    demand!(cut <= PIECES_MOST, "{cut} short pieces fly");
    demand!(s.at_peer.len() <= 64, "{} pieces are held", s.at_peer.len());
    let twice = 2 * p.whole(HARQ, 0) as usize;
    for (i, &(offset, bits)) in s.at_peer.iter().enumerate() {
        demand!(s.inflight.contains_key(&offset), "held {offset} does not fly");
        demand!(
            s.at_peer[..i].iter().all(|x| x.0 != offset),
            "held {offset} comes twice"
        );
        demand!((1..twice).contains(&bits), "held {offset} has {bits} bits");
    }
    demand!(
        s.at_peer.ends_with(&s.at_peer_rest),
        "the unsent rest is no tail of the held list"
    );
    let together: Vec<u32> = s
        .last_burst
        .iter()
        .map(|f| f.off)
        .chain(s.at_peer_rest.iter().map(|r| r.0))
        .collect();
    demand!(
        together.len() <= 64,
        "{} offsets are outstanding or unsent",
        together.len()
    );
    for (i, offset) in together.iter().enumerate() {
        demand!(s.inflight.contains_key(offset), "outstanding {offset} does not fly");
        demand!(!together[..i].contains(offset), "outstanding {offset} comes twice");
    }
    for f in &s.last_burst {
        demand!((1..=16_384).contains(&f.bits), "frame {} has {} bits", f.off, f.bits);
        demand!(
            (f.bits..=49_151).contains(&f.held),
            "frame {} has {} held bits",
            f.off,
            f.held
        );
    }
    demand!(s.out.len() <= WAITING_MOST, "{} bytes wait", s.out.len());
    let messages = h.messages.in_order();
    let left: usize = messages.iter().map(|m| m.bytes.len()).sum();
    demand!(messages.len() <= MESSAGES_MOST, "{} messages wait", messages.len());
    demand!(
        left == s.out.len(),
        "{left} bytes of messages wait, {} in all",
        s.out.len()
    );
    for m in &messages {
        demand!(
            m.class <= CLASS_MOST && !m.bytes.is_empty(),
            "a message of class {} has {} bytes left",
            m.class,
            m.bytes.len()
        );
    }
    demand!(h.taken <= TAKEN_MOST, "{} bytes are taken", h.taken);
    let withdrawn = h.messages.withdrawn();
    demand!(
        h.taken == s.next_offset as u64 + s.out.len() as u64 + withdrawn,
        "taken {} is not the next offset {} plus waiting {} plus withdrawn {withdrawn}",
        h.taken,
        s.next_offset,
        s.out.len()
    );
    demand!(
        h.taken == (s.out.len() + flying) as u64 + h.acked() + withdrawn,
        "taken {} is not waiting {} plus flying {flying} plus acknowledged {} plus withdrawn {withdrawn}",
        h.taken,
        s.out.len(),
        h.acked()
    );
    demand!(
        s.level <= 16 && s.target <= 16,
        "level {}, target {}",
        s.level,
        s.target
    );
    demand!(s.burst_id <= 3, "burst number {}", s.burst_id);
    demand!(
        s.peer_heard.is_none_or(|n| n <= 3),
        "number last heard {:?}",
        s.peer_heard
    );
    for l in 0..17 {
        demand!(
            s.success[l].is_none_or(|x| (0.0..=1.0).contains(&x)),
            "level {l} has the share {:?}",
            s.success[l]
        );
        demand!(
            s.success_at[l] <= LAST_SECOND,
            "level {l} has a share of {}",
            s.success_at[l]
        );
        demand!(
            s.blocked_until[l] <= HOLD_END_MOST,
            "level {l} has a hold until {}",
            s.blocked_until[l]
        );
    }
    if s.connected() {
        demand!((1.0..=1000.0).contains(&s.burst_s), "burst seconds {}", s.burst_s);
    }
    demand!(
        h.last_time.is_none_or(|t| t <= LAST_SECOND),
        "last time {:?}",
        h.last_time
    );
    let db = |x: f32| (-100.0..=308.0).contains(&x);
    demand!(s.aim_db.is_none_or(db), "aim {:?}", s.aim_db);
    demand!(s.last_report_db.is_none_or(db), "last report {:?}", s.last_report_db);
    demand!(s.snr_reports.len() <= 3, "{} reports are kept", s.snr_reports.len());
    demand!(s.snr_reports.iter().all(|&x| db(x)), "reports {:?}", s.snr_reports);
    let hz = s.peer_doppler_hz;
    demand!(hz.is_nan() || (0.0..=63.5).contains(&hz), "Doppler {hz}");
    Ok(())
}

/// What a burst may take, from the record before it.
struct Allowance {
    level: usize,
    cue: bool,
    burst_len_s: f64,
    nothing: bool,
    heard: Option<u8>,
    held: Vec<(u32, usize)>,
}

fn rank_of(level: usize) -> usize {
    [1, 2, 2, 2, 2, 3, 3, 4, 4, 5, 5, 5, 5, 5, 5, 5, 5][level]
}

fn duration(p: &Profile, level: usize, bits: usize, cue: bool) -> f64 {
    let d = p.f64(level, 1) + bits as f64 / p.f64(level, 2);
    if cue { d + p.f64(CUE_S, 0) } else { d }
}

impl Allowance {
    fn new(p: &Profile, s: &Station) -> Self {
        let level = s.level;
        let rank = rank_of(level);
        let cue = s.caps & caps::CUE != 0 && rank >= 4 && s.aim_db.is_none_or(|a| a < p.f32(DBS, 2));
        let usual = p.f64(BURST, 0);
        let most = p.f64(BURST, 1).max(usual);
        let ack = p.f64(ACK_S, rank);
        let turn = 2.0 * p.f64(BURST, 3);
        let clean = (duration(p, level, 1, cue) + ack + turn) / p.f64(BURST, 2) - ack - turn;
        Self {
            level,
            cue,
            burst_len_s: if p.on(on::BURST_ADAPT) {
                s.burst_s.min(clean.max(usual).min(most))
            } else {
                usual
            },
            nothing: s.out.is_empty() && s.inflight.is_empty(),
            heard: s.peer_heard,
            held: s.at_peer.clone(),
        }
    }
}

/// A frame's bytes: kind, flags, offset, length, payload, fill, check sum.
fn frame_bytes(size: usize, offset: u32, payload: &[u8]) -> Vec<u8> {
    let mut b = vec![
        3,
        0,
        offset as u8,
        (offset >> 8) as u8,
        (offset >> 16) as u8,
        payload.len() as u8,
    ];
    b.extend(payload);
    b.resize(size - 4, 0);
    // V.42 bit by bit: the remainder of the bits, low first, first 32 inverted.
    let mut remainder = 0u32;
    for i in 0..8 * b.len() + 32 {
        let bit = if i < 8 * b.len() { b[i / 8] >> (i % 8) & 1 } else { 0 };
        let bit = bit ^ (i < 32) as u8;
        let out = remainder >> 31;
        remainder = remainder << 1 | bit as u32;
        if out == 1 {
            remainder ^= 0x04C1_1DB7;
        }
    }
    b.extend((!remainder.reverse_bits()).to_le_bytes());
    b
}

fn burst_holds(h: &Harness, before: &Allowance, b: &Burst, flown: &[u8], first_new: usize) -> Check {
    let (s, p) = (&h.station, &h.profile);
    let level = before.level;
    let long = level >= 5;
    let size = p.whole(FRAME_BYTES, long as usize);
    let payload = payload_of(size);
    demand!(
        b.code == level && b.wave == rank_of(level),
        "the burst goes at level {} in wave {}, the record has level {level}",
        b.code,
        b.wave
    );
    demand!(b.cue == before.cue, "the cue is {}", b.cue);
    demand!(Some(b.number()) != before.heard, "the number last heard is taken again");
    demand!(
        (b.user >> 4) as u8 == s.session && b.number() == s.burst_id,
        "the user word names another session or number"
    );
    demand!(b.frames.is_empty() == before.nothing, "{} frames", b.frames.len());
    demand!(b.frames.len() <= if long { 64 } else { 6 }, "{} frames", b.frames.len());
    demand!(s.last_burst.len() == b.frames.len(), "the outstanding burst is another");
    let (mut parity, mut bits, mut last_fresh) = (0, 0, None);
    for (f, sent) in b.frames.iter().zip(&s.last_burst) {
        demand!(
            f.offset == sent.off && f.bits == sent.bits,
            "the outstanding frame is another"
        );
        let at = f.offset as usize;
        let Some(bytes) = flown.get(at..at + f.len) else {
            return Err(format!("frame {at}/{} reaches past the flown bytes", f.len));
        };
        demand!(
            (1..=payload).contains(&f.len),
            "frame {at} has {} bytes of payload",
            f.len
        );
        demand!(
            f.bytes == frame_bytes(size as usize, f.offset, bytes),
            "frame {at} does not carry the bytes taken there"
        );
        bits += f.bits;
        if sent.held == sent.bits {
            demand!(
                f.start == 0 && f.bits == p.whole(level, 0) as usize,
                "frame {at} goes whole from bit {}, {} bits",
                f.start,
                f.bits
            );
            demand!(last_fresh.is_none_or(|o| o < f.offset), "frame {at} is out of order");
            demand!(
                at < first_new || f.len == payload || at + f.len == s.next_offset as usize,
                "new frame {at} is cut short"
            );
            last_fresh = Some(f.offset);
            continue;
        }
        let held = before.held.get(parity);
        demand!(last_fresh.is_none(), "increment {at} comes after a whole frame");
        demand!(
            held.is_some_and(|x| x.0 == f.offset && x.1 + f.bits == sent.held),
            "increment {at} is none of the next held piece {held:?}"
        );
        demand!(
            f.start == held.unwrap().1 % p.whole(HARQ, 0) as usize,
            "increment {at} starts at {}",
            f.start
        );
        parity += 1;
    }
    // Whole frames are the oldest pieces that are not held.
    let mut others = s
        .inflight
        .keys()
        .filter(|o| !s.at_peer_rest.iter().any(|r| r.0 == **o) && !s.last_burst[..parity].iter().any(|f| f.off == **o));
    demand!(
        s.last_burst[parity..].iter().all(|f| others.next() == Some(&f.off)),
        "an older piece is passed over"
    );
    let allowance = before.burst_len_s;
    if b.frames.len() >= 2 || parity > 0 {
        let d = duration(p, level, bits, before.cue);
        demand!(d <= allowance, "{} frames take {d} s of {allowance}", b.frames.len());
    }
    Ok(())
}

/// The time of a judged reply: an awaited ack, or a turn that ends an outstanding
/// burst with a frame. `outstanding` is how many frames it had before the call.
fn judged(call: &Call, answer: &Answer, outstanding: Option<usize>) -> Option<f64> {
    match (call, answer, outstanding?) {
        (_, Answer::Refused(_), _) => None,
        (Call::Short { t, .. } | Call::Long { t, .. }, ..) => Some(*t),
        (Call::Frames { t, frames, .. }, ..) => frames
            .iter()
            .any(|d| d.kind == 4 && d.payload.len() >= 13)
            .then_some(*t),
        (Call::Turn { t, .. }, _, 1..) => Some(*t),
        _ => None,
    }
}

fn longest_hold(p: &Profile) -> f64 {
    p.f64(HOLDS, 1).max(p.f64(HOLDS, 2))
}

/// Each hold ends by the longest one after the last judged reply, or was never set.
fn holds_end(p: &Profile, s: &Station, judged: Option<f64>) -> Check {
    for (l, &end) in s.blocked_until.iter().enumerate() {
        let by = judged.is_some_and(|t| end <= t + longest_hold(p));
        demand!(
            end == f64::NEG_INFINITY || by,
            "level {l} is held until {end}, the last judged reply came at {judged:?}"
        );
    }
    Ok(())
}

/// No frame has a byte that was acknowledged before.
fn unsent(b: &Burst, acknowledged: &[bool]) -> Check {
    for f in &b.frames {
        let at = f.offset as usize;
        demand!(
            (at..at + f.len).all(|o| acknowledged.get(o) != Some(&true)),
            "frame {at}/{} has an acknowledged byte",
            f.len
        );
    }
    Ok(())
}

/// The test against WINDOW_BYTES stops no chunk: where bytes are left waiting, one more frame does not fit.
fn window_open(p: &Profile, s: &Station, before: &Allowance, b: &Burst) -> Check {
    let level = before.level;
    let whole = s.last_burst.iter().filter(|f| f.held == f.bits).count();
    let bits = b.frames.iter().map(|f| f.bits as u64).sum::<u64>() + p.whole(level, 0);
    let fits = b.frames.len() < if level >= 5 { 64 } else { 6 }
        && s.at_peer.len() + whole < 64
        && duration(p, level, bits as usize, before.cue) <= before.burst_len_s
        && bits <= p.whole(level, 3);
    demand!(
        s.out.is_empty() || !fits,
        "{} bytes wait, {} fly, and one more frame fits",
        s.out.len(),
        s.inflight.values().map(Vec::len).sum::<usize>()
    );
    Ok(())
}

/// How a burst cuts the messages that waited before it; `new` are the offsets that begin to fly.
fn reach_burst(reached: &mut Reached, waiting: &[Message], b: &Burst, new: Range<usize>) {
    let mut end = new.start;
    let ends: Vec<usize> = waiting
        .iter()
        .map(|m| {
            end += m.bytes.len();
            end
        })
        .collect();
    let shared = b.frames.iter().any(|f| {
        let at = f.offset as usize;
        ends.iter().any(|&e| at < e && e < at + f.len)
    });
    reached.count("bursts with a frame of two messages or more", shared);
    let left = !new.is_empty() && ends.last().is_some_and(|&e| e > new.end);
    reached.count("bursts that end where a message does", left && ends.contains(&new.end));
    reached.count("bursts that end inside a message", left && !ends.contains(&new.end));
}

/// What a queuing meets among the messages that waited before it: whom it overtakes, whom it withdraws, and what is judged after that.
fn reach_queuing(
    reached: &mut Reached,
    waited: &[Message],
    begun: bool,
    (said, n): (Said, usize),
    refused: Option<u8>,
) {
    let (first, others) = waited.split_at(begun as usize);
    let (class, label) = (said.class(), said.label());
    let over = |m: &Message| class < m.class && n > 0;
    let same = |m: &Message| label > 0 && m.label == label;
    let waiting: usize = waited.iter().map(|m| m.bytes.len()).sum();
    let gone: Vec<&Message> = others.iter().filter(|m| same(m)).collect();
    if refused.is_some() {
        let late = matches!(refused, Some(8 | 9 | 12));
        reached.count("queuings refused where a message would go", late && !gone.is_empty());
        return;
    }
    reached.count("queuings that overtake", others.iter().any(over));
    reached.count(
        "queuings of a lower class than the begun message's",
        first.iter().any(over),
    );
    let withdraws = n > 0 && !gone.is_empty();
    let begun = first.iter().any(same);
    reached.count(
        "queuings of no bytes with a label that waits",
        n == 0 && !gone.is_empty(),
    );
    reached.count("queuings that withdraw", withdraws);
    reached.count(
        "queuings that withdraw of another class",
        withdraws && gone.iter().any(|m| m.class != class),
    );
    reached.count("queuings with the begun message's label", n > 0 && begun);
    reached.count("queuings with it that withdraw another", withdraws && begun);
    reached.count(
        "queuings whose bytes fit after a withdrawal only",
        withdraws && waiting + n > WAITING_MOST,
    );
    reached.count(
        "queuings whose message fits after a withdrawal only",
        withdraws && waited.len() == MESSAGES_MOST,
    );
}

struct Auditor {
    h: Harness,
    tally: Tally,
    /// Held offsets and the lengths of their pieces after the last call.
    held: Vec<(u32, usize)>,
    /// The time of the last judged reply.
    judged: Option<f64>,
}

impl Auditor {
    fn new(profile: Profile) -> Self {
        Self {
            h: Harness::new(profile),
            tally: Tally::default(),
            held: Vec::new(),
            judged: None,
        }
    }

    fn call(&mut self, call: &Call, reached: &mut Reached) -> Check {
        let h = &mut self.h;
        let refused = h.refuses(call);
        let mut record = String::new();
        if refused.is_some() {
            transcript::state(&mut record, h);
            transcript::messages(&mut record, h);
        }
        let before = Allowance::new(&h.profile, &h.station);
        let first_new = h.station.next_offset as usize;
        let pieces = h.station.inflight.len();
        let (waited, begun) = (self.tally.messages(), self.tally.begun);
        let numbered = self.tally.outstanding.as_ref().map(|o| (o.0, o.1.len()));
        let answer = catch_unwind(AssertUnwindSafe(|| h.call(call))).map_err(|e| {
            let why = e
                .downcast_ref::<String>()
                .map(String::as_str)
                .or(e.downcast_ref::<&str>().copied());
            format!("the original panics: {}", why.unwrap_or("no reason given"))
        })?;
        if let Some(number) = refused {
            let mut after = String::new();
            transcript::state(&mut after, h);
            transcript::messages(&mut after, h);
            demand!(record == after, "refused by {number}, and the record changed");
            reached.refused[number as usize] += 1;
        }
        if let Answer::Burst(b) = &answer {
            unsent(b, &self.tally.acknowledged)?;
            window_open(&h.profile, &h.station, &before, b)?;
            reached.count("bursts that leave bytes waiting", !h.station.out.is_empty());
            reached.count("bursts after an acknowledged byte", self.tally.acknowledged_count > 0);
        }
        let judges = judged(call, &answer, numbered.map(|n| n.1));
        reached.count("judged replies", judges.is_some());
        self.judged = judges.or(self.judged);
        holds_end(&h.profile, &h.station, self.judged)?;
        self.tally.feed(call, &answer);
        if h.profile.refusal().is_none() {
            sound(h).map_err(|e| format!("the record is not sound: {e}"))?;
        }
        self.tally.agrees(h, &answer)?;
        if let Answer::Burst(b) = &answer {
            burst_holds(h, &before, b, &self.tally.flown, first_new)?;
            let s = &h.station;
            let parity = s.last_burst.iter().filter(|f| f.held != f.bits).count();
            let d = duration(
                &h.profile,
                before.level,
                s.last_burst.iter().map(|f| f.bits).sum(),
                before.cue,
            );
            reached.levels[before.level] += 1;
            reached.count("bursts", true);
            reached.count("bursts without a frame", b.frames.is_empty());
            reached.count("bursts with a cue", b.cue);
            reached.count("bursts with increments", parity > 0);
            reached.count("bursts of increments only", parity > 0 && parity == b.frames.len());
            reached.count(
                "bursts of increments longer than usual",
                parity > 0 && d > before.burst_len_s,
            );
            reached.count("bursts that leave held pieces out", !s.at_peer_rest.is_empty());
            reached.count("bursts that drop the held list", !before.held.is_empty() && parity == 0);
            reached.count(
                "single frames past the allowance",
                b.frames.len() == 1 && parity == 0 && d > before.burst_len_s,
            );
            reached.count("bursts exactly as long as allowed", d == before.burst_len_s);
            let old = s.inflight.keys().filter(|&&o| (o as usize) < first_new).count();
            reached.count("bursts that split pieces", old > pieces);
            reached.count("bursts that merge pieces", old < pieces);
            reached.count("bursts with td_ease", b.td_ease);
            reached.count(
                "bursts longer than max_burst_s",
                !b.frames.is_empty() && d > h.profile.f64(BURST, 0),
            );
            reached.most("frames in a burst", b.frames.len());
            reach_burst(reached, &waited, b, first_new..s.next_offset as usize);
        }
        if let Call::Queue(bytes, said) = call {
            reach_queuing(reached, &waited, begun, (*said, bytes.len()), refused);
        }
        reached.count("calls with a begun message", self.tally.begun);
        reached.most("bytes withdrawn", self.tally.withdrawn_bytes() as usize);
        reached.most("messages", self.tally.waiting.len());
        let all = matches!((call, &answer, numbered), (Call::Short { burst, bitmap: 63, .. }, Answer::Ok, Some((n, 7..)))
            if *burst == n as u64);
        reached.count("short acks of more than six frames", all);
        let s = &h.station;
        for (offset, len) in &self.held {
            if s.at_peer.iter().any(|x| x.0 == *offset) {
                let now = s.inflight.get(offset).map(Vec::len);
                demand!(
                    now == Some(*len),
                    "the held piece at {offset} had {len} bytes and has {now:?}"
                );
            }
        }
        self.held = s.at_peer.iter().map(|x| (x.0, s.inflight[&x.0].len())).collect();
        reached.calls += 1;
        reached.count("calls with pieces held", !s.at_peer.is_empty());
        reached.count(
            "calls with a hold running",
            h.last_time.is_some_and(|t| s.blocked_until.iter().any(|&b| t < b)),
        );
        reached.count(
            "calls with a hold as late as it may be",
            self.judged
                .is_some_and(|t| s.blocked_until.contains(&(t + longest_hold(&h.profile)))),
        );
        reached.count(
            "calls with a hold that leaves longer guards",
            s.hold_all.contains(&false),
        );
        reached.most("bytes in flight", h.flying());
        reached.most("pieces in flight", s.inflight.len());
        reached.most("pieces held", s.at_peer.len());
        reached.most("held bits", s.at_peer.iter().map(|x| x.1).max().unwrap_or(0));
        reached.most("failures", s.fails.iter().copied().max().unwrap_or(0) as usize);
        reached.most("wave of held pieces", wave_rank(s.peer_wave));
        Ok(())
    }
}

/// Runs a list; an error has the place of the call in the list.
pub fn check(items: &[Item], reached: &mut Reached) -> Result<(), (usize, String)> {
    let mut auditor: Option<Auditor> = None;
    for (i, item) in items.iter().enumerate() {
        match item {
            Item::Profile(p) => auditor = Some(Auditor::new(p.clone())),
            Item::Call(call) => {
                if let Some(a) = auditor.as_mut() {
                    a.call(call, reached).map_err(|e| (i, e))?;
                }
            }
            Item::Raw(_) => {}
        }
    }
    reached.lists += 1;
    Ok(())
}

/// The list cut down to what shows a violation, and the violation.
fn smallest(items: &[Item], at: usize) -> (Vec<Item>, String) {
    let small = shrink(items[..=at].to_vec(), &mut |items| {
        check(items, &mut Reached::default()).is_err()
    });
    let why = check(&small, &mut Reached::default()).map_or_else(|e| e.1, |()| "lost in shrinking".to_string());
    (small, why)
}

/// Lists of `kind`, or of all but `lines`, `levels`, `classes` and `labels`.
pub fn audit(seed: u64, lists: u64, calls: usize, kind: Option<&'static str>) -> Result<(), String> {
    std::panic::set_hook(Box::new(|_| {}));
    let mut reached = Reached::default();
    let mut progress = Progress::new();
    for index in 0..lists {
        let kind = kind.unwrap_or_else(|| generate::kind_of(seed, index, false));
        progress.show(|| format!("audit: {index} of {lists} lists, {} calls", reached.calls));
        // The generator drives the original too, and an edited one may panic there.
        let made = catch_unwind(|| generate::list(seed, index, calls, kind));
        let whole = made.is_ok();
        let items = made.unwrap_or_else(|_| generate::made());
        if let Err((at, _)) = check(&items, &mut reached) {
            progress.done();
            let (small, why) = smallest(&items, at);
            println!("# violation: {why}");
            println!("# seed {seed}, list {index}, {calls} calls, {kind}, shrunk");
            print!("{}", String::from_utf8_lossy(&text(&small)));
            return Err(format!("the audit failed: {why}"));
        }
        if !whole {
            return Err(format!(
                "list {index} of seed {seed}: the original panics, and the list alone does not show it"
            ));
        }
    }
    progress.done();
    println!(
        "audit of {}: no violation in {} lists, {} calls (seed {seed})",
        original(),
        reached.lists,
        reached.calls
    );
    print!("{}", reached.text());
    Ok(())
}

#[cfg(test)]
mod tests {
    use super::*;
    use crate::link::frame::crc32;

    #[test]
    fn check_sums_by_the_rule() {
        for n in [18usize, 19, 180, 512] {
            let payload: Vec<u8> = (0..payload_of(n as u64)).map(|i| (i * 37 + n) as u8).collect();
            let b = frame_bytes(n, 0x01020304, &payload);
            assert_eq!(b.len(), n);
            assert_eq!(b[n - 4..], crc32(&b[..n - 4]).to_le_bytes());
        }
        assert_eq!(crc32(b"123456789"), 0xCBF43926);
    }

    #[test]
    fn holds_at_the_latest() {
        let p = Profile::usual();
        let mut h = Harness::new(p.clone());
        assert_eq!(longest_hold(&p), 480.0);
        assert!(holds_end(&p, &h.station, None).is_ok());
        h.station.blocked_until[3] = 1480.0;
        assert!(holds_end(&p, &h.station, Some(1000.0)).is_ok());
        // The sum is rounded once: to 1480 here.
        assert!(holds_end(&p, &h.station, Some(1000.0f64.next_down())).is_ok());
        assert!(holds_end(&p, &h.station, Some(1000.0f64.next_down().next_down())).is_err());
        assert!(holds_end(&p, &h.station, None).is_err());
        h.station.blocked_until[3] = f64::NAN;
        assert!(holds_end(&p, &h.station, Some(1000.0)).is_err());
    }

    #[test]
    fn generated_lists_hold() {
        let mut reached = Reached::default();
        for index in 0..40 {
            let items = generate::list(11, index, 40, generate::kind_of(11, index, false));
            if let Err((at, why)) = check(&items, &mut reached) {
                panic!("list {index}, item {at}: {why}");
            }
        }
        assert!(reached.calls > 1000);
    }

    #[test]
    fn lists_of_classes_hold() {
        let mut reached = Reached::default();
        for index in 0..40 {
            let items = generate::list(11, index, 60, "classes");
            if let Err((at, why)) = check(&items, &mut reached) {
                panic!("list {index}, item {at}: {why}");
            }
        }
        assert_eq!(reached.most["messages"], 256);
        for what in [
            "queuings that overtake",
            "queuings of a lower class than the begun message's",
            "bursts with a frame of two messages or more",
            "bursts that end where a message does",
        ] {
            assert!(reached.counts[what] > 0, "{what}");
        }
        assert!(reached.refused[11] > 0 && reached.refused[12] > 0);
    }

    #[test]
    fn lists_of_labels_hold() {
        let mut reached = Reached::default();
        for index in 0..60 {
            let items = generate::list(11, index, 60, "labels");
            if let Err((at, why)) = check(&items, &mut reached) {
                panic!("list {index}, item {at}: {why}");
            }
        }
        assert_eq!(reached.most["messages"], 256);
        for what in [
            "queuings refused where a message would go",
            "queuings of no bytes with a label that waits",
            "queuings that withdraw of another class",
            "queuings with it that withdraw another",
            "queuings whose bytes fit after a withdrawal only",
            "queuings whose message fits after a withdrawal only",
        ] {
            assert!(reached.counts[what] > 0, "{what}");
        }
        assert!(reached.refused[8] > 0 && reached.refused[12] > 0);
    }

    /// Each of the tally's own checks about labels fails where it should.
    #[test]
    fn messages_in_two_places() {
        let mut t = Tally::default();
        t.queue(Said::Label(3, 5), &[1, 2]);
        t.queue(Said::Label(3, 6), &[3]);
        t.queue(Said::Label(0, 5), &[4]);
        assert!(t.parted().is_ok());
        assert_eq!((t.withdrawn_bytes(), t.waits()), (2, vec![4, 3]));
        // One withdrawn that was on the air, one in neither, two of one label.
        t.began = vec![0];
        assert!(t.parted().is_err());
        t.began = Vec::new();
        let gone = t.withdrawn.pop().unwrap();
        assert!(t.parted().is_err());
        t.waiting.push(gone);
        assert!(t.parted().is_err());
    }
}
