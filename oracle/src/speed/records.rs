//! Records that no list of calls reaches: any record that document 01 calls sound, given to the original and to the port, and one call on
//! each. Their records are compared, every field. Connect answers come to records that are not connected, whatever else is in them.
//!
//! What is not there is not a number or another value out of range on the port's side: the share of a level not tried, reports past their
//! count, dB and numbers beside flags that are off, messages past theirs. Left out is what has no counterpart in the original: a wave above 5,
//! a success time past the reply's (its worth is a NaN: docs/DIFFERENCES.md).
//!
//! Messages are any that document 02 calls sound: classes in any order, several of one label, `begun` with a message and without, bytes
//! withdrawn up to what may be taken. The original has none. `Mail` is the second model: the order of those that are there is the one in which
//! they are kept, and a new one goes when it is its turn by the sentence; with a single class and nothing withdrawn the original's own queue
//! says so.

use vanitycrow::raw;

use super::port;
use crate::active::{self, Numbers};
use crate::link::frame::{AckInfo, Frame, Kind as FrameKind, Tiny, caps, flags};
use crate::link::report::ChanClass;
use crate::link::station::{Awaiting, Sent, State, Station, wave_of_rank, wave_rank};
use crate::profile::{Profile, payload_of};
use crate::profiles;
use crate::rng::Rng;

/// What most labels are drawn from.
const LABELS: [u16; 6] = [0, 1, 2, 7, 256, 65535];
const AREA: usize = 49152;
const TABLE: usize = 32768;

/// A message: its class, its label and the bytes of it that wait.
struct Message {
    class: u8,
    label: u16,
    bytes: Vec<u8>,
}

/// The messages in the order of going, whether the first has begun, and the bytes withdrawn.
#[derive(Default)]
struct Mail {
    messages: Vec<Message>,
    begun: bool,
    withdrawn: u32,
}

impl Mail {
    /// How many messages, and how many bytes of them, a queuing of `n` bytes with `label` withdraws.
    fn gone(&self, label: u16, n: usize) -> (usize, usize) {
        let unbegun = self.messages.iter().skip(self.begun as usize);
        let gone = unbegun.filter(|m| n > 0 && label > 0 && m.label == label);
        gone.fold((0, 0), |(count, bytes), m| (count + 1, bytes + m.bytes.len()))
    }

    /// What goes next is chosen between the new message and the next of those that are there and stay: the begun one, then the one of the lower
    /// class, of two alike the one that is there.
    fn queue(&mut self, class: u8, label: u16, bytes: &[u8]) {
        if bytes.is_empty() {
            return;
        }
        let mut new = Some(Message { class, label, bytes: bytes.to_vec() });
        let mut begun = self.begun;
        for next in std::mem::take(&mut self.messages) {
            if begun {
                self.messages.push(next);
                begun = false;
                continue;
            }
            if label > 0 && next.label == label {
                self.withdrawn += next.bytes.len() as u32;
                continue;
            }
            if new.as_ref().is_some_and(|m| m.class < next.class) {
                self.messages.extend(new.take());
            }
            self.messages.push(next);
        }
        self.messages.extend(new);
    }

    fn fly(&mut self, mut n: usize) {
        while n > 0 {
            let first = &mut self.messages[0].bytes;
            let k = n.min(first.len());
            first.drain(..k);
            n -= k;
            self.begun = !first.is_empty();
            if !self.begun {
                self.messages.remove(0);
            }
        }
    }

    fn bytes(&self) -> Vec<u8> {
        self.messages.iter().flat_map(|m| m.bytes.iter().copied()).collect()
    }

    /// Whether a message of `class` makes no second class.
    fn single(&self, class: u8) -> bool {
        self.messages.iter().all(|m| m.class == class)
    }
}

struct Both {
    numbers: Numbers,
    original: Station,
    mail: Mail,
    profile: raw::Profile,
    station: raw::Station,
    area: Vec<u8>,
    out: Vec<u8>,
    now: f64,
}

fn db(r: &mut Rng, high: f64) -> f32 {
    match r.below(8) {
        0 => -100.0,
        1 => high as f32,
        _ => r.between(-12.0, 40.0) as f32,
    }
}

fn maybe_db(r: &mut Rng) -> (Option<f32>, raw::MaybeDb) {
    if r.flag() {
        let x = db(r, 308.0);
        (Some(x), raw::MaybeDb { set: true, db: x })
    } else {
        (None, raw::MaybeDb { set: false, db: f32::NAN })
    }
}

/// A time up to `most`, or never.
fn time(r: &mut Rng, most: f64) -> f64 {
    if r.once_in(4) { f64::NEG_INFINITY } else { r.between(0.0, most) }
}

fn profile(r: &mut Rng) -> Profile {
    loop {
        let p = match r.below(5) {
            0 => profiles::extreme(r),
            1 => profiles::harq(r).0,
            2 => profiles::merge(r),
            3 => profiles::many(r),
            _ => profiles::usual(r),
        };
        if p.refusal().is_none() {
            return profiles::compared(p);
        }
    }
}

impl Both {
    fn new(r: &mut Rng) -> Self {
        let p = profile(r);
        let mut fresh = std::mem::MaybeUninit::<raw::Station>::zeroed();
        // SAFETY: all zeros is a value of Station.
        let station = unsafe {
            raw::vanitycrow_fresh(fresh.as_mut_ptr());
            fresh.assume_init()
        };
        let mut both = Both {
            numbers: p.numbers(),
            original: Station::new(p.config(), p.air()),
            mail: Mail::default(),
            profile: port::profile(&p),
            station,
            area: vec![0; AREA],
            out: vec![0; 64 * 512],
            now: r.pick(&[0.0, 1e-9, 5.0, 1e9, 700.25, 123456.789]),
        };
        both.gear(r);
        both.levels(r);
        both.link(r);
        both.bytes(r, payload_of(both.profile.long_bytes as u64), payload_of(both.profile.short_bytes as u64));
        both
    }

    fn gear(&mut self, r: &mut Rng) {
        let (s, g) = (&mut self.original, &mut self.station.sender.gear);
        s.level = r.below(17) as usize;
        s.target = r.below(17) as usize;
        (g.level, g.target) = (s.level, s.target);
        if r.once_in(3) {
            g.burst_s = 0.0;
        } else {
            s.burst_s = r.pick(&[1.0, 1000.0, 8.0, 16.0, 3.25]);
            g.burst_s = s.burst_s;
        }
        (s.aim_db, g.aim_db) = maybe_db(r);
        (s.last_report_db, g.last_report_db) = maybe_db(r);
        let three = [db(r, 308.0), db(r, 308.0), db(r, 308.0)];
        let count = r.below(6) as u8;
        let there = count.min(3) as usize;
        s.snr_reports = three[3 - there..].iter().copied().collect();
        let read = |k: usize| if k >= 3 - there { three[k] } else { f32::NAN };
        g.snr_reports = raw::Reports { count, a: read(0), b: read(1), c: read(2) };
        s.peer_class = ChanClass { echo: r.flag(), doppler: r.once_in(4) };
        g.peer_class = raw::ChanClass { echo: s.peer_class.echo, doppler: s.peer_class.doppler };
        g.cue = r.flag();
        s.caps = if g.cue { caps::CUE } else { 0 };
    }

    fn levels(&mut self, r: &mut Rng) {
        let (s, g) = (&mut self.original, &mut self.station.sender.gear);
        for l in 0..17 {
            let tried = r.flag();
            let share = r.pick(&[0.0, 1.0, 0.5, 0.7, 0.0625]) as f32;
            s.success[l] = tried.then_some(share);
            g.tries.tried[l] = tried;
            g.tries.success[l] = if tried { share } else { f32::NAN };
            s.success_at[l] = time(r, self.now);
            g.tries.success_at[l] = s.success_at[l];
            s.fails[l] = if r.flag() { 0 } else { r.below(256) as u8 };
            g.tries.fails[l] = s.fails[l];
            s.blocked_until[l] = time(r, 2.0 * self.now + 60.0).min(1_001_000_000.0);
            g.holds.blocked_until[l] = s.blocked_until[l];
            s.hold_all[l] = r.flag();
            g.holds.hold_all[l] = s.hold_all[l];
        }
    }

    fn link(&mut self, r: &mut Rng) {
        let (s, k) = (&mut self.original, &mut self.station.sender.link);
        k.connected = !r.once_in(3);
        k.awaiting = r.flag();
        s.state = if k.connected { State::Connected } else { State::Connecting };
        s.awaiting = if k.awaiting { Awaiting::Ack } else { Awaiting::Nothing };
        s.session = r.below(256) as u8;
        k.session = s.session;
        k.last_time = if r.once_in(4) { -r.between(0.0, 1e12) } else { r.between(0.0, self.now) };
        s.burst_id = r.below(4) as u8;
        k.burst_id = s.burst_id;
        k.heard = r.flag();
        k.peer_heard = if k.heard { r.below(4) as u8 } else { r.below(256) as u8 };
        s.peer_heard = k.heard.then_some(k.peer_heard);
        let slots = r.pick(&[3, 256]);
        s.peer_slot = r.below(slots) as u8;
        k.peer_slot = s.peer_slot;
        s.peer_doppler_hz = r.pick(&[f32::NAN, 0.0, 1.75, 1.85, 63.5]);
        k.peer_doppler_hz = s.peer_doppler_hz;
        (s.peer_wants_turn, s.peer_wants_disc) = (r.flag(), r.flag());
        (k.peer_wants_turn, k.peer_wants_disc) = (s.peer_wants_turn, s.peer_wants_disc);
        let rank = r.below(6) as usize;
        s.peer_wave = wave_of_rank(rank);
        k.peer_wave = rank as u8;
    }

    /// Pieces with gaps, waiting bytes, the held list, its unsent rest, and the outstanding burst.
    fn bytes(&mut self, r: &mut Rng, long: usize, short: usize) {
        let (s, c) = (&mut self.original, &mut self.station.sender.counts);
        let mut next = r.pick(&[0, 1, 1 << 24, 1 << 31, u32::MAX - 40_000]);
        let (mut flying, mut shorts, mut offsets) = (0, 0, Vec::new());
        for _ in 0..r.below(70) {
            let len = r.within(1, long as u64) as usize;
            if flying + len > 16256 || shorts + len.div_ceil(short) > 2048 {
                break;
            }
            next += r.pick(&[0, 0, 1, 300]);
            let bytes = r.bytes(len);
            let row = TABLE + 8 * offsets.len();
            self.area[flying..flying + len].copy_from_slice(&bytes);
            self.area[row..row + 4].copy_from_slice(&next.to_le_bytes());
            self.area[row + 4..row + 8].copy_from_slice(&(len as u32).to_le_bytes());
            s.inflight.insert(next, bytes);
            offsets.push(next);
            next += len as u32;
            flying += len;
            shorts += len.div_ceil(short);
        }
        next += r.pick(&[0, 0, 7]);
        let most = r.pick(&[0, 1, 600, 16384]);
        let waiting = r.bytes(most.min((u32::MAX - next) as usize));
        self.area[flying..flying + waiting.len()].copy_from_slice(&waiting);
        s.out = waiting.iter().copied().collect();
        s.next_offset = next;
        s.stats.bytes_acked = next as u64 - flying as u64;
        *c = raw::Counts {
            next_offset: next,
            waiting: waiting.len() as u32,
            flying: flying as u32,
            pieces: offsets.len(),
            bytes_acked: next - flying as u32,
            airtime_ms: 0,
        };
        self.lists(r, &mut offsets);
        self.messages(r, &waiting);
    }

    /// The waiting bytes as messages.
    fn messages(&mut self, r: &mut Rng, waiting: &[u8]) {
        let m = &mut self.station.messages;
        let most = r.pick(&[1, 2, 3, 9, 255, 256]).min(waiting.len());
        let (order, mut rest) = (r.below(3), waiting);
        let mut classes: Vec<u8> = (0..most).map(|_| r.below(4) as u8).collect();
        if order == 0 {
            classes.sort();
        } else if order == 1 {
            classes.fill(r.below(4) as u8);
        }
        let labels = r.pick(&[&[0][..], &LABELS, &LABELS, &[7], &[0, 0, 0, 7]]);
        for (i, &class) in classes.iter().enumerate() {
            let spare = rest.len() - (most - i);
            let more = r.pick(&[0, 0, 1, spare / 2, spare]).min(spare);
            let n = if i + 1 == most { rest.len() } else { 1 + more };
            let label = r.pick(labels);
            (m.left[i], m.class[i], m.label[i]) = (n as u16, class, label);
            self.mail.messages.push(Message { class, label, bytes: rest[..n].to_vec() });
            rest = &rest[n..];
        }
        for i in most..256 {
            (m.left[i], m.class[i], m.label[i]) = (r.next() as u16, r.next() as u8, r.pick(&LABELS));
        }
        m.n = most;
        m.begun = r.flag();
        self.mail.begun = m.begun && most > 0;
        let c = &self.station.sender.counts;
        let room = u32::MAX - c.next_offset - c.waiting;
        m.withdrawn = r.pick(&[0, 0, 1, 70_000, room.saturating_sub(900), room]).min(room);
        self.mail.withdrawn = m.withdrawn;
    }

    fn lists(&mut self, r: &mut Rng, offsets: &mut [u32]) {
        let (s, h, b) = (&mut self.original, &mut self.station.sender.at_peer, &mut self.station.sender.last_burst);
        for i in (1..offsets.len()).rev() {
            offsets.swap(i, r.below(i as u64 + 1) as usize);
        }
        let held = r.below(offsets.len().min(64) as u64 + 1) as usize;
        let rest = r.below(held as u64 + 1) as usize;
        for (i, &off) in offsets[..held].iter().enumerate() {
            let bits = r.within(1, 2 * self.numbers.mother as u64 - 1) as u32;
            (h.off[i], h.bits[i]) = (off, bits);
            s.at_peer.push((off, bits as usize));
        }
        (h.n, h.rest) = (held, rest);
        s.at_peer_rest = s.at_peer[held - rest..].to_vec();
        let free: Vec<u32> = offsets.iter().copied().filter(|o| !s.at_peer_rest.iter().any(|p| p.0 == *o)).collect();
        let sent = r.below(free.len().min(64 - rest) as u64 + 1) as usize;
        for (i, &off) in free[..sent].iter().enumerate() {
            let bits = r.within(1, 16384) as u32;
            let held = if r.flag() { bits } else { r.within(bits as u64, 49151) as u32 };
            (b.off[i], b.bits[i], b.held[i]) = (off, bits, held);
            s.last_burst.push(Sent { off, bits: bits as usize, held: held as usize });
        }
        b.n = sent;
    }

    fn call(&mut self, r: &mut Rng) -> &'static str {
        active::set(&self.numbers, self.original.level);
        let heard = raw::Heard { time: self.now, wave: r.below(6) as u8, snr_db: db(r, 300.0) };
        if !self.station.sender.link.connected {
            self.connect(r, heard);
            return "connect";
        }
        match r.below(5) {
            0 => self.queue(r),
            1 => self.short(r, heard),
            2 => self.long(r, heard),
            3 => self.turn(r, heard),
            _ => self.burst(),
        }
    }

    fn connect(&mut self, r: &mut Rng, heard: raw::Heard) {
        let (db, slot, echo, doppler) = (db(r, 300.0), r.below(3) as u8, r.flag(), r.flag());
        let (session, cue) = (r.below(256) as u8, r.flag());
        self.original.call(session);
        let caps = if cue { caps::CUE } else { 0 };
        let theirs = Tiny::ConnAck { snr_db: db, compress: false, class: ChanClass { echo, doppler }, slot, caps };
        let ours = raw::ConnAck { session, snr_db: db, class: raw::ChanClass { echo, doppler }, slot, cue };
        self.original.hear_tiny(heard.wave as usize, heard.snr_db, theirs, heard.time);
        // SAFETY, here and below: pointers and lengths are those of live buffers that don't overlap.
        let refusal =
            unsafe { raw::vanitycrow_connect(&self.profile, &mut self.station, self.area.as_mut_ptr(), AREA, heard, ours) };
        assert_eq!(refusal, 0, "connect");
    }

    fn queue(&mut self, r: &mut Rng) -> &'static str {
        let (class, label) = (r.below(4) as u8, r.pick(&LABELS));
        let c = &self.station.sender.counts;
        let (waiting, next) = (c.waiting as usize, c.next_offset as usize);
        let left = 0xFFFF_FFFF - next - waiting - self.mail.withdrawn as usize;
        let (_, bytes_gone) = self.mail.gone(label, 1);
        let room = 16384 - waiting + bytes_gone;
        let n = r.pick(&[0, 1, 700, 16384, room, left]).min(room).min(left) + r.once_in(8) as usize;
        let bytes = r.bytes(n);
        let (count, bytes_gone) = self.mail.gone(label, n);
        let expected = if waiting - bytes_gone + n > 16384 {
            8
        } else if n > left {
            9
        } else if n > 0 && self.mail.messages.len() - count == 256 {
            12
        } else {
            0
        };
        if expected == 0 {
            let own = self.mail.single(class) && count == 0;
            self.mail.queue(class, label, &bytes);
            if own {
                self.original.out.extend(&bytes);
            } else {
                self.original.out = self.mail.bytes().into();
            }
        }
        let area = self.area.as_mut_ptr();
        let message = raw::Message { class, label };
        let refusal = unsafe { raw::vanitycrow_queue(&self.profile, &mut self.station, area, AREA, message, bytes.as_ptr(), n) };
        assert_eq!(refusal, expected, "queue");
        match (refusal, count) {
            (0, 0) => "queue",
            (0, _) => "queue that withdraws",
            (_, 0) => "refused queue",
            _ => "refused queue that would withdraw",
        }
    }

    fn number(&self, r: &mut Rng) -> u8 {
        if r.once_in(4) { r.below(4) as u8 } else { self.original.burst_id }
    }

    fn short(&mut self, r: &mut Rng, heard: raw::Heard) -> &'static str {
        let (burst, bitmap, db) = (self.number(r), r.pick(&[63, 62, 0, 5]), db(r, 300.0));
        let (want_turn, want_disc, stored) = (r.flag(), r.flag(), r.flag());
        let (echo, doppler, slot) = (r.flag(), r.flag(), r.below(3) as u8);
        let class = ChanClass { echo, doppler };
        let theirs = Tiny::Ack { burst, bitmap, snr_db: db, want_turn, want_disc, stored, class, slot };
        let class = raw::ChanClass { echo, doppler };
        let ours = raw::Ack { burst, bitmap, snr_db: db, want_turn, want_disc, stored, class, slot };
        self.original.hear_tiny(heard.wave as usize, heard.snr_db, theirs, heard.time);
        let area = self.area.as_mut_ptr();
        let refusal = unsafe { raw::vanitycrow_short_ack(&self.profile, &mut self.station, area, AREA, heard, ours) };
        assert_eq!(refusal, 0, "short");
        "short"
    }

    fn long(&mut self, r: &mut Rng, heard: raw::Heard) -> &'static str {
        let info = AckInfo { burst: self.number(r), bitmap: r.next(), snr_db: 6.0, delivered: 0, report: None };
        let mut payload = info.to_bytes();
        payload[9] = r.below(256) as u8;
        let more = r.pick(&[0, 3, 4, 9]);
        payload.truncate(13);
        payload.extend(r.bytes(more));
        let (want_turn, want_disc, stored) = (r.flag(), r.flag(), r.flag());
        let mut frame = Frame::new(FrameKind::Ack, 0);
        frame.flags = [(want_turn, flags::WANT_TURN), (want_disc, flags::WANT_DISC), (stored, flags::STORED)]
            .iter()
            .map(|&(on, bit)| if on { bit } else { 0 })
            .sum();
        frame.payload = payload.clone();
        let ours = raw::LongAck { want_turn, want_disc, stored };
        self.original.hear_frame(heard.wave as usize, heard.snr_db, frame, heard.time);
        let (area, p, n) = (self.area.as_mut_ptr(), payload.as_ptr(), payload.len());
        let refusal = unsafe { raw::vanitycrow_long_ack(&self.profile, &mut self.station, area, AREA, heard, ours, p, n) };
        assert_eq!(refusal, 0, "long");
        "long"
    }

    fn turn(&mut self, r: &mut Rng, heard: raw::Heard) -> &'static str {
        let report = r.flag().then(|| db(r, 300.0));
        let ours = raw::Turn { report: raw::MaybeDb { set: report.is_some(), db: report.unwrap_or(f32::NAN) } };
        self.original.hear_tiny(heard.wave as usize, heard.snr_db, Tiny::Turn { snr_db: report }, heard.time);
        let area = self.area.as_mut_ptr();
        let refusal = unsafe { raw::vanitycrow_turn(&self.profile, &mut self.station, area, AREA, heard, ours) };
        assert_eq!(refusal, 0, "turn");
        "turn"
    }

    fn burst(&mut self) -> &'static str {
        let waiting = self.original.out.len();
        let theirs = self.original.send();
        self.mail.fly(waiting - self.original.out.len());
        let (area, out, n) = (self.area.as_mut_ptr(), self.out.as_mut_ptr(), self.out.len());
        let ours = unsafe { raw::vanitycrow_data_burst(&self.profile, &mut self.station, area, AREA, out, n) };
        assert_eq!(ours.refusal, 0, "burst");
        let o = &ours.outgoing;
        assert_eq!(
            (wave_rank(theirs.wave), theirs.code, theirs.user, theirs.extra, theirs.cue, theirs.td_ease, theirs.frames.len()),
            (o.wave as usize, o.code, o.user, o.extra, o.cue, o.td_ease, o.frames.n),
        );
        let mut at = 0;
        for (i, frame) in theirs.frames.iter().enumerate() {
            assert_eq!(theirs.spans[i], (o.frames.start[i] as usize, o.frames.bits[i] as usize));
            assert_eq!(frame[..], self.out[at..at + frame.len()]);
            at += frame.len();
        }
        "burst"
    }

    fn compare(&self) {
        self.compare_gear();
        self.compare_link();
        self.compare_bytes();
        self.compare_messages();
    }

    fn compare_gear(&self) {
        let (s, g) = (&self.original, &self.station.sender.gear);
        let burst_s = if g.burst_s == 0.0 { s.cfg.max_burst_s } else { g.burst_s };
        assert_eq!((s.level, s.target, s.burst_s), (g.level, g.target, burst_s));
        let read = |m: &raw::MaybeDb| m.set.then_some(m.db);
        assert_eq!((s.aim_db, s.last_report_db), (read(&g.aim_db), read(&g.last_report_db)));
        let q = &g.snr_reports;
        let there = [q.a, q.b, q.c];
        assert!(s.snr_reports.iter().eq(&there[3 - q.count.min(3) as usize..]), "reports");
        assert_eq!((s.peer_class.echo, s.peer_class.doppler), (g.peer_class.echo, g.peer_class.doppler));
        assert_eq!(s.caps & caps::CUE != 0, g.cue);
        for l in 0..17 {
            assert_eq!(s.success[l], g.tries.tried[l].then_some(g.tries.success[l]), "level {l}");
            assert_eq!((s.success_at[l], s.fails[l]), (g.tries.success_at[l], g.tries.fails[l]), "level {l}");
            assert_eq!((s.blocked_until[l], s.hold_all[l]), (g.holds.blocked_until[l], g.holds.hold_all[l]), "level {l}");
        }
    }

    fn compare_link(&self) {
        let (s, k) = (&self.original, &self.station.sender.link);
        assert_eq!((s.connected(), s.awaiting == Awaiting::Ack), (k.connected, k.awaiting));
        assert_eq!((s.session, s.burst_id, s.peer_slot), (k.session, k.burst_id, k.peer_slot));
        assert_eq!(s.peer_heard, k.heard.then_some(k.peer_heard));
        assert!(s.peer_doppler_hz == k.peer_doppler_hz || s.peer_doppler_hz.is_nan() && k.peer_doppler_hz.is_nan());
        assert_eq!((s.peer_wants_turn, s.peer_wants_disc), (k.peer_wants_turn, k.peer_wants_disc));
        assert_eq!(wave_rank(s.peer_wave), k.peer_wave as usize);
    }

    fn compare_bytes(&self) {
        let (s, c, h, b) = (&self.original, &self.station.sender.counts, &self.station.sender.at_peer, &self.station.sender.last_burst);
        let mut at = 0;
        for (i, (off, bytes)) in s.inflight.iter().enumerate() {
            let row = &self.area[TABLE + 8 * i..TABLE + 8 * i + 8];
            assert_eq!((&off.to_le_bytes()[..], &(bytes.len() as u32).to_le_bytes()[..]), (&row[..4], &row[4..]));
            assert_eq!(bytes[..], self.area[at..at + bytes.len()]);
            at += bytes.len();
        }
        assert_eq!((s.inflight.len(), at, s.next_offset), (c.pieces, c.flying as usize, c.next_offset));
        assert!(s.out.iter().eq(&self.area[at..at + c.waiting as usize]));
        assert_eq!(s.stats.bytes_acked, c.bytes_acked as u64);
        let held: Vec<(u32, usize)> = (0..h.n).map(|i| (h.off[i], h.bits[i] as usize)).collect();
        assert_eq!((&s.at_peer[..], &s.at_peer_rest[..]), (&held[..], &held[h.n - h.rest..]));
        let sent: Vec<(u32, usize, usize)> = (0..b.n).map(|i| (b.off[i], b.bits[i] as usize, b.held[i] as usize)).collect();
        assert!(s.last_burst.iter().map(|f| (f.off, f.bits, f.held)).eq(sent));
    }

    fn compare_messages(&self) {
        let (m, model) = (&self.station.messages, &self.mail);
        let there = (0..m.n).map(|i| (m.class[i], m.label[i], m.left[i] as usize));
        assert!(model.messages.iter().map(|x| (x.class, x.label, x.bytes.len())).eq(there), "messages");
        assert!(m.n == 0 || m.begun == model.begun, "begun");
        assert_eq!(m.withdrawn, model.withdrawn, "withdrawn");
        assert!(self.original.out.iter().copied().eq(model.bytes()), "the waiting bytes of the messages");
    }
}

/// `count` records of a seed, a call on each. Stops where the two differ.
pub fn records(seed: u64, count: u64) -> Result<(), String> {
    let mut calls = std::collections::BTreeMap::new();
    for i in 0..count {
        let mut r = Rng::new(seed, i);
        let mut both = Both::new(&mut r);
        let done = std::panic::catch_unwind(std::panic::AssertUnwindSafe(|| {
            let name = both.call(&mut r);
            both.compare();
            name
        }));
        match done {
            Ok(name) => *calls.entry(name).or_insert(0u64) += 1,
            Err(_) => return Err(format!("record {i} of seed {seed}: the port and the original differ")),
        }
    }
    let list: Vec<String> = calls.iter().map(|(name, n)| format!("{n} {name}")).collect();
    println!("{count} records alike: {}", list.join(", "));
    Ok(())
}
