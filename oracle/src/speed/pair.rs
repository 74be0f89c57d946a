//! The original and the port, given the same calls. Their answers and records are compared after every one.
//!
//! What is measured of the original is `data_burst`, `sender_rx` on the message that the receiver hands over, or the
//! extension of its queue. The refusals and the airtime of harness.rs are left out, the profile's numbers are set before
//! (active.rs), and so is the message made. `exp` is document 01's E on both sides. What a burst allocates is freed later;
//! a long ack's frame is freed within.
//!
//! What is measured of the port is the call through the C interface, with its refusals and its airtime, and the binding's
//! copy of a burst's answer (1 KB).

use vanitycrow::Message;

use super::meter::{Kind, Meter};
use super::port;
use crate::active::{self, Numbers};
use crate::link::frame::{AckInfo, Frame, Kind as FrameKind, Tiny, caps, flags};
use crate::link::report::{ChanClass, ChanReport};
use crate::link::station::{Outgoing, Station, wave_rank};
use crate::profile::Profile;

/// Seconds from a reply to the next.
const STEP_S: f64 = 20.0;

const CLEAR: ChanClass = ChanClass {
    echo: false,
    doppler: false,
};
const PORT_CLEAR: vanitycrow::ChanClass = vanitycrow::ChanClass {
    echo: false,
    doppler: false,
};

/// What the far station says of a burst.
#[derive(Clone, Copy)]
pub struct Reply {
    pub burst: u8,
    pub bitmap: u64,
    pub stored: bool,
    pub db: f32,
}

/// What a reply needs to know of the burst.
#[derive(Clone, Copy, Debug)]
pub struct Sent {
    pub number: u8,
    pub level: usize,
    pub frames: usize,
    pub frame_bytes: usize,
}

#[derive(Clone)]
pub struct Pair<M> {
    pub meter: M,
    numbers: Numbers,
    pub original: Station,
    port: Box<vanitycrow::Station>,
    out: Vec<u8>,
    time: f64,
    wave: usize,
}

impl<M: Meter> Pair<M> {
    /// A connected sender.
    pub fn new(meter: M, profile: &Profile, db: f32) -> Self {
        let mut pair = Self {
            meter,
            numbers: profile.numbers(),
            original: Station::new(profile.config(), profile.air()),
            port: Box::new(vanitycrow::Station::new(port::profile(profile))),
            out: vec![0; 64 * 512],
            time: 0.0,
            wave: 1,
        };
        pair.connect(db);
        pair
    }

    /// The same state with another meter.
    pub fn with<N>(&self, meter: N) -> Pair<N> {
        Pair {
            meter,
            numbers: self.numbers,
            original: self.original.clone(),
            port: self.port.clone(),
            out: self.out.clone(),
            time: self.time,
            wave: self.wave,
        }
    }

    /// The next reply's time, wave and dB.
    fn heard(&mut self, db: f32) -> vanitycrow::Heard {
        self.time += STEP_S;
        active::set(&self.numbers, self.original.level);
        vanitycrow::Heard {
            time: self.time,
            wave: self.wave as u8,
            snr_db: db,
        }
    }

    fn connect(&mut self, db: f32) {
        let heard = self.heard(db);
        self.original.call(7);
        let theirs = Tiny::ConnAck {
            snr_db: db,
            compress: false,
            class: CLEAR,
            slot: 0,
            caps: caps::CUE,
        };
        let ours = vanitycrow::ConnAck {
            session: 7,
            snr_db: db,
            class: PORT_CLEAR,
            slot: 0,
            cue: true,
        };
        let (s, p) = (&mut self.original, &mut self.port);
        let ((), answer) = self.meter.both(
            Kind::Connect,
            || s.hear_tiny(heard.wave as usize, heard.snr_db, theirs, heard.time),
            || p.connect(heard, ours),
        );
        answer.expect("the port refuses a connect answer");
        self.compare();
    }

    pub fn queue(&mut self, bytes: &[u8]) {
        let (s, p) = (&mut self.original, &mut self.port);
        let ((), answer) = self
            .meter
            .both(Kind::Queue, || s.out.extend(bytes), || p.queue(Message::ROUTINE, bytes));
        answer.expect("the port refuses bytes");
        self.compare();
    }

    /// A flash message, before all that wait, none of which has begun. The original knows no classes: its bytes are moved there afterwards.
    pub fn queue_first(&mut self, bytes: &[u8]) {
        let (s, p) = (&mut self.original, &mut self.port);
        let ((), answer) = self
            .meter
            .both(Kind::Queue, || s.out.extend(bytes), || p.queue(Message::FLASH, bytes));
        answer.expect("the port refuses bytes");
        s.out.rotate_right(bytes.len());
        self.compare();
    }

    /// A message that leaves these bytes waiting, `laid`: one with a label that withdraws others. The original knows no labels: its queue is laid
    /// so afterwards.
    pub fn queue_as(&mut self, message: Message, bytes: &[u8], laid: &[u8]) {
        let (s, p) = (&mut self.original, &mut self.port);
        let ((), answer) = self
            .meter
            .both(Kind::Queue, || s.out.extend(bytes), || p.queue(message, bytes));
        answer.expect("the port refuses bytes");
        s.out = laid.iter().copied().collect();
        self.compare();
    }

    /// Only the first six bits of the bitmap go; all six mean the whole burst.
    pub fn short(&mut self, reply: Reply) {
        let heard = self.heard(reply.db);
        let bitmap = (reply.bitmap & 63) as u8;
        let theirs = Tiny::Ack {
            burst: reply.burst,
            bitmap,
            snr_db: reply.db,
            want_turn: false,
            want_disc: false,
            stored: reply.stored,
            class: CLEAR,
            slot: 0,
        };
        let ours = vanitycrow::Ack {
            burst: reply.burst,
            bitmap,
            snr_db: reply.db,
            want_turn: false,
            want_disc: false,
            stored: reply.stored,
            class: PORT_CLEAR,
            slot: 0,
        };
        let (s, p) = (&mut self.original, &mut self.port);
        let ((), answer) = self.meter.both(
            Kind::Short,
            || s.hear_tiny(heard.wave as usize, heard.snr_db, theirs, heard.time),
            || p.short_ack(heard, ours),
        );
        answer.expect("the port refuses a short ack");
        self.compare();
    }

    pub fn long(&mut self, reply: Reply) {
        let heard = self.heard(reply.db);
        let mut frame = Frame::new(FrameKind::Ack, 0);
        frame.flags = if reply.stored { flags::STORED } else { 0 };
        frame.payload = payload(reply);
        let bytes = frame.payload.clone();
        let ours = vanitycrow::LongAck {
            want_turn: false,
            want_disc: false,
            stored: reply.stored,
        };
        let (s, p) = (&mut self.original, &mut self.port);
        let ((), answer) = self.meter.both(
            Kind::Long,
            || s.hear_frame(heard.wave as usize, heard.snr_db, frame, heard.time),
            || p.long_ack(heard, ours, &bytes),
        );
        answer.expect("the port refuses a long ack");
        self.compare();
    }

    /// A turn that was heard in the wave of this rank.
    pub fn turn(&mut self, rank: usize, db: f32) {
        self.wave = rank;
        let heard = self.heard(db);
        let ours = vanitycrow::Turn {
            report: vanitycrow::MaybeDb { set: true, db },
        };
        let theirs = Tiny::Turn { snr_db: Some(db) };
        let (s, p) = (&mut self.original, &mut self.port);
        let ((), answer) = self.meter.both(
            Kind::Turn,
            || s.hear_tiny(rank, db, theirs, heard.time),
            || p.turn(heard, ours),
        );
        answer.expect("the port refuses a turn");
        self.compare();
    }

    pub fn burst(&mut self) -> Sent {
        active::set(&self.numbers, self.original.level);
        let (s, p, out) = (&mut self.original, &mut self.port, &mut self.out);
        let (theirs, ours) = self.meter.both(Kind::Burst, || s.send(), || p.data_burst(out));
        let ours = ours.expect("the port refuses a burst");
        self.compare_burst(&theirs, &ours);
        self.compare();
        self.wave = ours.wave as usize;
        Sent {
            number: ours.number,
            level: ours.code,
            frames: ours.frames.n,
            frame_bytes: self.port.frame_bytes(),
        }
    }

    fn compare_burst(&self, theirs: &Outgoing, ours: &vanitycrow::Outgoing) {
        assert_eq!(
            (wave_rank(theirs.wave), theirs.code, theirs.user, theirs.extra),
            (ours.wave as usize, ours.code, ours.user, ours.extra),
        );
        let n = theirs.frames.len();
        assert_eq!((theirs.cue, theirs.td_ease, n), (ours.cue, ours.td_ease, ours.frames.n));
        let size = self.port.frame_bytes();
        for i in 0..n {
            let offset = self.original.last_burst[i].off;
            let (start, bits) = theirs.spans[i];
            let f = &ours.frames;
            assert_eq!(
                (offset, start, bits),
                (f.off[i], f.start[i] as usize, f.bits[i] as usize)
            );
            assert_eq!(self.original.inflight[&offset].len(), f.len[i] as usize);
            assert_eq!(theirs.frames[i], self.out[i * size..][..size]);
        }
    }

    /// Counts, gear and lists of both records.
    fn compare(&self) {
        let (s, p) = (&self.original, self.port.sender());
        let (c, g) = (&p.counts, &p.gear);
        assert_eq!((s.level, s.target), (g.level, g.target));
        let usual = g.burst_s == 0.0;
        let burst_s = if usual { s.cfg.max_burst_s } else { g.burst_s };
        assert_eq!(s.burst_s.to_bits(), burst_s.to_bits());
        assert_eq!((s.out.len(), s.next_offset), (c.waiting as usize, c.next_offset));
        let flying: usize = s.inflight.values().map(Vec::len).sum();
        assert_eq!((s.inflight.len(), flying), (c.pieces, c.flying as usize));
        assert_eq!(s.stats.bytes_acked, c.bytes_acked as u64);
        assert_eq!(s.at_peer.len(), p.at_peer.n);
        assert_eq!(s.at_peer_rest.len(), p.at_peer.rest);
        for (i, &(off, bits)) in s.at_peer.iter().enumerate() {
            assert_eq!((off, bits), (p.at_peer.off[i], p.at_peer.bits[i] as usize));
        }
        assert_eq!(s.last_burst.len(), p.last_burst.n);
        for (i, f) in s.last_burst.iter().enumerate() {
            let l = &p.last_burst;
            assert_eq!(
                (f.off, f.bits, f.held),
                (l.off[i], l.bits[i] as usize, l.held[i] as usize)
            );
        }
    }
}

/// A long ack's payload, with a channel report.
fn payload(reply: Reply) -> Vec<u8> {
    let report = ChanReport {
        class: CLEAR,
        eff_snr_db: reply.db,
        delay_ms: 0.5,
        doppler_hz: 0.25,
        slot: 0,
    };
    AckInfo {
        burst: reply.burst,
        bitmap: reply.bitmap,
        snr_db: reply.db,
        delivered: 0,
        report: Some(report),
    }
    .to_bytes()
}
