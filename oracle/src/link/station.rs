//! Stand-in for station.rs: the fields and helpers of `Station` that gear.rs
//! and sender.rs use, from document 01, and the original files themselves.

use std::collections::{BTreeMap, VecDeque};

use super::frame::{Frame, TINY_ACK_FRAMES, Tiny, caps};
use super::harq;
use super::report::ChanClass;
use crate::active;
use crate::chan::ChannelMeas;
use crate::level::{FLOOR, FLOOR_WAVE, Guard, LADDER, Wave};
use crate::phy_mfsk::MfskMode;

include!(concat!(env!("OUT_DIR"), "/config_mod.rs"));
include!(concat!(env!("OUT_DIR"), "/gear_mod.rs"));
include!(concat!(env!("OUT_DIR"), "/sender_mod.rs"));

pub use config::{Config, Gear};

pub const TINY: usize = 62;
pub const WINDOW_BYTES: usize = 64 * 1024;
const MAX_FRAMES: usize = harq::MAX_SLOTS;
const TINY_ALL: u64 = (1 << TINY_ACK_FRAMES) - 1;
pub const TURBO_PASSES: usize = 2;
const LEVELS: usize = LADDER.len();

pub fn cue_s() -> f64 {
    active::cue_s()
}

/// Coded bits of `frames` frames of level `level`.
pub fn frame_bits(level: usize, frames: usize) -> usize {
    frames * active::slot_of(level)
}

/// The profile's durations.
#[derive(Clone, Debug)]
pub struct Air {
    pub pre_s: [f64; LEVELS],
    pub rate: [f64; LEVELS],
    pub max_bits: [usize; LEVELS],
    pub ack_s: [f64; 6],
}

impl Air {
    pub fn duration(&self, wave: Wave, code: usize, bits: usize) -> f64 {
        if code == TINY {
            self.ack_s[wave_rank(wave)]
        } else {
            self.pre_s[code] + bits as f64 / self.rate[code]
        }
    }

    pub fn max_bits(&self, _: Wave, code: usize) -> usize {
        self.max_bits[code]
    }
}

pub fn wave_rank(w: Wave) -> usize {
    match w {
        Wave::Lifeline => 0,
        Wave::Mfsk(MfskMode::R0) => 1,
        Wave::Mfsk(MfskMode::R1) => 2,
        Wave::Ofdm(Guard::Slice) => 3,
        Wave::Ofdm(Guard::Long) => 4,
        Wave::Ofdm(Guard::Normal) => 5,
    }
}

pub fn wave_of_rank(rank: usize) -> Wave {
    [
        Wave::Lifeline,
        Wave::Mfsk(MfskMode::R0),
        Wave::Mfsk(MfskMode::R1),
        Wave::Ofdm(Guard::Slice),
        Wave::Ofdm(Guard::Long),
        Wave::Ofdm(Guard::Normal),
    ][rank]
}

/// The highest level whose wave is no faster than `w`, FLOOR where none is.
pub fn top_level_in(w: Wave) -> usize {
    let mut top = FLOOR;
    for (level, l) in LADDER.iter().enumerate() {
        if wave_rank(l.wave) <= wave_rank(w) {
            top = level;
        }
    }
    top
}

/// The four bits on the air for a level: the levels with short frames from 0,
/// the others from 2.
pub fn air_code(level: usize) -> u16 {
    if level < 5 { level as u16 } else { level as u16 - 3 }
}

pub fn user_bits(level: usize, session: u8, hi: u8) -> u16 {
    air_code(level) + 16 * session as u16 + 4096 * (hi as u16 % 16)
}

#[derive(Clone, Copy, Debug, PartialEq, Eq)]
pub enum State {
    Connecting,
    Connected,
    Disconnected,
}

#[derive(Clone, Copy, Debug, PartialEq, Eq)]
pub enum End {
    Peer,
}

#[derive(Clone, Copy, Debug, PartialEq, Eq)]
pub enum Awaiting {
    Nothing,
    ConnAck,
    Ack,
    #[allow(dead_code)]
    DiscAck,
}

#[derive(Clone, Debug)]
pub struct Outgoing {
    pub wave: Wave,
    pub code: usize,
    pub user: u16,
    pub extra: u16,
    pub frames: Vec<Vec<u8>>,
    pub spans: Vec<(usize, usize)>,
    pub cue: bool,
    pub td_ease: bool,
}

pub struct Incoming {
    pub wave: Wave,
    pub snr_db: f32,
    pub chan: ChannelMeas,
}

#[derive(Clone, Copy, Debug)]
pub struct Sent {
    pub off: u32,
    pub bits: usize,
    pub held: usize,
}

#[derive(Clone, Debug, Default)]
pub struct Stats {
    pub bytes_acked: u64,
    pub data_bursts: u32,
    pub cued_bursts: u32,
    pub frames_sent: u32,
    pub frames_resent: u32,
    pub increments_sent: u32,
    pub increment_bits: u64,
    pub failed_bursts: u32,
    pub failed_ofdm: u32,
    pub levels: Vec<usize>,
    pub classes: Vec<(ChanClass, usize)>,
}

#[derive(Clone)]
pub struct Station {
    pub cfg: Config,
    pub air: Air,
    pub state: State,
    pub session: u8,
    pub awaiting: Awaiting,
    pub level: usize,
    pub target: usize,
    pub fails: [u8; LEVELS],
    pub success: [Option<f32>; LEVELS],
    pub success_at: [f64; LEVELS],
    pub blocked_until: [f64; LEVELS],
    pub hold_all: [bool; LEVELS],
    pub snr_reports: VecDeque<f32>,
    pub aim_db: Option<f32>,
    pub last_report_db: Option<f32>,
    pub burst_s: f64,
    pub burst_id: u8,
    pub peer_heard: Option<u8>,
    pub peer_class: ChanClass,
    pub peer_slot: u8,
    pub peer_doppler_hz: f32,
    pub peer_wave: Wave,
    pub peer_wants_turn: bool,
    pub peer_wants_disc: bool,
    pub caps: u8,
    pub out: VecDeque<u8>,
    pub next_offset: u32,
    pub inflight: BTreeMap<u32, Vec<u8>>,
    pub last_burst: Vec<Sent>,
    pub at_peer: Vec<(u32, usize)>,
    pub at_peer_rest: Vec<(u32, usize)>,
    pub stats: Stats,
    // Written by the original, and read only by what is left out.
    heard_peer_db: Option<f32>,
    peer_ack_wave: Option<Wave>,
    turn_asked_at: f64,
    link_t0: Option<f64>,
    last_progress: f64,
    last_moved: f64,
    last_heard: f64,
    last_tx_end: f64,
    arq_bytes: u64,
    drain_since: Option<f64>,
    stream_hold_until: f64,
    tries: u32,
    deadline: Option<f64>,
    reply: Option<Outgoing>,
    close_after_tx: bool,
    close_end: End,
    disc_why: End,
}

impl Station {
    pub fn new(cfg: Config, air: Air) -> Self {
        let burst_s = cfg.max_burst_s;
        Self {
            cfg,
            air,
            state: State::Connecting,
            session: 0,
            awaiting: Awaiting::Nothing,
            level: FLOOR,
            target: FLOOR,
            fails: [0; LEVELS],
            success: [None; LEVELS],
            success_at: [f64::NEG_INFINITY; LEVELS],
            blocked_until: [f64::NEG_INFINITY; LEVELS],
            hold_all: [true; LEVELS],
            snr_reports: VecDeque::new(),
            aim_db: None,
            last_report_db: None,
            burst_s,
            burst_id: 0,
            peer_heard: None,
            peer_class: ChanClass::default(),
            peer_slot: 0,
            peer_doppler_hz: f32::NAN,
            peer_wave: FLOOR_WAVE,
            peer_wants_turn: false,
            peer_wants_disc: false,
            caps: 0,
            out: VecDeque::new(),
            next_offset: 0,
            inflight: BTreeMap::new(),
            last_burst: Vec::new(),
            at_peer: Vec::new(),
            at_peer_rest: Vec::new(),
            stats: Stats::default(),
            heard_peer_db: None,
            peer_ack_wave: None,
            turn_asked_at: 0.0,
            link_t0: None,
            last_progress: 0.0,
            last_moved: 0.0,
            last_heard: 0.0,
            last_tx_end: 0.0,
            arq_bytes: 0,
            drain_since: None,
            stream_hold_until: 0.0,
            tries: 0,
            deadline: None,
            reply: None,
            close_after_tx: false,
            close_end: End::Peer,
            disc_why: End::Peer,
        }
    }

    pub fn connected(&self) -> bool {
        self.state == State::Connected
    }

    /// The station has called, with `session`, and waits for the answer.
    pub fn call(&mut self, session: u8) {
        self.session = session;
        self.awaiting = Awaiting::ConnAck;
    }

    /// A header-only message, through the original's `sender_rx`.
    pub fn hear_tiny(&mut self, rank: usize, snr_db: f32, tiny: Tiny, now: f64) {
        self.sender_rx(&incoming(rank, snr_db), Some(tiny), &[], now);
    }

    /// A whole frame, through the original's `sender_rx`.
    pub fn hear_frame(&mut self, rank: usize, snr_db: f32, frame: Frame, now: f64) {
        self.sender_rx(&incoming(rank, snr_db), None, &[Some(frame)], now);
    }

    /// All decoded frames of one reception, through the original's `sender_rx`: its loop.
    pub fn hear_frames(&mut self, rank: usize, snr_db: f32, frames: &[Option<Frame>], now: f64) {
        self.sender_rx(&incoming(rank, snr_db), None, frames, now);
    }

    /// The original's `on_ack` of the outstanding burst.
    pub fn judge(&mut self, bitmap: u64, snr_db: f32, now: f64) {
        self.on_ack(self.burst_id, bitmap, false, snr_db, now);
    }

    /// The original's `level_for`.
    pub fn level_at(&self, snr_db: f32) -> usize {
        self.level_for(snr_db)
    }

    /// The original's `data_burst`. What it only counts is dropped.
    pub fn send(&mut self) -> Outgoing {
        let burst = self.data_burst();
        self.stats.levels.clear();
        self.stats.classes.clear();
        burst
    }

    // What the original's files call.

    fn clear_wait(&mut self) {
        self.awaiting = Awaiting::Nothing;
        self.deadline = None;
        self.tries = 0;
    }

    fn own_caps(&self) -> u8 {
        if self.cfg.cue { caps::CUE } else { 0 }
    }

    /// Compression is left out.
    fn agree(&mut self, on: bool) {
        assert!(!on);
    }

    /// The STREAM capability is off.
    fn stream_wanted(&self, _: f64) -> bool {
        false
    }

    fn finish(&mut self, state: State, _: End) {
        self.state = state;
    }

    fn tiny(&self, t: Tiny, wave: Wave) -> Outgoing {
        Outgoing {
            wave,
            code: TINY,
            user: 0,
            extra: t.encode().1,
            frames: Vec::new(),
            spans: Vec::new(),
            cue: false,
            td_ease: false,
        }
    }
}

fn incoming(rank: usize, snr_db: f32) -> Incoming {
    Incoming {
        wave: wave_of_rank(rank),
        snr_db,
        chan: ChannelMeas {
            delay_ms: f32::NAN,
            doppler_hz: f32::NAN,
            eff_snr_db: f32::NAN,
        },
    }
}

/// Parts of station.rs and audio.rs as published, to compare with.
#[cfg(test)]
#[allow(dead_code)]
mod published {
    use super::{FLOOR, Guard, LADDER, MfskMode, TINY_ACK_FRAMES, Wave};
    include!(concat!(env!("OUT_DIR"), "/parts.rs"));
}

#[cfg(test)]
mod tests {
    use super::*;

    #[test]
    fn stand_ins_do_as_published() {
        for rank in 0..6 {
            let w = wave_of_rank(rank);
            assert_eq!(wave_rank(w), published::wave_rank(w));
            assert_eq!(top_level_in(w), published::top_level_in(w));
        }
        for level in 0..LEVELS {
            assert_eq!(air_code(level), published::air_code(level));
            for session in [0, 1, 9, 77, 128, 255] {
                for hi in 0..=255 {
                    let want = published::user_bits(level, session, hi);
                    assert_eq!(user_bits(level, session, hi), want);
                }
            }
        }
        assert_eq!(TINY, published::TINY);
        assert_eq!(WINDOW_BYTES, published::WINDOW_BYTES);
        assert_eq!(TINY_ALL, published::TINY_ALL);
        assert_eq!(crate::link::audio::TD_EASE_DOPPLER_HZ, published::TD_EASE_DOPPLER_HZ);
    }

    /// Document 01's reckoned examples P5, P6 and P10.
    #[test]
    fn reckoned() {
        assert_eq!((air_code(4), air_code(5), air_code(16)), (4, 2, 13));
        assert_eq!(user_bits(5, 9, 2 | 1 << 2), 24722);
        let tops: Vec<usize> = (0..6).map(|r| top_level_in(wave_of_rank(r))).collect();
        assert_eq!(tops, [0, 0, 4, 6, 8, 16]);
        assert!((0..6).all(|r| wave_rank(wave_of_rank(r)) == r));
    }
}
