//! One sender of the original with the refusals of document 01 around it.

use crate::active::{self, Numbers};
use crate::levels;
use crate::link::frame::{AckInfo, Frame, Kind, Tiny, caps, flags};
use crate::link::report::ChanClass;
use crate::link::station::{Awaiting, Station, TINY, wave_of_rank, wave_rank};
use crate::list::{AREA_MOST, Call, Decoded, OUT_MOST};
use crate::listening::{Heard, Listener, REACH, Slotted};
use crate::messages::{CLASS_MOST, MESSAGES_MOST, Messages};
use crate::profile::{FRAME_BYTES, Profile};

pub const AREA_BYTES: u64 = 49_152;
pub const WAITING_MOST: usize = 16_384;
pub const TAKEN_MOST: u64 = 0xFFFF_FFFF;
/// Decoded frames of one reception.
pub const RECEIVED_MOST: usize = 16;
pub const LAST_SECOND: f64 = 1e9;
/// Frames that may be heard before a reception.
pub const HEARD_MOST: usize = 128;

#[derive(Clone, Debug)]
pub struct SentFrame {
    pub offset: u32,
    pub len: usize,
    pub start: usize,
    pub bits: usize,
    pub bytes: Vec<u8>,
}

#[derive(Clone, Debug)]
pub struct Burst {
    pub wave: usize,
    pub code: usize,
    pub user: u16,
    pub extra: u16,
    pub cue: bool,
    pub td_ease: bool,
    pub frames: Vec<SentFrame>,
}

impl Burst {
    pub fn number(&self) -> u8 {
        (self.user >> 12) as u8 & 3
    }
}

#[derive(Clone, Debug)]
pub enum Answer {
    Ok,
    Refused(u8),
    Burst(Burst),
    Piece(Option<Vec<u8>>),
    /// What the second box answers.
    Heard(Heard),
    /// The line breaks the rules, as it stands after the others.
    Error,
    /// Levels, ascending, each with its lowest report.
    Levels(Vec<(usize, u8)>),
}

/// A report of a call list: what is too wide is 255.
fn report(n: u64) -> u8 {
    n.min(255) as u8
}

#[derive(Clone)]
pub struct Harness {
    pub profile: Profile,
    refusal: Option<u8>,
    numbers: Numbers,
    pub station: Station,
    pub messages: Messages,
    /// The first class of which bytes were taken.
    class: Option<u8>,
    /// Bytes of another were taken, or a message was withdrawn: the original's waiting bytes are laid by messages.rs.
    laid: bool,
    pub last_time: Option<f64>,
    /// With those withdrawn.
    pub taken: u64,
    pub airtime_ms: u64,
    area: u64,
    out: u64,
    pub listener: Listener,
    /// Places lent to the box.
    window: u64,
    /// Frames for the next reception.
    heard: Vec<Slotted>,
    /// The last burst's number and its frames.
    last: Option<(u8, Vec<Vec<u8>>)>,
    /// The box's last answer.
    answer: Option<Vec<u8>>,
}

impl Harness {
    /// A fresh sender under `profile`.
    pub fn new(profile: Profile) -> Self {
        Self {
            refusal: profile.refusal(),
            numbers: profile.numbers(),
            station: Station::new(profile.config(), profile.air()),
            profile,
            messages: Messages::default(),
            class: None,
            laid: false,
            last_time: None,
            taken: 0,
            airtime_ms: 0,
            area: AREA_BYTES.min(AREA_MOST),
            out: OUT_MOST,
            listener: Listener::default(),
            window: REACH,
            heard: Vec::new(),
            last: None,
            answer: None,
        }
    }

    pub fn flying(&self) -> usize {
        self.station.inflight.values().map(Vec::len).sum()
    }

    pub fn acked(&self) -> u64 {
        self.station.stats.bytes_acked
    }

    pub fn awaiting(&self) -> bool {
        self.station.awaiting == Awaiting::Ack
    }

    /// The number by which document 01, or 02, turns the call down.
    pub fn refuses(&self, call: &Call) -> Option<u8> {
        if matches!(call, Call::State | Call::Messages | Call::Area(_) | Call::Out(_)) {
            return None;
        }
        match *call {
            Call::Heard(..) | Call::Window(_) | Call::Box => return None,
            Call::Receive { number, .. } => return self.listener.refuses(number.min(255) as u8, self.window, self.out),
            Call::Arrive { .. } => {
                let number = self.last.as_ref().map_or(0, |b| b.0);
                return self.listener.refuses(number, self.window, self.out);
            }
            _ => {}
        }
        if self.refusal.is_some() {
            return self.refusal;
        }
        if let Call::Levels { low, high, .. } = *call {
            return (report(low) > report(high)).then_some(19);
        }
        if self.area < AREA_BYTES {
            return Some(3);
        }
        if let Call::Frames { ref frames, .. } = *call
            && frames.len() > RECEIVED_MOST
        {
            return Some(15);
        }
        if matches!(call, Call::Connect { .. }) == self.station.connected() {
            return Some(4);
        }
        let timely = |t: f64| (0.0..=LAST_SECOND).contains(&t) && self.last_time.is_none_or(|last| last <= t);
        let db = |x: f32| (-100.0..=300.0).contains(&x);
        match *call {
            Call::Connect {
                t,
                wave,
                here,
                db: report,
                slot,
                ..
            } => {
                if !timely(t) {
                    return Some(5);
                }
                if !(wave <= 5 && db(here) && db(report) && slot <= 2) {
                    return Some(6);
                }
            }
            Call::Short {
                t,
                wave,
                here,
                burst,
                bitmap,
                db: report,
                slot,
                ..
            } => {
                if !timely(t) {
                    return Some(5);
                }
                if !(wave <= 5 && db(here) && burst <= 3 && bitmap <= 63 && db(report) && slot <= 2) {
                    return Some(6);
                }
            }
            Call::Long {
                t,
                wave,
                here,
                ref payload,
                ..
            } => {
                if !timely(t) {
                    return Some(5);
                }
                if !(wave <= 5 && db(here)) {
                    return Some(6);
                }
                if payload.len() < 13 {
                    return Some(7);
                }
            }
            Call::Frames { t, wave, here, .. } => {
                if !timely(t) {
                    return Some(5);
                }
                if !(wave <= 5 && db(here)) {
                    return Some(6);
                }
            }
            Call::Turn {
                t,
                wave,
                here,
                db: report,
            } => {
                if !timely(t) {
                    return Some(5);
                }
                if !(wave <= 5 && db(here) && report.is_none_or(db)) {
                    return Some(6);
                }
            }
            Call::Queue(ref bytes, said) => {
                if said.class() > CLASS_MOST {
                    return Some(11);
                }
                let (messages, waiting) = self.messages.gone(said.label(), bytes.len());
                if self.station.out.len() - waiting + bytes.len() > WAITING_MOST {
                    return Some(8);
                }
                if self.taken + bytes.len() as u64 > TAKEN_MOST {
                    return Some(9);
                }
                if !bytes.is_empty() && self.messages.len() - messages == MESSAGES_MOST {
                    return Some(12);
                }
            }
            Call::Burst => {
                if self.out < 64 * self.profile.whole(FRAME_BYTES, 1) {
                    return Some(10);
                }
            }
            Call::Heard(..) | Call::Receive { .. } | Call::Arrive { .. } | Call::Reply { .. } | Call::Window(_) | Call::Box => {}
            Call::Piece(_) | Call::Levels { .. } | Call::State | Call::Messages | Call::Area(_) | Call::Out(_) => {}
        }
        None
    }

    /// Whether the line breaks the rules where it stands.
    fn breaks(&self, call: &Call) -> bool {
        match call {
            Call::Heard(..) => self.heard.len() == HEARD_MOST,
            Call::Arrive { places, .. } => {
                let frames = self.last.as_ref().map_or(0, |b| b.1.len() as u64);
                places.iter().any(|&p| p >= frames)
            }
            Call::Reply { .. } => self.answer.is_none(),
            _ => false,
        }
    }

    /// The box's answer, which stands for the next `reply`.
    fn received(&mut self, number: u8, db: u64, frames: &[Slotted]) -> Answer {
        let heard = self.listener.receive(number, (db % 256) as u8, frames);
        self.answer = Some(heard.payload.clone());
        Answer::Heard(heard)
    }

    pub fn call(&mut self, call: &Call) -> Answer {
        if self.breaks(call) {
            return Answer::Error;
        }
        if let Call::Reply {
            t,
            wave,
            here,
            want_turn,
            want_disc,
            stored,
        } = *call
        {
            let payload = self.answer.clone().expect("there is an answer");
            return self.call(&Call::Long {
                t,
                wave,
                here,
                want_turn,
                want_disc,
                stored,
                payload,
            });
        }
        if let Some(number) = self.refuses(call) {
            return Answer::Refused(number);
        }
        active::set(&self.numbers, self.station.level);
        // Whether an ack is awaited, the original says before it hears the reply.
        if let (Call::Short { wave, .. } | Call::Long { wave, .. } | Call::Frames { wave, .. }, true) = (call, self.awaiting())
            && !matches!(call, Call::Frames { frames, .. } if !frames.iter().any(read))
        {
            self.on_air(self.station.air.duration(wave_of_rank(*wave as usize), TINY, 0));
        }
        let s = &mut self.station;
        match *call {
            Call::Connect {
                t,
                wave,
                here,
                session,
                db,
                echo,
                doppler,
                slot,
                cue,
            } => {
                s.call(session as u8);
                let answer = Tiny::ConnAck {
                    snr_db: db,
                    compress: false,
                    class: ChanClass { echo, doppler },
                    slot: slot as u8,
                    caps: if cue { caps::CUE } else { 0 },
                };
                s.hear_tiny(wave as usize, here, answer, t);
                self.last_time = Some(t);
            }
            Call::Queue(ref bytes, said) => {
                s.out.extend(bytes);
                self.taken += bytes.len() as u64;
                let class = said.class();
                let gone = self.messages.queue(class, said.label(), bytes);
                if !bytes.is_empty() {
                    self.laid |= *self.class.get_or_insert(class) != class;
                }
                if gone > 0 {
                    self.laid = true;
                    s.out = self.messages.bytes();
                }
            }
            Call::Short {
                t,
                wave,
                here,
                burst,
                bitmap,
                db,
                want_turn,
                want_disc,
                stored,
                echo,
                doppler,
                slot,
            } => {
                let ack = Tiny::Ack {
                    burst: burst as u8,
                    bitmap: bitmap as u8,
                    snr_db: db,
                    want_turn,
                    want_disc,
                    stored,
                    class: ChanClass { echo, doppler },
                    slot: slot as u8,
                };
                s.hear_tiny(wave as usize, here, ack, t);
                self.last_time = Some(t);
            }
            Call::Long {
                t,
                wave,
                here,
                want_turn,
                want_disc,
                stored,
                ref payload,
            } => {
                debug_assert!(AckInfo::from_bytes(payload).is_some());
                let mut frame = Frame::new(Kind::Ack, 0);
                for (on, bit) in [
                    (want_turn, flags::WANT_TURN),
                    (want_disc, flags::WANT_DISC),
                    (stored, flags::STORED),
                ] {
                    if on {
                        frame.flags |= bit;
                    }
                }
                frame.payload = payload.clone();
                s.hear_frame(wave as usize, here, frame, t);
                self.last_time = Some(t);
            }
            Call::Frames {
                t,
                wave,
                here,
                ref frames,
            } => {
                let decoded: Vec<Option<Frame>> = frames.iter().map(frame_of).collect();
                s.hear_frames(wave as usize, here, &decoded, t);
                if frames.iter().any(read) {
                    self.last_time = Some(t);
                }
            }
            Call::Turn { t, wave, here, db } => {
                s.hear_tiny(wave as usize, here, Tiny::Turn { snr_db: db }, t);
                self.last_time = Some(t);
            }
            Call::Burst => {
                let burst = self.burst();
                self.last = Some((burst.number(), burst.frames.iter().map(|f| f.bytes.clone()).collect()));
                return Answer::Burst(burst);
            }
            Call::Heard(slot, ref frame) => self.heard.push((slot.min(255) as u8, frame.clone())),
            Call::Receive { number, db } => {
                let frames = std::mem::take(&mut self.heard);
                return self.received(number as u8, db, &frames);
            }
            Call::Arrive { db, ref places } => {
                let (number, all) = self.last.clone().unwrap_or_default();
                let frames: Vec<Slotted> = places.iter().map(|&p| (p as u8, all[p as usize].clone())).collect();
                return self.received(number, db, &frames);
            }
            Call::Reply { .. } => unreachable!("a reply is a long ack"),
            Call::Window(n) => self.window = n,
            Call::Box => {}
            Call::Piece(offset) => {
                let piece = u32::try_from(offset).ok().and_then(|o| s.inflight.get(&o).cloned());
                return Answer::Piece(piece);
            }
            Call::Levels {
                echo,
                doppler,
                low,
                high,
            } => {
                let class = ChanClass { echo, doppler };
                return Answer::Levels(levels::within(&self.profile, class, report(low), report(high)));
            }
            Call::State | Call::Messages => {}
            Call::Area(n) => self.area = n,
            Call::Out(n) => self.out = n,
        }
        Answer::Ok
    }

    /// Whether the box has answered.
    pub fn answered(&self) -> bool {
        self.answer.is_some()
    }

    /// Frames that may still be heard before the next reception.
    pub fn room(&self) -> usize {
        HEARD_MOST - self.heard.len()
    }

    /// Whether the order of the waiting bytes is the original's own: all bytes taken so far are of one class, and none were withdrawn.
    pub fn own_order(&self) -> bool {
        !self.laid
    }

    fn burst(&mut self) -> Burst {
        let s = &mut self.station;
        // With a single class, and nothing withdrawn, the original's queue is left as its own `queue` filled it. Else its waiting bytes are laid
        // in the order that messages.rs chooses; the original cuts them.
        if self.laid {
            s.out = self.messages.bytes();
        }
        let waiting = s.out.len();
        let out = s.send();
        self.messages.fly(waiting - s.out.len());
        let frames: Vec<SentFrame> = (0..out.frames.len())
            .map(|i| {
                let offset = s.last_burst[i].off;
                SentFrame {
                    offset,
                    len: s.inflight[&offset].len(),
                    start: out.spans[i].0,
                    bits: out.spans[i].1,
                    bytes: out.frames[i].clone(),
                }
            })
            .collect();
        if !frames.is_empty() {
            let bits = frames.iter().map(|f| f.bits).sum();
            let seconds = s.air.duration(out.wave, out.code, bits);
            self.on_air(seconds);
            if out.cue {
                self.on_air(self.numbers.cue_s);
            }
        }
        Burst {
            wave: wave_rank(out.wave),
            code: out.code,
            user: out.user,
            extra: out.extra,
            cue: out.cue,
            td_ease: out.td_ease,
            frames,
        }
    }

    /// A burst, a cue or an ack of so many seconds, in whole milliseconds by itself: times 1,000 rounded once, then up.
    fn on_air(&mut self, seconds: f64) {
        self.airtime_ms = self.airtime_ms.saturating_add((seconds * 1000.0).ceil() as u64);
    }
}

/// A frame as the original decodes it; a kind that it does not know is no frame.
fn frame_of(d: &Decoded) -> Option<Frame> {
    let kind = match d.kind {
        1 => Kind::ConnReq,
        3 => Kind::Data,
        4 => Kind::Ack,
        5 => Kind::Stream,
        _ => return None,
    };
    let mut frame = Frame::new(kind, 0);
    frame.flags = d.flags as u8;
    frame.payload = d.payload.clone();
    Some(frame)
}

/// The original reads it as an ack.
pub fn read(d: &Decoded) -> bool {
    d.kind == 4 && AckInfo::from_bytes(&d.payload).is_some()
}
