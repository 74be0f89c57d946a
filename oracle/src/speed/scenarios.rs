//! The links on which both sides are measured.

use vanitycrow::Message;

use super::meter::{Clock, Meter};
use super::pair::{Pair, Reply, Sent};
use crate::harness::WAITING_MOST;
use crate::profile::*;
use crate::rng::Rng;

/// The far station's report, dB: every level is within reach.
const REPORT_DB: f32 = 30.0;
/// Rounds before those that are timed: the gear climbs, and buffers grow.
const WARM_ROUNDS: usize = 200;
const ROUNDS: usize = 2000;
/// Rounds with pieces held before they begin anew: at most 8 messages wait.
const HELD_ROUNDS: usize = 7;
/// Bytes that wait, in messages of equal length: 1, 8 or 255 of them.
const MESSAGE_BYTES: usize = 4080;
/// Bytes of each of 256 messages that fill the queue.
const LABELLED_BYTES: usize = 64;
/// Bytes of a plain queuing: a frame's payload.
const PLAIN_BYTES: usize = 170;

/// A link: each round fills the queue, by one message, sends a burst and answers it.
pub struct Link {
    pub name: &'static str,
    profile: Profile,
    /// Bytes that wait then: all that may, or what goes in eight bursts, so that few messages wait.
    fill: usize,
    /// Of a burst's frames, those that arrive.
    arrive: fn(usize) -> u64,
}

fn all(frames: usize) -> u64 {
    u64::MAX >> (64 - frames)
}

fn two_thirds(frames: usize) -> u64 {
    all(frames) & 0x6DB6_DB6D_B6DB_6DB6
}

fn set(p: &mut Profile, line: usize, at: usize, value: Value) {
    p.values[line][at] = value;
}

fn pinned(level: u64) -> Profile {
    let mut p = Profile::usual();
    set(&mut p, PIN, 0, Value::Whole(level));
    p
}

fn ladder() -> Profile {
    let mut p = Profile::usual();
    set(&mut p, GEAR, 0, Value::Choice(1));
    p
}

/// 64 frames of 264 bytes fit a burst.
fn largest() -> Profile {
    let mut p = Profile::usual();
    set(&mut p, FRAME_BYTES, 1, Value::Whole(264));
    set(&mut p, 16, 2, Value::F64(16_800.0));
    p
}

/// 254 bytes are cut to 32 pieces at the short levels; 64 frames of 8 bits fit a burst, and stay held for 4,096 of them.
fn short_pieces(merge: bool) -> Profile {
    let mut p = pinned(16);
    set(&mut p, FRAME_BYTES, 0, Value::Whole(18));
    set(&mut p, FRAME_BYTES, 1, Value::Whole(264));
    set(&mut p, 16, 0, Value::Whole(8));
    p.values[HARQ] = vec![Value::Whole(1); 7];
    set(&mut p, HARQ, 0, Value::Whole(16_384));
    set(&mut p, ON, on::MERGE_PIECES, Value::Flag(merge));
    p
}

pub fn links() -> Vec<Link> {
    let link = |name, profile, fill, arrive| Link {
        name,
        profile,
        fill,
        arrive,
    };
    vec![
        link("free gear", Profile::usual(), WAITING_MOST, all as fn(usize) -> u64),
        link("pinned 10", pinned(10), 8 * 1700, all),
        link("pinned 0", pinned(0), 8 * 22, all),
        link("Ladder", ladder(), WAITING_MOST, all),
        link("one third lost and held", Profile::usual(), WAITING_MOST, two_thirds),
        link("64 frames of 264 bytes", largest(), WAITING_MOST, all),
    ]
}

fn bytes() -> Vec<u8> {
    Rng::new(1, 1).bytes(WAITING_MOST)
}

fn reply(sent: Sent, bitmap: u64) -> Reply {
    Reply {
        burst: sent.number,
        bitmap,
        stored: true,
        db: REPORT_DB,
    }
}

/// A short ack every other time where it can say as much.
fn ack<M: Meter>(pair: &mut Pair<M>, round: usize, sent: Sent, bitmap: u64) {
    let short = bitmap == 0 || bitmap == all(sent.frames) || sent.frames <= 6;
    if short && round.is_multiple_of(2) {
        pair.short(reply(sent, bitmap));
    } else {
        pair.long(reply(sent, bitmap));
    }
}

impl Link {
    /// The rounds from `from` up to `to`, and the last burst of them.
    fn rounds<M: Meter>(&self, pair: &mut Pair<M>, from: usize, to: usize) -> Option<Sent> {
        let bytes = bytes();
        let mut last = None;
        for round in from..to {
            pair.queue(&bytes[pair.original.out.len()..self.fill]);
            let sent = pair.burst();
            ack(pair, round, sent, (self.arrive)(sent.frames));
            last = Some(sent);
        }
        last
    }

    pub fn start<M: Meter>(&self, meter: M) -> Pair<M> {
        let mut pair = Pair::new(meter, &self.profile, REPORT_DB);
        self.rounds(&mut pair, 0, WARM_ROUNDS);
        pair
    }

    /// The times of the rounds after the first ones, and the last burst.
    pub fn times(&self) -> (Clock, Sent) {
        let mut pair = self.start(Clock::default()).with(Clock::default());
        let sent = self.rounds(&mut pair, WARM_ROUNDS, WARM_ROUNDS + ROUNDS);
        (pair.meter, sent.expect("there are rounds"))
    }
}

/// A sender with 64 pieces of 254 bytes in flight, just before it cuts them to 2,048.
pub fn before_split<M: Meter>(meter: M, merge: bool) -> Pair<M> {
    let mut pair = Pair::new(meter, &short_pieces(merge), REPORT_DB);
    pair.queue(&bytes());
    let sent = pair.burst();
    assert_eq!((sent.frames, pair.original.out.len()), (64, 128));
    pair.turn(2, REPORT_DB);
    pair
}

/// The same with 2,048 pieces, at a long level again.
pub fn after_split<M: Meter>(meter: M, merge: bool) -> Pair<M> {
    let mut pair = before_split(meter, merge);
    let sent = pair.burst();
    assert_eq!(pair.original.inflight.len(), 2048);
    pair.short(reply(sent, 0));
    assert_eq!(pair.original.level, 16);
    pair
}

/// Rounds with 2,048 pieces of which 64 are held and sent again, and 4 bytes queued where `queued` says so.
fn held_rounds<M: Meter>(pair: &mut Pair<M>, count: usize, queued: bool) -> Sent {
    let mut last = None;
    for round in 0..count {
        if queued {
            pair.queue(&[round as u8; 4]);
        }
        let sent = pair.burst();
        assert_eq!((sent.frames, pair.original.inflight.len()), (64, 2048));
        ack(pair, round, sent, 0);
        assert_eq!(pair.original.at_peer.len(), 64);
        last = Some(sent);
    }
    last.expect("there are rounds")
}

pub fn held<M: Meter>(meter: M) -> Pair<M> {
    let mut pair = after_split(meter, false);
    held_rounds(&mut pair, WARM_ROUNDS, false);
    held_rounds(&mut pair, 1, true);
    pair
}

pub fn held_times() -> (Clock, Sent) {
    let state = held(Clock::default());
    let mut clock = Clock::default();
    let mut last = None;
    for _ in 0..ROUNDS / HELD_ROUNDS {
        let mut pair = state.with(clock);
        last = Some(held_rounds(&mut pair, HELD_ROUNDS - 1, true));
        clock = pair.meter;
    }
    (clock, last.expect("there are rounds"))
}

/// A queuing at the end, a burst and its ack, over and over where `count` messages wait.
pub fn message_times(count: usize) -> Clock {
    let bytes = bytes();
    let mut state = Pair::new(Clock::default(), &pinned(10), REPORT_DB);
    for part in bytes[..MESSAGE_BYTES].chunks_exact(MESSAGE_BYTES / count) {
        state.queue(part);
    }
    let mut clock = Clock::default();
    for _ in 0..ROUNDS / 4 {
        let mut pair = state.with(clock);
        pair.queue(&bytes[..16]);
        let sent = pair.burst();
        pair.long(reply(sent, all(sent.frames)));
        clock = pair.meter;
    }
    clock
}

/// A queuing of a flash message where 16,383 bytes of a routine one wait.
pub fn first_times() -> Clock {
    let bytes = bytes();
    let mut state = Pair::new(Clock::default(), &pinned(10), REPORT_DB);
    state.queue(&bytes[1..]);
    let mut clock = Clock::default();
    for _ in 0..ROUNDS / 4 {
        let mut pair = state.with(clock);
        pair.queue_first(&bytes[..1]);
        clock = pair.meter;
    }
    clock
}

/// A queuing of 64 bytes where 256 messages of 64 bytes wait, 16,384 in all, and the first of them bears its label, the most that a list can
/// leave to withdraw: the others move up, and where the new one is a flash message they move back again.
pub fn superseding_times(first: bool) -> Clock {
    let bytes = bytes();
    let label = 1;
    let mut state = Pair::new(Clock::default(), &pinned(10), REPORT_DB);
    for (i, part) in bytes.chunks_exact(LABELLED_BYTES).enumerate() {
        let message = if i == 0 {
            Message::ROUTINE.labelled(label)
        } else {
            Message::ROUTINE
        };
        state.queue_as(message, part, &bytes[..(i + 1) * LABELLED_BYTES]);
    }
    let (new, stay) = bytes.split_at(LABELLED_BYTES);
    let (message, laid) = if first {
        (Message::FLASH, [new, stay].concat())
    } else {
        (Message::ROUTINE, [stay, new].concat())
    };
    let mut clock = Clock::default();
    for _ in 0..ROUNDS / 4 {
        let mut pair = state.with(clock);
        pair.queue_as(message.labelled(label), new, &laid);
        clock = pair.meter;
    }
    clock
}

/// The same without a label, where 255 messages wait.
pub fn unlabelled_times() -> Clock {
    let bytes = bytes();
    let mut state = Pair::new(Clock::default(), &pinned(10), REPORT_DB);
    let (waiting, new) = bytes.split_at(bytes.len() - LABELLED_BYTES);
    for part in waiting.chunks_exact(LABELLED_BYTES) {
        state.queue(part);
    }
    let mut clock = Clock::default();
    for _ in 0..ROUNDS / 4 {
        let mut pair = state.with(clock);
        pair.queue(new);
        clock = pair.meter;
    }
    clock
}

/// A burst over and over from one state.
pub fn burst_times(state: &Pair<Clock>) -> (Clock, Sent) {
    let mut clock = Clock::default();
    let mut last = None;
    for _ in 0..ROUNDS / 4 {
        let mut pair = state.with(clock);
        last = Some(pair.burst());
        clock = pair.meter;
    }
    (clock, last.expect("there are rounds"))
}

/// Queuings of a frame's payload each, from an empty queue to a full one; what is queued then goes out.
pub fn plain_times() -> Clock {
    let bytes = bytes();
    let link = &links()[0];
    let mut pair = Pair::new(Clock::default(), &link.profile, REPORT_DB);
    let mut round = 0;
    while round < ROUNDS {
        for part in bytes.chunks_exact(PLAIN_BYTES) {
            pair.queue(part);
            round += 1;
        }
        while !pair.original.out.is_empty() {
            let sent = pair.burst();
            pair.long(reply(sent, all(sent.frames)));
        }
    }
    pair.meter
}
