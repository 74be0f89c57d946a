//! What is measured of a call: its time on both sides, or the port's stack.

use std::time::Instant;

use super::stack::Stack;

#[derive(Clone, Copy, PartialEq)]
pub enum Kind {
    Burst,
    Short,
    Long,
    Queue,
    Turn,
    Connect,
}

pub const KINDS: [(Kind, &str); 6] = [
    (Kind::Burst, "burst"),
    (Kind::Short, "short ack"),
    (Kind::Long, "long ack"),
    (Kind::Queue, "queue"),
    (Kind::Turn, "turn"),
    (Kind::Connect, "connect"),
];

pub trait Meter: Clone {
    /// Makes a call on both sides.
    fn both<A, B>(&mut self, kind: Kind, original: impl FnOnce() -> A, port: impl FnOnce() -> B) -> (A, B);
}

/// Nanoseconds of each call: the original's and the port's.
#[derive(Clone, Default)]
pub struct Clock {
    port_first: bool,
    samples: [Vec<[f64; 2]>; KINDS.len()],
}

fn timed<T>(call: impl FnOnce() -> T) -> (T, f64) {
    let begin = Instant::now();
    let value = call();
    (value, begin.elapsed().as_nanos() as f64)
}

/// What the clock itself takes: the median of empty spans.
pub fn clock_ns() -> f64 {
    let mut spans: Vec<f64> = (0..10_001).map(|_| timed(|| ()).1).collect();
    spans.sort_by(f64::total_cmp);
    spans[spans.len() / 2]
}

impl Clock {
    pub fn samples(&self, kind: Kind) -> &[[f64; 2]] {
        &self.samples[kind as usize]
    }
}

impl Meter for Clock {
    /// The side that goes first changes with each call.
    fn both<A, B>(&mut self, kind: Kind, original: impl FnOnce() -> A, port: impl FnOnce() -> B) -> (A, B) {
        self.port_first = !self.port_first;
        let (a, b);
        if self.port_first {
            b = timed(port);
            a = timed(original);
        } else {
            a = timed(original);
            b = timed(port);
        }
        self.samples[kind as usize].push([a.1, b.1]);
        (a.0, b.0)
    }
}

/// The deepest stack of the port's calls, bytes.
#[derive(Clone)]
pub struct Depth {
    stack: Stack,
    pub deepest: [usize; KINDS.len()],
}

impl Depth {
    pub fn new() -> Self {
        Self {
            stack: Stack::new(),
            deepest: [0; KINDS.len()],
        }
    }
}

impl Meter for Depth {
    fn both<A, B>(&mut self, kind: Kind, original: impl FnOnce() -> A, port: impl FnOnce() -> B) -> (A, B) {
        let (value, bytes) = self.stack.run(port);
        let deepest = &mut self.deepest[kind as usize];
        *deepest = bytes.max(*deepest);
        (original(), value)
    }
}
