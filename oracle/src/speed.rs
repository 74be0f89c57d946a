//! `oracle speed`: times of the original and of the port side by side, and the port's memory.
//!
//! One process makes the same calls on both sides, each call timed on its own, the side that goes first changing from
//! call to call. pair.rs says what is timed.

mod meter;
mod pair;
mod port;
pub mod receptions;
pub mod records;
mod scenarios;
mod stack;

use meter::{Clock, Depth, KINDS, Kind};
use pair::Sent;

/// The port's longest call with 2,048 pieces, ns.
const WORST_NS: f64 = 200_000.0;
/// A queuing before 16,383 bytes, ns.
const FIRST_NS: f64 = 2_000.0;
/// A queuing that withdraws, where 256 messages and 16,384 bytes wait, ns.
const WITHDRAWAL_NS: f64 = 3_000.0;

/// How many times as fast as the original a call must be.
fn wanted(kind: Kind) -> f64 {
    if kind == Kind::Burst { 5.0 } else { 1.0 }
}

/// The lower quartile, the median, the upper quartile, what 99 of 100 are within, and the largest.
struct Spread([f64; 5]);

impl Spread {
    fn of(values: impl Iterator<Item = f64>) -> Self {
        let mut v: Vec<f64> = values.collect();
        v.sort_by(f64::total_cmp);
        let n = v.len();
        Self([v[n / 4], v[n / 2], v[n - 1 - n / 4], v[n - 1 - n / 100], v[n - 1]])
    }

    fn median(&self) -> f64 {
        self.0[1]
    }

    fn micro(&self) -> String {
        let [low, median, high, ..] = self.0.map(|ns| ns / 1000.0);
        format!("{median:8.3} ({low:.3} to {high:.3})")
    }
}

struct Report {
    clock_ns: f64,
    /// The kind of call, the link, and how many times as fast as the original the port was.
    ratios: Vec<(Kind, &'static str, f64)>,
    worst: f64,
}

fn judged(met: bool) -> &'static str {
    if met { "met" } else { "missed" }
}

impl Report {
    /// The times of one kind of call.
    fn row(&mut self, name: &'static str, clock: &Clock, (kind, word): (Kind, &str)) {
        let samples = clock.samples(kind);
        if samples.is_empty() {
            return;
        }
        let net = |ns: f64| (ns - self.clock_ns).max(1.0);
        let original = Spread::of(samples.iter().map(|s| net(s[0])));
        let port = Spread::of(samples.iter().map(|s| net(s[1])));
        let Spread([low, _, high, ..]) = Spread::of(samples.iter().map(|s| net(s[0]) / net(s[1])));
        let (ratio, target) = (original.median() / port.median(), wanted(kind));
        println!(
            "  {word:9}  original {:28}  port {:28}  ratio {ratio:6.3} ({low:.3} to {high:.3}; target {target}): {}",
            original.micro(),
            port.micro(),
            judged(ratio >= target)
        );
        self.ratios.push((kind, name, ratio));
    }

    fn rows(&mut self, name: &'static str, clock: &Clock, kinds: &[(Kind, &str)]) {
        for &kind in kinds {
            self.row(name, clock, kind);
        }
    }

    fn link(&mut self, name: &'static str, (clock, sent): (Clock, Sent)) {
        println!(
            "{name}: level {}, {} frames of {} bytes",
            sent.level, sent.frames, sent.frame_bytes
        );
        self.rows(name, &clock, &KINDS);
    }

    /// The port's time alone; gives the median, ns.
    fn port(&self, name: &str, clock: &Clock, kind: Kind) -> f64 {
        let port = Spread::of(clock.samples(kind).iter().map(|s| s[1] - self.clock_ns));
        let [.., most, largest] = port.0.map(|ns| ns / 1000.0);
        println!(
            "  {name:38} {:28} us; 99 of 100 within {most:.1}, all within {largest:.1}",
            port.micro()
        );
        port.median()
    }

    /// The port's time at its fullest work area.
    fn worst(&mut self, name: &str, clock: &Clock, kind: Kind) {
        self.worst = self.worst.max(self.port(name, clock, kind));
    }

    /// The same bytes in one message, in 8 and in 255.
    fn messages(&self) {
        println!("the port with messages that wait");
        for count in [1, 8, 255] {
            let clock = scenarios::message_times(count);
            for (kind, word) in [
                (Kind::Queue, "queue at the end"),
                (Kind::Burst, "burst"),
                (Kind::Long, "long ack"),
            ] {
                self.port(&format!("{word}, messages: {count}"), &clock, kind);
            }
        }
        let first = self.port("queue before 16,383 bytes", &scenarios::first_times(), Kind::Queue);
        println!(
            "  it takes {:.2} us (target: 2 or less): {}",
            first / 1000.0,
            judged(first <= FIRST_NS)
        );
        self.port("queue, no label, messages: 255", &scenarios::unlabelled_times(), Kind::Queue);
        let withdraws = [("goes last", false), ("goes first", true)].map(|(word, first)| {
            let clock = scenarios::superseding_times(first);
            self.port(&format!("queue that withdraws, {word}"), &clock, Kind::Queue)
        });
        let slower = withdraws[0].max(withdraws[1]);
        println!(
            "  a withdrawal takes {:.2} us at most (target: 3 or less): {}",
            slower / 1000.0,
            judged(slower <= WITHDRAWAL_NS)
        );
    }

    fn worst_cases(&mut self, held: &Clock) {
        println!("the port with 2,048 pieces");
        for (kind, word) in &KINDS[..4] {
            self.worst(&format!("{word}, 64 held"), held, *kind);
        }
        let (split, _) = scenarios::burst_times(&scenarios::before_split(Clock::default(), true));
        self.worst("burst that cuts 64 pieces to 2,048", &split, Kind::Burst);
        let (merged, sent) = scenarios::burst_times(&scenarios::after_split(Clock::default(), true));
        assert_eq!(sent.frames, 64);
        self.worst("burst that merges 2,048 pieces to 64", &merged, Kind::Burst);
        let met = judged(self.worst < WORST_NS);
        println!(
            "  the slowest takes {:.1} us (target: under 200): {met}",
            self.worst / 1000.0
        );
    }

    /// Where each kind's target was met and where not.
    fn finish(&self) {
        for (kind, word) in &KINDS[..4] {
            let of_kind = || self.ratios.iter().filter(|r| r.0 == *kind);
            let short = of_kind().filter(|r| r.2 < wanted(*kind));
            let missed: Vec<String> = short.map(|r| format!("{} ({:.3})", r.1, r.2)).collect();
            print!("{word}: at least {} times as fast as the original on ", wanted(*kind));
            println!("{} links of {}", of_kind().count() - missed.len(), of_kind().count());
            if !missed.is_empty() {
                println!("  missed: {}", missed.join(", "));
            }
        }
    }
}

fn memory() {
    use std::mem::size_of;
    println!(
        "memory of the port: record {} bytes, work area {}, profile {} (only read)",
        size_of::<vanitycrow::raw::Station>(),
        vanitycrow::AREA_BYTES,
        size_of::<vanitycrow::Profile>()
    );
    let lossy = &scenarios::links()[4];
    let mut deepest = lossy.start(Depth::new()).meter.deepest;
    let full = scenarios::held(Depth::new()).meter.deepest;
    deepest.iter_mut().zip(full).for_each(|(d, f)| *d = f.max(*d));
    let each: Vec<String> = KINDS
        .iter()
        .map(|&(k, word)| format!("{word} {}", deepest[k as usize]))
        .collect();
    println!("deepest stack, bytes, with the binding's frame: {}", each.join(", "));
}

pub fn speed() -> Result<(), String> {
    let clock_ns = meter::clock_ns();
    println!(
        "us: medians, in brackets the quartiles; ratio: of the medians, with the quartiles of the single calls' ratios"
    );
    println!("the clock's own {clock_ns:.0} ns are taken off");
    let mut report = Report {
        clock_ns,
        ratios: Vec::new(),
        worst: 0.0,
    };
    for link in scenarios::links() {
        report.link(link.name, link.times());
    }
    let (held, sent) = scenarios::held_times();
    report.link("2,048 short pieces, 64 held", (held.clone(), sent));
    println!("plain queuing: 170 bytes");
    report.rows("plain queuing", &scenarios::plain_times(), &KINDS[3..4]);
    report.messages();
    report.worst_cases(&held);
    report.finish();
    memory();
    Ok(())
}
