//! Tests of the whole: the sources compiled, the refusals, the transcript.

use std::fs;
use std::path::Path;

use crate::generate;
use crate::harness::{Answer, Harness};
use crate::list::{Call, Item, Reader, Said, text};
use crate::profile::*;
use crate::profiles;
use crate::transcript::transcript;

macro_rules! compiled {
    ($name:literal) => {
        include_bytes!(concat!(env!("OUT_DIR"), "/", $name))
    };
}

/// Each file of the original: where it is, what was compiled, its SHA-256.
const ORIGINALS: [(&str, &[u8], &str); 6] = [
    (
        "level.rs",
        compiled!("level.rs"),
        "85ef2c2ecc19e62e36e10e6807d79fcac9b99cfb7c1e76909629bb922e25ac3c",
    ),
    (
        "link/frame.rs",
        compiled!("frame.rs"),
        "88586cf714d6e0bdaad7fb107d1ff83f60c54ac6a568db37019d0294943d72c1",
    ),
    (
        "link/report.rs",
        compiled!("report.rs"),
        "ce896ea9fd273e5996688dd90d16e00f7e0471f429ec2bfdae50f85bd2703e2e",
    ),
    (
        "link/station/config.rs",
        compiled!("config.rs"),
        "6215f3adbdeb29f5a610a67f7316de059fee4f9786f8c7300b2c1a20a3f4b689",
    ),
    (
        "link/station/gear.rs",
        compiled!("gear.rs"),
        "1701b7fa8c8a88d450d2d4df8f3af32b52bb91abad10e3fe283675b6ba9ff504",
    ),
    (
        "link/station/sender.rs",
        compiled!("sender.rs"),
        "ecea3f93a198213713fe014528be4a0d622af619e1f4d81c2c6473385c7cae38",
    ),
];

/// SHA-256 (FIPS 180-4).
fn sha256(bytes: &[u8]) -> String {
    let root = |x: f64| ((x.fract()) * 4294967296.0) as u32;
    let primes: Vec<u32> = (2u32..).filter(|n| (2..*n).all(|d| n % d != 0)).take(64).collect();
    let mut h: Vec<u32> = primes[..8].iter().map(|&p| root((p as f64).sqrt())).collect();
    let k: Vec<u32> = primes.iter().map(|&p| root((p as f64).cbrt())).collect();
    let mut m = bytes.to_vec();
    m.push(0x80);
    while m.len() % 64 != 56 {
        m.push(0);
    }
    m.extend((8 * bytes.len() as u64).to_be_bytes());
    for block in m.chunks(64) {
        let mut w: Vec<u32> = block
            .chunks(4)
            .map(|c| u32::from_be_bytes(c.try_into().unwrap()))
            .collect();
        for i in 16..64 {
            let (a, b) = (w[i - 15], w[i - 2]);
            let a = a.rotate_right(7) ^ a.rotate_right(18) ^ a >> 3;
            let b = b.rotate_right(17) ^ b.rotate_right(19) ^ b >> 10;
            w.push(w[i - 16].wrapping_add(a).wrapping_add(w[i - 7]).wrapping_add(b));
        }
        let mut v = h.clone();
        for i in 0..64 {
            let (a, e) = (v[0], v[4]);
            let one = e.rotate_right(6) ^ e.rotate_right(11) ^ e.rotate_right(25);
            let choice = e & v[5] ^ !e & v[6];
            let t = [v[7], one, choice, k[i], w[i]]
                .into_iter()
                .fold(0u32, u32::wrapping_add);
            let two = a.rotate_right(2) ^ a.rotate_right(13) ^ a.rotate_right(22);
            let majority = a & v[1] ^ a & v[2] ^ v[1] & v[2];
            v.rotate_right(1);
            v[4] = v[4].wrapping_add(t);
            v[0] = t.wrapping_add(two).wrapping_add(majority);
        }
        for (x, y) in h.iter_mut().zip(v) {
            *x = x.wrapping_add(y);
        }
    }
    h.iter().map(|x| format!("{x:08x}")).collect()
}

#[test]
fn sha256_of_abc() {
    assert_eq!(
        sha256(b"abc"),
        "ba7816bf8f01cfea414140de5dae2223b00361a396177a9cb410ff61f20015ad"
    );
}

/// What was compiled is the original, byte for byte.
#[test]
fn compiled_is_the_original() {
    let root = Path::new(env!("ION_HF_SRC_USED")).join("crates/ion/src");
    for (name, compiled, digest) in ORIGINALS {
        let file = fs::read(root.join(name)).unwrap();
        assert!(file == compiled, "{name} is not what was compiled");
        assert_eq!(
            sha256(compiled),
            digest,
            "{name} is not the original of commit 1eb7dca018"
        );
    }
}

/// The example that README.md runs.
#[test]
fn the_mail() {
    let examples = Path::new(env!("CARGO_MANIFEST_DIR")).join("../examples");
    let list = fs::read(examples.join("mail.calls")).unwrap();
    let want = fs::read_to_string(examples.join("mail.transcript")).unwrap();
    assert_eq!(transcript(&list), want);
}

/// Every stored list has its stored transcript.
#[test]
fn stored_answers() {
    let folder = Path::new(env!("CARGO_MANIFEST_DIR")).join("../vectors");
    let mut seen = 0;
    for entry in fs::read_dir(folder).unwrap() {
        let path = entry.unwrap().path();
        if path.extension().is_some_and(|e| e == "calls") {
            let want = fs::read_to_string(path.with_extension("transcript")).unwrap();
            assert!(transcript(&fs::read(&path).unwrap()) == want, "{}", path.display());
            seen += 1;
        }
    }
    assert!(seen >= 90, "{seen} stored lists");
}

/// What crates/gear_cases is run on: the decisions of seed 1.
#[test]
fn stored_decisions() {
    let stored = Path::new(env!("CARGO_MANIFEST_DIR")).join("../crates/gear_cases/stdin");
    assert!(fs::read(stored).unwrap() == crate::gear::gear(1, 8000));
}

fn connect(t: f64, db: f32) -> Call {
    Call::Connect {
        t,
        wave: 1,
        here: 0.0,
        session: 77,
        db,
        echo: false,
        doppler: false,
        slot: 0,
        cue: true,
    }
}

fn short(t: f64, burst: u64, bitmap: u64) -> Call {
    Call::Short {
        t,
        wave: 2,
        here: 0.0,
        burst,
        bitmap,
        db: 0.0,
        want_turn: false,
        want_disc: false,
        stored: false,
        echo: false,
        doppler: false,
        slot: 0,
    }
}

fn long(t: f64, wave: u64, len: usize) -> Call {
    Call::Long {
        t,
        wave,
        here: 0.0,
        want_turn: false,
        want_disc: false,
        stored: false,
        payload: vec![0; len],
    }
}

fn turn(t: f64, wave: u64, here: f32, db: Option<f32>) -> Call {
    Call::Turn { t, wave, here, db }
}

fn connected() -> Harness {
    let mut h = Harness::new(Profile::usual());
    assert!(matches!(h.call(&connect(10.0, 0.0)), Answer::Ok));
    h
}

/// The number of the refusal, 0 where accepted.
fn number(h: &mut Harness, call: Call) -> u8 {
    match h.call(&call) {
        Answer::Refused(n) => n,
        _ => 0,
    }
}

#[test]
fn refused_profiles() {
    let wholes = |line, at, lo: u64, hi: u64| {
        let mut rows = vec![(line, at, Value::Whole(lo), true), (line, at, Value::Whole(hi), true)];
        rows.extend([hi + 1, 1 << 33, u64::MAX].map(|x| (line, at, Value::Whole(x), false)));
        if lo > 0 {
            rows.extend([0, lo - 1].map(|x| (line, at, Value::Whole(x), false)));
        }
        rows
    };
    let f64s = |line, at, lo: f64, hi: f64| {
        let mut rows = vec![(line, at, Value::F64(lo), true), (line, at, Value::F64(hi), true)];
        let out = [lo.next_down(), hi.next_up(), f64::NAN, f64::INFINITY, f64::NEG_INFINITY];
        rows.extend(out.map(|x| (line, at, Value::F64(x), false)));
        rows
    };
    let dbs = |line, at| {
        let mut rows = vec![
            (line, at, Value::F32(-100.0), true),
            (line, at, Value::F32(100.0), true),
        ];
        let out = [-100.00001, 100.00001, f32::NAN, f32::INFINITY, f32::NEG_INFINITY];
        rows.extend(out.map(|x| (line, at, Value::F32(x), false)));
        rows
    };
    let mut rows = Vec::new();
    for level in 0..17 {
        rows.extend(wholes(level, 0, 1, 16_384));
        rows.extend(f64s(level, 1, 0.0, 60.0));
        rows.extend(f64s(level, 2, 1.0, 100_000.0));
        rows.extend(wholes(level, 3, 1, 4_294_967_295));
        rows.extend(dbs(THRESHOLDS, level));
        rows.extend(dbs(EFF_THRESHOLDS, level));
    }
    for i in 0..7 {
        rows.extend(wholes(HARQ, i, 1, 16_384));
    }
    for i in 0..6 {
        rows.extend(f64s(ACK_S, i, 0.0, 60.0));
    }
    for i in 0..4 {
        rows.extend(dbs(DBS, i));
    }
    rows.extend(dbs(START_MARGIN, 0));
    rows.extend(dbs(CLIMB, 0));
    rows.extend(f64s(CUE_S, 0, 0.0, 10.0));
    rows.extend(f64s(BURST, 0, 1.0, 1000.0));
    rows.extend(f64s(BURST, 1, 1.0, 1000.0));
    rows.extend(f64s(BURST, 2, 0.01, 1.0));
    rows.extend(f64s(BURST, 3, 0.0, 60.0));
    rows.extend(f64s(HOLDS, 0, 1.0, 100_000.0));
    rows.extend(f64s(HOLDS, 1, 0.0, 1_000_000.0));
    rows.extend(f64s(HOLDS, 2, 0.0, 1_000_000.0));
    rows.extend(wholes(LEVELS, 0, 0, 16));
    rows.extend(wholes(LEVELS, 1, 0, 17));
    rows.extend(wholes(PIN, 0, 0, 16));
    let places: std::collections::BTreeSet<(usize, usize)> = rows.iter().map(|r| (r.0, r.1)).collect();
    assert_eq!(places.len() + 2, profiles::number_places().len());
    for (line, at, value, fine) in rows {
        let mut p = Profile::usual();
        p.values[line][at] = value;
        assert_eq!(
            p.refusal(),
            if fine { None } else { Some(1) },
            "line {line}, {at}: {value:?}"
        );
    }
    for (short, long, want) in [
        (18, 18, None),
        (18, 512, None),
        (512, 512, None),
        (17, 180, Some(1)),
        (18, 513, Some(1)),
        (513, 18, Some(1)),
        (181, 180, Some(2)),
        (512, 18, Some(2)),
    ] {
        let mut p = Profile::usual();
        p.values[FRAME_BYTES] = vec![Value::Whole(short), Value::Whole(long)];
        assert_eq!(p.refusal(), want, "frames of {short} and {long}");
    }
    let mut p = Profile::usual();
    p.values[FRAME_BYTES] = vec![Value::Whole(33), Value::Whole(32)];
    assert_eq!(p.refusal(), Some(2));
    p.values[CUE_S][0] = Value::F64(f64::NAN);
    assert_eq!(p.refusal(), Some(1));
    let mut h = Harness::new(p);
    h.call(&Call::Area(0));
    for call in [
        connect(0.0, 0.0),
        Call::queue(Vec::new()),
        Call::Burst,
        Call::Piece(0),
        long(0.0, 9, 0),
    ] {
        assert_eq!(number(&mut h, call), 1);
    }
}

#[test]
fn refused_by_area_and_order_of_calls() {
    let mut h = Harness::new(Profile::usual());
    for call in [
        Call::Burst,
        Call::queue(vec![1]),
        Call::Piece(0),
        short(1.0, 0, 0),
        turn(f64::NAN, 9, 0.0, None),
    ] {
        assert_eq!(number(&mut h, call), 4);
    }
    for (bytes, want) in [(49_151, 3), (0, 3), (49_152, 4), (65_536, 4)] {
        h.call(&Call::Area(bytes));
        assert_eq!(number(&mut h, Call::Burst), want, "area {bytes}");
    }
    assert_eq!(number(&mut h, connect(10.0, 0.0)), 0);
    assert_eq!(number(&mut h, connect(11.0, 0.0)), 4);
}

#[test]
fn refused_by_time() {
    for t in [-1.0, -f64::MIN_POSITIVE, f64::NAN, f64::INFINITY, 1e9f64.next_up()] {
        assert_eq!(number(&mut Harness::new(Profile::usual()), connect(t, 0.0)), 5, "{t}");
    }
    for t in [0.0, -0.0, 1e9] {
        assert_eq!(number(&mut Harness::new(Profile::usual()), connect(t, 0.0)), 0, "{t}");
    }
    let mut h = connected();
    assert_eq!(number(&mut h, short(10.0f64.next_down(), 9, 0)), 5);
    assert_eq!(number(&mut h, short(10.0, 0, 0)), 0);
    // An ack that is not awaited moves the last accepted time.
    assert_eq!(number(&mut h, short(20.0, 0, 0)), 0);
    assert_eq!(number(&mut h, turn(19.0, 1, 0.0, None)), 5);
    // A refused one doesn't.
    assert_eq!(number(&mut h, turn(500.0, 6, 0.0, None)), 6);
    assert_eq!(number(&mut h, turn(20.0, 5, 0.0, None)), 0);
}

#[test]
fn refused_by_value() {
    let mut h = connected();
    for (burst, bitmap, want) in [(3, 63, 0), (4, 0, 6), (0, 64, 6), (1 << 32, 0, 6), (0, 256, 6)] {
        assert_eq!(number(&mut h, short(10.0, burst, bitmap)), want, "{burst} {bitmap}");
    }
    for (db, want) in [
        (-100.0, 0),
        ((-100.0f32).next_down(), 6),
        (300.0, 0),
        (300.0f32.next_up(), 6),
        (f32::NAN, 6),
        (f32::INFINITY, 6),
    ] {
        assert_eq!(number(&mut h, turn(10.0, 1, db, None)), want, "measured {db}");
        assert_eq!(number(&mut h, turn(10.0, 1, 0.0, Some(db))), want, "reported {db}");
    }
    for (wave, len, want) in [(5, 13, 0), (6, 13, 6), (6, 12, 6), (5, 12, 7), (0, 0, 7), (0, 17, 0)] {
        assert_eq!(number(&mut h, long(10.0, wave, len)), want, "wave {wave}, {len} bytes");
    }
}

#[test]
fn refused_by_bytes() {
    let mut h = connected();
    assert_eq!(number(&mut h, Call::queue(vec![0; 16_385])), 8);
    assert_eq!(number(&mut h, Call::queue(vec![0; 16_384])), 0);
    assert_eq!(number(&mut h, Call::queue(vec![0; 1])), 8);
    assert_eq!(number(&mut h, Call::queue(Vec::new())), 0);
    // Bytes taken, by hand: all of 2^32 - 1 but five were taken before.
    let mut h = connected();
    h.taken = 0xFFFF_FFFF - 5;
    h.station.next_offset = 0xFFFF_FFFF - 5;
    assert_eq!(number(&mut h, Call::queue(vec![0; 6])), 9);
    assert_eq!(number(&mut h, Call::queue(vec![7; 5])), 0);
    assert_eq!(number(&mut h, Call::queue(vec![0; 1])), 9);
    assert_eq!(number(&mut h, Call::queue(vec![0; 16_385])), 8);
    let Answer::Burst(b) = h.call(&Call::Burst) else {
        panic!()
    };
    assert_eq!((b.frames[0].offset, b.frames[0].len), (0xFFFF_FFFA, 5));
    assert_eq!(b.frames[0].bytes[2..5], [0xFA, 0xFF, 0xFF]);
}

#[test]
fn refused_by_output() {
    let mut h = connected();
    for (bytes, want) in [(64 * 180 - 1, 10), (64 * 180, 0), (0, 10), (32_768, 0)] {
        h.call(&Call::Out(bytes));
        assert_eq!(number(&mut h, Call::Burst), want, "output {bytes}");
    }
}

/// Answers of the calls of `lines` after the usual profile and a connect.
fn answers(lines: &str) -> Vec<String> {
    let list = format!("{}{}\n{lines}", Profile::usual(), connect(1.0, 0.0));
    transcript(list.as_bytes())
        .lines()
        .skip(1)
        .map(str::to_string)
        .collect()
}

#[test]
fn lines_that_break_the_rules() {
    assert_eq!(transcript(b""), "end 0 0 0 0\n");
    assert_eq!(transcript(b"# remark\n\n"), "end 0 0 0 0\n");
    assert_eq!(transcript(b"# remark"), "error 1\n");
    assert_eq!(transcript(b"\nburst\n"), "error 2\n");
    assert_eq!(transcript(b"profile\n"), "error 2\n");
    assert_eq!(transcript(b"profile\n\n#\n"), "error 4\n");
    assert_eq!(transcript(b"profile\nburst\n"), "error 2\n");
    assert_eq!(transcript(b"profile\nprofile\n"), "error 2\n");
    let n = Profile::usual().to_string().lines().count() + 2;
    for line in [
        "burst ",
        " burst",
        "burst  ",
        "burst 1",
        "bursts",
        "queue",
        "queue 0",
        "queue 0A",
        "queue --",
        "queue 00 -1",
        "queue 00 x",
        "queue 00 0x1",
        "queue 00 18446744073709551616",
        "queue 00 1 0 0",
        "queue 00 1 -1",
        "queue 00 1 x",
        "queue 00 1 0x1",
        "queue 00 1 18446744073709551616",
        "queue 00 x 1",
        "queue 00 1  1",
        "messages 0",
        "piece",
        "piece -1",
        "piece 18446744073709551616",
        "area 65537",
        "out 32769",
        "turn 0x0 1 0x00000000 none",
        "queue\t00",
        "caf\u{e9}",
        "# \u{e9}",
        "burst\r",
    ] {
        assert_eq!(answers(&format!("{line}\nburst\n")), [format!("error {n}")], "{line:?}");
    }
    assert_eq!(answers("state")[0], format!("error {n}"));
    let long = "0".repeat(65_530);
    assert_eq!(answers(&format!("queue {long}\n"))[0], "queue refused 8");
    assert_eq!(answers(&format!("queue {long}00\n"))[0], format!("error {n}"));
    assert_eq!(answers(&format!("#{}\n", "x".repeat(65_535))), ["end 0 0 0 0"]);
    assert_eq!(answers(&format!("#{}\n", "x".repeat(65_536))), [format!("error {n}")]);
}

/// Refusals 11 and 12, and what `messages` says.
#[test]
fn refused_messages() {
    let queue = |n: usize, class: u64| Call::Queue(vec![7; n], Said::Class(class));
    let mut h = Harness::new(Profile::usual());
    assert_eq!(number(&mut h, queue(1, 4)), 4);
    let mut h = connected();
    for class in [4, 5, 255, 256, 259, 1 << 32, u64::MAX] {
        for n in [0, 1, 16_385] {
            assert_eq!(number(&mut h, queue(n, class)), 11, "class {class}, {n} bytes");
        }
    }
    assert_eq!(number(&mut h, queue(16_385, 3)), 8);
    for i in 0..256 {
        assert_eq!(number(&mut h, queue(1, i % 4)), 0);
    }
    for class in 0..4 {
        assert_eq!(number(&mut h, queue(1, class)), 12);
        assert_eq!(number(&mut h, queue(0, class)), 0);
        assert_eq!(number(&mut h, queue(16_128, class)), 12);
        assert_eq!(number(&mut h, queue(16_129, class)), 8);
    }
    assert_eq!(number(&mut h, queue(1, 4)), 11);
    let taken = h.taken;
    h.taken = 0xFFFF_FFFF;
    assert_eq!(number(&mut h, queue(1, 0)), 9);
    assert_eq!(number(&mut h, queue(16_129, 0)), 8);
    h.taken = taken;
    // The begun message counts, and until its last byte flies.
    let mut h = connected();
    h.call(&queue(10_000, 2));
    h.call(&Call::Burst);
    assert!(h.messages.begun());
    for _ in 0..255 {
        assert_eq!(number(&mut h, queue(1, 0)), 0);
    }
    h.call(&Call::Burst);
    assert_eq!((h.messages.begun(), h.messages.len()), (true, 256));
    assert_eq!(number(&mut h, queue(1, 0)), 12);
}

/// Refusals 8, 9 and 12 of a queuing that withdraws.
#[test]
fn refused_after_a_withdrawal() {
    let queue = |n: usize, label: u64| Call::Queue(vec![7; n], Said::Label(3, label));
    let counts = |h: &Harness| (h.taken, h.station.out.len(), h.messages.len(), h.messages.withdrawn());
    // Full by bytes: 8 is judged by what stays.
    let mut h = connected();
    assert_eq!(number(&mut h, queue(6_000, 1)), 0);
    assert_eq!(number(&mut h, queue(10_384, 2)), 0);
    for label in [0, 3, 65_536] {
        assert_eq!(number(&mut h, queue(1, label)), 8);
    }
    assert_eq!(number(&mut h, queue(6_001, 1)), 8);
    assert_eq!(counts(&h), (16_384, 16_384, 2, 0));
    assert_eq!(number(&mut h, queue(6_000, 65_537)), 0);
    assert_eq!(counts(&h), (22_384, 16_384, 2, 6_000));
    assert_eq!(number(&mut h, queue(0, 2)), 0);
    assert_eq!(counts(&h), (22_384, 16_384, 2, 6_000));
    assert_eq!(h.messages.bytes(), h.station.out);
    // 9 counts what is withdrawn as taken.
    h.taken = 0xFFFF_FFFF - 5;
    assert_eq!(number(&mut h, queue(6, 1)), 9);
    assert_eq!(number(&mut h, queue(6_001, 1)), 8);
    assert_eq!(number(&mut h, queue(5, 1)), 0);
    assert_eq!(number(&mut h, queue(1, 1)), 9);
    assert_eq!((h.taken, h.messages.withdrawn()), (0xFFFF_FFFF, 12_000));
    // Full by messages: 12 is judged by those that stay.
    let mut h = connected();
    for label in 0..256 {
        assert_eq!(number(&mut h, queue(1, label)), 0);
    }
    for label in [0, 256, 65_535] {
        assert_eq!(number(&mut h, queue(1, label)), 12);
        assert_eq!(number(&mut h, queue(0, label)), 0);
    }
    assert_eq!(counts(&h), (256, 256, 256, 0));
    assert_eq!(number(&mut h, queue(1, 255)), 0);
    assert_eq!(counts(&h), (257, 256, 256, 1));
    // The begun one is not withdrawn, and counts.
    let mut h = connected();
    h.call(&queue(10_000, 9));
    h.call(&Call::Burst);
    assert!(h.messages.begun());
    for label in 1..=255 {
        assert_eq!(number(&mut h, queue(1, 100 + label)), 0);
    }
    assert_eq!(number(&mut h, queue(1, 9)), 12);
    assert_eq!(number(&mut h, queue(2, 355)), 0);
    assert_eq!((h.messages.len(), h.messages.withdrawn()), (256, 1));
}

#[test]
fn messages_in_the_order_of_going() {
    let list = |calls: &str| answers(&format!("{}\n{calls}", connect(0.0, -20.0)));
    assert_eq!(list("messages\n")[1], "messages 0 0 0");
    let calls = "queue 0102\nqueue 03 1\nqueue 04 00000000000000000000000000\nqueue 05 1\nqueue - 2\nmessages\n";
    assert_eq!(list(calls)[6], "messages 4 0 0 0:0:1 1:0:1 1:0:1 3:0:2");
    assert_eq!(
        list("queue 00 4\nmessages\n")[1..3],
        ["queue refused 11", "messages 0 0 0"]
    );
    assert_eq!(list("queue 00 18446744073709551615\n")[1], "queue refused 11");
    // A flash message behind a routine one that has begun.
    let calls = format!("queue {}\nburst\nqueue aa 0\nmessages\n", "00".repeat(200));
    let lines = list(&calls);
    let of_messages = lines.iter().find(|l| l.starts_with("messages")).unwrap();
    assert!(of_messages.starts_with("messages 2 1 0 3:0:") && of_messages.ends_with(" 0:0:1"));
    // Labels: what is withdrawn is taken, and 65,536 is no label.
    let calls =
        "queue 0102 3 1\nqueue 03 3\nqueue 04 0 65535\nqueue 05 2 65537\nqueue 06 1 65536\nqueue - 1 65535\nmessages\n";
    let lines = list(calls);
    assert_eq!(lines[7], "messages 4 0 2 0:65535:1 1:0:1 2:1:1 3:0:1");
    assert_eq!(lines[8], "end 6 4 0 0");
    assert_eq!(
        list("queue 00 3 18446744073709551615\nmessages\n")[2],
        "messages 1 0 0 3:65535:1"
    );
}

#[test]
fn lines_that_keep_them() {
    assert_eq!(answers("messages\n"), ["messages 0 0 0", "end 0 0 0 0"]);
    assert_eq!(answers("queue -\n"), ["queue ok", "end 0 0 0 0"]);
    assert_eq!(answers("queue 00ff\n"), ["queue ok", "end 2 2 0 0"]);
    assert_eq!(answers("piece 000000000000000000000000000\n")[0], "piece none");
    assert_eq!(answers("piece 18446744073709551615\n")[0], "piece none");
    assert_eq!(answers("area 65536\nout 32768\n")[..2], ["area ok", "out ok"]);
    assert_eq!(
        answers("turn 0x7FF8000000000000 1 0x00000000 none\n")[0],
        "turn refused 5"
    );
    assert_eq!(
        answers("turn 0x4000000000000000 1 0xffc00001 none\n")[0],
        "turn refused 6"
    );
    let profile = Profile::usual().to_string();
    let two = format!("{profile}{}\nqueue 01\nburst\n{profile}state\n", connect(0.0, -20.0));
    let out = transcript(two.as_bytes());
    let lines: Vec<&str> = out.lines().collect();
    assert!(lines.contains(&"end 1 0 1 0"));
    assert_eq!(lines.last(), Some(&"end 0 0 0 0"));
    assert!(lines.contains(&"state 0 0 none 0 0 0 0 none none"));
    assert!(lines.contains(&"held 0 1"));
}

/// Document 01's reckoned examples, through the original.
#[test]
fn reckoned_pieces() {
    let mut h = connected();
    h.station.level = 1;
    h.station.next_offset = 150;
    h.taken = 150;
    h.station.inflight.insert(100, (0..50).collect());
    let Answer::Burst(b) = h.call(&Call::Burst) else {
        panic!()
    };
    let pieces: Vec<(u32, usize)> = h.station.inflight.iter().map(|(o, b)| (*o, b.len())).collect();
    assert_eq!(pieces, [(100, 22), (122, 22), (144, 6)]);
    assert!(!b.frames.is_empty());

    for (held, want) in [
        (None, vec![(0, 80), (80, 40)]),
        (Some(40), vec![(0, 40), (40, 40), (80, 40)]),
    ] {
        let mut p = Profile::usual();
        p.values[FRAME_BYTES][1] = Value::Whole(110);
        p.values[PIN][0] = Value::Whole(9);
        let mut h = Harness::new(p);
        h.call(&connect(0.0, 0.0));
        h.station.level = 9;
        h.station.next_offset = 120;
        for o in [0, 40, 80] {
            h.station.inflight.insert(o, vec![1; 40]);
        }
        if let Some(o) = held {
            h.station.at_peer = vec![(o, 4320)];
            h.station.peer_wave = crate::level::LADDER[9].wave;
        }
        h.call(&Call::Burst);
        let pieces: Vec<(u32, usize)> = h.station.inflight.iter().map(|(o, b)| (*o, b.len())).collect();
        assert_eq!(pieces, want);
    }
}

#[test]
fn reckoned_levels_and_numbers() {
    let mut p = Profile::usual();
    p.values[ON][on::EFF_SNR] = Value::Flag(false);
    p.values[DBS][0] = Value::F32(0.0);
    for (db, want) in [(6.0, 10), (2.5, 9), (-20.0, 0)] {
        let mut h = Harness::new(p.clone());
        h.call(&connect(0.0, db));
        assert_eq!(h.station.target, want);
    }
    let mut h = connected();
    h.station.burst_id = 3;
    h.station.peer_heard = Some(0);
    h.call(&Call::Burst);
    assert_eq!(h.station.burst_id, 1);
    // Connecting without a start margin gives FLOOR even when pinned.
    p.values[START_MARGIN][0] = Value::None;
    p.values[PIN][0] = Value::Whole(12);
    let mut h = Harness::new(p);
    h.call(&connect(0.0, 20.0));
    assert_eq!(h.station.level, 0);
}

#[test]
fn reckoned_holds() {
    for (most, want) in [(480.0, 120.0), (100.0, 100.0)] {
        let mut p = Profile::usual();
        p.values[GEAR][0] = Value::Choice(1);
        p.values[HOLDS][1] = Value::F64(most);
        p.values[ON][on::HOLD_BY_GOODPUT] = Value::Flag(false);
        let mut h = Harness::new(p);
        h.call(&connect(0.0, -20.0));
        h.call(&Call::queue(vec![1; 10]));
        h.station.fails[0] = 2;
        h.call(&Call::Burst);
        h.call(&short(1000.0, 0, 0));
        assert_eq!(h.station.fails[0], 3);
        assert_eq!(h.station.blocked_until[0], 1000.0 + want);
    }
}

#[test]
fn seven_frames_and_63() {
    for (bitmap, want) in [(63, 7), (62, 5)] {
        let mut p = Profile::usual();
        p.values[PIN][0] = Value::Whole(16);
        p.values[START_MARGIN][0] = Value::F32(0.0);
        p.values[16] = vec![Value::Whole(100), Value::F64(0.0), Value::F64(100.0), Value::Whole(700)];
        let mut h = Harness::new(p);
        h.call(&connect(0.0, 30.0));
        h.call(&Call::queue(vec![5; 170 * 8]));
        let Answer::Burst(b) = h.call(&Call::Burst) else {
            panic!()
        };
        assert_eq!(b.frames.len(), 7);
        h.call(&short(1.0, b.number() as u64, bitmap));
        assert_eq!(h.acked(), want * 170);
    }
}

#[test]
fn airtime_in_milliseconds() {
    let mut p = Profile::usual();
    p.values[0] = vec![Value::Whole(1), Value::F64(0.0), Value::F64(3.0), Value::Whole(1)];
    p.values[LEVELS][0] = Value::Whole(0);
    p.values[BURST][0] = Value::F64(1.0);
    let mut h = Harness::new(p);
    h.call(&connect(0.0, 0.0));
    h.call(&Call::Burst);
    assert_eq!(h.airtime_ms, 0);
    h.call(&Call::queue(vec![1; 3]));
    h.call(&Call::Burst);
    assert_eq!(h.airtime_ms, 334);
    h.airtime_ms = u64::MAX - 1;
    h.call(&Call::Burst);
    assert_eq!(h.airtime_ms, u64::MAX);
}

/// A connected sender whose bursts at level 16 take 0.5 ms, and so does a cue where one was agreed; an ack in a wave of rank W takes W + 0.5 ms.
fn half_milliseconds(cue: bool) -> Harness {
    let mut p = Profile::usual();
    p.values[16] = vec![Value::Whole(1), Value::F64(0.0), Value::F64(2000.0), Value::Whole(1)];
    p.values[ACK_S] = (0..6).map(|w| Value::F64((w as f64 + 0.5) / 1000.0)).collect();
    p.values[CUE_S] = vec![Value::F64(0.0005)];
    p.values[DBS][2] = Value::F32(100.0);
    p.values[ON][on::CUE] = Value::Flag(cue);
    let mut h = Harness::new(p);
    assert_eq!(number(&mut h, connect(0.0, 30.0)), 0);
    h
}

/// What a burst adds, and its number.
fn burst_adds(h: &mut Harness, cue: bool, frames: usize) -> (u64, u64) {
    let before = h.airtime_ms;
    let Answer::Burst(b) = h.call(&Call::Burst) else {
        panic!()
    };
    assert_eq!((b.code, b.cue, b.frames.len()), (16, cue, frames));
    (h.airtime_ms - before, b.number() as u64)
}

#[test]
fn airtime_of_cues() {
    for cue in [false, true] {
        let mut h = half_milliseconds(cue);
        assert_eq!(burst_adds(&mut h, cue, 0).0, 0);
        h.call(&Call::queue(vec![1; 3]));
        let adds = 1 + cue as u64;
        assert_eq!(burst_adds(&mut h, cue, 1).0, adds);
        for left in 0..4u64 {
            h.airtime_ms = u64::MAX - left;
            h.call(&Call::Burst);
            assert_eq!(u64::MAX - h.airtime_ms, left.saturating_sub(adds));
        }
    }
}

#[test]
fn airtime_of_acks() {
    let short_in = |w, burst, bitmap| {
        let mut call = short(1.0, burst, bitmap);
        if let Call::Short { wave, .. } = &mut call {
            *wave = w;
        }
        call
    };
    for frames in [0, 1] {
        for w in 0..6 {
            for last in 0..5 {
                let mut h = half_milliseconds(true);
                h.call(&Call::queue(vec![1; 3 * frames]));
                let (_, burst) = burst_adds(&mut h, true, frames);
                let before = h.airtime_ms;
                let ack = || if last < 4 { short_in(w, last, 1) } else { long(1.0, w, 13) };
                assert_eq!(number(&mut h, turn(-1.0, w, 0.0, None)), 5);
                assert_eq!(number(&mut h, short_in(w, burst, 64)), 6);
                assert_eq!(number(&mut h, long(1.0, 6, 13)), 6);
                assert_eq!(number(&mut h, long(1.0, w, 12)), 7);
                assert_eq!(h.airtime_ms, before);
                // The first is awaited, the second is not.
                for _ in 0..2 {
                    assert_eq!(number(&mut h, ack()), 0);
                    assert_eq!(h.airtime_ms, before + w + 1);
                }
            }
        }
    }
    let mut h = half_milliseconds(true);
    burst_adds(&mut h, true, 0);
    assert_eq!(number(&mut h, turn(1.0, 5, 0.0, None)), 0);
    assert_eq!(number(&mut h, short_in(5, 0, 1)), 0);
    assert_eq!(h.airtime_ms, 0);
    for left in [7, 6, 5, 0u64] {
        burst_adds(&mut h, true, 0);
        h.airtime_ms = u64::MAX - left;
        assert_eq!(number(&mut h, long(1.0, 5, 13)), 0);
        assert_eq!(u64::MAX - h.airtime_ms, left.saturating_sub(6));
    }
}

#[test]
fn lists_come_back_from_their_text() {
    for (index, kind) in generate::KINDS.into_iter().filter(|&kind| kind != "lines").enumerate() {
        let items = generate::list(3, index as u64, 30, kind);
        let again = generate::list(3, index as u64, 30, kind);
        let list = text(&items);
        assert!(list == text(&again), "{kind} is not the same twice");
        let read: Vec<Item> = Reader::new(&list).map(|i| i.unwrap()).collect();
        assert_eq!(text(&read), list, "{kind}");
        assert!(transcript(&list).contains("\nend "), "{kind}");
    }
    let errors = (0..40)
        .filter(|&i| transcript(&text(&generate::list(3, i, 10, "lines"))).contains("error "))
        .count();
    assert!((20..40).contains(&errors), "{errors} of 40 lists end in an error");
}

/// The original is run with long frames of at most 264 bytes, where it sends no payload of 255 bytes; with 263 and 264 too.
#[test]
fn frames_that_are_compared() {
    assert!(!edited());
    let mut seen = [false; 2];
    for kind in generate::KINDS.into_iter().filter(|&kind| kind != "lines") {
        for index in 0..60 {
            for item in generate::list(5, index, 10, kind) {
                let Item::Profile(p) = item else { continue };
                let long = p.whole(FRAME_BYTES, 1);
                assert!(long <= 264 || p.refusal().is_some(), "{kind}: frames of {long} bytes");
                for (i, size) in [263, 264].into_iter().enumerate() {
                    seen[i] |= long == size && p.refusal().is_none();
                }
            }
        }
    }
    assert_eq!(seen, [true; 2]);
}
