//! Call lists: reading and writing.

use std::fmt;

use crate::messages::ROUTINE;
use crate::profile::{LINES, Profile};

pub const LONGEST_LINE: usize = 65_536;
/// Frames that a line may have; more than 16 are refused.
pub const FRAMES_MOST: u64 = 64;
pub const AREA_MOST: u64 = 65_536;
pub const OUT_MOST: u64 = 32_768;
pub const WINDOW_MOST: u64 = 65_536;

/// What a queuing says of its message.
#[derive(Clone, Copy, Debug)]
pub enum Said {
    Nothing,
    Class(u64),
    /// A class and a label.
    Label(u64, u64),
}

impl Said {
    /// The class: what is too wide is 255.
    pub fn class(self) -> u8 {
        match self {
            Said::Nothing => ROUTINE,
            Said::Class(class) | Said::Label(class, _) => class.min(255) as u8,
        }
    }

    /// The label, which counts modulo 65,536; 0: none.
    pub fn label(self) -> u16 {
        match self {
            Said::Nothing | Said::Class(_) => 0,
            Said::Label(_, label) => (label % 65_536) as u16,
        }
    }
}

#[derive(Clone, Debug)]
pub enum Call {
    Connect {
        t: f64,
        wave: u64,
        here: f32,
        session: u64,
        db: f32,
        echo: bool,
        doppler: bool,
        slot: u64,
        cue: bool,
    },
    Queue(Vec<u8>, Said),
    Short {
        t: f64,
        wave: u64,
        here: f32,
        burst: u64,
        bitmap: u64,
        db: f32,
        want_turn: bool,
        want_disc: bool,
        stored: bool,
        echo: bool,
        doppler: bool,
        slot: u64,
    },
    Long {
        t: f64,
        wave: u64,
        here: f32,
        want_turn: bool,
        want_disc: bool,
        stored: bool,
        payload: Vec<u8>,
    },
    /// All decoded frames of one reception.
    Frames {
        t: f64,
        wave: u64,
        here: f32,
        frames: Vec<Decoded>,
    },
    Turn {
        t: f64,
        wave: u64,
        here: f32,
        db: Option<f32>,
    },
    Burst,
    Piece(u64),
    Levels {
        echo: bool,
        doppler: bool,
        low: u64,
        high: u64,
    },
    /// A frame for the next reception: its slot number, its bytes.
    Heard(u64, Vec<u8>),
    Receive {
        number: u64,
        db: u64,
    },
    /// Frames of the last burst, by their places.
    Arrive {
        db: u64,
        places: Vec<u64>,
    },
    /// The box's last answer.
    Reply {
        t: f64,
        wave: u64,
        here: f32,
        want_turn: bool,
        want_disc: bool,
        stored: bool,
    },
    Window(u64),
    Box,
    State,
    Messages,
    Area(u64),
    Out(u64),
}

/// A decoded frame: its kind and flags by frame.rs's numbers, as the line has them.
#[derive(Clone, Debug)]
pub struct Decoded {
    pub kind: u64,
    pub flags: u64,
    pub payload: Vec<u8>,
}

impl Call {
    /// A queuing that gives no class and no label.
    pub fn queue(bytes: Vec<u8>) -> Self {
        Call::Queue(bytes, Said::Nothing)
    }
}

#[derive(Clone, Debug)]
pub enum Item {
    Profile(Profile),
    Call(Call),
    /// Bytes that break the rules, written as they are.
    Raw(Vec<u8>),
}

// Words.

pub fn read_whole(word: &[u8]) -> Option<u64> {
    if word.is_empty() {
        return None;
    }
    let mut n = 0u64;
    for &c in word {
        if !c.is_ascii_digit() {
            return None;
        }
        n = n.checked_mul(10)?.checked_add((c - b'0') as u64)?;
    }
    Some(n)
}

fn read_bits(word: &[u8], digits: usize) -> Option<u64> {
    let hex = word.strip_prefix(b"0x")?;
    if hex.len() != digits {
        return None;
    }
    let mut n = 0;
    for &c in hex {
        n = n << 4 | (c as char).to_digit(16)? as u64;
    }
    Some(n)
}

pub fn read_f32(word: &[u8]) -> Option<f32> {
    read_bits(word, 8).map(|b| f32::from_bits(b as u32))
}

pub fn read_f64(word: &[u8]) -> Option<f64> {
    read_bits(word, 16).map(f64::from_bits)
}

pub fn read_flag(word: &[u8]) -> Option<bool> {
    match word {
        b"0" => Some(false),
        b"1" => Some(true),
        _ => None,
    }
}

pub fn read_hex(word: &[u8]) -> Option<Vec<u8>> {
    if word == b"-" {
        return Some(Vec::new());
    }
    if word.is_empty() || !word.len().is_multiple_of(2) {
        return None;
    }
    let digit = |c: u8| match c {
        b'0'..=b'9' => Some(c - b'0'),
        b'a'..=b'f' => Some(c - b'a' + 10),
        _ => None,
    };
    word.chunks(2).map(|p| Some(digit(p[0])? << 4 | digit(p[1])?)).collect()
}

pub fn hex(bytes: &[u8]) -> String {
    if bytes.is_empty() {
        return "-".to_string();
    }
    let mut s = String::with_capacity(2 * bytes.len());
    for b in bytes {
        for d in [b >> 4, b & 15] {
            s.push(char::from_digit(d as u32, 16).unwrap());
        }
    }
    s
}

/// The words of a call after its name.
struct Words<'a>(std::slice::Iter<'a, &'a [u8]>);

impl<'a> Words<'a> {
    fn word(&mut self) -> Option<&'a [u8]> {
        self.0.next().copied()
    }
    fn n(&mut self) -> Option<u64> {
        read_whole(self.word()?)
    }
    fn f32(&mut self) -> Option<f32> {
        read_f32(self.word()?)
    }
    fn f64(&mut self) -> Option<f64> {
        read_f64(self.word()?)
    }
    fn flag(&mut self) -> Option<bool> {
        read_flag(self.word()?)
    }
    fn hex(&mut self) -> Option<Vec<u8>> {
        read_hex(self.word()?)
    }
    /// All words that are left.
    fn all(&mut self) -> Option<Vec<u64>> {
        let mut all = Vec::new();
        while let Some(word) = self.word() {
            all.push(read_whole(word)?);
        }
        Some(all)
    }
    /// Up to two words more.
    fn said(&mut self) -> Option<Said> {
        let Some(class) = self.word() else {
            return Some(Said::Nothing);
        };
        let class = read_whole(class)?;
        let Some(label) = self.word() else {
            return Some(Said::Class(class));
        };
        Some(Said::Label(class, read_whole(label)?))
    }
}

fn read_call(words: &[&[u8]]) -> Option<Call> {
    let mut w = Words(words[1..].iter());
    let call = match words[0] {
        b"connect" => Call::Connect {
            t: w.f64()?,
            wave: w.n()?,
            here: w.f32()?,
            session: w.n()?,
            db: w.f32()?,
            echo: w.flag()?,
            doppler: w.flag()?,
            slot: w.n()?,
            cue: w.flag()?,
        },
        b"queue" => Call::Queue(w.hex()?, w.said()?),
        b"short" => Call::Short {
            t: w.f64()?,
            wave: w.n()?,
            here: w.f32()?,
            burst: w.n()?,
            bitmap: w.n()?,
            db: w.f32()?,
            want_turn: w.flag()?,
            want_disc: w.flag()?,
            stored: w.flag()?,
            echo: w.flag()?,
            doppler: w.flag()?,
            slot: w.n()?,
        },
        b"long" => Call::Long {
            t: w.f64()?,
            wave: w.n()?,
            here: w.f32()?,
            want_turn: w.flag()?,
            want_disc: w.flag()?,
            stored: w.flag()?,
            payload: w.hex()?,
        },
        b"frames" => Call::Frames {
            t: w.f64()?,
            wave: w.n()?,
            here: w.f32()?,
            frames: (0..w.n().filter(|&n| n <= FRAMES_MOST)?)
                .map(|_| {
                    Some(Decoded {
                        kind: w.n()?,
                        flags: w.n()?,
                        payload: w.hex()?,
                    })
                })
                .collect::<Option<_>>()?,
        },
        b"turn" => Call::Turn {
            t: w.f64()?,
            wave: w.n()?,
            here: w.f32()?,
            db: match w.word()? {
                b"none" => None,
                word => Some(read_f32(word)?),
            },
        },
        b"burst" => Call::Burst,
        b"piece" => Call::Piece(w.n()?),
        b"levels" => Call::Levels {
            echo: w.flag()?,
            doppler: w.flag()?,
            low: w.n()?,
            high: w.n()?,
        },
        b"heard" => Call::Heard(w.n()?, w.hex()?),
        b"receive" => Call::Receive {
            number: w.n()?,
            db: w.n()?,
        },
        b"arrive" => Call::Arrive {
            db: w.n()?,
            places: w.all()?,
        },
        b"reply" => Call::Reply {
            t: w.f64()?,
            wave: w.n()?,
            here: w.f32()?,
            want_turn: w.flag()?,
            want_disc: w.flag()?,
            stored: w.flag()?,
        },
        b"window" => Call::Window(w.n().filter(|&n| n <= WINDOW_MOST)?),
        b"box" => Call::Box,
        b"state" => Call::State,
        b"messages" => Call::Messages,
        b"area" => Call::Area(w.n().filter(|&n| n <= AREA_MOST)?),
        b"out" => Call::Out(w.n().filter(|&n| n <= OUT_MOST)?),
        _ => return None,
    };
    w.0.next().is_none().then_some(call)
}

/// Reads a list item by item. An error gives its line and ends the reading.
pub struct Reader<'a> {
    rest: &'a [u8],
    line: usize,
    /// A whole profile has been read.
    ready: bool,
    /// Inside a profile that is not whole.
    in_profile: bool,
    failed: bool,
}

impl<'a> Reader<'a> {
    pub fn new(text: &'a [u8]) -> Self {
        Self {
            rest: text,
            line: 0,
            ready: false,
            in_profile: false,
            failed: false,
        }
    }

    /// Whether the reading has ended inside a profile.
    pub fn in_profile(&self) -> bool {
        self.in_profile
    }

    /// The line of the last item.
    pub fn line(&self) -> usize {
        self.line
    }

    /// The words of the next line that isn't passed over; None at the end.
    fn words(&mut self) -> Option<Result<Vec<&'a [u8]>, usize>> {
        loop {
            if self.rest.is_empty() {
                return None;
            }
            self.line += 1;
            let Some(end) = self.rest.iter().position(|&c| c == b'\n') else {
                return Some(Err(self.line));
            };
            let line = &self.rest[..end];
            self.rest = &self.rest[end + 1..];
            if line.len() > LONGEST_LINE || !line.is_ascii() {
                return Some(Err(self.line));
            }
            if line.is_empty() || line[0] == b'#' {
                continue;
            }
            let words: Vec<&[u8]> = line.split(|&c| c == b' ').collect();
            if words.iter().any(|w| w.is_empty()) {
                return Some(Err(self.line));
            }
            return Some(Ok(words));
        }
    }

    fn profile(&mut self) -> Result<Profile, usize> {
        let mut values = Vec::with_capacity(LINES.len());
        for (name, ranges) in LINES {
            let words = match self.words() {
                None => return Err(self.line + 1),
                Some(words) => words?,
            };
            if words[0] != name.as_bytes() || words.len() != ranges.len() + 1 {
                return Err(self.line);
            }
            let line: Option<Vec<_>> = ranges.iter().zip(&words[1..]).map(|(r, w)| r.read(w)).collect();
            values.push(line.ok_or(self.line)?);
        }
        Ok(Profile { values })
    }

    fn item(&mut self, words: &[&[u8]]) -> Result<Item, usize> {
        if words == [b"profile"] {
            self.in_profile = true;
            let profile = self.profile()?;
            self.in_profile = false;
            self.ready = true;
            return Ok(Item::Profile(profile));
        }
        if !self.ready {
            return Err(self.line);
        }
        read_call(words).map(Item::Call).ok_or(self.line)
    }
}

impl Iterator for Reader<'_> {
    type Item = Result<Item, usize>;

    fn next(&mut self) -> Option<Self::Item> {
        if self.failed {
            return None;
        }
        let item = match self.words()? {
            Ok(words) => self.item(&words),
            Err(line) => Err(line),
        };
        self.failed = item.is_err();
        Some(item)
    }
}

// Writing.

struct F32(f32);
struct F64(f64);

impl fmt::Display for F32 {
    fn fmt(&self, f: &mut fmt::Formatter) -> fmt::Result {
        write!(f, "0x{:08x}", self.0.to_bits())
    }
}

impl fmt::Display for F64 {
    fn fmt(&self, f: &mut fmt::Formatter) -> fmt::Result {
        write!(f, "0x{:016x}", self.0.to_bits())
    }
}

impl fmt::Display for Call {
    fn fmt(&self, f: &mut fmt::Formatter) -> fmt::Result {
        match self {
            Call::Connect {
                t,
                wave,
                here,
                session,
                db,
                echo,
                doppler,
                slot,
                cue,
            } => write!(
                f,
                "connect {} {wave} {} {session} {} {} {} {slot} {}",
                F64(*t),
                F32(*here),
                F32(*db),
                *echo as u8,
                *doppler as u8,
                *cue as u8
            ),
            Call::Queue(bytes, Said::Nothing) => write!(f, "queue {}", hex(bytes)),
            Call::Queue(bytes, Said::Class(class)) => write!(f, "queue {} {class}", hex(bytes)),
            Call::Queue(bytes, Said::Label(class, label)) => write!(f, "queue {} {class} {label}", hex(bytes)),
            Call::Short {
                t,
                wave,
                here,
                burst,
                bitmap,
                db,
                want_turn,
                want_disc,
                stored,
                echo,
                doppler,
                slot,
            } => write!(
                f,
                "short {} {wave} {} {burst} {bitmap} {} {} {} {} {} {} {slot}",
                F64(*t),
                F32(*here),
                F32(*db),
                *want_turn as u8,
                *want_disc as u8,
                *stored as u8,
                *echo as u8,
                *doppler as u8
            ),
            Call::Long {
                t,
                wave,
                here,
                want_turn,
                want_disc,
                stored,
                payload,
            } => write!(
                f,
                "long {} {wave} {} {} {} {} {}",
                F64(*t),
                F32(*here),
                *want_turn as u8,
                *want_disc as u8,
                *stored as u8,
                hex(payload)
            ),
            Call::Frames { t, wave, here, frames } => {
                write!(f, "frames {} {wave} {} {}", F64(*t), F32(*here), frames.len())?;
                frames
                    .iter()
                    .try_for_each(|d| write!(f, " {} {} {}", d.kind, d.flags, hex(&d.payload)))
            }
            Call::Turn { t, wave, here, db } => {
                write!(f, "turn {} {wave} {} ", F64(*t), F32(*here))?;
                match db {
                    Some(db) => write!(f, "{}", F32(*db)),
                    None => write!(f, "none"),
                }
            }
            Call::Burst => write!(f, "burst"),
            Call::Piece(offset) => write!(f, "piece {offset}"),
            Call::Levels {
                echo,
                doppler,
                low,
                high,
            } => write!(f, "levels {} {} {low} {high}", *echo as u8, *doppler as u8),
            Call::Heard(slot, frame) => write!(f, "heard {slot} {}", hex(frame)),
            Call::Receive { number, db } => write!(f, "receive {number} {db}"),
            Call::Arrive { db, places } => {
                write!(f, "arrive {db}")?;
                places.iter().try_for_each(|p| write!(f, " {p}"))
            }
            Call::Reply {
                t,
                wave,
                here,
                want_turn,
                want_disc,
                stored,
            } => write!(
                f,
                "reply {} {wave} {} {} {} {}",
                F64(*t),
                F32(*here),
                *want_turn as u8,
                *want_disc as u8,
                *stored as u8
            ),
            Call::Window(n) => write!(f, "window {n}"),
            Call::Box => write!(f, "box"),
            Call::State => write!(f, "state"),
            Call::Messages => write!(f, "messages"),
            Call::Area(n) => write!(f, "area {n}"),
            Call::Out(n) => write!(f, "out {n}"),
        }
    }
}

/// The list as text.
pub fn text(items: &[Item]) -> Vec<u8> {
    let mut out = Vec::new();
    for item in items {
        match item {
            Item::Profile(p) => out.extend(p.to_string().bytes()),
            Item::Call(c) => out.extend(format!("{c}\n").bytes()),
            Item::Raw(bytes) => out.extend(bytes),
        }
    }
    out
}
