//! The sender of an HF station: a safe wrapper of the C interface (include/vanitycrow.h, which documents every field).
//!
//! A `Station` holds one sender and its work area. Each call either does its work or gives back document 01's refusal, and then
//! nothing has changed. Nothing is allocated.

pub mod raw;

pub use raw::{
    Ack, Air, AtPeer, ChanClass, Codes, ConnAck, Counts, Frames, Gear, Heard, HoldTimes, Holds, LastBurst, Lengths, Link, Listing, LongAck, Marks,
    MaybeDb, MaybeLevel, Message, Messages, Outgoing, Profile, Received, Receiver, Reception, Reports, Sender, Tries, Turn,
};

/// The version of this interface, that of include/vanitycrow.h.
pub const VERSION: &str = env!("CARGO_PKG_VERSION");
/// Bytes of a work area.
pub const AREA_BYTES: usize = 49152;
/// Most frames of a burst.
pub const MAX_SLOTS: usize = 64;
/// Most messages that may wait.
pub const MAX_MESSAGES: usize = 256;
/// Least output of a link log.
pub const ADIF_BYTES: usize = 256;
/// Bytes of a profile as a file of version 1.
pub const CARD_BYTES: usize = 751;
/// The end of 2099, in seconds since 1970: a link log knows no later time.
pub const LAST_SECOND: u64 = 4_102_444_799;

/// Places of a box's window, and least output of its call.
pub const PLACES: usize = 32768;

/// Why a call was refused, by the numbers of documents 01 and 02.
#[derive(Clone, Copy, Debug, PartialEq, Eq)]
pub enum Refusal {
    ProfileOutOfRange = 1,
    ShortOverLong = 2,
    Unsound = 3,
    OutOfTurn = 4,
    BadTime = 5,
    BadValue = 6,
    ShortPayload = 7,
    QueueFull = 8,
    AllTaken = 9,
    ShortOutput = 10,
    BadClass = 11,
    TooManyMessages = 12,
    BadVersion = 13,
    BadCard = 14,
    /// A reception of more than 16 frames.
    TooManyFrames = 15,
    StretchRetired = 18,
    BadRange = 19,
    BadCallSign = 20,
    BadLinkTime = 21,
    ShortAdif = 22,
}

impl Refusal {
    /// The papers' number.
    pub fn number(self) -> u8 {
        self as u8
    }
}

fn told(number: u8) -> Result<(), Refusal> {
    use Refusal::*;
    match number {
        0 => Ok(()),
        1 => Err(ProfileOutOfRange),
        2 => Err(ShortOverLong),
        3 => Err(Unsound),
        4 => Err(OutOfTurn),
        5 => Err(BadTime),
        6 => Err(BadValue),
        7 => Err(ShortPayload),
        8 => Err(QueueFull),
        9 => Err(AllTaken),
        10 => Err(ShortOutput),
        11 => Err(BadClass),
        12 => Err(TooManyMessages),
        13 => Err(BadVersion),
        14 => Err(BadCard),
        15 => Err(TooManyFrames),
        18 => Err(StretchRetired),
        19 => Err(BadRange),
        20 => Err(BadCallSign),
        21 => Err(BadLinkTime),
        22 => Err(ShortAdif),
        _ => unreachable!("the contracts give no other number"),
    }
}

/// Decoded frames of one reception at most, and the bytes of a payload that an ack is read from.
const RECEIVED: usize = 16;
const READ: usize = 17;

/// A decoded frame: its kind and flags as the modem decoded them, and its payload.
#[derive(Clone, Copy, Debug)]
pub struct Decoded<'a> {
    pub kind: u8,
    pub flags: u8,
    pub payload: &'a [u8],
}

/// A finished link as one record of ADIF 3: the far station's call sign, the link's first and last second since 1970 in UTC, the bytes
/// acknowledged. The record is the start of `out`; what lies past it is kept, and all of it where the call is refused.
pub fn adif<'a>(call: &[u8], on: u64, off: u64, acked: u32, out: &'a mut [u8]) -> Result<&'a [u8], Refusal> {
    // SAFETY: pointers and lengths are those of live borrows that don't overlap.
    let logged = unsafe { raw::vanitycrow_adif(call.as_ptr(), call.len(), on, off, acked, out.as_mut_ptr(), out.len()) };
    told(logged.refusal).map(|()| &out[..logged.len])
}

impl Listing {
    /// Each level with the lowest report that gives it, ascending by level.
    pub fn entries(&self) -> impl Iterator<Item = (u8, u8)> + '_ {
        self.level.iter().copied().zip(self.q.iter().copied()).take(self.n)
    }
}

/// The levels that a sender under `profile` can choose for a report from `low` to `high` (report q is q - 24 dB) over a channel of this class.
pub fn levels(profile: &Profile, class: ChanClass, low: u8, high: u8) -> Result<Listing, Refusal> {
    // SAFETY: the pointer is that of a live borrow, and nothing is written.
    let listing = unsafe { raw::vanitycrow_levels(profile, class, low, high) };
    told(listing.refusal).map(|()| listing)
}

impl Profile {
    /// The profile as a file, to carry to another station (docs/CARD.md).
    pub fn to_card(&self) -> Result<[u8; CARD_BYTES], Refusal> {
        let mut file = [0; CARD_BYTES];
        // SAFETY: pointers and lengths are those of live borrows that don't overlap.
        told(unsafe { raw::vanitycrow_write_profile(self, file.as_mut_ptr(), file.len()) }).map(|()| file)
    }

    /// The profile of a file, and whether harq_stretch, which is retired, was on in it: it is read with that off. Of a file of version 2 to 15, what its
    /// version adds is passed over.
    pub fn from_card(file: &[u8]) -> Result<(Profile, bool), Refusal> {
        // SAFETY: all zeros is a value of Profile, which has only numbers, bools and arrays of them.
        let mut profile = unsafe { std::mem::zeroed() };
        // SAFETY: pointers and lengths are those of live borrows that don't overlap.
        let answer = unsafe { raw::vanitycrow_read_profile(file.as_ptr(), file.len(), &mut profile) };
        told(answer.refusal).map(|()| (profile, answer.stretched))
    }
}

/// The four classes. A message once begun is finished; then the lowest class waiting goes, the earliest of it first.
impl Message {
    pub const FLASH: Message = Message { class: 0, label: 0 };
    pub const IMMEDIATE: Message = Message { class: 1, label: 0 };
    pub const PRIORITY: Message = Message { class: 2, label: 0 };
    pub const ROUTINE: Message = Message { class: 3, label: 0 };

    /// The same with a label, 1 to 65,535 (0: none): it supersedes those of its label that have not begun, of any class. Withdrawn bytes still count among
    /// the 2^32 - 1 that a sender takes in all.
    pub const fn labelled(self, label: u16) -> Message {
        Message { class: self.class, label }
    }
}

impl Messages {
    /// Class, label and waiting bytes of each message, in the order in which they will go.
    pub fn entries(&self) -> impl Iterator<Item = (u8, u16, u16)> + '_ {
        (0..self.n.min(MAX_MESSAGES)).map(|i| (self.class[i], self.label[i], self.left[i]))
    }
}

/// A sender with its profile and its work area.
#[derive(Clone)]
pub struct Station {
    profile: Profile,
    record: raw::Station,
    area: [u8; AREA_BYTES],
}

impl Station {
    /// A sender that is not connected yet. A profile out of range is refused by every call.
    pub fn new(profile: Profile) -> Self {
        let mut record = std::mem::MaybeUninit::<raw::Station>::zeroed();
        // SAFETY: all zeros is a value of raw::Station, which has only numbers, bools and arrays of them.
        let record = unsafe {
            raw::vanitycrow_fresh(record.as_mut_ptr());
            record.assume_init()
        };
        Station { profile, record, area: [0; AREA_BYTES] }
    }

    pub fn profile(&self) -> &Profile {
        &self.profile
    }

    /// The sender's part of the record, to read.
    pub fn sender(&self) -> &Sender {
        &self.record.sender
    }

    /// The messages of which bytes wait, to read.
    pub fn messages(&self) -> &Messages {
        &self.record.messages
    }

    /// Queues bytes to send as one message, and withdraws those that its label supersedes; no bytes make no message and withdraw none.
    pub fn queue(&mut self, message: Message, bytes: &[u8]) -> Result<(), Refusal> {
        // SAFETY: pointers and lengths are those of live borrows that don't overlap.
        told(unsafe {
            raw::vanitycrow_queue(&self.profile, &mut self.record, self.area.as_mut_ptr(), AREA_BYTES, message, bytes.as_ptr(), bytes.len())
        })
    }

    /// The called station's answer.
    pub fn connect(&mut self, heard: Heard, reply: ConnAck) -> Result<(), Refusal> {
        // SAFETY: as above.
        told(unsafe { raw::vanitycrow_connect(&self.profile, &mut self.record, self.area.as_mut_ptr(), AREA_BYTES, heard, reply) })
    }

    pub fn short_ack(&mut self, heard: Heard, reply: Ack) -> Result<(), Refusal> {
        // SAFETY: as above.
        told(unsafe { raw::vanitycrow_short_ack(&self.profile, &mut self.record, self.area.as_mut_ptr(), AREA_BYTES, heard, reply) })
    }

    pub fn long_ack(&mut self, heard: Heard, reply: LongAck, payload: &[u8]) -> Result<(), Refusal> {
        // SAFETY: as above.
        told(unsafe {
            raw::vanitycrow_long_ack(
                &self.profile,
                &mut self.record,
                self.area.as_mut_ptr(),
                AREA_BYTES,
                heard,
                reply,
                payload.as_ptr(),
                payload.len(),
            )
        })
    }

    /// All decoded frames of one reception: as the acks among them one after the other; the others are passed over.
    pub fn frames(&mut self, heard: Heard, frames: &[Decoded]) -> Result<(), Refusal> {
        let mut r = Reception { n: frames.len(), kind: [0; RECEIVED], flags: [0; RECEIVED], len: [0; RECEIVED] };
        let mut payloads = [0; RECEIVED * READ];
        let mut at = 0;
        for (i, f) in frames.iter().enumerate().take(RECEIVED) {
            // No ack is read past its 17th byte.
            let payload = &f.payload[..f.payload.len().min(READ)];
            (r.kind[i], r.flags[i], r.len[i]) = (f.kind, f.flags, payload.len() as u32);
            payloads[at..at + payload.len()].copy_from_slice(payload);
            at += payload.len();
        }
        // SAFETY: as above.
        told(unsafe { raw::vanitycrow_frames(&self.profile, &mut self.record, self.area.as_mut_ptr(), AREA_BYTES, heard, r, payloads.as_ptr(), at) })
    }

    pub fn turn(&mut self, heard: Heard, reply: Turn) -> Result<(), Refusal> {
        // SAFETY: as above.
        told(unsafe { raw::vanitycrow_turn(&self.profile, &mut self.record, self.area.as_mut_ptr(), AREA_BYTES, heard, reply) })
    }

    /// The next burst. Its frames stand back to back in `out`, each of `frame_bytes` bytes.
    pub fn data_burst(&mut self, out: &mut [u8]) -> Result<Outgoing, Refusal> {
        // SAFETY: as above.
        let b =
            unsafe { raw::vanitycrow_data_burst(&self.profile, &mut self.record, self.area.as_mut_ptr(), AREA_BYTES, out.as_mut_ptr(), out.len()) };
        told(b.refusal).map(|()| b.outgoing)
    }

    /// Bytes of a frame at the present level.
    pub fn frame_bytes(&self) -> usize {
        let short = self.sender().gear.level <= 4;
        (if short { self.profile.short_bytes } else { self.profile.long_bytes }) as usize
    }

    /// The bytes of the flying piece at an offset, if one begins there.
    pub fn piece(&self, offset: u32) -> Result<Option<&[u8]>, Refusal> {
        // SAFETY: as above; nothing is written.
        let p = unsafe { raw::vanitycrow_find(&self.profile, &self.record, self.area.as_ptr(), AREA_BYTES, offset) };
        told(p.refusal).map(|()| p.here.then(|| &self.area[p.start..p.start + p.len]))
    }
}

/// The receiving end: a box that listens, with its window.
pub struct Listener {
    record: Receiver,
    window: [u16; PLACES],
}

impl Default for Listener {
    fn default() -> Self {
        Self::new()
    }
}

impl Listener {
    pub fn new() -> Self {
        let mut record = Receiver { first_missing: 0 };
        // SAFETY: the pointer is that of a live borrow.
        unsafe { raw::vanitycrow_fresh_receiver(&mut record) };
        Self { record, window: [0; PLACES] }
    }

    /// The first missing byte, which is the count of bytes handed on.
    pub fn first_missing(&self) -> u32 {
        self.record.first_missing
    }

    /// A burst's number and its decoded frames, which stand in `bytes` one after the other, of the lengths `sizes` and with the slot numbers
    /// `slots`. The stream goes on into `out`, of `PLACES` bytes or more; the answer has the payload of the long ack to send.
    pub fn receive(&mut self, number: u8, db: u8, bytes: &[u8], sizes: &[u16], slots: &[u8], out: &mut [u8]) -> Result<Received, Refusal> {
        // SAFETY: pointers and lengths are those of live borrows that don't overlap.
        let a = unsafe {
            raw::vanitycrow_receive(
                &mut self.record,
                self.window.as_mut_ptr(),
                PLACES,
                number,
                db,
                bytes.as_ptr(),
                bytes.len(),
                sizes.as_ptr(),
                sizes.len(),
                slots.as_ptr(),
                slots.len(),
                out.as_mut_ptr(),
                out.len(),
            )
        };
        told(a.refusal).map(|()| a)
    }
}
