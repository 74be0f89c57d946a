//! A mail of two messages over a simulated lossy link, through the safe wrapper: link CALLS TRANSCRIPT, as examples/link.c does in C.
//!
//! The routine message supersedes an older one of its label, which never goes on the air; the flash message is queued last and goes first. A
//! far station loses every third frame or so and answers with short and long acks until the whole mail is there. What was called goes to CALLS
//! and what was answered to TRANSCRIPT, for a comparison with `replay` (docs/CALLS.md); a station leaves the `list` lines out.

mod call_list;
mod usual;

use call_list::CallList;
use vanitycrow::*;

const MAIL_BYTES: usize = 9000; // in the order in which they go
const FLASH_BYTES: usize = 200; // of these
const OLD_BYTES: usize = 300; // of the message that is superseded
const BULLETIN: Message = Message::ROUTINE.labelled(1);
const OUT_BYTES: usize = MAX_SLOTS * 180; // 64 long frames

/// Numbers of a fixed sequence.
struct Chance(u64);

impl Chance {
    fn below(&mut self, n: u32) -> u32 {
        self.0 = self.0.wrapping_mul(6364136223846793005).wrapping_add(1442695040888963407);
        (self.0 >> 33) as u32 % n
    }
}

/// The far station: what it has of the mail.
struct Far {
    got: Vec<Option<u8>>,
    chance: Chance,
}

impl Far {
    /// Hears a burst and keeps the payload of each frame that arrives; gives the bitmap of these.
    fn arrive(&mut self, o: &Outgoing, out: &[u8], size: usize) -> u64 {
        let mut bitmap = 0;
        for (i, frame) in out.chunks(size).take(o.frames.n).enumerate() {
            if self.chance.below(3) == 0 {
                continue;
            }
            bitmap |= 1 << i;
            let (off, len) = (o.frames.off[i] as usize, o.frames.len[i] as usize);
            for k in 0..len {
                self.got[off + k] = Some(frame[6 + k]);
            }
        }
        bitmap
    }
}

fn queue(station: &mut Station, message: Message, bytes: &[u8], list: &mut CallList) -> Result<(), Refusal> {
    let answer = station.queue(message, bytes);
    list.queue(message, bytes, answer);
    list.messages(station.messages());
    answer
}

/// The called station answers, and the mail is queued: a routine message, a newer one of its label, then a flash message.
fn begin(station: &mut Station, mail: &[u8], list: &mut CallList) -> Result<(), Refusal> {
    let heard = Heard { time: 1.0, wave: 1, snr_db: 2.0 };
    let class = ChanClass { echo: false, doppler: false };
    let reply = ConnAck { session: 7, snr_db: 5.0, class, slot: 0, cue: true };
    let answer = station.connect(heard, reply);
    list.connect(heard, reply, answer);
    answer?;
    let (flash, routine) = mail.split_at(FLASH_BYTES);
    queue(station, BULLETIN, &[0; OLD_BYTES], list)?;
    queue(station, BULLETIN, routine, list)?;
    queue(station, Message::FLASH, flash, list)
}

/// A burst and its ack: a short one up to six frames, else a long one.
fn exchange(station: &mut Station, far: &mut Far, time: f64, list: &mut CallList) -> Result<(), Refusal> {
    let heard = Heard { time, wave: 5, snr_db: 4.0 };
    let snr_db = (3 + far.chance.below(12)) as f32;
    let size = station.frame_bytes();
    let mut out = [0; OUT_BYTES];
    let o = station.data_burst(&mut out)?;
    list.burst(&o, &out, size);
    list.messages(station.messages());
    let bitmap = far.arrive(&o, &out, size);
    let (want_turn, want_disc, stored) = (false, false, true);
    if o.frames.n <= 6 {
        let class = ChanClass { echo: false, doppler: false };
        let reply = Ack { burst: o.number, bitmap: bitmap as u8, snr_db, want_turn, want_disc, stored, class, slot: 0 };
        let answer = station.short_ack(heard, reply);
        list.short_ack(heard, reply, answer);
        return answer;
    }
    let mut payload = [0; 13];
    payload[0] = o.number;
    payload[1..9].copy_from_slice(&bitmap.to_le_bytes());
    payload[9] = (snr_db + 24.0) as u8;
    let reply = LongAck { want_turn, want_disc, stored };
    let answer = station.long_ack(heard, reply, &payload);
    list.long_ack(heard, reply, &payload, answer);
    answer
}

fn main() {
    let args: Vec<String> = std::env::args().collect();
    let [_, calls_file, transcript_file] = &args[..] else {
        eprintln!("usage: link CALLS TRANSCRIPT");
        std::process::exit(2);
    };
    let mut chance = Chance(20261115);
    let mail: Vec<u8> = (0..MAIL_BYTES).map(|_| chance.below(256) as u8).collect();
    let mut far = Far { got: vec![None; MAIL_BYTES], chance };
    let mut station = Station::new(usual::usual());
    let mut list = CallList::default();
    let mut bursts = 0;
    list.profile(station.profile());
    begin(&mut station, &mail, &mut list).expect("the mail is queued");
    while (station.sender().counts.bytes_acked as usize) < MAIL_BYTES && bursts < 1000 {
        exchange(&mut station, &mut far, 10.0 + 10.0 * bursts as f64, &mut list).expect("the burst goes and its ack is taken");
        bursts += 1;
    }
    let counts = &station.sender().counts;
    list.end(counts, station.messages());
    std::fs::write(calls_file, list.calls).expect("CALLS can be written");
    std::fs::write(transcript_file, list.transcript).expect("TRANSCRIPT can be written");
    assert!(far.got.iter().zip(&mail).all(|(g, m)| *g == Some(*m)), "the mail that arrived is another");
    println!("{MAIL_BYTES} bytes of mail in {bursts} bursts, {} ms on the air", counts.airtime_ms);
}
