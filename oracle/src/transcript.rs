//! The transcript of a call list.

use std::fmt::Write;

use crate::harness::{Answer, Harness};
use crate::link::frame::caps;
use crate::link::station::wave_rank;
use crate::list::{Call, Item, Reader, hex};

fn f32_bits(x: f32) -> String {
    if x.is_nan() {
        "nan".to_string()
    } else {
        format!("0x{:08x}", if x == 0.0 { 0 } else { x.to_bits() })
    }
}

fn f64_bits(x: f64) -> String {
    if x.is_nan() {
        "nan".to_string()
    } else {
        format!("0x{:016x}", if x == 0.0 { 0 } else { x.to_bits() })
    }
}

fn or_none<T>(x: Option<T>, show: impl Fn(T) -> String) -> String {
    x.map_or("none".to_string(), show)
}

fn name(call: &Call) -> &'static str {
    match call {
        Call::Connect { .. } => "connect",
        Call::Queue(..) => "queue",
        Call::Short { .. } => "short",
        Call::Long { .. } => "long",
        Call::Frames { .. } => "frames",
        Call::Turn { .. } => "turn",
        Call::Burst => "burst",
        Call::Piece(_) => "piece",
        Call::Levels { .. } => "levels",
        Call::Heard(..) => "heard",
        Call::Receive { .. } => "receive",
        Call::Arrive { .. } => "arrive",
        Call::Reply { .. } => "reply",
        Call::Window(_) => "window",
        Call::Box => "box",
        Call::State => "state",
        Call::Messages => "messages",
        Call::Area(_) => "area",
        Call::Out(_) => "out",
    }
}

/// The lines of `state`.
pub fn state(out: &mut String, h: &Harness) {
    let s = &h.station;
    let connected = s.connected();
    let _ = writeln!(
        out,
        "state {} {} {} {} {} {} {} {} {}",
        s.level,
        s.target,
        or_none(connected.then_some(s.burst_s), f64_bits),
        connected as u8,
        h.awaiting() as u8,
        s.session,
        s.burst_id,
        or_none(s.peer_heard, |n| n.to_string()),
        or_none(h.last_time, f64_bits)
    );
    let _ = writeln!(
        out,
        "link {} {} {} {} {} {} {}",
        s.peer_wants_turn as u8,
        s.peer_wants_disc as u8,
        s.peer_class.echo as u8,
        s.peer_class.doppler as u8,
        s.peer_slot,
        f32_bits(s.peer_doppler_hz),
        (s.caps & caps::CUE != 0) as u8
    );
    let _ = write!(
        out,
        "aim {} {}",
        or_none(s.aim_db, f32_bits),
        or_none(s.last_report_db, f32_bits)
    );
    for &x in &s.snr_reports {
        let _ = write!(out, " {}", f32_bits(x));
    }
    out.push('\n');
    for l in 0..17 {
        let _ = writeln!(
            out,
            "gear {l} {} {} {} {} {}",
            or_none(s.success[l], f32_bits),
            f64_bits(s.success_at[l]),
            s.fails[l],
            f64_bits(s.blocked_until[l]),
            s.hold_all[l] as u8
        );
    }
    let _ = writeln!(
        out,
        "counts {} {} {} {} {}",
        h.taken,
        s.out.len(),
        h.flying(),
        h.acked(),
        h.airtime_ms
    );
    let _ = write!(out, "pieces {}", s.inflight.len());
    for (offset, bytes) in &s.inflight {
        let _ = write!(out, " {offset}:{}", bytes.len());
    }
    let _ = write!(out, "\nheld {} {}", s.at_peer.len(), wave_rank(s.peer_wave));
    for (offset, bits) in &s.at_peer {
        let _ = write!(out, " {offset}:{bits}");
    }
    let _ = write!(out, "\nrest {}", s.at_peer_rest.len());
    for (offset, bits) in &s.at_peer_rest {
        let _ = write!(out, " {offset}:{bits}");
    }
    let _ = write!(out, "\nsent {}", s.last_burst.len());
    for f in &s.last_burst {
        let _ = write!(out, " {}:{}:{}", f.off, f.bits, f.held);
    }
    out.push('\n');
}

/// The line of `messages`.
pub fn messages(out: &mut String, h: &Harness) {
    let order = h.messages.in_order();
    let _ = write!(
        out,
        "messages {} {} {}",
        order.len(),
        h.messages.begun() as u8,
        h.messages.withdrawn()
    );
    for m in order {
        let _ = write!(out, " {}:{}:{}", m.class, m.label, m.bytes.len());
    }
    out.push('\n');
}

/// Makes the call and writes its answer.
pub fn answer(out: &mut String, h: &mut Harness, call: &Call) -> Answer {
    if let Call::State = call {
        state(out, h);
        return Answer::Ok;
    }
    if let Call::Messages = call {
        messages(out, h);
        return Answer::Ok;
    }
    if let Call::Box = call {
        let _ = writeln!(out, "box {} {}", h.listener.first, h.listener.kept.len());
        return Answer::Ok;
    }
    let answer = h.call(call);
    let name = name(call);
    let _ = match &answer {
        Answer::Ok => writeln!(out, "{name} ok"),
        Answer::Refused(number) => writeln!(out, "{name} refused {number}"),
        Answer::Levels(found) => {
            let words: String = found.iter().map(|(level, q)| format!(" {level}:{q}")).collect();
            writeln!(out, "levels ok{words}")
        }
        Answer::Error => Ok(()),
        Answer::Heard(a) => writeln!(
            out,
            "{name} ok {} {} {} {}",
            hex(&a.payload),
            a.wrong,
            a.beyond,
            hex(&a.handed)
        ),
        Answer::Piece(None) => writeln!(out, "piece none"),
        Answer::Piece(Some(bytes)) => writeln!(out, "piece {}", hex(bytes)),
        Answer::Burst(b) => {
            let _ = writeln!(
                out,
                "burst ok {} {} {} {} {} {} {}",
                b.wave,
                b.code,
                b.user,
                b.extra,
                b.cue as u8,
                b.td_ease as u8,
                b.frames.len()
            );
            for f in &b.frames {
                let _ = writeln!(
                    out,
                    "frame {} {} {} {} {}",
                    f.offset,
                    f.len,
                    f.start,
                    f.bits,
                    hex(&f.bytes)
                );
            }
            Ok(())
        }
    };
    answer
}

fn end(out: &mut String, h: Option<&Harness>) {
    let _ = match h {
        None => writeln!(out, "end 0 0 0 0"),
        Some(h) => writeln!(
            out,
            "end {} {} {} {}",
            h.taken,
            h.station.out.len(),
            h.flying(),
            h.acked()
        ),
    };
}

/// The transcript of the list `text`.
pub fn transcript(text: &[u8]) -> String {
    let mut out = String::new();
    let mut sender: Option<Harness> = None;
    let mut reader = Reader::new(text);
    while let Some(item) = reader.next() {
        match item {
            Err(line) => {
                // `end` comes before a later `profile`, a broken one too.
                if reader.in_profile() && sender.is_some() {
                    end(&mut out, sender.as_ref());
                }
                let _ = writeln!(out, "error {line}");
                return out;
            }
            Ok(Item::Profile(p)) => {
                if sender.is_some() {
                    end(&mut out, sender.as_ref());
                }
                sender = Some(Harness::new(p));
            }
            Ok(Item::Call(call)) => {
                let h = sender.as_mut().expect("a call follows a profile");
                if let Answer::Error = answer(&mut out, h, &call) {
                    let _ = writeln!(out, "error {}", reader.line());
                    return out;
                }
            }
            Ok(Item::Raw(_)) => unreachable!("the reader gives no raw items"),
        }
    }
    end(&mut out, sender.as_ref());
    out
}
