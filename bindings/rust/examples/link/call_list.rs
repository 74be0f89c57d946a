//! Writes each call as a line of a call list and its answer as the lines of the transcript (docs/CALLS.md), so that `replay` can be held against the
//! wrapper. A station does not need it.

use std::fmt::Write;

use vanitycrow::*;

#[derive(Default)]
pub struct CallList {
    pub calls: String,
    pub transcript: String,
}

fn doubles(xs: &[f64]) -> String {
    xs.iter().map(|x| format!(" 0x{:016x}", x.to_bits())).collect()
}

fn singles(xs: &[f32]) -> String {
    xs.iter().map(|x| format!(" 0x{:08x}", x.to_bits())).collect()
}

fn maybe(x: MaybeDb) -> String {
    if x.set {
        singles(&[x.db])
    } else {
        " none".to_string()
    }
}

fn flags(xs: &[bool]) -> String {
    xs.iter().map(|x| format!(" {}", *x as u8)).collect()
}

fn hex(bytes: &[u8]) -> String {
    bytes.iter().map(|b| format!("{b:02x}")).collect()
}

fn heard(h: Heard) -> String {
    format!("{} {}{}", doubles(&[h.time]), h.wave, singles(&[h.snr_db]))
}

impl CallList {
    fn call(&mut self, line: std::fmt::Arguments) {
        let _ = writeln!(self.calls, "{line}");
    }

    fn answer(&mut self, name: &str, answer: Result<(), Refusal>) {
        let _ = match answer {
            Ok(()) => writeln!(self.transcript, "{name} ok"),
            Err(r) => writeln!(self.transcript, "{name} refused {}", r.number()),
        };
    }

    pub fn profile(&mut self, p: &Profile) {
        let (q, h) = (&p.lengths, &p.hold_times);
        self.call(format_args!("profile"));
        for l in 0..17 {
            let air = doubles(&[p.air.pre_s[l], p.air.rate[l]]);
            self.call(format_args!("level {}{air} {}", p.air.slot_bits[l], p.air.max_bits[l]));
        }
        let ends: String = p.codes.ends.iter().map(|e| format!(" {e}")).collect();
        self.call(format_args!("ack_s{}\ncue_s{}", doubles(&p.air.ack_s), doubles(&[p.air.cue_s])));
        self.call(format_args!("frame_bytes {} {}\nharq {}{ends}", p.short_bytes, p.long_bytes, p.codes.mother));
        self.call(format_args!("burst{}", doubles(&[q.max_burst_s, q.max_burst_long_s, q.burst_overhead, q.turnaround_s])));
        self.call(format_args!("hold{}", doubles(&[h.fail_hold_s, h.fail_hold_max_s, h.loss_hold_s])));
        self.call(format_args!("thresholds_db{}", singles(&p.plain.thresholds_db)));
        self.call(format_args!("eff_thresholds_db{}", singles(&p.eff.thresholds_db)));
        self.call(format_args!("db{}", singles(&[p.plain.margin_db, p.eff.margin_db, p.cue_below_db, q.burst_steady_db])));
        self.call(format_args!("start_margin_db{}\nburst_climb_db{}", maybe(p.start_margin_db), maybe(q.burst_climb_db)));
        self.switches(p);
    }

    fn switches(&mut self, p: &Profile) {
        let pin = if p.pin_level.set { p.pin_level.level.to_string() } else { "none".to_string() };
        let gear = if p.goodput { "goodput" } else { "ladder" };
        let power = ["none", "mean", "td"][p.power as usize];
        self.call(format_args!("levels {} {}\npin_level {pin}\ngear {gear}\npower {power}", p.max_level, p.skip_slices_from));
        let first = flags(&[p.harq, p.pick_family, p.eff_snr, p.lengths.burst_adapt, p.smooth_target, p.hold_by_goodput]);
        let last = flags(&[p.slice_slots, p.merge_pieces, p.cue, p.harq_partial]);
        self.call(format_args!("on{first}{last}"));
    }

    pub fn connect(&mut self, h: Heard, r: ConnAck, answer: Result<(), Refusal>) {
        let (db, class, cue) = (singles(&[r.snr_db]), flags(&[r.class.echo, r.class.doppler]), flags(&[r.cue]));
        self.call(format_args!("connect{} {}{db}{class} {}{cue}", heard(h), r.session, r.slot));
        self.answer("connect", answer);
    }

    pub fn queue(&mut self, message: Message, bytes: &[u8], answer: Result<(), Refusal>) {
        self.call(format_args!("queue {} {} {}", hex(bytes), message.class, message.label));
        self.answer("queue", answer);
    }

    /// The line of `messages`.
    pub fn messages(&mut self, m: &Messages) {
        let entries: String = m.entries().map(|(class, label, left)| format!(" {class}:{label}:{left}")).collect();
        self.call(format_args!("messages"));
        let _ = writeln!(self.transcript, "messages {} {} {}{entries}", m.n, (m.n > 0 && m.begun) as u8, m.withdrawn);
    }

    pub fn short_ack(&mut self, h: Heard, r: Ack, answer: Result<(), Refusal>) {
        let wishes = flags(&[r.want_turn, r.want_disc, r.stored, r.class.echo, r.class.doppler]);
        self.call(format_args!("short{} {} {}{}{wishes} {}", heard(h), r.burst, r.bitmap, singles(&[r.snr_db]), r.slot));
        self.answer("short", answer);
    }

    pub fn long_ack(&mut self, h: Heard, r: LongAck, payload: &[u8], answer: Result<(), Refusal>) {
        let wishes = flags(&[r.want_turn, r.want_disc, r.stored]);
        self.call(format_args!("long{}{wishes} {}", heard(h), hex(payload)));
        self.answer("long", answer);
    }

    /// A burst whose frames, each of `size` bytes, stand in `out`.
    pub fn burst(&mut self, o: &Outgoing, out: &[u8], size: usize) {
        let (f, t) = (&o.frames, &mut self.transcript);
        let marks = flags(&[o.cue, o.td_ease]);
        let _ = writeln!(t, "burst ok {} {} {} {}{marks} {}", o.wave, o.code, o.user, o.extra, f.n);
        for (i, frame) in out.chunks(size).take(f.n).enumerate() {
            let _ = writeln!(t, "frame {} {} {} {} {}", f.off[i], f.len[i], f.start[i], f.bits[i], hex(frame));
        }
        self.call(format_args!("burst"));
    }

    /// Closes the transcript; withdrawn bytes are taken.
    pub fn end(&mut self, c: &Counts, m: &Messages) {
        let taken = c.next_offset + c.waiting + m.withdrawn;
        let _ = writeln!(self.transcript, "end {taken} {} {} {}", c.waiting, c.flying, c.bytes_acked);
    }
}
