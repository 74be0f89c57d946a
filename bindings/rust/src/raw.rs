//! The C interface as it is: include/vanitycrow.h, field by field.

macro_rules! plain {
    ($($(#[$doc:meta])* struct $name:ident { $($field:ident: $type:ty,)* })*) => {
        $($(#[$doc])* #[repr(C)] #[derive(Clone, Copy, Debug, PartialEq)]
        pub struct $name { $(pub $field: $type,)* })*

        /// Size and alignment of every struct; offset, size and type of every field. A test compares these lines with the header's.
        #[doc(hidden)]
        pub fn layout() -> String {
            use std::mem::{align_of, offset_of, size_of};
            let mut lines = String::new();
            $(
                lines += &format!("{} {} {}\n", stringify!($name), size_of::<$name>(), align_of::<$name>());
                $(
                    let (offset, size) = (offset_of!($name, $field), size_of::<$type>());
                    lines += &format!("{}.{} {offset} {size} {}\n", stringify!($name), stringify!($field), kind(stringify!($type)));
                )*
            )*
            lines
        }
    };
}

/// The type of a field or of its elements, as C tells them apart: usize is u64 here.
fn kind(name: &str) -> &str {
    let element = name.trim_start_matches('[').split(';').next().unwrap_or(name);
    match element {
        "bool" | "u8" | "u16" | "u32" | "u64" | "f32" | "f64" => element,
        "usize" => "u64",
        _ => "struct",
    }
}

plain! {
    struct MaybeDb { set: bool, db: f32, }
    struct MaybeLevel { set: bool, level: usize, }
    struct Air {
        slot_bits: [u32; 17],
        pre_s: [f64; 17],
        rate: [f64; 17],
        max_bits: [u32; 17],
        ack_s: [f64; 6],
        cue_s: f64,
    }
    struct Marks { thresholds_db: [f32; 17], margin_db: f32, }
    struct Codes { mother: u32, ends: [u32; 6], }
    struct Lengths {
        max_burst_s: f64,
        max_burst_long_s: f64,
        burst_overhead: f64,
        turnaround_s: f64,
        burst_adapt: bool,
        burst_steady_db: f32,
        burst_climb_db: MaybeDb,
    }
    struct HoldTimes { fail_hold_s: f64, fail_hold_max_s: f64, loss_hold_s: f64, }
    struct Profile {
        air: Air,
        short_bytes: u32,
        long_bytes: u32,
        codes: Codes,
        lengths: Lengths,
        hold_times: HoldTimes,
        plain: Marks,
        eff: Marks,
        eff_snr: bool,
        cue_below_db: f32,
        start_margin_db: MaybeDb,
        max_level: usize,
        skip_slices_from: usize,
        pin_level: MaybeLevel,
        goodput: bool,
        power: u8,
        harq: bool,
        pick_family: bool,
        smooth_target: bool,
        hold_by_goodput: bool,
        slice_slots: bool,
        merge_pieces: bool,
        cue: bool,
        harq_partial: bool,
    }
    struct ChanClass { echo: bool, doppler: bool, }
    struct Reports { count: u8, a: f32, b: f32, c: f32, }
    struct Tries { tried: [bool; 17], success: [f32; 17], success_at: [f64; 17], fails: [u8; 17], }
    struct Holds { blocked_until: [f64; 17], hold_all: [bool; 17], }
    struct Gear {
        level: usize,
        target: usize,
        burst_s: f64,
        aim_db: MaybeDb,
        last_report_db: MaybeDb,
        snr_reports: Reports,
        peer_class: ChanClass,
        cue: bool,
        tries: Tries,
        holds: Holds,
    }
    struct Link {
        connected: bool,
        awaiting: bool,
        session: u8,
        last_time: f64,
        burst_id: u8,
        heard: bool,
        peer_heard: u8,
        peer_slot: u8,
        peer_doppler_hz: f32,
        peer_wants_turn: bool,
        peer_wants_disc: bool,
        peer_wave: u8,
    }
    struct Counts { next_offset: u32, waiting: u32, flying: u32, pieces: usize, bytes_acked: u32, airtime_ms: u64, }
    struct AtPeer { off: [u32; 64], bits: [u32; 64], n: usize, rest: usize, }
    struct LastBurst { off: [u32; 64], bits: [u32; 64], held: [u32; 64], n: usize, }
    struct Sender { gear: Gear, link: Link, counts: Counts, at_peer: AtPeer, last_burst: LastBurst, }
    struct Messages { left: [u16; 256], class: [u8; 256], label: [u16; 256], n: usize, withdrawn: u32, begun: bool, }
    struct Station { sender: Sender, messages: Messages, }
    struct Message { class: u8, label: u16, }
    struct Heard { time: f64, wave: u8, snr_db: f32, }
    struct ConnAck { session: u8, snr_db: f32, class: ChanClass, slot: u8, cue: bool, }
    struct Ack {
        burst: u8,
        bitmap: u8,
        snr_db: f32,
        want_turn: bool,
        want_disc: bool,
        stored: bool,
        class: ChanClass,
        slot: u8,
    }
    struct LongAck { want_turn: bool, want_disc: bool, stored: bool, }
    struct Reception { n: usize, kind: [u8; 16], flags: [u8; 16], len: [u32; 16], }
    struct Turn { report: MaybeDb, }
    struct Frames { off: [u32; 64], len: [u32; 64], start: [u32; 64], bits: [u32; 64], n: usize, }
    struct Outgoing {
        wave: u8,
        code: usize,
        user: u16,
        extra: u16,
        cue: bool,
        td_ease: bool,
        number: u8,
        frames: Frames,
    }
    struct Burst { refusal: u8, outgoing: Outgoing, }
    struct Place { refusal: u8, here: bool, start: usize, len: usize, }
    struct Logged { refusal: u8, len: usize, }
    struct Listing { refusal: u8, n: usize, level: [u8; 17], q: [u8; 17], }
    struct CardAnswer { refusal: u8, stretched: bool, }
    struct Receiver { first_missing: u32, }
    struct Received { refusal: u8, payload: [u8; 13], handed: u32, wrong: usize, beyond: usize, }
}

extern "C" {
    pub fn vanitycrow_fresh(t: *mut Station);
    pub fn vanitycrow_queue(p: *const Profile, t: *mut Station, a: *mut u8, a_len: usize, m: Message, bytes: *const u8, n: usize) -> u8;
    pub fn vanitycrow_connect(p: *const Profile, t: *mut Station, a: *mut u8, a_len: usize, h: Heard, r: ConnAck) -> u8;
    pub fn vanitycrow_short_ack(p: *const Profile, t: *mut Station, a: *mut u8, a_len: usize, h: Heard, r: Ack) -> u8;
    pub fn vanitycrow_long_ack(
        p: *const Profile,
        t: *mut Station,
        a: *mut u8,
        a_len: usize,
        h: Heard,
        r: LongAck,
        payload: *const u8,
        n: usize,
    ) -> u8;
    pub fn vanitycrow_frames(
        p: *const Profile,
        t: *mut Station,
        a: *mut u8,
        a_len: usize,
        h: Heard,
        r: Reception,
        payloads: *const u8,
        n: usize,
    ) -> u8;
    pub fn vanitycrow_turn(p: *const Profile, t: *mut Station, a: *mut u8, a_len: usize, h: Heard, r: Turn) -> u8;
    pub fn vanitycrow_data_burst(p: *const Profile, t: *mut Station, a: *mut u8, a_len: usize, out: *mut u8, n: usize) -> Burst;
    pub fn vanitycrow_find(p: *const Profile, t: *const Station, a: *const u8, a_len: usize, off: u32) -> Place;
    pub fn vanitycrow_adif(call: *const u8, call_len: usize, on: u64, off: u64, acked: u32, out: *mut u8, n: usize) -> Logged;
    pub fn vanitycrow_levels(p: *const Profile, class: ChanClass, low: u8, high: u8) -> Listing;
    pub fn vanitycrow_write_profile(p: *const Profile, out: *mut u8, n: usize) -> u8;
    pub fn vanitycrow_read_profile(file: *const u8, n: usize, p: *mut Profile) -> CardAnswer;
    pub fn vanitycrow_fresh_receiver(r: *mut Receiver);
    pub fn vanitycrow_receive(
        r: *mut Receiver,
        window: *mut u16,
        places: usize,
        number: u8,
        db: u8,
        bytes: *const u8,
        n: usize,
        sizes: *const u16,
        sizes_n: usize,
        slots: *const u8,
        slots_n: usize,
        out: *mut u8,
        out_n: usize,
    ) -> Received;
}
