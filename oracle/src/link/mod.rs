//! The original's `link`, as far as the sender needs it.

include!(concat!(env!("OUT_DIR"), "/frame_mod.rs"));
include!(concat!(env!("OUT_DIR"), "/report_mod.rs"));

pub mod harq;
pub mod station;

/// Stand-in: times of the stream gear, which never runs here.
pub mod stream {
    pub const DRAIN_S: f64 = 0.0;
    pub const DRAIN_HOLD_S: f64 = 0.0;
}

/// Stand-in: the one number of `audio` that the sender reads.
pub mod audio {
    pub const TD_EASE_DOPPLER_HZ: f32 = 1.8;
}
