//! Stand-in for `crate::chan`: the receiving side's measurements, of which
//! the sender reads `eff_snr_db` for a value that is not kept.

#[derive(Clone, Copy, Debug)]
#[allow(dead_code)]
pub struct ChannelMeas {
    pub delay_ms: f32,
    pub doppler_hz: f32,
    pub eff_snr_db: f32,
}

pub const ECHO_MS: f32 = 4.0;
pub const DOPPLER_HZ: f32 = 4.0;
