//! The profile.

use vanitycrow::*;

/// The original's default settings over a plausible radio.
pub fn usual() -> Profile {
    Profile {
        air: Air {
            slot_bits: [1024, 1024, 770, 515, 385, 4320, 2880, 5760, 2880, 4320, 2880, 2160, 2160, 2160, 1920, 1920, 1728],
            pre_s: [2.6, 0.9, 0.9, 0.9, 0.9, 0.8, 0.8, 0.5, 0.5, 0.4, 0.4, 0.4, 0.4, 0.4, 0.4, 0.4, 0.4],
            rate: [40.0, 150.0, 150.0, 150.0, 150.0, 750.0, 750.0, 2000.0, 2000.0, 2800.0, 2800.0, 2800.0, 4200.0, 5600.0, 5600.0, 8400.0, 8400.0],
            max_bits: [u32::MAX; 17],
            ack_s: [12.0, 3.2, 1.1, 0.9, 0.6, 0.5],
            cue_s: 1.12,
        },
        short_bytes: 32,
        long_bytes: 180,
        codes: Codes { mother: 5760, ends: [5760, 4320, 2880, 2160, 1920, 1728] },
        lengths: Lengths {
            max_burst_s: 8.0,
            max_burst_long_s: 32.0,
            burst_overhead: 0.12,
            turnaround_s: 0.3,
            burst_adapt: true,
            burst_steady_db: 3.0,
            burst_climb_db: MaybeDb { set: false, db: 0.0 },
        },
        hold_times: HoldTimes { fail_hold_s: 30.0, fail_hold_max_s: 480.0, loss_hold_s: 15.0 },
        plain: Marks {
            thresholds_db: [-12.0, -9.0, -8.0, -6.5, -4.5, -3.0, -0.5, 2.0, 6.5, 2.5, 5.5, 8.0, 12.0, 13.5, 15.5, 20.5, 23.5],
            margin_db: -1.0,
        },
        eff: Marks {
            thresholds_db: [-13.0, -11.0, -10.3, -8.9, -7.4, -5.0, -2.5, -0.5, 3.8, 0.0, 3.0, 5.0, 9.5, 11.0, 12.0, 17.0, 19.0],
            margin_db: 0.0,
        },
        eff_snr: true,
        cue_below_db: 7.0,
        start_margin_db: MaybeDb { set: true, db: 3.0 },
        max_level: 16,
        skip_slices_from: 8,
        pin_level: MaybeLevel { set: false, level: 0 },
        goodput: true,
        power: 0,
        harq: true,
        pick_family: true,
        smooth_target: true,
        hold_by_goodput: true,
        slice_slots: true,
        merge_pieces: true,
        cue: true,
        harq_partial: true,
    }
}
