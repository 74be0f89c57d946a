/* The original's default settings over a plausible radio. */
#ifndef USUAL_H
#define USUAL_H
#include <string.h>
#include "vanitycrow.h"

static inline struct vanitycrow_air usual_air(void) {
    static const struct vanitycrow_air air = {
        .slot_bits = {1024, 1024, 770, 515, 385, 4320, 2880, 5760, 2880, 4320, 2880, 2160, 2160, 2160, 1920, 1920, 1728},
        .pre_s = {2.6, .9, .9, .9, .9, .8, .8, .5, .5, .4, .4, .4, .4, .4, .4, .4, .4},
        .rate = {40, 150, 150, 150, 150, 750, 750, 2000, 2000, 2800, 2800, 2800, 4200, 5600, 5600, 8400, 8400},
        .ack_s = {12, 3.2, 1.1, .9, .6, .5},
        .cue_s = 1.12,
    };
    struct vanitycrow_air a = air;
    for (int l = 0; l < VANITYCROW_LEVELS; l++) a.max_bits[l] = UINT32_MAX; /* no limit */
    return a;
}

static inline struct vanitycrow_profile usual(void) {
    struct vanitycrow_profile p = {
        .short_bytes = 32,
        .long_bytes = 180,
        .codes = {5760, {5760, 4320, 2880, 2160, 1920, 1728}},
        .lengths = {8, 32, .12, .3, true, 3, {false, 0}},
        .hold_times = {30, 480, 15},
        .plain = {{-12, -9, -8, -6.5f, -4.5f, -3, -.5f, 2, 6.5f, 2.5f, 5.5f, 8, 12, 13.5f, 15.5f, 20.5f, 23.5f}, -1},
        .eff = {{-13, -11, -10.3f, -8.9f, -7.4f, -5, -2.5f, -.5f, 3.8f, 0, 3, 5, 9.5f, 11, 12, 17, 19}, 0},
        .eff_snr = true,
        .cue_below_db = 7,
        .start_margin_db = {true, 3},
        .max_level = 16,
        .skip_slices_from = 8,
        .goodput = true,
        .harq = true,
        .pick_family = true,
        .smooth_target = true,
        .hold_by_goodput = true,
        .slice_slots = true,
        .merge_pieces = true,
        .cue = true,
        .harq_partial = true,
    };
    p.air = usual_air();
    return p;
}
#endif
