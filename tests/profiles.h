/* The profiles of the long run. */
#ifndef PROFILES_H
#define PROFILES_H
#include "chance.h"
#include "usual.h"
#include "vanitycrow.h"

/* The ladder in place of goodput, with a power table and no start margin. */
static inline struct vanitycrow_profile ladder_profile(void) {
    struct vanitycrow_profile p = usual();
    p.goodput = false;
    p.power = 1;
    p.start_margin_db.set = false;
    p.lengths.burst_climb_db = (struct vanitycrow_maybe_db){true, 2};
    return p;
}

/* Long pieces of 254 bytes that short frames cut to 8: turns drop the level, good replies lift it, and pieces are cut and merged again. */
static inline struct vanitycrow_profile merge_profile(void) {
    struct vanitycrow_profile p = usual();
    p.short_bytes = 18;
    p.long_bytes = 264;
    p.lengths.max_burst_s = 60;
    p.lengths.max_burst_long_s = 120;
    for (int l = 5; l < VANITYCROW_LEVELS; l++) p.air.rate[l] = 8400;
    p.harq_partial = false;
    return p;
}

/* The five short levels only. */
static inline struct vanitycrow_profile short_profile(void) {
    struct vanitycrow_profile p = usual();
    p.short_bytes = 18;
    p.max_level = 4;
    p.cue = false;
    return p;
}

/* Frames of 512 bytes at every level. */
static inline struct vanitycrow_profile large_profile(void) {
    struct vanitycrow_profile p = usual();
    p.short_bytes = p.long_bytes = 512;
    p.slice_slots = false;
    p.power = 2;
    return p;
}

/* No held pieces, a pinned level. */
static inline struct vanitycrow_profile pinned_profile(void) {
    struct vanitycrow_profile p = usual();
    p.pin_level = (struct vanitycrow_maybe_level){true, 11};
    p.harq = false;
    p.eff_snr = false;
    p.smooth_target = false;
    return p;
}

static inline struct vanitycrow_maybe_db any_maybe_db(void) {
    struct vanitycrow_maybe_db m;
    m.set = percent(50);
    m.db = (float)between(-100, 100);
    return m;
}

static inline struct vanitycrow_air any_air(void) {
    struct vanitycrow_air a;
    memset(&a, 0, sizeof a);
    for (int l = 0; l < VANITYCROW_LEVELS; l++) {
        a.slot_bits[l] = whole_between(1, 16384);
        a.pre_s[l] = between(0, 60);
        a.rate[l] = pow(10, between(0, 5)); /* 1 to 100000 */
        a.max_bits[l] = percent(50) ? whole_between(1, 100000) : UINT32_MAX;
    }
    for (int w = 0; w < VANITYCROW_WAVES; w++) a.ack_s[w] = between(0, 60);
    a.cue_s = between(0, 10);
    return a;
}

static inline struct vanitycrow_marks any_marks(void) {
    struct vanitycrow_marks m;
    for (int l = 0; l < VANITYCROW_LEVELS; l++) m.thresholds_db[l] = (float)between(-100, 100);
    m.margin_db = (float)between(-100, 100);
    return m;
}

static inline void any_switches(struct vanitycrow_profile *p) {
    p->eff_snr = percent(50);
    p->goodput = percent(50);
    p->power = (uint8_t)below(3);
    p->harq = percent(75);
    p->pick_family = percent(50);
    p->smooth_target = percent(50);
    p->hold_by_goodput = percent(50);
    p->slice_slots = percent(50);
    p->merge_pieces = percent(75);
    p->cue = percent(50);
    p->harq_partial = percent(50);
    p->lengths.burst_adapt = percent(50);
}

/* Any numbers in range, the limits often. */
static inline struct vanitycrow_profile extreme_profile(void) {
    struct vanitycrow_profile p;
    memset(&p, 0, sizeof p);
    p.air = any_air();
    p.long_bytes = whole_between(18, 512);
    p.short_bytes = whole_between(18, p.long_bytes);
    p.codes.mother = whole_between(1, 16384);
    for (int i = 0; i < 6; i++) p.codes.ends[i] = whole_between(1, 16384);
    p.lengths.max_burst_s = between(1, 1000);
    p.lengths.max_burst_long_s = between(1, 1000);
    p.lengths.burst_overhead = between(.01, 1);
    p.lengths.turnaround_s = between(0, 60);
    p.lengths.burst_steady_db = (float)between(-100, 100);
    p.lengths.burst_climb_db = any_maybe_db();
    p.hold_times.fail_hold_s = between(1, 100000);
    p.hold_times.fail_hold_max_s = between(0, 1000000);
    p.hold_times.loss_hold_s = between(0, 1000000);
    p.plain = any_marks();
    p.eff = any_marks();
    p.cue_below_db = (float)between(-100, 100);
    p.start_margin_db = any_maybe_db();
    p.max_level = whole_between(0, 16);
    p.skip_slices_from = whole_between(0, 17);
    p.pin_level.set = percent(30);
    p.pin_level.level = whole_between(0, 16);
    any_switches(&p);
    return p;
}
#endif
