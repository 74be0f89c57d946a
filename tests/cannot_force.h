/* What a far station cannot force (document 02, Change 14), checked of record and answers. crates/far_station/specs/CannotForce.antt states it of
 * every list of calls. */
#ifndef CANNOT_FORCE_H
#define CANNOT_FORCE_H
#include <math.h>
#include "tally.h"
#include "vanitycrow.h"

/* The time of the last judged reply: an awaited ack, or a turn that ends an outstanding burst with a frame. */
struct judged { bool any; double time; };

/* An accepted ack at a time, before the tally is fed with it. */
static inline void judge_ack(struct judged *j, const struct tally *t, double time) {
    if (t->outstanding) *j = (struct judged){true, time};
}

static inline void judge_turn(struct judged *j, const struct tally *t, double time) {
    if (t->outstanding && t->n) *j = (struct judged){true, time};
}

static inline double longest_hold(const struct vanitycrow_profile *p) {
    return fmax(p->hold_times.fail_hold_max_s, p->hold_times.loss_hold_s);
}

/* Each level's hold ends by the longest one after the last judged reply, or has never been set. */
static inline const char *compare_holds(const struct vanitycrow_profile *p, const struct vanitycrow_holds *h, struct judged j) {
    for (size_t l = 0; l < VANITYCROW_LEVELS; l++) {
        double end = h->blocked_until[l];
        if (end != -INFINITY && !(j.any && end <= j.time + longest_hold(p))) return "a hold ends later than a far station can force";
    }
    return NULL;
}

/* Whether a hold ends as late as it may. */
static inline bool latest_hold(const struct vanitycrow_profile *p, const struct vanitycrow_holds *h, struct judged j) {
    for (size_t l = 0; l < VANITYCROW_LEVELS; l++)
        if (j.any && h->blocked_until[l] == j.time + longest_hold(p)) return true;
    return false;
}

/* No byte of the burst's frames was acknowledged before it. */
static inline const char *compare_unsent(const struct tally *t, const struct vanitycrow_frames *f) {
    for (size_t i = 0; i < f->n; i++)
        if (memchr(t->acked + f->off[i], 1, f->len[i])) return "a frame has an acknowledged byte";
    return NULL;
}

static inline double data_seconds(const struct vanitycrow_profile *p, size_t level, uint64_t bits, bool cue) {
    double s = p->air.pre_s[level] + (double)bits / p->air.rate[level];
    return cue ? s + p->air.cue_s : s;
}

/* `burst_len_s`: what a burst of whole pieces may take. */
static inline double burst_seconds(const struct vanitycrow_profile *p, const struct vanitycrow_gear *g,
                                   const struct vanitycrow_outgoing *o) {
    double usual = p->lengths.max_burst_s, ack = p->air.ack_s[o->wave], turn = 2 * p->lengths.turnaround_s;
    double clean = (data_seconds(p, o->code, 1, o->cue) + ack + turn) / p->lengths.burst_overhead - ack - turn;
    if (!p->lengths.burst_adapt) return usual;
    clean = fmin(fmax(clean, usual), fmax(p->lengths.max_burst_long_s, usual));
    return fmin(g->burst_s == 0 ? usual : g->burst_s, clean);
}

/* The test against the original's WINDOW_BYTES, 65,536, stops no chunk: where bytes are left waiting after a burst, one more frame does not fit.
 * That fewer fly at every cut, compare_tally says (16,256 at most). */
static inline const char *compare_window(const struct vanitycrow_profile *p, const struct vanitycrow_sender *s,
                                         const struct vanitycrow_outgoing *o) {
    size_t whole = 0;
    uint64_t bits = p->air.slot_bits[o->code];
    for (size_t i = 0; i < s->last_burst.n; i++) {
        whole += s->last_burst.held[i] == s->last_burst.bits[i];
        bits += s->last_burst.bits[i];
    }
    bool fits = s->last_burst.n < (o->code >= 5 ? VANITYCROW_MAX_SLOTS : 6) && s->at_peer.n + whole < VANITYCROW_MAX_SLOTS &&
        bits <= p->air.max_bits[o->code] && data_seconds(p, o->code, bits, o->cue) <= burst_seconds(p, &s->gear, o);
    return s->counts.waiting && fits ? "bytes wait, and one more frame fits" : NULL;
}
#endif
