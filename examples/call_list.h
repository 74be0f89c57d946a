/* Writes each call as a line of a call list and its answer as the lines of the transcript (docs/CALLS.md), so that `replay` can be held against the
 * C interface. A station does not need it. Where no file is open nothing is written. */
#ifndef CALL_LIST_H
#define CALL_LIST_H
#include <stdio.h>
#include <string.h>
#include "vanitycrow.h"

struct call_list { FILE *calls; FILE *transcript; };

static inline void word_hex(FILE *f, const uint8_t *b, size_t n) {
    fputs(n ? " " : " -", f);
    for (size_t i = 0; i < n; i++) fprintf(f, "%02x", b[i]);
}

static inline void word_bits64(FILE *f, double x) {
    uint64_t b;
    memcpy(&b, &x, sizeof b);
    fprintf(f, " 0x%016llx", (unsigned long long)b);
}

static inline void word_bits32(FILE *f, float x) {
    uint32_t b;
    memcpy(&b, &x, sizeof b);
    fprintf(f, " 0x%08x", (unsigned)b);
}

/* Floats of a transcript: none where there is no value, every NaN as nan, every zero as +0. */
static inline void word_f32(FILE *f, bool set, float x) {
    if (!set) fputs(" none", f);
    else if (x != x) fputs(" nan", f);
    else word_bits32(f, x == 0 ? 0 : x);
}

static inline void word_f64(FILE *f, bool set, double x) {
    if (!set) fputs(" none", f);
    else word_bits64(f, x == 0 ? 0 : x);
}

static inline void line_f64(FILE *f, const char *name, const double *x, int n) {
    fputs(name, f);
    for (int i = 0; i < n; i++) word_bits64(f, x[i]);
    fputc('\n', f);
}

static inline void line_f32(FILE *f, const char *name, const float *x, int n) {
    fputs(name, f);
    for (int i = 0; i < n; i++) word_bits32(f, x[i]);
    fputc('\n', f);
}

static inline void line_maybe_db(FILE *f, const char *name, struct vanitycrow_maybe_db m) {
    fputs(name, f);
    if (m.set) word_bits32(f, m.db);
    else fputs(" none", f);
    fputc('\n', f);
}

static inline void lines_air(FILE *f, const struct vanitycrow_air *a) {
    for (int l = 0; l < VANITYCROW_LEVELS; l++) {
        fprintf(f, "level %u", (unsigned)a->slot_bits[l]);
        word_bits64(f, a->pre_s[l]);
        word_bits64(f, a->rate[l]);
        fprintf(f, " %u\n", (unsigned)a->max_bits[l]);
    }
    line_f64(f, "ack_s", a->ack_s, VANITYCROW_WAVES);
    line_f64(f, "cue_s", &a->cue_s, 1);
}

static inline void lines_switches(FILE *f, const struct vanitycrow_profile *p) {
    static const char *const tables[] = {"none", "mean", "td"};
    fprintf(f, "levels %zu %zu\npin_level ", p->max_level, p->skip_slices_from);
    if (p->pin_level.set) fprintf(f, "%zu\n", p->pin_level.level);
    else fputs("none\n", f);
    fprintf(f, "gear %s\npower %s\n", p->goodput ? "goodput" : "ladder", tables[p->power]);
    fprintf(f, "on %d %d %d %d %d %d %d %d %d %d\n", p->harq, p->pick_family, p->eff_snr, p->lengths.burst_adapt, p->smooth_target,
            p->hold_by_goodput, p->slice_slots, p->merge_pieces, p->cue, p->harq_partial);
}

/* The lines of a profile that is in range. */
static inline void list_profile(struct call_list l, const struct vanitycrow_profile *p) {
    const struct vanitycrow_lengths *q = &p->lengths;
    const double burst[4] = {q->max_burst_s, q->max_burst_long_s, q->burst_overhead, q->turnaround_s};
    const double hold[3] = {p->hold_times.fail_hold_s, p->hold_times.fail_hold_max_s, p->hold_times.loss_hold_s};
    const float db[4] = {p->plain.margin_db, p->eff.margin_db, p->cue_below_db, q->burst_steady_db};
    FILE *f = l.calls;
    if (!f) return;
    fputs("profile\n", f);
    lines_air(f, &p->air);
    fprintf(f, "frame_bytes %u %u\nharq %u", (unsigned)p->short_bytes, (unsigned)p->long_bytes, (unsigned)p->codes.mother);
    for (int i = 0; i < 6; i++) fprintf(f, " %u", (unsigned)p->codes.ends[i]);
    fputc('\n', f);
    line_f64(f, "burst", burst, 4);
    line_f64(f, "hold", hold, 3);
    line_f32(f, "thresholds_db", p->plain.thresholds_db, VANITYCROW_LEVELS);
    line_f32(f, "eff_thresholds_db", p->eff.thresholds_db, VANITYCROW_LEVELS);
    line_f32(f, "db", db, 4);
    line_maybe_db(f, "start_margin_db", p->start_margin_db);
    line_maybe_db(f, "burst_climb_db", q->burst_climb_db);
    lines_switches(f, p);
}

static inline void list_answer(struct call_list l, const char *name, uint8_t refusal) {
    if (refusal) fprintf(l.transcript, "%s refused %u\n", name, (unsigned)refusal);
    else fprintf(l.transcript, "%s ok\n", name);
}

static inline void word_heard(FILE *f, const char *name, struct vanitycrow_heard h) {
    fputs(name, f);
    word_bits64(f, h.time);
    fprintf(f, " %u", (unsigned)h.wave);
    word_bits32(f, h.snr_db);
}

static inline void list_connect(struct call_list l, struct vanitycrow_heard h, struct vanitycrow_conn_ack r, uint8_t refusal) {
    if (!l.calls) return;
    word_heard(l.calls, "connect", h);
    fprintf(l.calls, " %u", (unsigned)r.session);
    word_bits32(l.calls, r.snr_db);
    fprintf(l.calls, " %d %d %u %d\n", r.class_.echo, r.class_.doppler, (unsigned)r.slot, r.cue);
    list_answer(l, "connect", refusal);
}

/* A queuing; class 3 needs no word where there is no label. */
static inline void list_queue(struct call_list l, struct vanitycrow_message m, const uint8_t *bytes, size_t n, uint8_t refusal) {
    if (!l.calls) return;
    fputs("queue", l.calls);
    word_hex(l.calls, bytes, n);
    if (m.class_ != VANITYCROW_ROUTINE || m.label) fprintf(l.calls, " %u", (unsigned)m.class_);
    if (m.label) fprintf(l.calls, " %u", (unsigned)m.label);
    fputc('\n', l.calls);
    list_answer(l, "queue", refusal);
}

/* The line of `messages`. */
static inline void list_messages(struct call_list l, const struct vanitycrow_messages *m) {
    if (!l.calls) return;
    fputs("messages\n", l.calls);
    fprintf(l.transcript, "messages %zu %d %u", m->n, m->n && m->begun, (unsigned)m->withdrawn);
    for (size_t i = 0; i < m->n; i++)
        fprintf(l.transcript, " %u:%u:%u", (unsigned)m->class_[i], (unsigned)m->label[i], (unsigned)m->left[i]);
    fputc('\n', l.transcript);
}

static inline void list_short(struct call_list l, struct vanitycrow_heard h, struct vanitycrow_ack r, uint8_t refusal) {
    if (!l.calls) return;
    word_heard(l.calls, "short", h);
    fprintf(l.calls, " %u %u", (unsigned)r.burst, (unsigned)r.bitmap);
    word_bits32(l.calls, r.snr_db);
    fprintf(l.calls, " %d %d %d %d %d %u\n", r.want_turn, r.want_disc, r.stored, r.class_.echo, r.class_.doppler, (unsigned)r.slot);
    list_answer(l, "short", refusal);
}

static inline void list_long(struct call_list l, struct vanitycrow_heard h, struct vanitycrow_long_ack r, const uint8_t *payload, size_t n,
                             uint8_t refusal) {
    if (!l.calls) return;
    word_heard(l.calls, "long", h);
    fprintf(l.calls, " %d %d %d", r.want_turn, r.want_disc, r.stored);
    word_hex(l.calls, payload, n);
    fputc('\n', l.calls);
    list_answer(l, "long", refusal);
}

static inline void list_turn(struct call_list l, struct vanitycrow_heard h, struct vanitycrow_turn r, uint8_t refusal) {
    if (!l.calls) return;
    word_heard(l.calls, "turn", h);
    line_maybe_db(l.calls, "", r.report);
    list_answer(l, "turn", refusal);
}

/* A burst; its frames stand in out, each of size bytes. */
static inline void list_burst(struct call_list l, const struct vanitycrow_burst *b, const uint8_t *out, size_t size) {
    const struct vanitycrow_outgoing *o = &b->outgoing;
    const struct vanitycrow_frames *f = &o->frames;
    if (!l.calls) return;
    fputs("burst\n", l.calls);
    if (b->refusal) {
        list_answer(l, "burst", b->refusal);
        return;
    }
    fprintf(l.transcript, "burst ok %u %zu %u %u %d %d %zu\n", (unsigned)o->wave, o->code, (unsigned)o->user, (unsigned)o->extra, o->cue, o->td_ease,
            f->n);
    for (size_t i = 0; i < f->n; i++) {
        fprintf(l.transcript, "frame %u %u %u %u", (unsigned)f->off[i], (unsigned)f->len[i], (unsigned)f->start[i], (unsigned)f->bits[i]);
        word_hex(l.transcript, out + i * size, size);
        fputc('\n', l.transcript);
    }
}

/* A lookup. */
static inline void list_piece(struct call_list l, uint32_t off, struct vanitycrow_place w, const uint8_t *area) {
    if (!l.calls) return;
    fprintf(l.calls, "piece %u\n", (unsigned)off);
    if (w.refusal) {
        list_answer(l, "piece", w.refusal);
        return;
    }
    fputs("piece", l.transcript);
    if (w.here) word_hex(l.transcript, area + w.start, w.len);
    else fputs(" none", l.transcript);
    fputc('\n', l.transcript);
}

/* How much of the work area ("area") or of the output ("out") is lent from here on. */
static inline void list_lent(struct call_list l, const char *name, size_t n) {
    if (!l.calls) return;
    fprintf(l.calls, "%s %zu\n", name, n);
    list_answer(l, name, 0);
}

/* Row i of the table of pieces: offset and length, low byte first. */
static inline uint32_t row_word(const uint8_t *area, size_t i, int word) {
    const uint8_t *b = area + 32768 + 8 * i + 4 * word;
    return b[0] | (uint32_t)b[1] << 8 | (uint32_t)b[2] << 16 | (uint32_t)b[3] << 24;
}

static inline void lines_gear(FILE *f, const struct vanitycrow_gear *g) {
    fputs("aim", f);
    word_f32(f, g->aim_db.set, g->aim_db.db);
    word_f32(f, g->last_report_db.set, g->last_report_db.db);
    if (g->snr_reports.count > 2) word_f32(f, true, g->snr_reports.a);
    if (g->snr_reports.count > 1) word_f32(f, true, g->snr_reports.b);
    if (g->snr_reports.count > 0) word_f32(f, true, g->snr_reports.c);
    for (int l = 0; l < VANITYCROW_LEVELS; l++) {
        fprintf(f, "\ngear %d", l);
        word_f32(f, g->tries.tried[l], g->tries.success[l]);
        word_f64(f, true, g->tries.success_at[l]);
        fprintf(f, " %u", (unsigned)g->tries.fails[l]);
        word_f64(f, true, g->holds.blocked_until[l]);
        fprintf(f, " %d", g->holds.hold_all[l]);
    }
    fputc('\n', f);
}

static inline void lines_lists(FILE *f, const struct vanitycrow_sender *s, const uint8_t *area) {
    const struct vanitycrow_at_peer *h = &s->at_peer;
    const struct vanitycrow_last_burst *b = &s->last_burst;
    fprintf(f, "pieces %zu", s->counts.pieces);
    for (size_t i = 0; i < s->counts.pieces; i++) fprintf(f, " %u:%u", (unsigned)row_word(area, i, 0), (unsigned)row_word(area, i, 1));
    fprintf(f, "\nheld %zu %u", h->n, (unsigned)s->link.peer_wave);
    for (size_t i = 0; i < h->n; i++) fprintf(f, " %u:%u", (unsigned)h->off[i], (unsigned)h->bits[i]);
    fprintf(f, "\nrest %zu", h->rest);
    for (size_t i = h->n - h->rest; i < h->n; i++) fprintf(f, " %u:%u", (unsigned)h->off[i], (unsigned)h->bits[i]);
    fprintf(f, "\nsent %zu", b->n);
    for (size_t i = 0; i < b->n; i++) fprintf(f, " %u:%u:%u", (unsigned)b->off[i], (unsigned)b->bits[i], (unsigned)b->held[i]);
    fputc('\n', f);
}

/* TAKEN WAITING FLYING ACKED; withdrawn bytes are taken. */
static inline void words_counts(FILE *f, const struct vanitycrow_station *t) {
    const struct vanitycrow_counts *c = &t->sender.counts;
    fprintf(f, " %u %u %u %u", (unsigned)(c->next_offset + c->waiting + t->messages.withdrawn), (unsigned)c->waiting, (unsigned)c->flying,
            (unsigned)c->bytes_acked);
}

/* The lines of `state`, field by field out of the record; burst seconds of 0 stand for the profile's. */
static inline void list_state(struct call_list l, const struct vanitycrow_profile *p, const struct vanitycrow_station *t, const uint8_t *area) {
    const struct vanitycrow_sender *s = &t->sender;
    const struct vanitycrow_link *k = &s->link;
    FILE *f = l.transcript;
    if (!l.calls) return;
    fputs("state\n", l.calls);
    fprintf(f, "state %zu %zu", s->gear.level, s->gear.target);
    word_f64(f, k->connected, s->gear.burst_s == 0 ? p->lengths.max_burst_s : s->gear.burst_s);
    fprintf(f, " %d %d %u %u", k->connected, k->awaiting, (unsigned)k->session, (unsigned)k->burst_id);
    if (k->heard) fprintf(f, " %u", (unsigned)k->peer_heard);
    else fputs(" none", f);
    word_f64(f, k->connected, k->last_time);
    fprintf(f, "\nlink %d %d %d %d %u", k->peer_wants_turn, k->peer_wants_disc, s->gear.peer_class.echo, s->gear.peer_class.doppler,
            (unsigned)k->peer_slot);
    word_f32(f, true, k->peer_doppler_hz);
    fprintf(f, " %d\n", s->gear.cue);
    lines_gear(f, &s->gear);
    fputs("counts", f);
    words_counts(f, t);
    fprintf(f, " %llu\n", (unsigned long long)s->counts.airtime_ms);
    lines_lists(f, s, area);
}

/* What closes the transcript of a sender's calls. */
static inline void list_end(struct call_list l, const struct vanitycrow_station *t) {
    if (!l.calls) return;
    fputs("end", l.transcript);
    words_counts(l.transcript, t);
    fputc('\n', l.transcript);
}
#endif
