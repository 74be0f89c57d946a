/* A sender whose calls are checked: the answer is held against the one reckoned from the arguments, and record, work area and output
 * against the tally. */
#ifndef CHECKED_H
#define CHECKED_H
#include <stdio.h>
#include <stdlib.h>
#include "call_list.h"
#include "cannot_force.h"
#include "chance.h"
#include "far_station.h"
#include "defined.h"
#include "lent.h"
#include "tally.h"
#include "vanitycrow.h"

enum kind { CONNECT, QUEUE, SHORT_ACK, LONG_ACK, TURN, BURST, FIND, KINDS };
static const char *const kind_names[KINDS] = {"connect", "queue", "short ack", "long ack", "turn", "burst", "find"};

/* What a run has seen. */
struct seen {
    unsigned long long calls[KINDS];
    unsigned long long answers[VANITYCROW_TOO_MANY_MESSAGES + 1];
    unsigned long long acked;
    unsigned long long frames;
    unsigned long long overtaking, withdrawing; /* queuings */
    unsigned long long latest;                  /* calls with a hold as late as it may be */
    size_t most_pieces, most_flying, most_held, most_frames, most_messages;
};

struct run {
    const char *name;
    struct lent profile, record, area, out;
    const struct vanitycrow_profile *p;
    struct vanitycrow_station *station;
    struct vanitycrow_sender *s; /* of it */
    struct tally t;
    struct far_station far;
    struct call_list list;
    size_t area_len, out_len;               /* lent at the next call */
    size_t listed_area_len, listed_out_len; /* as the call list has them */
    bool connected;
    double now, last; /* s: the clock, and the last accepted time */
    struct judged judged;
    uint64_t airtime_ms;
    struct seen seen;
};

static uint64_t seed = 20261115;

static void differ(const struct run *r, enum kind k, const char *what) {
    unsigned long long n = 0;
    for (int i = 0; i < KINDS; i++) n += r->seen.calls[i];
    fprintf(stderr, "long_run: seed %llu, %s, call %llu (%s) at %.3f s: %s\n", (unsigned long long)seed, r->name, n, kind_names[k], r->now,
        what);
    exit(1);
}

/* The length of the piece at an offset, 0 where there is none. */
static uint32_t piece_len(const uint8_t *area, size_t pieces, uint32_t off) {
    size_t low = 0, high = pieces;
    while (low < high) {
        size_t mid = low + (high - low) / 2;
        uint32_t here = row_word(area, mid, 0);
        if (here == off) return row_word(area, mid, 1);
        if (here < off) low = mid + 1;
        else high = mid;
    }
    return 0;
}

/* Refusals 3 and 4. */
static uint8_t expect_standing(const struct run *r, enum kind k) {
    if (r->area_len < VANITYCROW_AREA_BYTES) return 3;
    return (k == CONNECT) == r->connected ? 4 : 0;
}

static bool db_in_range(float x) {
    return x >= -100 && x <= 300;
}

/* Refusals 3 to 6 of a reply whose own values are in range or not. */
static uint8_t expect_reply(const struct run *r, enum kind k, struct vanitycrow_heard h, bool in_range) {
    uint8_t n = expect_standing(r, k);
    if (n) return n;
    if (!(h.time >= 0 && h.time <= 1000000000 && h.time >= r->last)) return 5;
    return h.wave <= 5 && db_in_range(h.snr_db) && in_range ? 0 : 6;
}

static void before(struct run *r) {
    note(&r->record);
    note(&r->area);
    note(&r->out);
    if (r->area_len != r->listed_area_len) list_lent(r->list, "area", r->listed_area_len = r->area_len);
    if (r->out_len != r->listed_out_len) list_lent(r->list, "out", r->listed_out_len = r->out_len);
}

/* An offset that is listed as held before and after has a piece of the same length both times. */
static void compare_held(const struct run *r, enum kind k) {
    const struct vanitycrow_sender *old = &((const struct vanitycrow_station *)(r->record.before + watched))->sender;
    const uint8_t *old_area = r->area.before + watched;
    for (size_t i = 0; i < r->s->at_peer.n; i++)
        for (size_t j = 0; j < old->at_peer.n; j++) {
            uint32_t off = r->s->at_peer.off[i];
            if (old->at_peer.off[j] != off) continue;
            uint32_t len = piece_len(r->area.bytes, r->s->counts.pieces, off);
            if (len == 0 || len != piece_len(old_area, old->counts.pieces, off)) differ(r, k, "a held piece has another length");
        }
}

static void most(size_t *m, size_t n) {
    if (n > *m) *m = n;
}

/* Whether the record is as noted, the bytes between its fields too. */
static int record_kept(const struct run *r) {
    uint8_t now[sizeof *r->station];
    uint8_t *before = r->record.before + watched;
    memcpy(now, r->record.bytes, sizeof now);
    VALGRIND_MAKE_MEM_DEFINED(now, sizeof now);
    VALGRIND_MAKE_MEM_DEFINED(before, sizeof now);
    return memcmp(now, before, sizeof now) == 0;
}

/* What holds after every call; the tally has been fed. `written`: how much of the output is the burst's. */
static void after(struct run *r, enum kind k, uint8_t answer, uint8_t expected, size_t written) {
    const char *wrong;
    r->seen.calls[k]++;
    if (answer != expected) {
        static char text[80];
        snprintf(text, sizeof text, "answered %u, expected %u", (unsigned)answer, (unsigned)expected);
        differ(r, k, text);
    }
    r->seen.answers[answer]++;
    if (!kept(&r->profile)) differ(r, k, "the profile or the bytes around it changed");
    if (!kept_from(&r->record, r->record.n)) differ(r, k, "bytes around the record changed");
    if (!kept_from(&r->area, VANITYCROW_AREA_BYTES)) differ(r, k, "bytes around the work area changed");
    if (!kept_from(&r->out, written)) differ(r, k, "the output past the frames changed");
    if ((answer || k == FIND) && !(record_kept(r) && kept(&r->area))) differ(r, k, "record or work area changed");
    if ((wrong = compare_tally(&r->t, r->station, r->area.bytes))) differ(r, k, wrong);
    if ((wrong = compare_holds(r->p, &r->s->gear.holds, r->judged))) differ(r, k, wrong);
    r->seen.latest += latest_hold(r->p, &r->s->gear.holds, r->judged);
    if (r->s->counts.airtime_ms != r->airtime_ms) differ(r, k, "another time on the air");
    compare_held(r, k);
    most(&r->seen.most_pieces, r->s->counts.pieces);
    most(&r->seen.most_flying, r->s->counts.flying);
    most(&r->seen.most_held, r->s->at_peer.n);
    most(&r->seen.most_messages, r->station->messages.n);
    list_state(r->list, r->p, r->station, r->area.bytes);
    list_messages(r->list, &r->station->messages);
}

static void connect_call(struct run *r, uint32_t wild) {
    struct vanitycrow_heard h = far_heard(&r->far, r->now, r->last, wild);
    struct vanitycrow_conn_ack c = far_answer(&r->far, wild);
    uint8_t expected = expect_reply(r, CONNECT, h, db_in_range(c.snr_db) && c.slot <= 2);
    before(r);
    uint8_t answer = vanitycrow_connect(r->p, r->station, r->area.bytes, r->area_len, h, c);
    list_connect(r->list, h, c, answer);
    if (!answer) {
        r->connected = true;
        r->last = h.time;
    }
    after(r, CONNECT, answer, expected, 0);
}

/* Refusals 11, 8 and 12 of a queuing of n bytes, the last two by what stays; 9 comes never, as fewer are taken. */
static uint8_t expect_room(const struct run *r, struct vanitycrow_message m, size_t n) {
    size_t count = r->t.count, waiting = r->t.waiting;
    for (size_t i = 0; n && i < r->t.count; i++) {
        if (!tally_withdraws(m, r->t.messages + i)) continue;
        count--;
        waiting -= r->t.messages[i].n;
    }
    if (m.class_ > VANITYCROW_MAX_CLASS) return 11;
    if (waiting + n > VANITYCROW_MAX_WAITING) return 8;
    return n && count == VANITYCROW_MAX_MESSAGES ? 12 : 0;
}

/* Queues n bytes as a message, out of a buffer of that length. */
static void queue_call(struct run *r, struct vanitycrow_message m, size_t n) {
    struct lent bytes = lend(n, 0);
    for (size_t i = 0; i < n; i++) bytes.bytes[i] = (uint8_t)chance();
    note(&bytes);
    uint8_t expected = expect_standing(r, QUEUE);
    if (!expected) expected = expect_room(r, m, n);
    before(r);
    uint8_t answer = vanitycrow_queue(r->p, r->station, r->area.bytes, r->area_len, m, bytes.bytes, n);
    list_queue(r->list, m, bytes.bytes, n, answer);
    if (!kept(&bytes)) differ(r, QUEUE, "the queued bytes changed");
    if (!answer) {
        const struct vanitycrow_messages *w = &r->station->messages;
        uint64_t withdrawn = r->t.withdrawn;
        tally_queue(&r->t, m, bytes.bytes, n);
        r->seen.withdrawing += r->t.withdrawn != withdrawn;
        r->seen.overtaking += n && w->n && w->class_[w->n - 1] > m.class_;
    }
    give_back(&bytes);
    after(r, QUEUE, answer, expected, 0);
}

/* A time on the air, in whole milliseconds by itself. */
static void count_air(struct run *r, double seconds) { r->airtime_ms += (uint64_t)ceil(seconds * 1000); }

/* An ack that came: its time counts where a burst is outstanding. */
static void ack_on_air(struct run *r, struct vanitycrow_heard h) {
    if (r->t.outstanding) count_air(r, r->p->air.ack_s[h.wave]);
}

static void short_call(struct run *r, uint32_t wild) {
    struct vanitycrow_heard h = far_heard(&r->far, r->now, r->last, wild);
    struct vanitycrow_ack a = far_short(&r->far, wild);
    uint8_t expected = expect_reply(r, SHORT_ACK, h, a.burst <= 3 && a.bitmap <= 63 && db_in_range(a.snr_db) && a.slot <= 2);
    before(r);
    uint8_t answer = vanitycrow_short_ack(r->p, r->station, r->area.bytes, r->area_len, h, a);
    list_short(r->list, h, a, answer);
    if (!answer) {
        judge_ack(&r->judged, &r->t, h.time);
        ack_on_air(r, h);
        tally_short(&r->t, a);
        r->last = h.time;
    }
    after(r, SHORT_ACK, answer, expected, 0);
}

static void long_call(struct run *r, uint32_t wild) {
    struct vanitycrow_heard h = far_heard(&r->far, r->now, r->last, wild);
    struct vanitycrow_long_ack a = far_long();
    uint8_t bytes[MOST_PAYLOAD];
    size_t n = far_payload(&r->far, wild, bytes);
    struct lent payload = lend(n, 0);
    if (n) memcpy(payload.bytes, bytes, n);
    note(&payload);
    uint8_t expected = expect_reply(r, LONG_ACK, h, true);
    if (!expected && n < 13) expected = 7;
    before(r);
    uint8_t answer = vanitycrow_long_ack(r->p, r->station, r->area.bytes, r->area_len, h, a, payload.bytes, n);
    list_long(r->list, h, a, bytes, n, answer);
    if (!kept(&payload)) differ(r, LONG_ACK, "the payload changed");
    give_back(&payload);
    if (!answer) {
        judge_ack(&r->judged, &r->t, h.time);
        ack_on_air(r, h);
        tally_long(&r->t, bytes);
        r->last = h.time;
    }
    after(r, LONG_ACK, answer, expected, 0);
}

static void turn_call(struct run *r, uint32_t wild) {
    struct vanitycrow_heard h = far_heard(&r->far, r->now, r->last, wild);
    struct vanitycrow_turn a = far_turn(&r->far, wild);
    if (percent(50)) h.wave = (uint8_t)below(6); /* this drops the level to the wave's */
    uint8_t expected = expect_reply(r, TURN, h, !a.report.set || db_in_range(a.report.db));
    before(r);
    uint8_t answer = vanitycrow_turn(r->p, r->station, r->area.bytes, r->area_len, h, a);
    list_turn(r->list, h, a, answer);
    if (!answer) {
        judge_turn(&r->judged, &r->t, h.time);
        tally_turn(&r->t);
        r->last = h.time;
    }
    after(r, TURN, answer, expected, 0);
}

/* The seconds of a burst and of its cue; the clock moves by them and the turnaround. Where a frame goes, the milliseconds of both are counted. */
static void on_air(struct run *r, const struct vanitycrow_outgoing *o) {
    uint64_t bits = 0;
    for (size_t i = 0; i < o->frames.n; i++) bits += o->frames.bits[i];
    double s = r->p->air.pre_s[o->code] + (double)bits / r->p->air.rate[o->code];
    double cue = o->cue ? r->p->air.cue_s : 0;
    if (o->frames.n) count_air(r, s);
    if (o->frames.n) count_air(r, cue);
    r->now += s + cue + r->p->lengths.turnaround_s;
    if (r->now > 1000000000) r->now = 1000000000;
}

static void burst_call(struct run *r) {
    uint8_t expected = expect_standing(r, BURST);
    size_t level = r->s->gear.level, size = level <= 4 ? r->p->short_bytes : r->p->long_bytes, written = 0;
    const char *wrong;
    if (!expected && r->out_len < VANITYCROW_MAX_SLOTS * r->p->long_bytes) expected = 10;
    before(r);
    struct vanitycrow_burst b = vanitycrow_data_burst(r->p, r->station, r->area.bytes, r->area_len, r->out.bytes, r->out_len);
    list_burst(r->list, &b, r->out.bytes, size);
    if (!b.refusal) {
        tally_burst(&r->t, &b.outgoing);
        if (b.outgoing.code != level) differ(r, BURST, "another level");
        if ((wrong = compare_burst(&r->t, &b.outgoing, r->out.bytes, size))) differ(r, BURST, wrong);
        if ((wrong = compare_unsent(&r->t, &b.outgoing.frames))) differ(r, BURST, wrong);
        if ((wrong = compare_window(r->p, r->s, &b.outgoing))) differ(r, BURST, wrong);
        for (size_t i = 0; i < b.outgoing.frames.n; i++)
            if (piece_len(r->area.bytes, r->s->counts.pieces, b.outgoing.frames.off[i]) != b.outgoing.frames.len[i])
                differ(r, BURST, "a frame is not its piece");
        far_hears(&r->far, &b.outgoing);
        on_air(r, &b.outgoing);
        written = size * b.outgoing.frames.n;
        r->seen.frames += b.outgoing.frames.n;
        most(&r->seen.most_frames, b.outgoing.frames.n);
    } else if (b.outgoing.frames.n) {
        differ(r, BURST, "a refused burst has frames");
    }
    after(r, BURST, b.refusal, expected, written);
}

/* A lookup at a piece's offset or near one. */
static void find_call(struct run *r) {
    size_t n = r->s->counts.pieces, row = n ? below((uint32_t)n) : 0, start = 0;
    uint32_t off = n ? row_word(r->area.bytes, row, 0) : below(100);
    if (percent(30)) off += 1;
    uint32_t len = piece_len(r->area.bytes, n, off);
    for (size_t i = 0; i < n && row_word(r->area.bytes, i, 0) < off; i++) start += row_word(r->area.bytes, i, 1);
    uint8_t expected = expect_standing(r, FIND);
    before(r);
    struct vanitycrow_place w = vanitycrow_find(r->p, r->station, r->area.bytes, r->area_len, off);
    list_piece(r->list, off, w, r->area.bytes);
    if (w.here != (len > 0 && !expected) || (w.here && (w.len != len || w.start != start))) differ(r, FIND, "another place");
    after(r, FIND, w.refusal, expected, 0);
}
#endif
