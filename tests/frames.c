/* All frames of one reception: the order of its refusals with both sides of each limit, what is passed over, and, over random receptions on a
 * link that sends and hears, the same answers, record and work area as the single long acks of a twin. The last line counts the checks; the
 * status is 1 where one failed. */
#include <math.h>
#include <stdio.h>
#include <string.h>
#include "usual.h"
#include "vanitycrow.h"

enum { OUT_BYTES = VANITYCROW_MAX_SLOTS * 512, BYTES = 4096 };

struct twin {
    struct vanitycrow_station record;
    uint8_t area[VANITYCROW_AREA_BYTES];
};

static struct vanitycrow_profile p;
static struct twin whole, single;
static uint8_t out[OUT_BYTES];
static unsigned long checks, failures;
static uint64_t seed = 7;

static uint32_t chance(void) {
    seed = seed * 6364136223846793005u + 1442695040888963407u;
    return (uint32_t)(seed >> 33);
}

static void same(const char *what, unsigned long got, unsigned long wanted) {
    checks++;
    if (got == wanted) return;
    printf("frames: %s: %lu, not %lu\n", what, got, wanted);
    failures++;
}

static struct vanitycrow_heard at(double time) { return (struct vanitycrow_heard){time, 5, 10}; }

static uint8_t hear(struct twin *t, struct vanitycrow_heard h, struct vanitycrow_reception r, const uint8_t *payloads, size_t n) {
    return vanitycrow_frames(&p, &t->record, t->area, sizeof t->area, h, r, payloads, n);
}

/* What the fields of the link and the counts say: the record has places between its fields that no call writes. */
static void alike(const char *what, const struct twin *a, const struct twin *b) {
    const struct vanitycrow_sender *s = &a->record.sender, *t = &b->record.sender;
    same(what, memcmp(a->area, b->area, sizeof a->area) == 0, 1);
    same(what, memcmp(&s->counts, &t->counts, sizeof s->counts) == 0, 1);
    same(what, s->link.awaiting, t->link.awaiting);
    same(what, s->link.heard, t->link.heard);
    same(what, s->link.peer_heard, t->link.peer_heard);
    same(what, s->link.peer_wants_turn, t->link.peer_wants_turn);
    same(what, s->link.peer_wants_disc, t->link.peer_wants_disc);
    same(what, s->link.peer_slot, t->link.peer_slot);
    same(what, s->link.last_time == t->link.last_time, 1);
    same(what, s->at_peer.n, t->at_peer.n);
    same(what, memcmp(s->at_peer.off, t->at_peer.off, sizeof s->at_peer.off) == 0, 1);
    same(what, s->last_burst.n, t->last_burst.n);
    same(what, s->gear.level, t->gear.level);
    same(what, memcmp(s->gear.tries.success, t->gear.tries.success, sizeof s->gear.tries.success) == 0, 1);
}

/* The number as document 02 orders the reasons. */
static void numbers(void) {
    static const uint8_t bytes[BYTES];
    struct vanitycrow_reception r = {0};
    struct vanitycrow_heard h = at(1), wild = at(1), late = at(-1);
    wild.wave = 6;
    r.n = VANITYCROW_MAX_RECEIVED + 1;
    same("17 frames before the connect", hear(&whole, h, r, bytes, 0), 15);
    r.n = VANITYCROW_MAX_RECEIVED;
    same("16 frames before the connect", hear(&whole, h, r, bytes, 0), 4);
    r.n = SIZE_MAX;
    same("the most frames before the connect", hear(&whole, h, r, bytes, 0), 15);
    same("17 frames without a work area", vanitycrow_frames(&p, &whole.record, NULL, 0, h, r, NULL, 0), 3);
    struct vanitycrow_conn_ack c = {0};
    c.snr_db = 20;
    same("a connect", vanitycrow_connect(&p, &whole.record, whole.area, sizeof whole.area, at(1), c), 0);
    r.n = VANITYCROW_MAX_RECEIVED + 1;
    same("17 frames out of time and range", hear(&whole, late, r, bytes, 0), 15);
    r.n = 0;
    same("no frame, too early", hear(&whole, at(nextafter(1, 0)), r, bytes, 0), 5);
    same("no frame, no number", hear(&whole, at(NAN), r, bytes, 0), 5);
    same("no frame, wave 6", hear(&whole, wild, r, bytes, 0), 6);
    wild.wave = 5;
    wild.snr_db = nextafterf(300, 301);
    same("no frame, too loud", hear(&whole, wild, r, bytes, 0), 6);
    struct twin before = whole;
    same("no frame", hear(&whole, at(5), r, bytes, 0), 0);
    alike("no frame leaves the record", &whole, &before);
    r.n = 3;
    r.kind[0] = 3; r.len[0] = 13;  /* a data frame */
    r.kind[1] = 4; r.len[1] = 12;  /* too short */
    r.kind[2] = 4; r.len[2] = 13;  /* the bytes have run out */
    same("frames that are passed over", hear(&whole, at(5), r, bytes, 25 + 12), 0);
    alike("frames that are passed over leave the record", &whole, &before);
    same("the last time stays", whole.record.sender.link.last_time == 1, 1);
    r.flags[2] = 1;
    same("an ack behind them", hear(&whole, at(5), r, bytes, 25 + 13), 0);
    same("its time", whole.record.sender.link.last_time == 5, 1);
    same("its wish", whole.record.sender.link.peer_wants_turn, 1);
}

/* A reception of some frames, and the same acks one by one. */
static void receive(double time) {
    static uint8_t bytes[BYTES];
    static const uint8_t kinds[] = {4, 4, 4, 4, 4, 3, 1, 5, 0, 255};
    static const uint32_t lengths[] = {13, 13, 13, 16, 17, 17, 17, 12, 0, 40};
    struct vanitycrow_reception r = {0};
    size_t n = 0;
    r.n = (uint32_t[]){0, 1, 2, 5, 16, 16}[chance() % 6];
    for (size_t i = 0; i < r.n; i++) {
        r.kind[i] = kinds[chance() % sizeof kinds];
        r.flags[i] = (uint8_t)chance();
        r.len[i] = lengths[chance() % 10];
        for (uint32_t k = 0; k < r.len[i]; k++) bytes[n + k] = (uint8_t)chance();
        if (r.len[i] && chance() % 2) bytes[n] = whole.record.sender.link.burst_id;
        n += r.len[i];
    }
    same("a reception", hear(&whole, at(time), r, bytes, n), 0);
    for (size_t i = 0, from = 0; i < r.n; from += r.len[i++]) {
        if (r.kind[i] != 4 || r.len[i] < 13) continue;
        struct vanitycrow_long_ack a = {r.flags[i] & 1, r.flags[i] >> 1 & 1, r.flags[i] >> 2 & 1};
        same("a single ack", vanitycrow_long_ack(&p, &single.record, single.area, sizeof single.area, at(time), a, bytes + from, r.len[i]), 0);
    }
    alike("a reception and the single calls", &whole, &single);
}

int main(void) {
    p = usual();
    vanitycrow_fresh(&whole.record);
    numbers();
    single = whole;
    for (unsigned round = 0; round < 3000; round++) {
        uint8_t bytes[300];
        size_t n = chance() % sizeof bytes;
        for (size_t i = 0; i < n; i++) bytes[i] = (uint8_t)chance();
        struct vanitycrow_message m = {VANITYCROW_ROUTINE, 0};
        uint8_t a = vanitycrow_queue(&p, &whole.record, whole.area, sizeof whole.area, m, bytes, n);
        same("a queuing", vanitycrow_queue(&p, &single.record, single.area, sizeof single.area, m, bytes, n), a);
        if (chance() % 4) {
            same("a burst", vanitycrow_data_burst(&p, &whole.record, whole.area, sizeof whole.area, out, OUT_BYTES).refusal, 0);
            same("a burst", vanitycrow_data_burst(&p, &single.record, single.area, sizeof single.area, out, OUT_BYTES).refusal, 0);
        }
        receive(10 + round);
    }
    printf("%lu checks, %lu failed\n", checks, failures);
    return failures != 0;
}
