/* The C boundary: where a length is 0 the pointer may be NULL, and the answer is that to an empty buffer; every bool that a call writes is
 * a byte 0 or 1, whatever lay there before. The last line counts the checks; the status is 1 where one failed. */
#include "stations.h"

static void same(const char *what, unsigned got, unsigned wanted) {
    checks++;
    if (got == wanted) return;
    printf("boundary: %s: %u, not %u\n", what, got, wanted);
    failures++;
}

/* The bytes of n bools, not read as bools. */
static void bools(const char *what, const void *at, size_t n) {
    const uint8_t *bytes_at = at;
    for (size_t i = 0; i < n; i++) same(what, bytes_at[i] > 1, 0);
}

static void record_bools(const char *what, const struct vanitycrow_station *t) {
    const struct vanitycrow_sender *s = &t->sender;
    const bool *single[] = {
        &s->gear.aim_db.set, &s->gear.last_report_db.set, &s->gear.peer_class.echo, &s->gear.peer_class.doppler, &s->gear.cue,
        &s->link.connected, &s->link.awaiting, &s->link.heard, &s->link.peer_wants_turn, &s->link.peer_wants_disc, &t->messages.begun,
    };
    for (size_t i = 0; i < sizeof single / sizeof *single; i++) bools(what, single[i], 1);
    bools(what, s->gear.tries.tried, VANITYCROW_LEVELS);
    bools(what, s->gear.holds.hold_all, VANITYCROW_LEVELS);
}

/* Of a card, over a profile of bytes 255. */
static void read_bools(void) {
    struct vanitycrow_profile p;
    uint8_t file[VANITYCROW_CARD_BYTES];
    const bool *single[] = {
        &p.lengths.burst_adapt, &p.lengths.burst_climb_db.set, &p.eff_snr, &p.start_margin_db.set, &p.pin_level.set, &p.goodput, &p.harq, &p.pick_family,
        &p.smooth_target, &p.hold_by_goodput, &p.slice_slots, &p.merge_pieces, &p.cue, &p.harq_partial,
    };
    same("a card", vanitycrow_write_profile(&open_one.p, file, sizeof file), 0);
    memset(&p, 0xFF, sizeof p);
    struct vanitycrow_card_answer a = vanitycrow_read_profile(file, sizeof file, &p);
    same("a card read", a.refusal, 0);
    bools("whether harq_stretch was on", &a.stretched, 1);
    same("harq_stretch of a card that was written", a.stretched, 0);
    for (size_t i = 0; i < sizeof single / sizeof *single; i++) bools("a card's places", single[i], 1);
    file[VANITYCROW_CARD_BYTES - 1] = 1;
    a = vanitycrow_read_profile(file, sizeof file, &p);
    same("a card with harq_stretch on", a.refusal, 0);
    bools("whether harq_stretch was on, where it was", &a.stretched, 1);
    same("harq_stretch of that card", a.stretched, 1);
}

static void written_bools(void) {
    struct vanitycrow_station t;
    memset(&t, 0xFF, sizeof t);
    vanitycrow_fresh(&t);
    record_bools("a fresh record over bytes 255", &t);
    record_bools("a record that is connected", &open_one.record);
    record_bools("a record with pieces in flight and a begun message", &flown_one.record);
    memcpy(&tried, &open_one, sizeof tried);
    struct vanitycrow_burst b = vanitycrow_data_burst(&tried.p, &tried.record, tried.area, VANITYCROW_AREA_BYTES, tried.out, OUT_BYTES);
    same("a burst", b.refusal, 0);
    bools("a burst's cue", &b.outgoing.cue, 1);
    bools("a burst's td_ease", &b.outgoing.td_ease, 1);
    struct vanitycrow_place here = vanitycrow_find(&tried.p, &tried.record, tried.area, VANITYCROW_AREA_BYTES, 0);
    same("a piece", here.here, 1);
    bools("a piece's place", &here.here, 1);
}

/* Each call with no work area at all: refused by 3, as with an empty one. */
static void no_area(struct station *t, const struct arguments *g) {
    same("connect, no area", vanitycrow_connect(&t->p, &t->record, NULL, 0, g->h, g->connect), 3);
    same("queue, no area", vanitycrow_queue(&t->p, &t->record, NULL, 0, g->message, NULL, 0), 3);
    same("short ack, no area", vanitycrow_short_ack(&t->p, &t->record, NULL, 0, g->h, g->ack), 3);
    same("long ack, no area", vanitycrow_long_ack(&t->p, &t->record, NULL, 0, g->h, g->long_ack, NULL, 0), 3);
    same("turn, no area", vanitycrow_turn(&t->p, &t->record, NULL, 0, g->h, g->turn), 3);
    same("burst, no area", vanitycrow_data_burst(&t->p, &t->record, NULL, 0, NULL, 0).refusal, 3);
    same("find, no area", vanitycrow_find(&t->p, &t->record, NULL, 0, 0).refusal, 3);
}

static void no_memory(void) {
    struct station *t = &tried;
    size_t n = VANITYCROW_AREA_BYTES;
    given = usual_arguments();
    given.area_len = 0;
    expect_all("an empty work area", &open_one, &given, 3);
    memcpy(t, &open_one, sizeof *t);
    no_area(t, &given);
    same("record and buffers, no area", (unsigned)memcmp(t, &open_one, sizeof *t), 0);
    given.message.label = OPEN_LABEL; /* as the message that waits */
    same("queue of nothing", vanitycrow_queue(&t->p, &t->record, t->area, n, given.message, NULL, 0), 0);
    same("bytes that wait after it", t->record.sender.counts.waiting, open_one.record.sender.counts.waiting);
    same("messages that wait after it", (unsigned)t->record.messages.n, (unsigned)open_one.record.messages.n);
    same("bytes withdrawn after it", t->record.messages.withdrawn, 0);
    same("a long ack of nothing", vanitycrow_long_ack(&t->p, &t->record, t->area, n, given.h, given.long_ack, NULL, 0), 7);
    same("a burst into nothing", vanitycrow_data_burst(&t->p, &t->record, t->area, n, NULL, 0).refusal, 10);
    same("a burst into an empty output", vanitycrow_data_burst(&t->p, &t->record, t->area, n, t->out, 0).refusal, 10);
    same("a link log of no call sign", vanitycrow_adif(NULL, 0, 0, 0, 0, t->out, OUT_BYTES).refusal, 20);
    same("a link log into nothing", vanitycrow_adif((const uint8_t *)"A", 1, 0, 0, 0, NULL, 0).refusal, 22);
    same("a card into nothing", vanitycrow_write_profile(&t->p, NULL, 0), 14);
    same("a card of nothing", vanitycrow_read_profile(NULL, 0, &t->p).refusal, 14);
}

int main(void) {
    if (!make_stations()) {
        puts("boundary: the stations could not be made");
        return 1;
    }
    written_bools();
    read_bools();
    no_memory();
    printf("%u checks, %u failed\n", checks, failures);
    return failures != 0;
}
