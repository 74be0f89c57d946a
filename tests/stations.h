/* Three senders at known points of their lives, and calls on copies of them: the answer is compared, and which bytes changed. A refused
 * call is made a second time on pages that may only be read. */
#ifndef STATIONS_H
#define STATIONS_H
#include <stdio.h>
#include <string.h>
#include <sys/mman.h>
#include "defined.h"
#include "usual.h"
#include "vanitycrow.h"

#define PAST 64 /* bytes after the work area */
#define PAGES 65536 /* bytes: whole pages on any machine */
#define OUT_BYTES (VANITYCROW_MAX_SLOTS * 512 + 1)

enum call { CONNECT, QUEUE, SHORT_ACK, LONG_ACK, TURN, BURST, FIND, CALLS };
static const char *const call_names[CALLS] = {"connect", "queue", "short ack", "long ack", "turn", "burst", "find"};

/* A sender with everything that is lent to its calls, and bytes between that no call may touch: alone on its pages. */
struct station {
    _Alignas(PAGES) uint8_t gap0[64];
    struct vanitycrow_profile p;
    uint8_t gap1[64];
    struct vanitycrow_station record;
    uint8_t gap2[64];
    uint8_t area[VANITYCROW_AREA_BYTES + PAST];
    uint8_t gap3[64];
    uint8_t out[OUT_BYTES];
    uint8_t gap4[64];
};

/* Arguments of the calls. */
struct arguments {
    struct vanitycrow_heard h;
    struct vanitycrow_conn_ack connect;
    struct vanitycrow_ack ack;
    struct vanitycrow_long_ack long_ack;
    struct vanitycrow_turn turn;
    struct vanitycrow_message message;
    size_t payload_len, bytes_len, area_len, out_len;
    uint32_t off;
};

/* not connected; connected, ten bytes wait, with a label; with pieces, held ones, an outstanding burst, a begun message of another label */
static struct station fresh_one, open_one, flown_one;
enum { OPEN_LABEL = 7, FLOWN_LABEL = 8 };
static struct station subject; /* what the checks change */
static struct arguments given; /* what the calls get */
static struct station tried;
static unsigned checks, failures;
static unsigned read_only[CALLS][VANITYCROW_TOO_MANY_MESSAGES + 1]; /* calls by number that were refused on pages that may only be read */
static const uint8_t bytes[VANITYCROW_MAX_WAITING + 1];

static struct arguments usual_arguments(void) {
    struct arguments g;
    memset(&g, 0, sizeof g);
    g.h = (struct vanitycrow_heard){1000000000, 5, 3};
    g.connect.snr_db = g.ack.snr_db = 3;
    g.payload_len = 13;
    g.message.class_ = VANITYCROW_ROUTINE;
    g.area_len = VANITYCROW_AREA_BYTES;
    g.out_len = OUT_BYTES;
    return g;
}

static uint8_t make_call(enum call c, struct station *t, const struct arguments *g) {
    switch (c) {
    case CONNECT: return vanitycrow_connect(&t->p, &t->record, t->area, g->area_len, g->h, g->connect);
    case QUEUE: return vanitycrow_queue(&t->p, &t->record, t->area, g->area_len, g->message, bytes, g->bytes_len);
    case SHORT_ACK: return vanitycrow_short_ack(&t->p, &t->record, t->area, g->area_len, g->h, g->ack);
    case LONG_ACK: return vanitycrow_long_ack(&t->p, &t->record, t->area, g->area_len, g->h, g->long_ack, bytes, g->payload_len);
    case TURN: return vanitycrow_turn(&t->p, &t->record, t->area, g->area_len, g->h, g->turn);
    case BURST: return vanitycrow_data_burst(&t->p, &t->record, t->area, g->area_len, t->out, g->out_len).refusal;
    default: return vanitycrow_find(&t->p, &t->record, t->area, g->area_len, g->off).refusal;
    }
}

/* Whether nothing but record, work area and output changed; and of these nothing in a refused call. */
static int kept_bytes(const struct station *old, const struct station *new, int refused) {
    if (refused) return memcmp(old, new, sizeof *old) == 0;
    return memcmp(old->gap0, new->gap0, sizeof old->gap0) == 0 && memcmp(&old->p, &new->p, sizeof old->p) == 0 &&
           memcmp(old->gap1, new->gap1, sizeof old->gap1) == 0 && memcmp(old->gap2, new->gap2, sizeof old->gap2) == 0 &&
           memcmp(old->area + VANITYCROW_AREA_BYTES, new->area + VANITYCROW_AREA_BYTES, PAST) == 0 &&
           memcmp(old->gap3, new->gap3, sizeof old->gap3) == 0 && memcmp(old->gap4, new->gap4, sizeof old->gap4) == 0;
}

/* Makes a call on a copy whose pages may only be read, as it is refused: a write would end the program. */
static int refused_unwritten(enum call c, const struct station *t, const struct arguments *g, uint8_t number) {
    memcpy(&tried, t, sizeof tried);
    if (mprotect(&tried, sizeof tried, PROT_READ) != 0) return 0;
    uint8_t got = make_call(c, &tried, g);
    read_only[c][number]++;
    return mprotect(&tried, sizeof tried, PROT_READ | PROT_WRITE) == 0 && got == number && kept_bytes(t, &tried, 1);
}

/* Makes a call on a copy. */
static void expect(const char *what, enum call c, const struct station *t, const struct arguments *g, uint8_t number) {
    memcpy(&tried, t, sizeof tried);
    uint8_t got = make_call(c, &tried, g);
    checks++;
    if (got != number) printf("fields: %s: %s answers %u, not %u\n", what, call_names[c], (unsigned)got, (unsigned)number);
    else if (!kept_bytes(t, &tried, got != 0))
        printf("fields: %s: %s, answered by %u, changed bytes\n", what, call_names[c], (unsigned)got);
    else if (number && !refused_unwritten(c, t, g, number)) printf("fields: %s: %s on pages that may only be read\n", what, call_names[c]);
    else return;
    failures++;
}

/* Asks for the levels within reach, over a copy: no byte may change. */
static inline void expect_levels(const char *what, const struct station *t, uint8_t low, uint8_t high, uint8_t number) {
    memcpy(&tried, t, sizeof tried);
    uint8_t got = vanitycrow_levels(&tried.p, (struct vanitycrow_class){false, false}, low, high).refusal;
    checks++;
    if (got == number && memcmp(t, &tried, sizeof tried) == 0) return;
    printf("fields: %s: levels of %u to %u: %u, not %u, or bytes changed\n", what, (unsigned)low, (unsigned)high, (unsigned)got,
        (unsigned)number);
    failures++;
}

/* Writes the profile as a file into so much output, over a copy: no byte past the file may change, and none where it is refused. */
static inline void expect_card(const char *what, const struct station *t, size_t room, uint8_t number) {
    memcpy(&tried, t, sizeof tried);
    uint8_t got = vanitycrow_write_profile(&tried.p, tried.out, room);
    checks++;
    if (got == 0) memcpy(tried.out, t->out, VANITYCROW_CARD_BYTES);
    if (got == number && memcmp(t, &tried, sizeof tried) == 0) return;
    printf("fields: %s: a card into %zu bytes: %u, not %u, or bytes changed\n", what, room, (unsigned)got, (unsigned)number);
    failures++;
}

/* Makes all seven calls; where they are not refused by `number`, those out of turn are by 4. */
static void expect_all(const char *what, const struct station *t, const struct arguments *g, uint8_t number) {
    for (int c = 0; c < CALLS; c++) {
        uint8_t turn = (c == CONNECT) == t->record.sender.link.connected ? 4 : 0;
        expect(what, (enum call)c, t, g, number ? number : turn);
    }
}

/* Whether the three could be made. */
static int make_stations(void) {
    struct station *t = &subject;
    struct arguments g = usual_arguments();
    memset(t, 0xA5, sizeof *t);
    t->p = usual();
    memset(t->area, 0, VANITYCROW_AREA_BYTES);
    vanitycrow_fresh(&t->record);
    VALGRIND_MAKE_MEM_DEFINED(&t->record, sizeof t->record);
    memcpy(&fresh_one, t, sizeof *t);
    g.h.time = 1;
    g.connect.snr_db = 12;
    g.bytes_len = 10;
    g.message.label = OPEN_LABEL;
    uint8_t wrong = make_call(CONNECT, t, &g) | make_call(QUEUE, t, &g);
    memcpy(&open_one, t, sizeof *t);
    g.bytes_len = 9000;
    g.message.label = FLOWN_LABEL;
    wrong |= make_call(QUEUE, t, &g);
    wrong |= make_call(BURST, t, &g);
    g.ack.bitmap = 5;
    g.ack.stored = true;
    g.ack.burst = t->record.sender.link.burst_id;
    wrong |= make_call(SHORT_ACK, t, &g);
    wrong |= make_call(BURST, t, &g);
    memcpy(&flown_one, t, sizeof *t);
    const struct vanitycrow_sender *s = &t->record.sender;
    return !wrong && s->at_peer.n > 1 && s->last_burst.n > 1 && s->counts.bytes_acked > 0 && t->record.messages.n == 1 && t->record.messages.begun;
}
#endif
