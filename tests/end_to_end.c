/* End to end: end_to_end STEPS SEED. A sender and a box over a channel that loses frames, bursts and answers, holds answers back, and brings frames of
 * earlier bursts, out of order and again. After each step both sentences of the theorem (crates/arrival/specs/EndToEnd.antt) are checked from outside,
 * by document 01's tally of the calls and by what the box handed on. Links of up to 16,777,216 bytes.
 *
 * end_to_end bound: a link that takes 16,777,216 bytes keeps both, and with one byte more the second is false (docs/DIFFERENCES.md). */
#include <stdio.h>
#include "tally.h"
#include "usual.h"

#define BURSTS 4 /* that the channel still holds */
#define OUT_BYTES (VANITYCROW_MAX_SLOTS * 512)
#define BOUND 16777216u

struct sent { uint8_t number; size_t n, size; uint8_t out[OUT_BYTES]; };

static struct vanitycrow_profile p;
static struct vanitycrow_station station;
static uint8_t area[VANITYCROW_AREA_BYTES];
static struct tally tally;
static struct vanitycrow_receiver box;
static uint16_t window[VANITYCROW_PLACES + 3];
static uint8_t stream[VANITYCROW_PLACES], *handed;
static struct sent sent[BURSTS]; /* the latest first */
static struct vanitycrow_received answers[8];
static size_t answered, on, checked_on;
static uint64_t x;
static double now;

static unsigned below(unsigned n) {
    x = x * 6364136223846793005u + 1442695040888963407u;
    return (unsigned)(x >> 33) % n;
}

static int fail(const char *what) {
    fprintf(stderr, "end_to_end: %s\n", what);
    exit(1);
}

/* Both sentences, of the offsets from `from` to `to`. */
static int second_holds(size_t from, size_t to) {
    for (size_t o = from; o < to && o < tally.flown; o++) {
        if (!tally.acked[o] || o < on) continue;
        if (o - on >= VANITYCROW_PLACES || window[o - on] != 256 + tally.bytes[o]) return 0;
    }
    return 1;
}

static void check(void) {
    if (on > tally.flown) fail("more was handed on than has flown");
    if (on > checked_on && memcmp(handed + checked_on, tally.bytes + checked_on, on - checked_on)) fail("other bytes were handed on than flew");
    checked_on = on;
    if (box.first_missing != on) fail("the first missing byte is another");
    if (!second_holds(on, tally.flown)) fail("an acknowledged byte is neither kept nor handed on");
    const char *wrong = compare_tally(&tally, &station, area);
    if (wrong) fail(wrong);
    for (int i = 0; i < 3; i++)
        if (window[VANITYCROW_PLACES + i] != 40000 + i) fail("a place past the window changed");
}

static void queue(size_t n) {
    static uint8_t bytes[VANITYCROW_MAX_WAITING];
    struct vanitycrow_message m = {.class_ = (uint8_t)below(4), .label = (uint16_t)(below(4) ? 0 : 1 + below(3))};
    for (size_t i = 0; i < n; i++) bytes[i] = (uint8_t)below(256);
    if (!vanitycrow_queue(&p, &station, area, sizeof area, m, bytes, n)) tally_queue(&tally, m, bytes, n);
}

static void burst(void) {
    static uint8_t out[OUT_BYTES];
    struct vanitycrow_burst b = vanitycrow_data_burst(&p, &station, area, sizeof area, out, sizeof out);
    if (b.refusal) fail("a burst was refused");
    tally_burst(&tally, &b.outgoing);
    memmove(sent + 1, sent, (BURSTS - 1) * sizeof *sent);
    sent[0].number = b.outgoing.number;
    sent[0].n = b.outgoing.frames.n;
    sent[0].size = b.outgoing.code <= 4 ? p.short_bytes : p.long_bytes;
    memcpy(sent[0].out, out, sizeof out);
    answered = 0;
}

/* Frames of the burst before the last k, lost with odds of one in `lost`; now and then out of order, again or damaged. */
static void arrive(size_t k, unsigned lost, int wild) {
    static uint8_t bytes[2 * OUT_BYTES];
    uint16_t sizes[2 * VANITYCROW_MAX_SLOTS];
    uint8_t slots[2 * VANITYCROW_MAX_SLOTS];
    size_t n = 0, used = 0, turns = wild ? 2 * sent[k].n : sent[k].n;
    for (size_t j = 0; j < turns; j++) {
        size_t i = wild ? below((unsigned)sent[k].n) : j;
        if (lost && below(lost) == 0) continue;
        memcpy(bytes + used, sent[k].out + i * sent[k].size, sent[k].size);
        if (wild && below(8) == 0) bytes[used + below((unsigned)sent[k].size)] ^= (uint8_t)(1 << below(8));
        sizes[n] = (uint16_t)sent[k].size;
        slots[n++] = (uint8_t)i;
        used += sent[k].size;
    }
    struct vanitycrow_received a =
        vanitycrow_receive(&box, window, VANITYCROW_PLACES + 3, sent[k].number, (uint8_t)below(256), bytes, used, sizes, n, slots, n, stream, sizeof stream);
    if (a.refusal) fail("a reception was refused");
    memcpy(handed + on, stream, a.handed);
    on += a.handed;
    if (k == 0 && answered < 8) answers[answered++] = a;
}

static void answer(void) {
    struct vanitycrow_heard h = {.time = now, .wave = (uint8_t)below(6), .snr_db = (float)below(30) - 5};
    struct vanitycrow_long_ack r = {.want_turn = below(9) == 0, .stored = true};
    if (!answered) return;
    struct vanitycrow_received a = answers[below((unsigned)answered)];
    if (vanitycrow_long_ack(&p, &station, area, sizeof area, h, r, a.payload, sizeof a.payload)) fail("an answer was refused");
    tally_long(&tally, a.payload);
}

static void turn(void) {
    struct vanitycrow_heard h = {.time = now, .wave = 2, .snr_db = 3};
    struct vanitycrow_turn r = {0};
    if (!vanitycrow_turn(&p, &station, area, sizeof area, h, r)) tally_turn(&tally);
}

static void step(void) {
    now += 5;
    unsigned what = below(10);
    if (what < 2 && tally.taken < BOUND - VANITYCROW_MAX_WAITING) queue(1 + below(4000));
    if (what < 6) burst();
    if (what < 8 && below(8)) arrive(below(4) ? 0 : below(BURSTS), 2 + below(6), below(5) == 0);
    if (what < 9 && below(5)) answer();
    if (what == 9 && below(4) == 0) turn();
    check();
}

static void start(uint64_t seed) {
    struct vanitycrow_heard h = {.time = 1, .wave = 1, .snr_db = 2};
    struct vanitycrow_conn_ack c = {.session = 7, .snr_db = 12, .cue = true};
    x = seed * 2654435761u + 20261117;
    tally_drop(&tally);
    memset(area, 0, sizeof area);
    memset(window, 0, sizeof window);
    memset(sent, 0, sizeof sent);
    for (int i = 0; i < 3; i++) window[VANITYCROW_PLACES + i] = (uint16_t)(40000 + i);
    on = checked_on = answered = 0;
    now = 1;
    p = usual();
    if (below(2)) p.long_bytes = 180 + below(85);
    vanitycrow_fresh(&station);
    vanitycrow_fresh_receiver(&box);
    if (vanitycrow_connect(&p, &station, area, sizeof area, h, c)) fail("the connect answer was refused");
}

/* A link that takes so many bytes, with nothing lost. */
static void carry(uint64_t all) {
    while (tally.taken < all || tally.acknowledged < tally.taken) {
        uint64_t left = all - tally.taken;
        size_t room = VANITYCROW_MAX_WAITING - tally.waiting;
        struct vanitycrow_message m = {.class_ = VANITYCROW_ROUTINE};
        static uint8_t bytes[VANITYCROW_MAX_WAITING];
        size_t n = left < room ? (size_t)left : room;
        for (size_t i = 0; i < n; i++) bytes[i] = (uint8_t)below(256);
        if (vanitycrow_queue(&p, &station, area, sizeof area, m, bytes, n)) fail("a queuing was refused");
        tally_queue(&tally, m, bytes, n);
        now += 5;
        burst();
        arrive(0, 0, 0);
        answer();
        if (tally.taken <= BOUND) check();
    }
}

int main(int argc, char **argv) {
    handed = malloc(BOUND + VANITYCROW_PLACES);
    if (argc < 2 || !handed) return 2;
    if (!strcmp(argv[1], "bound")) {
        start(1);
        carry(BOUND);
        if (on != BOUND) fail("16,777,216 bytes are not all handed on");
        carry(BOUND + 1);
        if (!tally.acked[BOUND] || on != BOUND || second_holds(BOUND, BOUND + 1)) fail("byte 16,777,217 is not lost");
        printf("16777216 bytes handed on; the next is acknowledged and lost\n");
        return 0;
    }
    unsigned long steps = strtoul(argv[1], NULL, 10);
    uint64_t seed = argc > 2 ? strtoull(argv[2], NULL, 10) : 1, bytes = 0;
    for (unsigned long done = 0; done < steps; seed++) {
        start(seed);
        for (int i = 0; i < 2000 && done < steps; i++, done++) step();
        bytes += on;
    }
    if (!bytes) fail("nothing was handed on");
    printf("%lu steps, %llu bytes handed on\n", steps, (unsigned long long)bytes);
    free(handed);
    tally_drop(&tally);
    return 0;
}
