/* Single calls through the C interface, each over the same record and work area, which are copied anew before it, outside the timed part: the least nanoseconds of
 * 20,000 calls, a row each. -DBEFORE_MESSAGES: against a library from before messages had classes (document 02, Change 1), as bench/calls.sh compares them. */
#include <stdint.h>
#include <stdio.h>
#include <stdlib.h>
#include <string.h>
#include "timing.h"
#include "usual.h"
#include "vanitycrow.h"

enum { CALLS = 20000, WAITING = 7, BYTES = 64 };

#ifdef BEFORE_MESSAGES
typedef struct vanitycrow_sender record;
#define LAST
#else
typedef struct vanitycrow_station record;
#define LAST (struct vanitycrow_message){.class_ = 3},
#endif

static record now, before;
static uint8_t area[VANITYCROW_AREA_BYTES], area_before[VANITYCROW_AREA_BYTES], out[65536], bytes[1200], payload[17];
static struct vanitycrow_profile profile;
static const struct vanitycrow_heard first = {.time = 1, .snr_db = 30}, later = {.time = 12, .wave = 3, .snr_db = 20};
static uint8_t number, bitmap;

static void must(uint8_t refusal) {
    if (refusal) {
        fprintf(stderr, "refused by %d\n", refusal);
        exit(1);
    }
}

static uint8_t queue_on(record *t, uint8_t *a, size_t n) {
    return vanitycrow_queue(&profile, t, a, sizeof area, LAST bytes, n);
}

static uint8_t connect_on(record *t, uint8_t *a) {
    struct vanitycrow_conn_ack r = {.snr_db = 30};
    return vanitycrow_connect(&profile, t, a, sizeof area, first, r);
}

static uint8_t short_ack(uint8_t burst) {
    struct vanitycrow_ack r = {.burst = burst, .bitmap = bitmap, .snr_db = 20};
    return vanitycrow_short_ack(&profile, &now, area, sizeof area, later, r);
}

static uint8_t connected(void) { return connect_on(&now, area); }
static uint8_t found(void) { return vanitycrow_find(&profile, &now, area, sizeof area, 0).refusal; }
static uint8_t queued(void) { return queue_on(&now, area, BYTES); }
static uint8_t sent(void) { return vanitycrow_data_burst(&profile, &now, area, sizeof area, out, sizeof out).refusal; }
static uint8_t acked(void) { return short_ack(number); }
static uint8_t unmatched(void) { return short_ack((number + 1) % 4); }

static uint8_t long_acked(void) {
    struct vanitycrow_long_ack r = {0};
    return vanitycrow_long_ack(&profile, &now, area, sizeof area, later, r, payload, sizeof payload);
}

static uint8_t turned(void) {
    struct vanitycrow_turn r = {0};
    return vanitycrow_turn(&profile, &now, area, sizeof area, later, r);
}

static void row(const char *name, uint8_t (*call)(void)) {
    double least = 1;
    for (int i = 0; i < CALLS; i++) {
        now = before;
        memcpy(area, area_before, sizeof area);
        double t = seconds();
        uint8_t refusal = call();
        t = seconds() - t;
        must(refusal);
        if (t < least) least = t;
    }
    printf("%s\t%.0f\n", name, least * 1e9);
}

/* A connected sender with some messages waiting. */
static void waiting(int messages) {
    vanitycrow_fresh(&before);
    memset(area_before, 0, sizeof area_before);
    must(connect_on(&before, area_before));
    for (int i = 0; i < messages; i++) must(queue_on(&before, area_before, BYTES));
}

/* Calls about a burst at one level. */
static void burst_rows(size_t level, const char *of, size_t more) {
    char name[80];
    profile = usual();
    profile.pin_level.set = true;
    profile.pin_level.level = level;
    waiting(WAITING);
    must(queue_on(&before, area_before, more));
    snprintf(name, sizeof name, "burst of %s", of);
    row(name, sent);
    struct vanitycrow_burst b = vanitycrow_data_burst(&profile, &before, area_before, sizeof area_before, out, sizeof out);
    must(b.refusal);
    number = b.outgoing.number;
    bitmap = 1;
    snprintf(name, sizeof name, "short ack that settles one, after %s", of);
    row(name, acked);
    bitmap = 63;
    snprintf(name, sizeof name, "short ack that settles all, after %s", of);
    row(name, acked);
    snprintf(name, sizeof name, "unmatched short ack, after %s", of);
    row(name, unmatched);
    memset(payload, 0, sizeof payload);
    payload[0] = number;
    snprintf(name, sizeof name, "long ack that settles none, after %s", of);
    row(name, long_acked);
    memset(payload, 255, sizeof payload);
    payload[0] = number;
    payload[9] = 60;
    snprintf(name, sizeof name, "long ack that settles all, after %s", of);
    row(name, long_acked);
    snprintf(name, sizeof name, "turn after %s", of);
    row(name, turned);
}

int main(void) {
    profile = usual();
    vanitycrow_fresh(&before);
    row("connect", connected);
    waiting(0);
    row("find, no message", found);
    row("queue of 64 bytes, no message before it", queued);
    row("turn, no message", turned);
    waiting(WAITING);
    row("find, 7 messages", found);
    row("queue of 64 bytes at the end of 7", queued);
    row("turn, 7 messages", turned);
    burst_rows(0, "one frame", 0);
    burst_rows(10, "seven frames", sizeof bytes);
    return 0;
}
