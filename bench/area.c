/* Times of the work area at its fullest: 2,048 pieces with 16,256 bytes, 16,384 bytes that wait, 64 held, 64 outstanding. */
#include <stdbool.h>
#include <stddef.h>
#include <stdint.h>
#include <stdio.h>
#include <stdlib.h>
#include <string.h>
#include "timing.h"

bool vanitycrow_sound(const uint8_t *a, size_t a_len, size_t n, uint32_t shortest, uint32_t longest, uint32_t next, uint32_t flying,
                      const uint32_t *held, size_t held_len, const uint32_t *held_bits, size_t held_bits_len, uint32_t top,
                      const uint32_t *sent, size_t sent_len, const uint32_t *bits, size_t bits_len, const uint32_t *sent_held, size_t sent_held_len);
size_t vanitycrow_merge(uint8_t *a, size_t a_len, size_t n, uint32_t max, const uint32_t *held, size_t held_len);
size_t vanitycrow_remove(uint8_t *a, size_t a_len, size_t n, size_t used, const uint32_t *gone, size_t gone_len);

enum { SAMPLES = 201, CALLS = 20, AREA = 49152, STREAM = 32768, PIECES = 2048, SLOTS = 64, SHORT = 8, LONG = 254, FLYING = 16256, WAITING = 16384 };

static uint8_t given[AREA], area[AREA];
static uint32_t offs[PIECES], held[SLOTS], sent[SLOTS], held_bits[SLOTS], sent_bits[SLOTS], sent_held[SLOTS], next;
static volatile size_t sink;

static void store(uint8_t *at, uint32_t v) {
    for (int i = 0; i < 4; i++) at[i] = (uint8_t)(v >> 8 * i);
}

/* How the pieces lie: one behind the other; a byte between each two; or in 64 runs whose pieces have the marks of the first run's,
   where those of the first two runs are listed, so that every piece is looked for in the whole list. */
enum lie { TOGETHER, APART, MARKED };

static uint32_t run_after(uint32_t from) {
    while ((uint32_t)(from * 2654435761u) >> 16 != 0) from++;
    return from;
}

static void lay(enum lie how) {
    uint32_t from = 0;
    for (int i = 0; i < PIECES; i++) {
        uint32_t len = i % 32 == 31 ? SHORT - 2 : SHORT;
        if (how == APART) from++;
        if (how == MARKED && i % 32 == 0) from = run_after(from);
        offs[i] = from;
        store(given + STREAM + 8 * i, from);
        store(given + STREAM + 8 * i + 4, len);
        from += len;
    }
    next = from;
    for (int i = 0; i < FLYING + WAITING; i++) given[i] = (uint8_t)(7 * i + 3);
    for (int i = 0; i < SLOTS; i++) {
        int last = SLOTS - 1 - i;
        held[i] = offs[how == MARKED ? last : 32 * last];
        sent[i] = offs[32 * last + 31];
        held_bits[i] = 32767;
        sent_bits[i] = 16384;
        sent_held[i] = 49151;
    }
}

static size_t sound(void) {
    return vanitycrow_sound(area, AREA, PIECES, SHORT, LONG, next, FLYING, held, SLOTS, held_bits, SLOTS, 32768, sent, SLOTS, sent_bits, SLOTS, sent_held, SLOTS);
}
static size_t merge(void) { return vanitycrow_merge(area, AREA, PIECES, LONG, held, SLOTS); }
static size_t settle(void) { return vanitycrow_remove(area, AREA, PIECES, FLYING + WAITING, held, SLOTS); }

/* The median of SAMPLES samples, each of CALLS calls on an area that is laid anew before each, untimed. */
static int measure(const char *name, enum lie how, size_t (*call)(void), size_t answer, double target) {
    static double t[SAMPLES];
    lay(how);
    for (int s = 0; s < SAMPLES; s++) {
        double sum = 0;
        for (int i = 0; i < CALLS; i++) {
            memcpy(area, given, AREA);
            double begin = seconds();
            size_t r = call();
            sum += seconds() - begin;
            if (r != answer) {
                printf("%s: answer %zu, not %zu\n", name, r, answer);
                return 1;
            }
            sink += r;
        }
        t[s] = sum * 1e6 / CALLS;
    }
    qsort(t, SAMPLES, sizeof t[0], less);
    double m = t[SAMPLES / 2];
    printf("%-50s %7.2f us (quartiles %.2f to %.2f; target: under %.0f): %s\n", name, m, t[SAMPLES / 4], t[SAMPLES - 1 - SAMPLES / 4], target, m < target ? "met" : "missed");
    return 0;
}

int main(void) {
    return measure("sound check of 2,048 pieces", TOGETHER, sound, 1, 10)
        || measure("merge, pieces together", TOGETHER, merge, 128, 60)
        || measure("merge, pieces apart", APART, merge, PIECES, 60)
        || measure("merge, every piece marked", MARKED, merge, 126, 60)
        || measure("settle of 64 frames, pieces together", TOGETHER, settle, PIECES - SLOTS, 40)
        || measure("settle of 64 frames, every piece marked", MARKED, settle, PIECES - SLOTS, 40);
}
