/* Times of the check sum and of a burst's frames, beside the Rust's bit by bit loop. */
#include <stddef.h>
#include <stdint.h>
#include <stdio.h>
#include <stdlib.h>
#include <string.h>
#include "timing.h"

uint32_t vanitycrow_crc32(const uint8_t *bytes, size_t len);
void vanitycrow_frames(uint8_t *out, size_t out_len, size_t count, size_t size, const uint8_t *payload, size_t payload_len);

/* bitwise.rs: the check sum bit by bit, as rustc builds the form of frame.rs. */
uint32_t bitwise(const uint8_t *bytes, size_t len);

enum { SAMPLES = 201, SIZE = 180, FRAMES = 64, PAYLOAD = 170 };

static uint8_t bytes[SIZE], payload[PAYLOAD], out[FRAMES * SIZE];
static volatile uint32_t sink;

static void by_tables(void) { bytes[0]++; sink += vanitycrow_crc32(bytes, SIZE); }
static void by_bits(void) { bytes[0]++; sink += bitwise(bytes, SIZE); }
static void frames(void) { payload[0]++; vanitycrow_frames(out, sizeof out, FRAMES, SIZE, payload, PAYLOAD); sink += out[sizeof out - 1]; }

/* The median of SAMPLES samples, each of `times` calls, and the quartiles as its spread. In nanoseconds a call. */
static double measure(const char *name, void (*call)(void), int times) {
    static double t[SAMPLES];
    for (int s = 0; s < SAMPLES; s++) {
        double begin = seconds();
        for (int i = 0; i < times; i++) call();
        t[s] = (seconds() - begin) * 1e9 / times;
    }
    qsort(t, SAMPLES, sizeof t[0], less);
    printf("%-44s %9.1f ns (quartiles %.1f to %.1f)\n", name, t[SAMPLES / 2], t[SAMPLES / 4], t[SAMPLES - 1 - SAMPLES / 4]);
    return t[SAMPLES / 2];
}

int main(void) {
    for (int i = 0; i < SIZE; i++) bytes[i] = (uint8_t)(7 * i + 3);
    memcpy(payload, bytes, PAYLOAD);
    if (vanitycrow_crc32(bytes, SIZE) != bitwise(bytes, SIZE)) {
        puts("the two check sums differ");
        return 1;
    }
    double tables = measure("crc32 of 180 bytes", by_tables, 200);
    double bits = measure("crc32 of 180 bytes, bit by bit, Rust", by_bits, 50);
    double burst = measure("64 frames of 180 bytes", frames, 10);
    printf("crc32, its 1 KB of tables copied at each call, is %.1f times as fast as the Rust's loop (target: 5): %s\n", bits / tables, bits >= 5 * tables ? "met" : "missed");
    printf("64 frames, the tables lent once, take %.1f us (target: under 15): %s\n", burst / 1000, burst < 15000 ? "met" : "missed");
    return 0;
}
