/* The box's call on its limits: refusals 3, 6 and 10 in their order with every byte compared, and what leaves a frame out, on both sides of each limit. */
#include <stdio.h>
#include "tally.h"

#define PLACES VANITYCROW_PLACES

static struct vanitycrow_receiver r;
static uint16_t window[PLACES + 2], before[PLACES + 2];
static uint8_t out[PLACES + 2], kept[PLACES + 2];
static unsigned calls, failures;

static void fail(const char *what) {
    fprintf(stderr, "box: %s\n", what);
    failures++;
}

static void fresh(uint32_t first) {
    vanitycrow_fresh_receiver(&r);
    r.first_missing = first;
    memset(window, 0, sizeof window);
    window[PLACES] = window[PLACES + 1] = 777;
    memset(out, 9, sizeof out);
}

/* A data frame of `size` bytes at `off`, with `len` in its length byte and as many bytes as fit. */
static void frame(uint8_t *f, size_t size, uint32_t off, uint8_t len, uint8_t kind) {
    memset(f, 0, size);
    f[0] = kind;
    for (int i = 0; i < 3; i++) f[2 + i] = (uint8_t)(off >> (8 * i));
    f[5] = len;
    for (size_t i = 6; i < size - 4 && i < 6u + len; i++) f[i] = (uint8_t)(off + i);
    uint32_t c = check_sum(f, size - 4);
    for (int i = 0; i < 4; i++) f[size - 4 + i] = (uint8_t)(c >> (8 * i));
}

static struct vanitycrow_received one(const uint8_t *f, uint16_t size, uint8_t slot) {
    calls++;
    return vanitycrow_receive(&r, window, PLACES, 2, 34, f, size, &size, 1, &slot, 1, out, PLACES);
}

/* wrong, beyond, or neither: taken. */
static void takes(const char *what, uint32_t first, size_t size, uint32_t off, uint8_t len, uint8_t kind, uint8_t slot, size_t wrong, size_t beyond) {
    uint8_t f[600];
    fresh(first);
    frame(f, size, off, len, kind);
    struct vanitycrow_received a = one(f, (uint16_t)size, slot);
    uint64_t bits = 0;
    for (int i = 0; i < 8; i++) bits |= (uint64_t)a.payload[1 + i] << (8 * i);
    bool taken = !wrong && !beyond;
    if (a.refusal || a.wrong != wrong || a.beyond != beyond || bits != (taken ? (uint64_t)1 << slot : 0) || a.payload[0] != 2 || a.payload[9] != 34) fail(what);
    if (taken && off == first && (a.handed != len || memcmp(out, f + 6, len))) fail(what);
    if (taken && off > first && window[off - first] != 256 + f[6]) fail(what);
}

static void refuses(const char *what, uint8_t want, size_t places, uint8_t number, size_t n) {
    uint8_t f[60], slot = 0;
    uint16_t size = sizeof f;
    struct vanitycrow_receiver was = r;
    frame(f, sizeof f, r.first_missing, 50, 3);
    memcpy(before, window, sizeof window);
    memcpy(kept, out, sizeof out);
    calls++;
    struct vanitycrow_received a = vanitycrow_receive(&r, window, places, number, 1, f, sizeof f, &size, 1, &slot, 1, out, n);
    if (a.refusal != want) fail(what);
    if (want && (memcmp(&was, &r, sizeof r) || memcmp(before, window, sizeof window) || memcmp(kept, out, sizeof out))) fail("a refused call changed a byte");
    if (window[PLACES] != 777 || out[PLACES] != 9) fail("a byte past what is the box's changed");
}

static void refusals(void) {
    fresh(0);
    refuses("32,767 places", 3, PLACES - 1, 4, 0);
    refuses("a number of 4", 6, PLACES, 4, 0);
    refuses("a number of 255", 6, PLACES, 255, PLACES);
    refuses("an output of 32,767", 10, PLACES, 3, PLACES - 1);
    refuses("the least that is accepted", 0, PLACES, 3, PLACES);
    fresh(16777216);
    window[0] = 255;
    refuses("the last first missing byte", 0, PLACES + 2, 0, PLACES + 2);
    fresh(16777217);
    refuses("a first missing byte past it", 3, PLACES, 0, PLACES);
    fresh(5);
    window[0] = 256;
    refuses("the first missing byte kept", 3, PLACES, 0, PLACES);
    fresh(16777216 - PLACES);
    window[PLACES - 1] = 256;
    refuses("the last offset kept", 0, PLACES, 0, PLACES);
    fresh(16777217 - PLACES);
    window[PLACES - 1] = 256;
    refuses("offset 16,777,216 kept", 3, PLACES, 0, PLACES);
    window[PLACES - 1] = 255;
    window[PLACES - 2] = 511;
    refuses("the byte before it kept", 0, PLACES, 0, PLACES);
}

static void frames(void) {
    takes("17 bytes", 0, 17, 0, 1, 3, 0, 1, 0);
    takes("18 bytes", 0, 18, 0, 1, 3, 0, 0, 0);
    takes("512 bytes", 0, 512, 0, 254, 3, 63, 0, 0);
    takes("513 bytes", 0, 513, 0, 254, 3, 0, 1, 0);
    takes("slot 64", 0, 60, 0, 9, 3, 64, 1, 0);
    takes("kind 2", 0, 60, 0, 9, 2, 0, 1, 0);
    takes("kind 4", 0, 60, 0, 9, 4, 0, 1, 0);
    takes("length 0", 0, 60, 0, 0, 3, 0, 1, 0);
    takes("length 255", 0, 300, 0, 255, 3, 0, 1, 0);
    takes("up to the check sum", 0, 60, 0, 50, 3, 0, 0, 0);
    takes("into the check sum", 0, 60, 0, 51, 3, 0, 1, 0);
    takes("up to the window's end", 100, 60, 100 + PLACES - 50, 50, 3, 7, 0, 0);
    takes("past the window's end", 100, 60, 101 + PLACES - 50, 50, 3, 7, 0, 1);
    takes("up to the last offset", 16777000, 60, 16777216 - 50, 50, 3, 7, 0, 0);
    takes("past the last offset", 16777000, 60, 16777217 - 50, 50, 3, 7, 0, 1);
    takes("handed on before", 5000, 60, 4000, 50, 3, 7, 0, 0);
    uint8_t f[60], g[60];
    fresh(0);
    frame(f, sizeof f, 0, 50, 3);
    for (size_t i = 0; i < sizeof f; i++)
        for (int b = 0; b < 8; b++) {
            memcpy(g, f, sizeof f);
            g[i] ^= (uint8_t)(1 << b);
            struct vanitycrow_received a = one(g, sizeof g, 0);
            if (a.wrong != 1 || a.handed) fail("a damaged frame was taken");
        }
}

/* Slot numbers ascend; a byte kept first stays; the base is that of the call's start. */
static void bursts(void) {
    uint8_t b[3 * 60], slots[3] = {5, 5, 4};
    uint16_t sizes[3] = {60, 60, 60};
    fresh(0);
    for (int i = 0; i < 3; i++) frame(b + 60 * i, 60, 20, 50, 3);
    struct vanitycrow_received a = vanitycrow_receive(&r, window, PLACES, 0, 0, b, sizeof b, sizes, 3, slots, 3, out, PLACES);
    if (a.wrong != 2 || a.beyond || a.handed || a.payload[1] != 32) fail("slot numbers that don't ascend");
    uint16_t first = window[40];
    frame(b, 60, 10, 50, 3);
    for (int i = 6; i < 56; i++) b[i] ^= 0x55;
    uint32_t c = check_sum(b, 56);
    for (int i = 0; i < 4; i++) b[56 + i] = (uint8_t)(c >> (8 * i));
    a = one(b, 60, 0);
    if (a.wrong || window[40] != first || !window[12]) fail("a byte kept first does not stay");
    fresh(0);
    frame(b, 60, 0, 50, 3);
    frame(b + 60, 60, PLACES, 50, 3);
    uint8_t two[2] = {0, 1};
    a = vanitycrow_receive(&r, window, PLACES, 0, 0, b, 120, sizes, 2, two, 2, out, PLACES);
    if (a.handed != 50 || a.beyond != 1 || r.first_missing != 50) fail("the base moved within the call");
    a = vanitycrow_receive(&r, window, PLACES, 0, 0, b, 100, sizes, 3, two, 2, out, PLACES);
    if (a.wrong != 1 || a.refusal) fail("a frame that runs past the bytes");
    calls += 3;
}

int main(void) {
    refusals();
    frames();
    bursts();
    if (!failures) printf("%u calls\n", calls);
    return failures ? 1 : 0;
}
