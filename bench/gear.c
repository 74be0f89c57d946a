/* The time of an ack in Goodput with 17 candidate levels, beside the Rust's where that is given: its median and quartiles in nanoseconds. */
#include <stdint.h>
#include <stdio.h>
#include <stdlib.h>
#include "timing.h"

/* The level after n acks, each of nine frames of ten. */
size_t vanitycrow_acks(uint64_t n, float snr_db, double now);

enum { SAMPLES = 201, ACKS = 200 };

static volatile size_t sink;

int main(int count, char **words) {
    static double t[SAMPLES];
    for (int s = 0; s < SAMPLES; s++) {
        double begin = seconds();
        sink += vanitycrow_acks(ACKS, 40, 100);
        t[s] = (seconds() - begin) * 1e9 / ACKS;
    }
    qsort(t, SAMPLES, sizeof t[0], less);
    double ack = t[SAMPLES / 2];
    printf("%-44s %9.1f ns (quartiles %.1f to %.1f)\n", "an ack in Goodput, 17 candidate levels", ack, t[SAMPLES / 4], t[SAMPLES - 1 - SAMPLES / 4]);
    if (count > 3)
        printf("%-44s %9.1f ns (quartiles %s to %s)\n", "the same, Rust, its burst counted and settled", atof(words[1]), words[2], words[3]);
    else
        puts("the Rust's on_ack is not timed: cargo or the original's sources are not at hand");
    printf("an ack takes %.2f us (target: under 4): %s\n", ack / 1000, ack < 4000 ? "met" : "missed");
    return 0;
}
