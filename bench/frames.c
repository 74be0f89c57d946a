/* A reception of 16 long acks of one burst, of which the first settles, beside one long ack: medians of 2,001 samples each, in turn. */
#include <stdint.h>
#include <stdio.h>
#include <stdlib.h>
#include <string.h>
#include "timing.h"
#include "usual.h"
#include "vanitycrow.h"

enum { SAMPLES = 2001, ACK = 13 };

static struct vanitycrow_station station, before;
static uint8_t area[VANITYCROW_AREA_BYTES], area_before[VANITYCROW_AREA_BYTES], out[65536], bytes[9000];
static uint8_t payloads[16 * ACK];
static struct vanitycrow_reception reception;
static double one[SAMPLES], all[SAMPLES];

/* A burst is outstanding: what its acks have to say of it. */
static void make(const struct vanitycrow_profile *p) {
    struct vanitycrow_heard h = {.time = 1, .snr_db = 30};
    struct vanitycrow_conn_ack r = {.snr_db = 30};
    struct vanitycrow_message m = {.class_ = 3};
    vanitycrow_fresh(&before);
    if (vanitycrow_connect(p, &before, area_before, sizeof area_before, h, r)) exit(1);
    if (vanitycrow_queue(p, &before, area_before, sizeof area_before, m, bytes, sizeof bytes)) exit(1);
    struct vanitycrow_burst b = vanitycrow_data_burst(p, &before, area_before, sizeof area_before, out, sizeof out);
    if (b.refusal || b.outgoing.frames.n == 0) exit(1);
    reception.n = 16;
    for (int i = 0; i < 16; i++) {
        reception.kind[i] = 4;
        reception.len[i] = ACK;
        memset(payloads + ACK * i, 255, ACK);
        payloads[ACK * i] = b.outgoing.number;
        payloads[ACK * i + 9] = 60;
    }
}

static void again(void) {
    station = before;
    memcpy(area, area_before, sizeof area);
}

int main(void) {
    struct vanitycrow_profile p = usual();
    struct vanitycrow_heard h = {.time = 2, .snr_db = 30};
    struct vanitycrow_long_ack r = {0};
    make(&p);
    for (int i = 0; i < SAMPLES; i++) {
        again();
        double t = seconds();
        if (vanitycrow_long_ack(&p, &station, area, sizeof area, h, r, payloads, ACK)) return 1;
        one[i] = seconds() - t;
        again();
        t = seconds();
        if (vanitycrow_frames(&p, &station, area, sizeof area, h, reception, payloads, sizeof payloads)) return 1;
        all[i] = seconds() - t;
    }
    if (station.sender.counts.bytes_acked == 0) return 1;
    qsort(one, SAMPLES, sizeof *one, less);
    qsort(all, SAMPLES, sizeof *all, less);
    double ratio = all[SAMPLES / 2] / one[SAMPLES / 2];
    printf("a long ack that settles %.2f us, 16 frames of which one settles %.2f us: %.2f times (at most 2: %s)\n",
           one[SAMPLES / 2] * 1e6, all[SAMPLES / 2] * 1e6, ratio, ratio <= 2 ? "met" : "missed");
    return 0;
}
