/* A mail from a sender to a listening box over a lossy channel, both in one program: mail_to_box [SEED].
 *
 * The channel loses every third frame or so, whole bursts and answers. The box hands the mail on in order, and answers each burst that arrives with a
 * long ack; the sender goes on until all is acknowledged. Build, after `tools/prove station`:
 *
 *     cc -Iinclude examples/mail_to_box.c target/staticlib/libstation.a -o mail_to_box
 */
#include <stdio.h>
#include <stdlib.h>
#include <string.h>
#include "usual.h"
#include "vanitycrow.h"

#define MAIL_BYTES 12000

static struct vanitycrow_profile p;
static struct vanitycrow_station station;
static uint8_t area[VANITYCROW_AREA_BYTES], burst_out[VANITYCROW_MAX_SLOTS * 180];
static struct vanitycrow_receiver box;
static uint16_t window[VANITYCROW_PLACES]; /* all zero at first */
static uint8_t stream[VANITYCROW_PLACES];
static uint8_t mail[MAIL_BYTES], got[MAIL_BYTES];
static size_t handed;
static uint64_t x = 20261115;

static unsigned below(unsigned n) {
    x = x * 6364136223846793005u + 1442695040888963407u;
    return (unsigned)(x >> 33) % n;
}

/* The frames of a burst that arrive, each with its place as slot number; gives the box's answer. */
static struct vanitycrow_received arrive(const struct vanitycrow_outgoing *o, size_t size) {
    static uint8_t bytes[sizeof burst_out];
    uint16_t sizes[VANITYCROW_MAX_SLOTS];
    uint8_t slots[VANITYCROW_MAX_SLOTS];
    size_t n = 0;
    for (size_t i = 0; i < o->frames.n; i++) {
        if (below(3) == 0) continue;
        memcpy(bytes + n * size, burst_out + i * size, size);
        sizes[n] = (uint16_t)size;
        slots[n++] = (uint8_t)i;
    }
    struct vanitycrow_received a = vanitycrow_receive(&box, window, VANITYCROW_PLACES, o->number, 34, bytes, n * size, sizes, n, slots, n, stream, sizeof stream);
    if (!a.refusal && handed + a.handed <= MAIL_BYTES) memcpy(got + handed, stream, a.handed);
    handed += a.handed;
    return a;
}

/* A burst, and the box's answer where neither is lost. */
static uint8_t exchange(double time) {
    struct vanitycrow_heard h = {.time = time, .wave = 5, .snr_db = 4};
    struct vanitycrow_long_ack flags = {.stored = true};
    struct vanitycrow_burst b = vanitycrow_data_burst(&p, &station, area, sizeof area, burst_out, sizeof burst_out);
    size_t size = b.outgoing.code <= 4 ? p.short_bytes : p.long_bytes;
    if (b.refusal || below(5) == 0) return b.refusal;
    struct vanitycrow_received a = arrive(&b.outgoing, size);
    if (a.refusal || below(4) == 0) return a.refusal;
    return vanitycrow_long_ack(&p, &station, area, sizeof area, h, flags, a.payload, sizeof a.payload);
}

int main(int argc, char **argv) {
    struct vanitycrow_heard h = {.time = 1, .wave = 1, .snr_db = 2};
    struct vanitycrow_conn_ack c = {.session = 7, .snr_db = 5, .cue = true};
    struct vanitycrow_message m = {.class_ = VANITYCROW_ROUTINE};
    unsigned bursts = 0;
    if (argc > 1) x += strtoull(argv[1], NULL, 10);
    for (int i = 0; i < MAIL_BYTES; i++) mail[i] = (uint8_t)below(256);
    p = usual();
    vanitycrow_fresh(&station);
    vanitycrow_fresh_receiver(&box);
    uint8_t refusal = vanitycrow_connect(&p, &station, area, sizeof area, h, c);
    if (!refusal) refusal = vanitycrow_queue(&p, &station, area, sizeof area, m, mail, MAIL_BYTES);
    while (!refusal && station.sender.counts.bytes_acked < MAIL_BYTES && bursts < 10000) refusal = exchange(10 + 10 * bursts++);
    if (refusal || handed != MAIL_BYTES || memcmp(mail, got, MAIL_BYTES)) {
        fprintf(stderr, "mail_to_box: refusal %u, or the box has handed on another mail\n", (unsigned)refusal);
        return 1;
    }
    printf("%d bytes of mail in %u bursts, handed on in order\n", MAIL_BYTES, bursts);
    return 0;
}
