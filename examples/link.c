/* A mail of two messages over a simulated lossy link: link CALLS TRANSCRIPT.
 *
 * The routine message supersedes an older one of its label, which never goes on the air; the flash message is queued last and goes first.
 * A far station loses every third frame or so and answers with short and long acks until the whole mail is there; it puts the mail together
 * from the frames and compares it. What was called goes to CALLS and what was
 * answered to TRANSCRIPT, for a comparison with `replay` (docs/CALLS.md); a station leaves the list_ lines out. Build, after
 * `tools/prove station`:
 *
 *     cc -Iinclude examples/link.c target/staticlib/libstation.a -o link
 */
#include "call_list.h"
#include "usual.h"
#include "vanitycrow.h"

#define MAIL_BYTES 9000 /* in the order in which they go */
#define FLASH_BYTES 200 /* of these */
#define OLD_BYTES 300 /* of the message that is superseded */
#define BULLETIN 1 /* its label */
#define OUT_BYTES (VANITYCROW_MAX_SLOTS * 180) /* 64 long frames */

static struct vanitycrow_profile p;
static struct vanitycrow_station station;
static uint8_t area[VANITYCROW_AREA_BYTES]; /* all zero at first */
static uint8_t out[OUT_BYTES];
static uint8_t mail[MAIL_BYTES], got[MAIL_BYTES], here[MAIL_BYTES];
static struct call_list list;

/* A number below n, from a fixed sequence. */
static unsigned below(unsigned n) {
    static uint64_t x = 20261115;
    x = x * 6364136223846793005u + 1442695040888963407u;
    return (unsigned)(x >> 33) % n;
}

/* The far station hears a burst and keeps the payload of each frame that arrives; gives the bitmap of these. */
static uint64_t arrive(const struct vanitycrow_outgoing *o, size_t size) {
    uint64_t bitmap = 0;
    for (size_t i = 0; i < o->frames.n; i++) {
        if (below(3) == 0) continue;
        bitmap |= (uint64_t)1 << i;
        memcpy(got + o->frames.off[i], out + i * size + 6, o->frames.len[i]);
        memset(here + o->frames.off[i], 1, o->frames.len[i]);
    }
    return bitmap;
}

static uint8_t short_ack(struct vanitycrow_heard h, uint8_t number, uint64_t bitmap, float db) {
    struct vanitycrow_ack r = {.burst = number, .bitmap = (uint8_t)bitmap, .snr_db = db, .stored = true};
    uint8_t refusal = vanitycrow_short_ack(&p, &station, area, sizeof area, h, r);
    list_short(list, h, r, refusal);
    return refusal;
}

static uint8_t long_ack(struct vanitycrow_heard h, uint8_t number, uint64_t bitmap, float db) {
    struct vanitycrow_long_ack r = {.stored = true};
    uint8_t payload[13] = {number};
    for (int i = 0; i < 8; i++) payload[1 + i] = (uint8_t)(bitmap >> (8 * i));
    payload[9] = (uint8_t)(db + 24);
    uint8_t refusal = vanitycrow_long_ack(&p, &station, area, sizeof area, h, r, payload, sizeof payload);
    list_long(list, h, r, payload, sizeof payload, refusal);
    return refusal;
}

static uint8_t queue(uint8_t class_, uint16_t label, const uint8_t *bytes, size_t n) {
    struct vanitycrow_message m = {.class_ = class_, .label = label};
    uint8_t refusal = vanitycrow_queue(&p, &station, area, sizeof area, m, bytes, n);
    list_queue(list, m, bytes, n, refusal);
    list_messages(list, &station.messages);
    return refusal;
}

/* The called station answers, and the mail is queued: a routine message, a newer one of its label, then a flash message. */
static uint8_t begin(void) {
    static const uint8_t old[OLD_BYTES];
    struct vanitycrow_heard h = {.time = 1, .wave = 1, .snr_db = 2};
    struct vanitycrow_conn_ack c = {.session = 7, .snr_db = 5, .cue = true};
    vanitycrow_fresh(&station);
    uint8_t refusal = vanitycrow_connect(&p, &station, area, sizeof area, h, c);
    list_connect(list, h, c, refusal);
    if (refusal) return refusal;
    refusal = queue(VANITYCROW_ROUTINE, BULLETIN, old, OLD_BYTES);
    if (!refusal) refusal = queue(VANITYCROW_ROUTINE, BULLETIN, mail + FLASH_BYTES, MAIL_BYTES - FLASH_BYTES);
    return refusal ? refusal : queue(VANITYCROW_FLASH, 0, mail, FLASH_BYTES);
}

/* A burst and its ack. */
static uint8_t exchange(double time) {
    struct vanitycrow_heard h = {.time = time, .wave = 5, .snr_db = 4};
    float db = (float)(3 + below(12));
    struct vanitycrow_burst b = vanitycrow_data_burst(&p, &station, area, sizeof area, out, sizeof out);
    size_t size = b.outgoing.code <= 4 ? p.short_bytes : p.long_bytes;
    list_burst(list, &b, out, size);
    list_messages(list, &station.messages);
    list_state(list, &p, &station, area);
    if (b.refusal) return b.refusal;
    uint64_t bitmap = arrive(&b.outgoing, size);
    uint8_t refusal = b.outgoing.frames.n <= 6 ? short_ack(h, b.outgoing.number, bitmap, db) : long_ack(h, b.outgoing.number, bitmap, db);
    list_state(list, &p, &station, area);
    return refusal;
}

int main(int argc, char **argv) {
    if (argc != 3 || !(list.calls = fopen(argv[1], "w")) || !(list.transcript = fopen(argv[2], "w"))) {
        fprintf(stderr, "usage: link CALLS TRANSCRIPT\n");
        return 2;
    }
    for (int i = 0; i < MAIL_BYTES; i++) mail[i] = (uint8_t)below(256);
    p = usual();
    list_profile(list, &p);
    unsigned bursts = 0;
    uint8_t refusal = begin();
    while (!refusal && station.sender.counts.bytes_acked < MAIL_BYTES && bursts < 1000) refusal = exchange(10 + 10 * bursts++);
    list_end(list, &station);
    fclose(list.calls);
    fclose(list.transcript);
    if (refusal || memcmp(mail, got, MAIL_BYTES) || memchr(here, 0, MAIL_BYTES)) {
        fprintf(stderr, "link: refusal %u, or the mail that arrived is another\n", (unsigned)refusal);
        return 1;
    }
    printf("%d bytes of mail in %u bursts, %llu ms on the air\n", MAIL_BYTES, bursts, (unsigned long long)station.sender.counts.airtime_ms);
    return 0;
}
