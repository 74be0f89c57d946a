/* Document 01's tally, fed with the arguments and answers of accepted calls only, and its comparison with record, work area and output.
 * Messages are kept in the order in which they were queued; which goes next is chosen when it goes, and what a label withdraws by looking at
 * each (document 02, Changes 1 and 6). */
#ifndef TALLY_H
#define TALLY_H
#include <stdint.h>
#include <stdlib.h>
#include <string.h>
#include "call_list.h"
#include "vanitycrow.h"

struct tally_message { struct vanitycrow_message said; bool begun; uint8_t *bytes; size_t from, n; }; /* bytes[from] to bytes[n - 1] wait */

struct tally {
    uint64_t taken;
    uint8_t *bytes; /* the flown bytes from offset 0 up */
    uint8_t *acked; /* of each, whether it is acknowledged */
    size_t room;
    size_t flown;
    struct tally_message messages[VANITYCROW_MAX_MESSAGES]; /* that wait, in the order in which they were queued */
    size_t count;
    size_t waiting; /* bytes of them */
    uint64_t withdrawn; /* bytes of messages that wait no longer and never flew */
    size_t acknowledged;
    int outstanding; /* whether a burst is */
    uint8_t number;
    size_t n;
    uint32_t off[VANITYCROW_MAX_SLOTS];
    uint32_t len[VANITYCROW_MAX_SLOTS];
};

static inline void tally_drop(struct tally *t) {
    for (size_t i = 0; i < t->count; i++) free(t->messages[i].bytes);
    free(t->bytes);
    free(t->acked);
    memset(t, 0, sizeof *t);
}

static inline void tally_gone(struct tally *t, size_t i) {
    free(t->messages[i].bytes);
    memmove(t->messages + i, t->messages + i + 1, (--t->count - i) * sizeof *t->messages);
}

/* Whether a queuing with what m says, not of no bytes, withdraws this message. */
static inline bool tally_withdraws(struct vanitycrow_message m, const struct tally_message *x) {
    return m.label && x->said.label == m.label && !x->begun;
}

/* A queuing is one message, and withdraws those that have its label and have not begun; no bytes make none and withdraw none. */
static inline void tally_queue(struct tally *t, struct vanitycrow_message m, const uint8_t *bytes, size_t n) {
    if (n == 0) return;
    for (size_t i = t->count; i-- > 0;) {
        if (!tally_withdraws(m, t->messages + i)) continue;
        t->withdrawn += t->messages[i].n;
        t->waiting -= t->messages[i].n;
        tally_gone(t, i);
    }
    if (t->count == VANITYCROW_MAX_MESSAGES) abort();
    struct tally_message *new = t->messages + t->count++;
    *new = (struct tally_message){.said = m, .bytes = malloc(n), .n = n};
    if (!new->bytes) abort();
    memcpy(new->bytes, bytes, n);
    t->taken += n;
    t->waiting += n;
}

/* Puts the places of the messages in the order in which they go: the begun one, then the lowest class, the earliest of it first. */
static inline void tally_order(const struct tally *t, size_t order[VANITYCROW_MAX_MESSAGES]) {
    size_t n = 0;
    for (size_t i = 0; i < t->count; i++)
        if (t->messages[i].begun) order[n++] = i;
    for (uint8_t class_ = 0; class_ <= VANITYCROW_MAX_CLASS; class_++)
        for (size_t i = 0; i < t->count; i++)
            if (!t->messages[i].begun && t->messages[i].said.class_ == class_) order[n++] = i;
}

/* The next waiting bytes begin to fly, n of them. */
static inline void tally_fly(struct tally *t, size_t n) {
    if (t->flown + n > t->room) {
        t->room = 2 * (t->flown + n);
        t->bytes = realloc(t->bytes, t->room);
        t->acked = realloc(t->acked, t->room);
        if (!t->bytes || !t->acked) abort();
    }
    while (n) {
        size_t order[VANITYCROW_MAX_MESSAGES];
        tally_order(t, order);
        struct tally_message *m = t->messages + order[0];
        size_t k = m->n - m->from < n ? m->n - m->from : n;
        memcpy(t->bytes + t->flown, m->bytes + m->from, k);
        memset(t->acked + t->flown, 0, k);
        m->from += k;
        m->begun = true;
        t->flown += k;
        t->waiting -= k;
        n -= k;
        if (m->from == m->n) tally_gone(t, order[0]);
    }
}

/* The burst becomes the outstanding one; the first waiting bytes fly up to the end of its furthest frame. */
static inline void tally_burst(struct tally *t, const struct vanitycrow_outgoing *o) {
    size_t end = 0;
    t->outstanding = 1;
    t->number = o->number;
    t->n = o->frames.n;
    for (size_t i = 0; i < t->n; i++) {
        t->off[i] = o->frames.off[i];
        t->len[i] = o->frames.len[i];
        size_t e = (size_t)t->off[i] + t->len[i];
        if (e > end) end = e;
    }
    if (end <= t->flown) return;
    size_t more = end - t->flown;
    tally_fly(t, more < t->waiting ? more : t->waiting);
}

/* An ack with this number; bit i is for the frame at place i. */
static inline void tally_ack(struct tally *t, uint8_t number, uint64_t bits) {
    if (t->outstanding && t->number == number)
        for (size_t i = 0; i < t->n; i++) {
            if (!(bits >> i & 1)) continue;
            for (size_t o = t->off[i]; o < (size_t)t->off[i] + t->len[i] && o < t->flown; o++) {
                t->acknowledged += !t->acked[o];
                t->acked[o] = 1;
            }
        }
    t->outstanding = 0;
}

/* A short bitmap of 63 with the outstanding number means all frames where there are more than six. */
static inline void tally_short(struct tally *t, struct vanitycrow_ack r) {
    tally_ack(t, r.burst, r.bitmap == 63 && t->n > 6 ? UINT64_MAX : r.bitmap);
}

/* As AckInfo::from_bytes reads the payload: the number modulo 4, then 64 bits low byte first. */
static inline void tally_long(struct tally *t, const uint8_t *payload) {
    uint64_t bits = 0;
    for (int i = 0; i < 8; i++) bits |= (uint64_t)payload[1 + i] << (8 * i);
    tally_ack(t, payload[0] & 3, bits);
}

static inline void tally_turn(struct tally *t) {
    t->outstanding = 0;
}

/* The pieces cover each offset in flight once and no other, and hold the flown bytes there; they stand packed at the start of the area. */
static inline const char *compare_pieces(const struct tally *t, const struct vanitycrow_counts *c, const uint8_t *area) {
    size_t from = 0, at = 0;
    if (c->pieces > 2048) return "more than 2,048 pieces";
    for (size_t i = 0; i < c->pieces; i++) {
        size_t off = row_word(area, i, 0), len = row_word(area, i, 1);
        if (len == 0 || off < from || off + len > t->flown) return "a piece is empty, out of order, overlaps or has not flown";
        if (at + len > c->flying) return "the pieces are longer than the flying bytes";
        if (memchr(t->acked + off, 1, len)) return "a piece has an acknowledged byte";
        if (memcmp(t->bytes + off, area + at, len)) return "a piece holds other bytes than flew";
        from = off + len;
        at += len;
    }
    return at == t->flown - t->acknowledged ? NULL : "a byte in flight is in no piece";
}

/* Classes, labels, waiting bytes and order of the messages, whether the first has begun, and the bytes withdrawn. */
static inline const char *compare_messages(const struct tally *t, const struct vanitycrow_messages *m, const uint8_t *waiting) {
    size_t order[VANITYCROW_MAX_MESSAGES], at = 0;
    tally_order(t, order);
    if (m->n != t->count) return "another count of messages";
    if (m->n && m->begun != t->messages[order[0]].begun) return "another message has begun";
    for (size_t i = 0; i < m->n; i++) {
        const struct tally_message *x = t->messages + order[i];
        if (m->class_[i] != x->said.class_ || m->left[i] != x->n - x->from) return "another message waits, or in another place";
        if (m->label[i] != x->said.label) return "another label";
        if (memcmp(x->bytes + x->from, waiting + at, m->left[i])) return "other bytes of a message wait";
        at += m->left[i];
    }
    return m->withdrawn == t->withdrawn ? NULL : "another count withdrawn";
}

/* What differs between the tally and the sender, or NULL. */
static inline const char *compare_tally(const struct tally *t, const struct vanitycrow_station *s, const uint8_t *area) {
    const struct vanitycrow_counts *c = &s->sender.counts;
    const char *wrong;
    size_t flying = t->flown - t->acknowledged;
    if (t->taken != t->waiting + flying + t->acknowledged + t->withdrawn)
        return "taken is not waiting, in flight, acknowledged and withdrawn";
    if (t->taken != (uint64_t)c->next_offset + c->waiting + s->messages.withdrawn) return "another count taken";
    if (t->waiting != c->waiting) return "another count waiting";
    if (flying != c->flying) return "another count in flight";
    if (t->acknowledged != c->bytes_acked) return "another count acknowledged";
    if (flying > 16256) return "more than 16,256 bytes fly";
    if ((wrong = compare_messages(t, &s->messages, area + flying))) return wrong;
    return compare_pieces(t, c, area);
}

/* CRC-32 by ITU-T V.42, bit by bit: all ones at first, the lowest bit first, complemented. */
static inline uint32_t check_sum(const uint8_t *b, size_t n) {
    uint32_t r = 0xFFFFFFFFu;
    for (size_t i = 0; i < n; i++) {
        r ^= b[i];
        for (int k = 0; k < 8; k++) r = r >> 1 ^ (r & 1 ? 0xEDB88320u : 0);
    }
    return ~r;
}

/* One frame of `size` bytes: kind 3, flags 0, the offset's low 24 bits, length, the bytes taken there, zeros, check sum. */
static inline const char *compare_frame(const struct tally *t, const uint8_t *f, size_t size, uint32_t off, uint32_t len) {
    uint32_t most = size - 10 < 254 ? (uint32_t)size - 10 : 254, sum = check_sum(f, size - 4);
    if (len < 1 || len > most || (size_t)off + len > t->flown) return "a frame's bounds";
    if (f[0] != 3 || f[1] != 0 || f[5] != len) return "a frame's kind, flags or length";
    if (f[2] != (uint8_t)off || f[3] != (uint8_t)(off >> 8) || f[4] != (uint8_t)(off >> 16)) return "a frame's offset";
    if (memcmp(f + 6, t->bytes + off, len)) return "a frame carries other bytes than were taken at its offset";
    for (size_t i = 6 + len; i < size - 4; i++)
        if (f[i]) return "a frame's fill is not zero";
    for (int k = 0; k < 4; k++)
        if (f[size - 4 + k] != (uint8_t)(sum >> (8 * k))) return "a frame's check sum";
    return NULL;
}

/* The frames of a burst that the tally was fed with. */
static inline const char *compare_burst(const struct tally *t, const struct vanitycrow_outgoing *o, const uint8_t *out, size_t size) {
    const struct vanitycrow_frames *f = &o->frames;
    if (o->code >= VANITYCROW_LEVELS || o->wave >= VANITYCROW_WAVES || o->number > 3) return "the burst's level, wave or number";
    if (f->n > VANITYCROW_MAX_SLOTS) return "more than 64 frames";
    if (f->n == 0 && t->flown - t->acknowledged + t->waiting) return "no frame, but a byte flies or waits";
    for (size_t i = 0; i < f->n; i++) {
        const char *wrong = compare_frame(t, out + i * size, size, f->off[i], f->len[i]);
        if (wrong) return wrong;
        if (f->bits[i] < 1 || f->bits[i] > 16384) return "a frame's bits";
    }
    return NULL;
}
#endif
