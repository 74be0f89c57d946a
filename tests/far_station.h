/* A hostile far station: what it heard of a burst, and the replies it makes up. */
#ifndef FAR_STATION_H
#define FAR_STATION_H
#include "chance.h"
#include "vanitycrow.h"

#define MOST_PAYLOAD 40

struct far_station {
    double quality; /* the share of frames that arrive, 0 to 1; it wanders */
    uint8_t number; /* of the burst it heard last */
    size_t frames;
    uint64_t arrived;
};

/* The channel changes; at times it is gone, at times perfect. */
static inline void far_drift(struct far_station *f) {
    uint32_t k = below(200);
    f->quality += .2 * ((double)below(1001) / 1000 - .5);
    if (k < 2) f->quality = k;
    if (k > 2 && k < 6) f->quality = between(0, 1);
    if (f->quality < 0) f->quality = 0;
    if (f->quality > 1) f->quality = 1;
}

static inline void far_hears(struct far_station *f, const struct vanitycrow_outgoing *o) {
    f->number = o->number;
    f->frames = o->frames.n;
    f->arrived = 0;
    for (size_t i = 0; i < f->frames; i++)
        if (below(1000) < 1000 * f->quality) f->arrived |= (uint64_t)1 << i;
}

/* A dB value of a reply; hostile ones are any in range, and now and then one that is not. */
static inline float far_db(const struct far_station *f, uint32_t wild) {
    static const float limits[] = {-100, 300, -100.00001f, 300.00003f, NAN, INFINITY, -INFINITY, -0.0f};
    if (percent(wild)) return percent(50) ? limits[below(8)] : (float)between(-100, 300);
    return (float)(-13 + 40 * f->quality + (double)below(60) / 10);
}

static inline uint8_t far_byte(uint32_t limit, uint32_t wild) {
    return (uint8_t)(percent(wild) ? below(256) : below(limit));
}

/* The time of a reply: now, at times the last accepted one, one before it, or no time at all. */
static inline double far_time(double now, double last, uint32_t wild) {
    static const double limits[] = {-1, -0.0, 1000000000.0000002, INFINITY, -INFINITY, NAN};
    if (!percent(wild)) return now;
    switch (below(4)) {
    case 0: return last;
    case 1: return nextafter(last, -INFINITY);
    case 2: return between(0, last);
    default: return limits[below(6)];
    }
}

static inline struct vanitycrow_heard far_heard(const struct far_station *f, double now, double last, uint32_t wild) {
    struct vanitycrow_heard h;
    h.time = far_time(now, last, wild);
    h.wave = percent(80) ? 5 : far_byte(6, wild);
    h.snr_db = far_db(f, wild);
    return h;
}

static inline struct vanitycrow_class far_class(void) {
    struct vanitycrow_class c;
    c.echo = percent(10);
    c.doppler = percent(10);
    return c;
}

static inline struct vanitycrow_conn_ack far_answer(const struct far_station *f, uint32_t wild) {
    struct vanitycrow_conn_ack r;
    r.session = (uint8_t)below(256);
    r.snr_db = far_db(f, wild);
    r.class_ = far_class();
    r.slot = far_byte(3, wild);
    r.cue = percent(70);
    return r;
}

/* The bits of an ack: what arrived, or any. 62 and 63 come often. */
static inline uint64_t far_bits(const struct far_station *f, uint32_t wild) {
    if (!percent(wild)) return f->arrived;
    switch (below(5)) {
    case 0: return 0;
    case 1: return 62;
    case 2: return 63;
    case 3: return UINT64_MAX;
    default: return chance();
    }
}

static inline uint8_t far_number(const struct far_station *f, uint32_t wild) {
    return percent(wild) ? far_byte(4, 10) : f->number;
}

static inline struct vanitycrow_ack far_short(const struct far_station *f, uint32_t wild) {
    uint64_t bits = far_bits(f, wild);
    struct vanitycrow_ack r;
    r.burst = far_number(f, wild);
    r.bitmap = (uint8_t)(percent(wild / 4) ? bits : bits & 63);
    r.snr_db = far_db(f, wild);
    r.want_turn = percent(10);
    r.want_disc = percent(5);
    r.stored = percent(70);
    r.class_ = far_class();
    r.slot = far_byte(3, wild / 2);
    return r;
}

static inline struct vanitycrow_long_ack far_long(void) {
    struct vanitycrow_long_ack r;
    r.want_turn = percent(10);
    r.want_disc = percent(5);
    r.stored = percent(70);
    return r;
}

/* A long ack's payload; gives its length, 0 to 40. */
static inline size_t far_payload(const struct far_station *f, uint32_t wild, uint8_t payload[MOST_PAYLOAD]) {
    uint64_t bits = far_bits(f, wild);
    for (int i = 0; i < MOST_PAYLOAD; i++) payload[i] = (uint8_t)chance();
    payload[0] = (uint8_t)(percent(wild) ? payload[0] : (payload[0] & 0xFC) | f->number);
    for (int i = 0; i < 8; i++) payload[1 + i] = (uint8_t)(bits >> (8 * i));
    if (!percent(wild)) payload[9] = (uint8_t)(14 + 40 * f->quality + below(6));
    if (percent(wild)) return below(MOST_PAYLOAD + 1);
    return percent(50) ? 13 : 17;
}

static inline struct vanitycrow_turn far_turn(const struct far_station *f, uint32_t wild) {
    struct vanitycrow_turn r;
    r.report.set = percent(70);
    r.report.db = far_db(f, wild);
    return r;
}
#endif
