/* Cards from standard input through vanitycrow_write_profile and vanitycrow_read_profile, for tests/card.py. Lines, and their answers:
 *
 *     write ROOM FIELDS    REFUSAL FILE: the file written into ROOM bytes, - where refused
 *     read FILE            REFUSAL FIELDS STRETCHED: the fields read, - where refused; 1 where the answer says that harq_stretch was on
 *     changes FILE         for each byte of FILE and each other value of it a line REFUSAL CRC STRETCHED: CRC-32 of the fields read, 0 where refused
 *
 * FILE and FIELDS are in hexadecimal digits, - for none. FIELDS are the profile's fields in the order of include/vanitycrow.h as they lie in memory, with
 * nothing between them; any NaN is all ones. What a call has to keep is compared byte for byte, bytes around every buffer too: else this says so and ends
 * with 1. */
#define _POSIX_C_SOURCE 200809L /* getline */
#include <stdio.h>
#include <stdlib.h>
#include <string.h>
#include "lent.h"
#include "vanitycrow.h"

#define FIELD_BYTES 755

static const char *wrong; /* what was changed that had to be kept */

/* ---- the fields: `go` hands each to or from `at`, which moves on */

struct moving { uint8_t *at; bool out; };

static void go(struct moving *m, void *field, size_t n) {
    if (m->out) memcpy(m->at, field, n);
    else memcpy(field, m->at, n);
    m->at += n;
}

static void go_f64(struct moving *m, double *x, size_t n) {
    for (size_t i = 0; i < n; i++) {
        bool nan = m->out && x[i] != x[i];
        go(m, &x[i], 8);
        if (nan) memset(m->at - 8, 0xff, 8);
    }
}

static void go_f32(struct moving *m, float *x, size_t n) {
    for (size_t i = 0; i < n; i++) {
        bool nan = m->out && x[i] != x[i];
        go(m, &x[i], 4);
        if (nan) memset(m->at - 4, 0xff, 4);
    }
}

static void go_air(struct moving *m, struct vanitycrow_air *a) {
    go(m, a->slot_bits, sizeof a->slot_bits);
    go_f64(m, a->pre_s, 17);
    go_f64(m, a->rate, 17);
    go(m, a->max_bits, sizeof a->max_bits);
    go_f64(m, a->ack_s, 6);
    go_f64(m, &a->cue_s, 1);
}

static void go_lengths(struct moving *m, struct vanitycrow_lengths *l) {
    go_f64(m, &l->max_burst_s, 1);
    go_f64(m, &l->max_burst_long_s, 1);
    go_f64(m, &l->burst_overhead, 1);
    go_f64(m, &l->turnaround_s, 1);
    go(m, &l->burst_adapt, 1);
    go_f32(m, &l->burst_steady_db, 1);
    go(m, &l->burst_climb_db.set, 1);
    go_f32(m, &l->burst_climb_db.db, 1);
}

static void go_marks(struct moving *m, struct vanitycrow_marks *x) {
    go_f32(m, x->thresholds_db, 17);
    go_f32(m, &x->margin_db, 1);
}

static void go_profile(struct moving *m, struct vanitycrow_profile *p) {
    bool *const last[] = {&p->harq, &p->pick_family, &p->smooth_target, &p->hold_by_goodput, &p->slice_slots, &p->merge_pieces, &p->cue,
                          &p->harq_partial};
    uint8_t *from = m->at;
    go_air(m, &p->air);
    go(m, &p->short_bytes, 4);
    go(m, &p->long_bytes, 4);
    go(m, &p->codes.mother, 4);
    go(m, p->codes.ends, sizeof p->codes.ends);
    go_lengths(m, &p->lengths);
    go_f64(m, &p->hold_times.fail_hold_s, 1);
    go_f64(m, &p->hold_times.fail_hold_max_s, 1);
    go_f64(m, &p->hold_times.loss_hold_s, 1);
    go_marks(m, &p->plain);
    go_marks(m, &p->eff);
    go(m, &p->eff_snr, 1);
    go_f32(m, &p->cue_below_db, 1);
    go(m, &p->start_margin_db.set, 1);
    go_f32(m, &p->start_margin_db.db, 1);
    go(m, &p->max_level, 8);
    go(m, &p->skip_slices_from, 8);
    go(m, &p->pin_level.set, 1);
    go(m, &p->pin_level.level, 8);
    go(m, &p->goodput, 1);
    go(m, &p->power, 1);
    for (size_t i = 0; i < sizeof last / sizeof *last; i++) go(m, last[i], 1);
    if (m->at - from != FIELD_BYTES) wrong = "the number of bytes of a profile's fields";
}

static uint32_t crc_32(const uint8_t *b, size_t n) {
    uint32_t c = ~0u;
    for (size_t i = 0; i < n; i++) {
        c ^= b[i];
        for (int k = 0; k < 8; k++) c = c >> 1 ^ (c & 1 ? 0xEDB88320u : 0);
    }
    return ~c;
}

/* ---- the calls */

static uint8_t written(const uint8_t *fields, struct lent *out) {
    struct lent p = lend(sizeof(struct vanitycrow_profile), 0x5A);
    struct moving m = {(uint8_t *)fields, false};
    go_profile(&m, (struct vanitycrow_profile *)p.bytes);
    note(&p);
    uint8_t refusal = vanitycrow_write_profile((const struct vanitycrow_profile *)p.bytes, out->bytes, out->n);
    if (!kept(&p)) wrong = "the profile was changed";
    if (!kept_from(out, refusal == 0 ? VANITYCROW_CARD_BYTES : 0)) wrong = "bytes of the output were changed";
    give_back(&p);
    return refusal;
}

static struct vanitycrow_card_answer read_into(const uint8_t *file, size_t n, uint8_t *fields) {
    struct lent p = lend(sizeof(struct vanitycrow_profile), 0x5A), f = lend(n, 0);
    if (n) memcpy(f.bytes, file, n);
    note(&f);
    struct vanitycrow_card_answer a = vanitycrow_read_profile(f.bytes, n, (struct vanitycrow_profile *)p.bytes);
    if (!kept(&f)) wrong = "the file was changed";
    if (!kept_from(&p, a.refusal == 0 ? p.n : 0)) wrong = "a refused file changed the profile, or bytes around it were changed";
    struct moving m = {fields, true};
    if (a.refusal == 0) go_profile(&m, (struct vanitycrow_profile *)p.bytes);
    give_back(&p);
    give_back(&f);
    return a;
}

/* ---- lines */

static size_t from_hex(char *hex, uint8_t *bytes) {
    size_t n = strcspn(hex, "\n") / 2;
    if (hex[0] == '-') return 0;
    for (size_t i = 0; i < n; i++) {
        char pair[3] = {hex[2 * i], hex[2 * i + 1], 0};
        bytes[i] = (uint8_t)strtoul(pair, NULL, 16);
    }
    return n;
}

static void answer(uint8_t refusal, const uint8_t *bytes, size_t n) {
    printf("%d ", refusal);
    if (refusal) putchar('-');
    for (size_t i = 0; i < n && !refusal; i++) printf("%02x", bytes[i]);
}

static void changes(uint8_t *file, size_t n) {
    uint8_t fields[FIELD_BYTES];
    for (size_t i = 0; i < n; i++) {
        uint8_t was = file[i];
        for (int v = 0; v < 256; v++) {
            if (v == was) continue;
            file[i] = (uint8_t)v;
            struct vanitycrow_card_answer a = read_into(file, n, fields);
            printf("%d %u %d\n", a.refusal, a.refusal ? 0 : (unsigned)crc_32(fields, FIELD_BYTES), a.stretched);
        }
        file[i] = was;
    }
}

static bool line_of(char *line, uint8_t *bytes) {
    uint8_t fields[FIELD_BYTES];
    char *rest;
    if (strncmp(line, "write ", 6) == 0) {
        struct lent out = lend(strtoul(line + 6, &rest, 10), 0xC3);
        if (from_hex(rest + 1, bytes) != FIELD_BYTES) return false;
        answer(written(bytes, &out), out.bytes, VANITYCROW_CARD_BYTES);
        putchar('\n');
        give_back(&out);
        return true;
    }
    if (strncmp(line, "read ", 5) == 0) {
        struct vanitycrow_card_answer a = read_into(bytes, from_hex(line + 5, bytes), fields);
        answer(a.refusal, fields, FIELD_BYTES);
        printf(" %d\n", a.stretched);
        return true;
    }
    if (strncmp(line, "changes ", 8) != 0) return false;
    changes(bytes, from_hex(line + 8, bytes));
    return true;
}

int main(void) {
    char *line = NULL;
    size_t room = 0;
    unsigned long lines = 0;
    while (getline(&line, &room, stdin) > 0) {
        uint8_t *bytes = malloc(room);
        lines++;
        if (!bytes || !line_of(line, bytes)) wrong = "no such line";
        free(bytes);
        if (!wrong) continue;
        printf("line %lu: %s\n", lines, wrong);
        return 1;
    }
    free(line);
    return lines > 0 ? 0 : 1;
}
