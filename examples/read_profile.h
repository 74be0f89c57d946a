/* Reads the first profile of a call list (docs/CALLS.md): for commands that are asked about a profile. A station does not need it. */
#ifndef READ_PROFILE_H
#define READ_PROFILE_H
#include <errno.h>
#include <stdio.h>
#include <stdlib.h>
#include <string.h>
#include "vanitycrow.h"

/* The list, its present line, whether one was begun, and whether all was read as it should be. */
struct profile_reader { FILE *list; char line[2048]; bool begun; bool ok; };

/* No word is left of the line. */
static inline void end_line(struct profile_reader *r) {
    r->ok = r->ok && (!r->begun || strtok(NULL, " \n") == NULL);
}

/* The next line, which has to begin with this word; empty lines and remarks are passed over. */
static inline void read_line(struct profile_reader *r, const char *name) {
    end_line(r);
    do r->ok = r->ok && fgets(r->line, sizeof r->line, r->list);
    while (r->ok && (r->line[0] == '\n' || r->line[0] == '#'));
    r->begun = true;
    const char *first = r->ok ? strtok(r->line, " \n") : NULL;
    r->ok = first && strcmp(first, name) == 0;
}

static inline const char *read_word(struct profile_reader *r) {
    const char *word = r->ok ? strtok(NULL, " \n") : NULL;
    r->ok = word != NULL;
    return r->ok ? word : "";
}

/* A whole number; one above 2^32 - 1 is `wide`. */
static inline uint32_t whole_of(struct profile_reader *r, const char *word, uint32_t wide) {
    char *end;
    errno = 0;
    unsigned long long n = strtoull(word, &end, 10);
    r->ok = r->ok && word[0] >= '0' && word[0] <= '9' && *end == '\0';
    return errno || n > UINT32_MAX ? wide : (uint32_t)n;
}

static inline uint32_t read_whole(struct profile_reader *r, uint32_t wide) {
    return whole_of(r, read_word(r), wide);
}

/* The bits of a float: 0x and so many hexadecimal digits. */
static inline uint64_t bits_of(struct profile_reader *r, const char *word, size_t digits) {
    r->ok = r->ok && strlen(word) == digits + 2 && word[0] == '0' && word[1] == 'x' && strspn(word + 2, "0123456789abcdefABCDEF") == digits;
    return r->ok ? strtoull(word, NULL, 16) : 0;
}

static inline double read_f64(struct profile_reader *r) {
    uint64_t b = bits_of(r, read_word(r), 16);
    double x;
    memcpy(&x, &b, sizeof x);
    return x;
}

static inline float f32_of(struct profile_reader *r, const char *word) {
    uint32_t b = (uint32_t)bits_of(r, word, 8);
    float x;
    memcpy(&x, &b, sizeof x);
    return x;
}

static inline float read_f32(struct profile_reader *r) {
    return f32_of(r, read_word(r));
}

static inline struct vanitycrow_maybe_db read_maybe_db(struct profile_reader *r, const char *name) {
    read_line(r, name);
    const char *word = read_word(r);
    bool set = strcmp(word, "none") != 0;
    return (struct vanitycrow_maybe_db){set, set ? f32_of(r, word) : 0};
}

/* Which of n words the next is. */
static inline uint8_t read_choice(struct profile_reader *r, const char *const *words, uint8_t n) {
    const char *word = read_word(r);
    uint8_t i = 0;
    while (i < n && strcmp(word, words[i]) != 0) i++;
    r->ok = r->ok && i < n;
    return i;
}

static inline bool read_flag(struct profile_reader *r) {
    static const char *const words[] = {"0", "1"};
    return read_choice(r, words, 2) == 1;
}

static inline void read_air(struct profile_reader *r, struct vanitycrow_air *a) {
    for (int l = 0; l < VANITYCROW_LEVELS; l++) {
        read_line(r, "level");
        a->slot_bits[l] = read_whole(r, UINT32_MAX);
        a->pre_s[l] = read_f64(r);
        a->rate[l] = read_f64(r);
        a->max_bits[l] = read_whole(r, 0);
    }
    read_line(r, "ack_s");
    for (int w = 0; w < VANITYCROW_WAVES; w++) a->ack_s[w] = read_f64(r);
    read_line(r, "cue_s");
    a->cue_s = read_f64(r);
}

static inline void read_sizes_and_times(struct profile_reader *r, struct vanitycrow_profile *p) {
    read_line(r, "frame_bytes");
    p->short_bytes = read_whole(r, UINT32_MAX);
    p->long_bytes = read_whole(r, UINT32_MAX);
    read_line(r, "harq");
    p->codes.mother = read_whole(r, UINT32_MAX);
    for (int i = 0; i < 6; i++) p->codes.ends[i] = read_whole(r, UINT32_MAX);
    read_line(r, "burst");
    p->lengths.max_burst_s = read_f64(r);
    p->lengths.max_burst_long_s = read_f64(r);
    p->lengths.burst_overhead = read_f64(r);
    p->lengths.turnaround_s = read_f64(r);
    read_line(r, "hold");
    p->hold_times.fail_hold_s = read_f64(r);
    p->hold_times.fail_hold_max_s = read_f64(r);
    p->hold_times.loss_hold_s = read_f64(r);
}

static inline void read_dbs(struct profile_reader *r, struct vanitycrow_profile *p) {
    read_line(r, "thresholds_db");
    for (int l = 0; l < VANITYCROW_LEVELS; l++) p->plain.thresholds_db[l] = read_f32(r);
    read_line(r, "eff_thresholds_db");
    for (int l = 0; l < VANITYCROW_LEVELS; l++) p->eff.thresholds_db[l] = read_f32(r);
    read_line(r, "db");
    p->plain.margin_db = read_f32(r);
    p->eff.margin_db = read_f32(r);
    p->cue_below_db = read_f32(r);
    p->lengths.burst_steady_db = read_f32(r);
    p->start_margin_db = read_maybe_db(r, "start_margin_db");
    p->lengths.burst_climb_db = read_maybe_db(r, "burst_climb_db");
}

static inline void read_switches(struct profile_reader *r, struct vanitycrow_profile *p) {
    static const char *const gears[] = {"ladder", "goodput"}, *const tables[] = {"none", "mean", "td"};
    bool *const flags[] = {
        &p->harq, &p->pick_family, &p->eff_snr, &p->lengths.burst_adapt, &p->smooth_target, &p->hold_by_goodput, &p->slice_slots,
        &p->merge_pieces, &p->cue, &p->harq_partial,
    };
    read_line(r, "levels");
    p->max_level = read_whole(r, UINT32_MAX);
    p->skip_slices_from = read_whole(r, UINT32_MAX);
    read_line(r, "pin_level");
    const char *pin = read_word(r);
    p->pin_level.set = strcmp(pin, "none") != 0;
    if (p->pin_level.set) p->pin_level.level = whole_of(r, pin, UINT32_MAX);
    read_line(r, "gear");
    p->goodput = read_choice(r, gears, 2) == 1;
    read_line(r, "power");
    p->power = read_choice(r, tables, 3);
    read_line(r, "on");
    for (size_t i = 0; i < sizeof flags / sizeof *flags; i++) *flags[i] = read_flag(r);
}

/* Whether the list begins with a profile; if so, *p is it. */
static inline bool read_profile(FILE *list, struct vanitycrow_profile *p) {
    struct profile_reader r = {.list = list, .ok = true};
    memset(p, 0, sizeof *p);
    read_line(&r, "profile");
    read_air(&r, &p->air);
    read_sizes_and_times(&r, p);
    read_dbs(&r, p);
    read_switches(&r, p);
    end_line(&r);
    return r.ok;
}
#endif
