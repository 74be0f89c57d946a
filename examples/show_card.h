/* A card in words (docs/CARD.md): each field with its unit, and under it why it is refused. It reads the bytes itself, so that a card that the library
 * refuses can be shown too. */
#ifndef SHOW_CARD_H
#define SHOW_CARD_H
#include <inttypes.h>
#include <stdbool.h>
#include <stdint.h>
#include <stdio.h>
#include <stdlib.h>
#include <string.h>

/* Whole numbers by their bytes, floats, and places that are on or off. */
enum card_kind { U8 = 1, U32 = 4, U64 = 8, F32 = 32, F64 = 64, PLACE = 2 };

/* `count` values of a section from byte `at` on, each from `low` to `high`. Where `flag` is not 0 they count only where the options' byte `flag` is on. */
struct card_field { const char *name, *unit; enum card_kind kind; size_t at, count; double low, high; size_t flag; };

#define DB(name, at, count) {name, "dB", F32, at, count, -100, 100, 0}
#define STRETCH_AT 141 /* retired: off in later versions, and read with it off */
#define SWITCH(name, at) {name, "", PLACE, at, 1, 0, 1, 0}

static const struct card_field card_levels[] = {
    {"slot_bits", "bits", U32, 0, 17, 1, 16384, 0},
    {"pre_s", "s", F64, 68, 17, 0, 60, 0},
    {"rate", "bit/s", F64, 204, 17, 1, 100000, 0},
    {"max_bits", "bits", U32, 340, 17, 1, 4294967295.0, 0},
    {0},
};
static const struct card_field card_waves[] = {{"ack_s", "s", F64, 0, 6, 0, 60, 0}, {0}};
static const struct card_field card_thresholds[] = {
    DB("thresholds_db", 0, 17), DB("margin_db", 68, 1), DB("eff_thresholds_db", 72, 17), DB("eff_margin_db", 140, 1), {0},
};
static const struct card_field card_options[] = {
    {"cue_s", "s", F64, 0, 1, 0, 10, 0},
    {"max_burst_s", "s", F64, 8, 1, 1, 1000, 0},
    {"max_burst_long_s", "s", F64, 16, 1, 1, 1000, 0},
    {"burst_overhead", "share", F64, 24, 1, .01, 1, 0},
    {"turnaround_s", "s", F64, 32, 1, 0, 60, 0},
    {"fail_hold_s", "s", F64, 40, 1, 1, 100000, 0},
    {"fail_hold_max_s", "s", F64, 48, 1, 0, 1000000, 0},
    {"loss_hold_s", "s", F64, 56, 1, 0, 1000000, 0},
    {"short_bytes", "bytes", U32, 64, 1, 18, 512, 0},
    {"long_bytes", "bytes", U32, 68, 1, 18, 512, 0},
    {"mother", "bits", U32, 72, 1, 1, 16384, 0},
    {"ends", "bits", U32, 76, 6, 1, 16384, 0},
    DB("burst_steady_db", 100, 1),
    {"burst_climb_db", "dB", F32, 104, 1, -100, 100, 127},
    DB("cue_below_db", 108, 1),
    {"start_margin_db", "dB", F32, 112, 1, -100, 100, 128},
    {"max_level", "", U8, 116, 1, 0, 16, 0},
    {"skip_slices_from", "", U8, 117, 1, 0, 17, 0},
    {"power", "(0 none, 1 mean, 2 td)", U8, 118, 1, 0, 2, 0},
    {"pin_level", "", U64, 119, 1, 0, 16, 129},
    SWITCH("burst_climb_db set", 127),
    SWITCH("start_margin_db set", 128),
    SWITCH("pin_level set", 129),
    SWITCH("burst_adapt", 130),
    SWITCH("eff_snr", 131),
    SWITCH("goodput", 132),
    SWITCH("harq", 133),
    SWITCH("pick_family", 134),
    SWITCH("smooth_target", 135),
    SWITCH("hold_by_goodput", 136),
    SWITCH("slice_slots", 137),
    SWITCH("merge_pieces", 138),
    SWITCH("cue", 139),
    SWITCH("harq_partial", 140),
    SWITCH("harq_stretch", STRETCH_AT),
    {0},
};

/* A section: where its count stands, how many bytes version 1 has, its fields. */
struct card_section { const char *name; size_t count_at, bytes; const struct card_field *fields; };
static const struct card_section card_sections[] = {
    {"levels", 1, 408, card_levels}, {"waves", 411, 48, card_waves}, {"thresholds", 461, 144, card_thresholds}, {"options", 607, 142, card_options},
};

/* n bytes, low byte first. */
static inline uint64_t low_first(const uint8_t *b, size_t n) {
    uint64_t v = 0;
    while (n > 0) v = v << 8 | b[--n];
    return v;
}

static inline size_t field_width(enum card_kind kind) {
    return kind == F32 ? 4 : kind == F64 ? 8 : kind == PLACE ? 1 : (size_t)kind;
}

static inline double float_of(enum card_kind kind, uint64_t bits) {
    uint32_t low = (uint32_t)bits;
    float single;
    double x;
    memcpy(&single, &low, sizeof single);
    memcpy(&x, &bits, sizeof x);
    return kind == F32 ? single : x;
}

/* Seven digits, or as many more as this float needs to be told from others of its kind. */
static inline void show_float(FILE *f, enum card_kind kind, double x) {
    char text[40];
    for (int digits = 7; digits <= 17; digits++) {
        snprintf(text, sizeof text, "%.*g", digits, x);
        if (kind == F32 ? strtof(text, NULL) == (float)x : strtod(text, NULL) == x) break;
    }
    fprintf(f, " %s", x != x ? "nan" : text);
}

static inline void show_value(FILE *f, enum card_kind kind, uint64_t v) {
    if (kind == F32 || kind == F64) show_float(f, kind, float_of(kind, v));
    else if (kind == PLACE && v <= 1) fputs(v ? " on" : " off", f);
    else fprintf(f, " %" PRIu64, v);
}

static inline bool in_range(const struct card_field *d, uint64_t v) {
    double x = d->kind == F32 || d->kind == F64 ? float_of(d->kind, v) : (double)v;
    return x >= d->low && x <= d->high;
}

/* Why a value is refused. */
static inline void show_why(FILE *f, const struct card_field *d, size_t i, uint64_t v) {
    fputs("    refused by 1: ", f);
    if (d->count > 1) fprintf(f, "[%zu]", i);
    show_value(f, d->kind, v);
    if (d->kind == PLACE) fputs(" is neither 0 (off) nor 1 (on)\n", f);
    else fprintf(f, " is not %.10g to %.10g %s\n", d->low, d->high, d->unit);
}

/* The values, or the one that all of them are; whether they are. */
static inline bool show_values(FILE *f, const struct card_field *d, const uint8_t *at, size_t width) {
    bool same = d->count > 1 && memcmp(at, at + width, (d->count - 1) * width) == 0;
    for (size_t i = 0; i < (same ? 1 : d->count); i++) show_value(f, d->kind, low_first(at + i * width, width));
    return same;
}

/* A field; whether it is taken. `options` are the bytes of that section. */
static inline bool show_field(FILE *f, const struct card_field *d, const uint8_t *section, const uint8_t *options) {
    size_t width = field_width(d->kind);
    bool off = d->flag && options[d->flag] == 0, good = true;
    fprintf(f, "  %-20s", d->name);
    bool same = show_values(f, d, section + d->at, width);
    fprintf(f, "%s%s%s%s\n", d->unit[0] ? " " : "", d->unit, same ? " each" : "", off ? " (off)" : "");
    for (size_t i = 0; i < d->count && !off; i++) {
        uint64_t v = low_first(section + d->at + i * width, width);
        if (in_range(d, v)) continue;
        show_why(f, d, i, v);
        good = false;
    }
    return good;
}

/* The counts of a file that has all four; whether they agree with the version and the length. */
static inline bool show_counts(FILE *f, const uint8_t *b, size_t n) {
    bool good = true;
    for (int s = 0; s < 4; s++) {
        const struct card_section *d = &card_sections[s];
        size_t count = (size_t)low_first(b + d->count_at, 2);
        bool longer = s == 3 && b[0] > 1 && count > d->bytes;
        fprintf(f, "  %-20s %zu bytes%s\n", d->name, count, longer ? ", of a later version" : "");
        if (count == d->bytes || longer) continue;
        fprintf(f, "    refused by 14: version %d has %s%zu\n", b[0], s == 3 && b[0] > 1 ? "at least " : "", d->bytes);
        good = false;
    }
    size_t wants = 609 + (size_t)low_first(b + 607, 2);
    if (wants != n) fprintf(f, "    refused by 14: the sections fill %zu bytes, the file has %zu\n", wants, n);
    return good && wants == n;
}

/* Every field; 1 or 2 where one is refused. */
static inline uint8_t show_fields(FILE *f, const uint8_t *b) {
    const uint8_t *options = b + 609;
    bool good = true;
    for (int s = 0; s < 4; s++) {
        const struct card_section *d = &card_sections[s];
        fprintf(f, "%s\n", d->name);
        for (const struct card_field *x = d->fields; x->name; x++) good = show_field(f, x, b + d->count_at + 2, options) && good;
    }
    uint64_t short_bytes = low_first(options + 64, 4), long_bytes = low_first(options + 68, 4);
    if (!good) return 1;
    if (short_bytes <= long_bytes) return 0;
    fprintf(f, "    refused by 2: short_bytes %" PRIu64 " is larger than long_bytes %" PRIu64 "\n", short_bytes, long_bytes);
    return 2;
}

/* The card; the number that it is refused by, 0 for none. */
static inline uint8_t show(FILE *f, const uint8_t *b, size_t n) {
    fprintf(f, "card of %zu bytes", n);
    if (n == 0) {
        fputs("\n    refused by 14: the file is empty\n", f);
        return 14;
    }
    fprintf(f, ", version %d\n", b[0]);
    if (b[0] == 0 || b[0] > 15) {
        fputs("    refused by 13: the version is not 1 to 15\n", f);
        return 13;
    }
    if (n < 751) {
        fputs("    refused by 14: the file has no 751 bytes\n", f);
        return 14;
    }
    if (!show_counts(f, b, n)) return 14;
    if (b[0] > 1 && b[609 + STRETCH_AT] != 0) {
        fprintf(f, "    refused by 18: harq_stretch, which is retired, is %d in a file of version %d\n", b[609 + STRETCH_AT], b[0]);
        return 18;
    }
    return show_fields(f, b);
}
#endif
