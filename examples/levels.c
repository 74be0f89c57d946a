/* Which levels a station may come to use where reports are known only within a range: levels LIST LOW HIGH [echo] [doppler] (docs/LEVELS.md).
 *
 * LIST is a call list, whose first profile is asked about; LOW and HIGH are the lowest and the highest report, 0 to 255, q for q - 24 dB;
 * the last words are the channel's class. A line for each level goes to standard output, with the lowest report that gives it. A refusal is
 * told in words, with status 1. Build, after `tools/prove station`:
 *
 *     cc -Iinclude examples/levels.c target/staticlib/libstation.a -o levels
 */
#include <stdio.h>
#include <stdlib.h>
#include <string.h>
#include "read_profile.h"
#include "vanitycrow.h"

#define DB_OF_REPORT_0 (-24)

/* 0 to 255, digits alone. */
static bool report(const char *text, uint8_t *q) {
    size_t n = strlen(text);
    unsigned long v = strtoul(text, NULL, 10);
    *q = (uint8_t)v;
    return n >= 1 && n <= 3 && strspn(text, "0123456789") == n && v <= UINT8_MAX;
}

static bool class_of(int n, char **words, struct vanitycrow_class *class_) {
    for (int i = 0; i < n; i++) {
        if (strcmp(words[i], "echo") == 0) class_->echo = true;
        else if (strcmp(words[i], "doppler") == 0) class_->doppler = true;
        else return false;
    }
    return true;
}

static bool profile_in(const char *name, struct vanitycrow_profile *p) {
    FILE *list = fopen(name, "r");
    bool good = list && read_profile(list, p);
    if (list) fclose(list);
    if (!good) fprintf(stderr, "levels: %s doesn't begin with a profile (docs/CALLS.md)\n", name);
    return good;
}

static const char *in_words(uint8_t refusal) {
    switch (refusal) {
    case VANITYCROW_PROFILE_OUT_OF_RANGE: return "a number of the profile is out of range";
    case VANITYCROW_SHORT_OVER_LONG: return "the profile's short frame is larger than the long";
    default: return "the lowest report is above the highest";
    }
}

int main(int argc, char **argv) {
    struct vanitycrow_profile p;
    struct vanitycrow_class class_ = {false, false};
    uint8_t low, high;
    if (argc < 4 || !report(argv[2], &low) || !report(argv[3], &high) || !class_of(argc - 4, argv + 4, &class_)) {
        fputs("usage: levels LIST LOW HIGH [echo] [doppler]\n"
              "LIST: a call list that begins with the profile; LOW and HIGH: reports, 0 to 255, of which q is q - 24 dB\n",
              stderr);
        return 2;
    }
    if (!profile_in(argv[1], &p)) return 2;
    struct vanitycrow_listing r = vanitycrow_levels(&p, class_, low, high);
    if (r.refusal != VANITYCROW_ACCEPTED) {
        fprintf(stderr, "levels: refused by %d: %s\n", r.refusal, in_words(r.refusal));
        return 1;
    }
    puts("level  from report  dB");
    for (size_t i = 0; i < r.n; i++) printf("%5d  %11d  %+d\n", r.level[i], r.q[i], r.q[i] + DB_OF_REPORT_0);
    return ferror(stdout) || fflush(stdout) ? 3 : 0;
}
