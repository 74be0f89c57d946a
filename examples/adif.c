/* A finished link as one ADIF record: adif CALL START END ACKED (docs/ADIF.md).
 *
 * CALL is the far station's call sign and ACKED the bytes acknowledged. START and END are the link's first and last second, each in
 * seconds since 1970 or as UTC, 2026-11-16T11:30:00Z. The record and a line feed go to standard output; a refusal is told in words, with
 * status 1. Build, after `tools/prove station`:
 *
 *     cc -Iinclude examples/adif.c target/staticlib/libstation.a -o adif
 */
#define _DEFAULT_SOURCE /* timegm */
#include <errno.h>
#include <stdio.h>
#include <stdlib.h>
#include <string.h>
#include <time.h>
#include "vanitycrow.h"

/* A whole number up to `most`, digits alone. */
static int number(const char *text, uint64_t most, uint64_t *n) {
    char *end;
    errno = 0;
    unsigned long long v = strtoull(text, &end, 10);
    *n = v;
    return text[0] >= '0' && text[0] <= '9' && *end == '\0' && errno == 0 && v <= most;
}

/* A date and time that the calendar has, to the letter: what the C library makes of it is written back and compared. */
static int utc(const char *text, uint64_t *seconds) {
    struct tm t = {0};
    char back[32];
    char z;
    if (sscanf(text, "%4d-%2d-%2dT%2d:%2d:%2d%c", &t.tm_year, &t.tm_mon, &t.tm_mday, &t.tm_hour, &t.tm_min, &t.tm_sec, &z) != 7) return 0;
    t.tm_year -= 1900;
    t.tm_mon -= 1;
    time_t s = timegm(&t);
    if (s < 0 || strftime(back, sizeof back, "%Y-%m-%dT%H:%M:%SZ", &t) == 0 || strcmp(back, text) != 0) return 0;
    *seconds = (uint64_t)s;
    return 1;
}

static int moment(const char *text, uint64_t *seconds) {
    return number(text, UINT64_MAX, seconds) || utc(text, seconds);
}

static const char *in_words(uint8_t refusal) {
    switch (refusal) {
    case VANITYCROW_BAD_CALL_SIGN: return "a call sign has 1 to 12 capitals, digits and slashes";
    case VANITYCROW_BAD_LINK_TIME: return "a time is past 2099, or the end is before the start";
    default: return "the output is too short";
    }
}

int main(int argc, char **argv) {
    uint64_t on, off, acked;
    uint8_t out[VANITYCROW_ADIF_BYTES];
    if (argc != 5 || !moment(argv[2], &on) || !moment(argv[3], &off) || !number(argv[4], UINT32_MAX, &acked)) {
        fputs("usage: adif CALL START END ACKED\n"
              "START and END: seconds since 1970, or UTC as 2026-11-16T11:30:00Z; ACKED: bytes, at most 4294967295\n",
              stderr);
        return 2;
    }
    struct vanitycrow_logged r = vanitycrow_adif((const uint8_t *)argv[1], strlen(argv[1]), on, off, (uint32_t)acked, out, sizeof out);
    if (r.refusal != VANITYCROW_ACCEPTED) {
        fprintf(stderr, "adif: refused by %d: %s\n", r.refusal, in_words(r.refusal));
        return 1;
    }
    return fwrite(out, 1, r.len, stdout) == r.len && putchar('\n') != EOF && fflush(stdout) == 0 ? 0 : 3;
}
