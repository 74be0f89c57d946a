/* Station settings on a card (docs/CARD.md): for installers.
 *
 *     card write LIST FILE    writes the first profile of a call list (docs/CALLS.md) as a card
 *     card read FILE          a card's profile as the lines of a call list, to standard output
 *     card show FILE          a card in words, to standard output: every field with its unit, and what is refused, by which number and why
 *
 * A refused profile or card is told with status 1. Build, after `tools/prove station`:
 *
 *     cc -Iinclude examples/card.c target/staticlib/libstation.a -o card
 */
#include <stdio.h>
#include <stdlib.h>
#include <string.h>
#include "call_list.h"
#include "read_profile.h"
#include "show_card.h"
#include "vanitycrow.h"

#define MOST_BYTES (609 + 65535) /* what the options' count can say; one byte more tells a longer file */

static const char *in_words(uint8_t refusal) {
    switch (refusal) {
    case VANITYCROW_PROFILE_OUT_OF_RANGE: return "a number of the profile is out of range";
    case VANITYCROW_SHORT_OVER_LONG: return "the profile's short frame is larger than the long";
    case VANITYCROW_BAD_VERSION: return "the version is not 1 to 15";
    case VANITYCROW_STRETCH_RETIRED: return "a file of version 2 or later has harq_stretch, which is retired";
    default: return "a count doesn't agree with the version or the file's length";
    }
}

static int refused(uint8_t refusal) {
    fprintf(stderr, "card: refused by %d: %s\n", refusal, in_words(refusal));
    return 1;
}

static int no_file(const char *name) {
    perror(name);
    return 2;
}

static int write_card(const char *list_name, const char *name) {
    struct vanitycrow_profile p;
    uint8_t bytes[VANITYCROW_CARD_BYTES];
    FILE *list = fopen(list_name, "r");
    if (!list) return no_file(list_name);
    bool good = read_profile(list, &p);
    fclose(list);
    if (!good) {
        fprintf(stderr, "card: %s doesn't begin with a profile (docs/CALLS.md)\n", list_name);
        return 2;
    }
    uint8_t refusal = vanitycrow_write_profile(&p, bytes, sizeof bytes);
    if (refusal != VANITYCROW_ACCEPTED) return refused(refusal);
    FILE *f = fopen(name, "wb");
    if (!f) return no_file(name);
    size_t written = fwrite(bytes, 1, sizeof bytes, f);
    return fclose(f) == 0 && written == sizeof bytes ? 0 : no_file(name);
}

static int read_card(const uint8_t *bytes, size_t n) {
    struct vanitycrow_profile p;
    struct vanitycrow_card_answer a = vanitycrow_read_profile(bytes, n, &p);
    if (a.refusal != VANITYCROW_ACCEPTED) return refused(a.refusal);
    if (a.stretched) fputs("card: harq_stretch, which is retired, was on: read with it off\n", stderr);
    list_profile((struct call_list){stdout, NULL}, &p);
    return 0;
}

/* The library has the word; what the lines mark is to be the same. */
static int show_card(const uint8_t *bytes, size_t n) {
    struct vanitycrow_profile p;
    struct vanitycrow_card_answer a = vanitycrow_read_profile(bytes, n, &p);
    uint8_t refusal = a.refusal, marked = show(stdout, bytes, n);
    if (refusal == VANITYCROW_ACCEPTED) puts(a.stretched ? "taken, harq_stretch off" : "taken");
    else printf("refused by %d\n", refusal);
    if (marked == refusal) return refusal == VANITYCROW_ACCEPTED ? 0 : 1;
    fprintf(stderr, "card: the lines mark %d\n", marked);
    return 3;
}

int main(int argc, char **argv) {
    static uint8_t bytes[MOST_BYTES + 1];
    bool read = argc == 3 && strcmp(argv[1], "read") == 0, show = argc == 3 && strcmp(argv[1], "show") == 0;
    if (argc == 4 && strcmp(argv[1], "write") == 0) return write_card(argv[2], argv[3]);
    if (!read && !show) {
        fputs("usage: card write LIST FILE | card read FILE | card show FILE\n"
              "LIST: a call list that begins with the profile; FILE: the card\n",
              stderr);
        return 2;
    }
    FILE *f = fopen(argv[2], "rb");
    if (!f) return no_file(argv[2]);
    size_t n = fread(bytes, 1, sizeof bytes, f);
    bool failed = ferror(f) != 0;
    fclose(f);
    if (failed) return no_file(argv[2]);
    int status = read ? read_card(bytes, n) : show_card(bytes, n);
    return ferror(stdout) || fflush(stdout) ? 3 : status;
}
