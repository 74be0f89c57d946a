/* A listening box: box STREAM < FRAMES. Frames in, stream and acks out.
 *
 * Standard input has a line for each burst that was heard: NUMBER DB, then SLOT:HEX for each decoded frame, apart by spaces; NUMBER is the burst's, DB
 * the dB byte to answer, both decimal, HEX the frame's bytes. For each line the payload of the long ack to send is written to standard output as 26
 * digits, with how many frames were left out under 16 and under 17 behind it, or `refused` and the number. The stream goes to STREAM, in order, as it
 * comes. A line that is not of this form ends the box with status 2. Build, after `tools/prove station`:
 *
 *     cc -Iinclude examples/box.c target/staticlib/libstation.a -o box
 */
#include <stdio.h>
#include <stdlib.h>
#include <string.h>
#include "vanitycrow.h"

#define MAX_FRAMES 128
#define MAX_LINE (1 << 18)

static struct vanitycrow_receiver box;
static uint16_t window[VANITYCROW_PLACES]; /* all zero at first */
static uint8_t stream[VANITYCROW_PLACES], bytes[MAX_LINE / 2];
static char line[MAX_LINE];

static int digit(char c) {
    const char *at = memchr("0123456789abcdef", c, 16);
    return at ? (int)(at - "0123456789abcdef") : -1;
}

/* A decimal number up to 255 and the character behind it; false where there is none. */
static bool number(char **at, char end, uint8_t *value) {
    char *from = *at;
    unsigned long v = strtoul(from, at, 10);
    if (from[0] < '0' || from[0] > '9' || v > 255 || **at != end) return false;
    *value = (uint8_t)v;
    *at += end != 0;
    return true;
}

/* SLOT:HEX, whose bytes go to `to`; gives how many, or -1. */
static long frame(char *word, uint8_t *slot, uint8_t *to) {
    long n = 0;
    if (!number(&word, ':', slot)) return -1;
    for (; word[0]; word += 2, n++) {
        int high = digit(word[0]), low = high < 0 ? -1 : digit(word[1]);
        if (low < 0) return -1;
        to[n] = (uint8_t)(16 * high + low);
    }
    return n;
}

/* A burst's line, and its answer; false where the line is of another form. */
static bool hear(FILE *to) {
    uint16_t sizes[MAX_FRAMES];
    uint8_t slots[MAX_FRAMES], burst, db;
    size_t n = 0, used = 0;
    char *at = line, *rest = strchr(line, ' ');
    if (!rest || !number(&at, ' ', &burst)) return false;
    rest = strchr(at, ' ');
    if (!number(&at, rest ? ' ' : 0, &db)) return false;
    for (char *word = rest ? strtok(at, " ") : NULL; word; word = strtok(NULL, " ")) {
        long len = n < MAX_FRAMES ? frame(word, slots + n, bytes + used) : -1;
        if (len < 0) return false;
        sizes[n++] = (uint16_t)(len > 65535 ? 65535 : len);
        used += (size_t)len;
    }
    struct vanitycrow_received a = vanitycrow_receive(&box, window, VANITYCROW_PLACES, burst, db, bytes, used, sizes, n, slots, n, stream, sizeof stream);
    if (a.refusal) return printf("refused %u\n", (unsigned)a.refusal) > 0;
    for (int i = 0; i < VANITYCROW_ACK_BYTES; i++) printf("%02x", (unsigned)a.payload[i]);
    printf(" %zu %zu\n", a.wrong, a.beyond);
    return fwrite(stream, 1, a.handed, to) == a.handed && !fflush(to) && !fflush(stdout);
}

int main(int argc, char **argv) {
    FILE *to = argc == 2 ? fopen(argv[1], "wb") : NULL;
    if (!to) {
        fprintf(stderr, "usage: box STREAM < FRAMES\n");
        return 2;
    }
    vanitycrow_fresh_receiver(&box);
    while (fgets(line, sizeof line, stdin)) {
        char *end = strchr(line, '\n');
        if (end) *end = 0;
        if (!end || !hear(to)) {
            fprintf(stderr, "box: a line is of another form\n");
            return 2;
        }
    }
    return fclose(to) ? 1 : 0;
}
