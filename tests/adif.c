/* Links from standard input through vanitycrow_adif, a line each: the call sign in HEX (- for none), first second, last second, bytes
 * acknowledged, bytes of output. Answers, a line each: refusal, characters, the record. What lies past the record, all of the output where
 * the call is refused, the bytes around the output and the call sign must be kept: else this says so and ends with 1. */
#include <inttypes.h>
#include <stdio.h>
#include <stdlib.h>
#include "lent.h"
#include "vanitycrow.h"

static size_t from_hex(const char *hex, uint8_t *bytes, size_t most) {
    size_t n = 0;
    unsigned v;
    while (n < most && sscanf(hex + 2 * n, "%2x", &v) == 1) bytes[n++] = (uint8_t)v;
    return n;
}

int main(void) {
    char hex[130];
    uint8_t sign[64];
    uint64_t on, off;
    uint32_t acked;
    size_t room;
    unsigned long lines = 0;
    int got;
    while ((got = scanf("%129s %" SCNu64 " %" SCNu64 " %" SCNu32 " %zu", hex, &on, &off, &acked, &room)) == 5) {
        size_t n = hex[0] == '-' ? 0 : from_hex(hex, sign, sizeof sign);
        struct lent call = lend(n, 0), out = lend(room, '.');
        memcpy(call.bytes, sign, n);
        note(&call);
        struct vanitycrow_logged r = vanitycrow_adif(call.bytes, n, on, off, acked, out.bytes, room);
        if (r.len > room || !kept(&call) || !kept_from(&out, r.len) || (r.refusal != 0 && r.len != 0)) {
            printf("line %lu: bytes changed that had to be kept\n", lines + 1);
            return 1;
        }
        printf("%d %zu %.*s\n", r.refusal, r.len, (int)r.len, (const char *)out.bytes);
        give_back(&call);
        give_back(&out);
        lines++;
    }
    return got == EOF && lines > 0 ? 0 : 1;
}
