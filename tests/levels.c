/* levels SETS: what the original's `level_for` chooses under so many sets of thresholds, from standard input as `oracle/run levels` writes
 * it, against vanitycrow_levels:
 *
 *     marks EFF_SNR THRESHOLDS MARGIN THRESHOLDS MARGIN    17 thresholds and the margin by their bits: the plain ones, then the effective
 *     for POWER TOP PICK_FAMILY ECHO DOPPLER LEVELS        the levels for reports 0 to 255 under these, a letter each, `a` for level 0
 *
 * From the letters this reckons each listing anew: the whole range, random ranges, ranges of one report and turned ones; under the first
 * thresholds every range of one report; for a line in 20,011 every pair of a lowest and a highest. The last line counts; the status is 1
 * where one differs. */
#include <inttypes.h>
#include <stdio.h>
#include <stdlib.h>
#include <string.h>
#include "usual.h"
#include "vanitycrow.h"

#define REPORTS 256
#define LINES_OF_A_SET 255 /* three power tables, 17 highest levels, four classes and one that is not heeded */
#define EVERY_REPORT (5 * LINES_OF_A_SET)
#define EVERY_PAIR 20011

static struct vanitycrow_profile p, before;
static struct vanitycrow_class class_;
static char levels[REPORTS + 1];
static unsigned long answers, sets, lines;
static uint64_t state = 12;

static unsigned below(unsigned n) {
    state = state * 6364136223846793005u + 1442695040888963407u;
    return (unsigned)(state >> 33) % n;
}

/* What document 02 asks for, level by level from the letters. */
static struct vanitycrow_listing reckoned(unsigned low, unsigned high) {
    struct vanitycrow_listing r;
    memset(&r, 0, sizeof r);
    r.refusal = low > high ? VANITYCROW_BAD_RANGE : VANITYCROW_ACCEPTED;
    for (int l = 0; l < VANITYCROW_LEVELS; l++) {
        unsigned q = low;
        while (q <= high && levels[q] != 'a' + l) q++;
        if (q > high) continue;
        r.level[r.n] = (uint8_t)l;
        r.q[r.n++] = (uint8_t)q;
    }
    return r;
}

static int alike(unsigned low, unsigned high) {
    struct vanitycrow_listing want = reckoned(low, high), got = vanitycrow_levels(&p, class_, (uint8_t)low, (uint8_t)high);
    answers++;
    if (got.refusal == want.refusal && got.n == want.n && memcmp(got.level, want.level, sizeof got.level) == 0 &&
        memcmp(got.q, want.q, sizeof got.q) == 0 && memcmp(&p, &before, sizeof p) == 0)
        return 1;
    printf("line %lu, reports %u to %u: refusal %d and %zu levels, not %d and %zu\n", lines, low, high, got.refusal, got.n, want.refusal,
        want.n);
    return 0;
}

static int some_ranges(void) {
    int good = alike(0, REPORTS - 1);
    for (int i = 0; good && i < 8; i++) {
        unsigned a = below(i < 4 ? 80 : REPORTS), b = below(i < 4 ? 80 : REPORTS), one = below(REPORTS);
        good = alike(a < b ? a : b, a < b ? b : a) && alike(one, one);
    }
    unsigned high = below(REPORTS - 1);
    return good && alike(high + 1, high);
}

static int line_good(void) {
    int good = some_ranges();
    for (unsigned q = 0; good && lines <= EVERY_REPORT && q < REPORTS; q++) good = alike(q, q);
    for (unsigned i = 0; good && lines % EVERY_PAIR == 1 && i < REPORTS * REPORTS; i++) good = alike(i / REPORTS, i % REPORTS);
    return good;
}

static int read_db(float *db) {
    uint32_t bits;
    if (scanf("%8" SCNx32, &bits) != 1) return 0;
    memcpy(db, &bits, sizeof bits);
    return 1;
}

static int read_marks(struct vanitycrow_marks *m) {
    for (int l = 0; l < VANITYCROW_LEVELS; l++)
        if (!read_db(&m->thresholds_db[l])) return 0;
    return read_db(&m->margin_db);
}

static int read_sets(void) {
    int eff;
    if (scanf("%d", &eff) != 1) return 0;
    p = usual();
    p.eff_snr = eff;
    sets++;
    return read_marks(&p.plain) && read_marks(&p.eff);
}

static int read_line(void) {
    int power, pick, echo, doppler;
    if (scanf("%d %zu %d %d %d %256s", &power, &p.max_level, &pick, &echo, &doppler, levels) != 6 || strlen(levels) != REPORTS) return 0;
    p.power = (uint8_t)power;
    p.pick_family = pick;
    class_ = (struct vanitycrow_class){echo, doppler};
    memcpy(&before, &p, sizeof p);
    lines++;
    return 1;
}

int main(int argc, char **argv) {
    unsigned long wanted = argc == 2 ? strtoul(argv[1], NULL, 10) : 0;
    char word[6];
    while (scanf("%5s", word) == 1) {
        int is_line = strcmp(word, "for") == 0;
        if (is_line ? !read_line() : !read_sets()) {
            printf("a line that cannot be read, after %lu\n", lines);
            return 1;
        }
        if (is_line && !line_good()) return 1;
    }
    printf("%lu sets of thresholds, %lu listings alike\n", sets, answers);
    return sets > 0 && sets == wanted && lines == LINES_OF_A_SET * sets ? 0 : 1;
}
