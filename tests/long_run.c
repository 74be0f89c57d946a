/* Simulated traffic over a hostile link through the C interface: long_run [-s SEED] [-h HOURS] [-e SENDERS] [-x] [-l CALLS TRANSCRIPT]
 *
 * Mail is of all four classes, some of it with labels. Each of six profiles has a fresh sender and HOURS of simulated time (24); then
 * SENDERS more (20) have random profiles in range and some hundred calls each. Every call is checked (checked.h), and the tally of document
 * 01 is kept from arguments and answers alone (tally.h); what a far station cannot force is checked by it (cannot_force.h). -x lends blocks
 * of exact lengths, for valgrind. -l writes the calls and what was answered, for `replay`. The status is 1 at the first difference. */
#include <stdio.h>
#include <stdlib.h>
#include "checked.h"
#include "profiles.h"

/* A class: routine as a rule, now and then one that there is not. A label: none as a rule, then one of a few. */
static struct vanitycrow_message some_message(void) {
    struct vanitycrow_message m = {VANITYCROW_ROUTINE, 0};
    if (percent(60)) m.class_ = (uint8_t)below(VANITYCROW_MAX_CLASS + 1);
    if (percent(3)) m.class_ = (uint8_t)(percent(50) ? VANITYCROW_MAX_CLASS + 1 : below(256));
    if (percent(30)) m.label = (uint16_t)(percent(90) ? 1 + below(6) : UINT16_MAX - below(3));
    return m;
}

/* Messages of a few bytes until no more may wait, and some that are refused or withdraw another. */
static void many_queues(struct run *r) {
    for (int i = 0; i < 500 && r->t.count < VANITYCROW_MAX_MESSAGES; i++) queue_call(r, some_message(), 1 + below(3));
    for (int i = 0; i < 8; i++) queue_call(r, some_message(), below(3));
}

/* A queuing with a label that waits, if one does, of a length around what fits once that message is withdrawn. */
static void superseding_queue(struct run *r) {
    struct vanitycrow_message m = some_message();
    size_t fits = VANITYCROW_MAX_WAITING - r->t.waiting, i = r->t.count ? below((uint32_t)r->t.count) : 0;
    if (r->t.count) m.label = r->t.messages[i].said.label;
    if (r->t.count && tally_withdraws(m, r->t.messages + i)) fits += r->t.messages[i].n;
    queue_call(r, m, percent(30) ? fits + below(2) : below((uint32_t)fits + 1));
}

/* A queuing: letters of some kilobytes, and every length around what fits. */
static void some_queue(struct run *r) {
    size_t room = VANITYCROW_MAX_WAITING - r->t.waiting;
    switch (below(10)) {
    case 0: queue_call(r, some_message(), 0); break;
    case 1: queue_call(r, some_message(), room); break;
    case 2: queue_call(r, some_message(), room + 1); break;
    case 3: queue_call(r, some_message(), below(20000)); break;
    case 4: queue_call(r, some_message(), 1 + below(8)); break;
    case 5: for (uint32_t i = below(6); i < 6; i++) queue_call(r, some_message(), below(600)); break;
    default: queue_call(r, some_message(), below((uint32_t)(room < 4000 ? room : 4000) + 1)); break;
    }
    if (below(100) == 0) many_queues(r);
    if (percent(15)) superseding_queue(r);
}

/* A call that has to be refused or to change little. */
static void nonsense(struct run *r) {
    switch (below(9)) {
    case 0: connect_call(r, 20); break;
    case 1: short_call(r, 60); break;
    case 2: long_call(r, 60); break;
    case 3: turn_call(r, 60); break;
    case 4: find_call(r); break;
    case 5: burst_call(r); break;
    case 6: r->out_len--; burst_call(r); r->out_len++; break;
    default:
        r->area_len = below(3) ? VANITYCROW_AREA_BYTES - 1 : below(VANITYCROW_AREA_BYTES);
        switch (below(5)) {
        case 0: burst_call(r); break;
        case 1: queue_call(r, some_message(), below(100)); break;
        case 2: short_call(r, 10); break;
        case 3: find_call(r); break;
        default: long_call(r, 10); break;
        }
        r->area_len = VANITYCROW_AREA_BYTES;
    }
}

/* The ack of a burst, as it should be most of the time. */
static void some_ack(struct run *r) {
    uint32_t wild = percent(80) ? 2 : 40;
    if (percent(r->far.frames <= 6 ? 80 : 15)) short_call(r, wild);
    else long_call(r, wild);
}

/* A burst and what comes of it. */
static void cycle(struct run *r) {
    if (percent(r->t.waiting < 2000 ? 70 : 10)) some_queue(r);
    if (percent(10)) nonsense(r);
    r->area_len += watched && percent(10) ? below((uint32_t)watched + 1) : 0;
    r->out_len += r->out_len < r->out.n && percent(10) ? below((uint32_t)(r->out.n - r->out_len) + 1) : 0;
    burst_call(r);
    r->area_len = VANITYCROW_AREA_BYTES;
    r->out_len = VANITYCROW_MAX_SLOTS * r->p->long_bytes;
    far_drift(&r->far);
    if (percent(8)) return; /* the burst or its ack is lost */
    if (percent(10)) nonsense(r);
    r->now += r->p->air.ack_s[5];
    if (r->now > 1000000000) r->now = 1000000000;
    if (percent(8)) turn_call(r, 2);
    else some_ack(r);
    if (percent(5)) some_ack(r); /* not awaited */
    if (percent(5)) find_call(r);
}

static void begin(struct run *r, const char *name, const struct vanitycrow_profile *p) {
    size_t out = VANITYCROW_MAX_SLOTS * p->long_bytes;
    size_t more = watched && out + 64 <= 32768 ? 64 : 0;
    r->name = name;
    r->profile = lend(sizeof *p, 0);
    memcpy(r->profile.bytes, p, sizeof *p);
    note(&r->profile);
    r->record = lend(sizeof *r->station, 0xC3);
    r->area = lend(VANITYCROW_AREA_BYTES, 0);
    r->out = lend(out + more, 0x5A);
    r->p = (const struct vanitycrow_profile *)r->profile.bytes;
    r->station = (struct vanitycrow_station *)r->record.bytes;
    r->s = &r->station->sender;
    r->area_len = r->listed_area_len = VANITYCROW_AREA_BYTES;
    r->out_len = out;
    r->listed_out_len = 32768;
    r->far = (struct far_station){.quality = .8};
    r->now = 1;
    vanitycrow_fresh(r->station);
    list_profile(r->list, r->p);
}

static void end(struct run *r) {
    r->seen.acked += r->t.acknowledged;
    list_end(r->list, r->station);
    give_back(&r->profile);
    give_back(&r->record);
    give_back(&r->area);
    give_back(&r->out);
    tally_drop(&r->t);
    r->connected = false;
    r->last = 0;
    r->judged = (struct judged){false, 0};
    r->airtime_ms = 0;
}

/* Calls of a sender until `until` seconds and `cycles` bursts are over. */
static void live(struct run *r, double until, unsigned cycles) {
    if (percent(50)) queue_call(r, some_message(), 10);
    if (percent(50)) burst_call(r);
    if (percent(50)) short_call(r, 20);
    if (percent(50)) find_call(r);
    while (!r->connected) connect_call(r, percent(50) ? 30 : 0);
    for (unsigned i = 0; i < cycles || r->now < until; i++) cycle(r);
}

static void add(struct seen *all, const struct seen *s) {
    for (int i = 0; i < KINDS; i++) all->calls[i] += s->calls[i];
    for (int i = 0; i <= VANITYCROW_TOO_MANY_MESSAGES; i++) all->answers[i] += s->answers[i];
    all->overtaking += s->overtaking;
    all->withdrawing += s->withdrawing;
    all->latest += s->latest;
    all->acked += s->acked;
    all->frames += s->frames;
    most(&all->most_pieces, s->most_pieces);
    most(&all->most_flying, s->most_flying);
    most(&all->most_held, s->most_held);
    most(&all->most_frames, s->most_frames);
    most(&all->most_messages, s->most_messages);
}

static void tell(const char *name, double hours, double air_hours, const struct seen *s) {
    unsigned long long n = 0;
    for (int i = 0; i < KINDS; i++) n += s->calls[i];
    printf("%s: %.1f hours, %.1f on the air, %llu calls:", name, hours, air_hours, n);
    for (int i = 0; i < KINDS; i++) printf(" %s %llu%s", kind_names[i], s->calls[i], i + 1 < KINDS ? "," : ";");
    printf(" accepted %llu, refused", s->answers[0]);
    for (int i = 1; i <= VANITYCROW_TOO_MANY_MESSAGES; i++)
        if (s->answers[i]) printf(" %d: %llu,", i, s->answers[i]);
    printf(" %llu bytes acknowledged in %llu frames, %llu messages overtook, %llu withdrew another, ", s->acked, s->frames, s->overtaking,
           s->withdrawing);
    printf("%llu calls with a hold as late as it may be;", s->latest);
    printf(" at most %zu pieces, %zu bytes flying, %zu held, %zu frames, %zu messages\n", s->most_pieces, s->most_flying, s->most_held,
           s->most_frames, s->most_messages);
}

struct totals { struct seen seen; double hours, air_hours; };

/* One profile; the random ones are told together. */
static void one(struct totals *all, struct call_list list, const char *name, const struct vanitycrow_profile *p, double hours,
                unsigned cycles, bool quiet) {
    static struct run r;
    memset(&r, 0, sizeof r);
    r.list = list;
    begin(&r, name, p);
    live(&r, hours * 3600, cycles);
    double air_hours = (double)r.airtime_ms / 3600000;
    all->hours += r.now / 3600;
    all->air_hours += air_hours;
    end(&r);
    add(&all->seen, &r.seen);
    if (!quiet) tell(name, r.now / 3600, air_hours, &r.seen);
}

static void all_profiles(struct call_list list, double hours, unsigned senders) {
    static const struct { const char *name; struct vanitycrow_profile (*make)(void); } made[] = {
        {"usual", usual}, {"ladder", ladder_profile}, {"merge", merge_profile}, {"short", short_profile}, {"large", large_profile},
        {"pinned", pinned_profile},
    };
    struct totals fixed, any;
    memset(&fixed, 0, sizeof fixed);
    memset(&any, 0, sizeof any);
    for (size_t i = 0; i < sizeof made / sizeof *made; i++) {
        struct vanitycrow_profile p = made[i].make();
        one(&fixed, list, made[i].name, &p, hours, 20, false);
    }
    for (unsigned i = 0; i < senders; i++) {
        char name[40];
        struct vanitycrow_profile p = extreme_profile();
        snprintf(name, sizeof name, "random profile %u", i);
        one(&any, list, name, &p, 0, 200, true);
    }
    if (senders) tell("random profiles", any.hours, any.air_hours, &any.seen);
    tell("the six profiles together", fixed.hours, fixed.air_hours, &fixed.seen);
}

int main(int argc, char **argv) {
    struct call_list list = {NULL, NULL};
    double hours = 24;
    unsigned senders = 20;
    for (int i = 1; i < argc; i++) {
        if (!strcmp(argv[i], "-s") && i + 1 < argc) seed = strtoull(argv[++i], NULL, 10);
        else if (!strcmp(argv[i], "-h") && i + 1 < argc) hours = strtod(argv[++i], NULL);
        else if (!strcmp(argv[i], "-e") && i + 1 < argc) senders = (unsigned)strtoul(argv[++i], NULL, 10);
        else if (!strcmp(argv[i], "-x")) watched = 0;
        else if (!strcmp(argv[i], "-l") && i + 2 < argc) {
            list.calls = fopen(argv[++i], "w");
            list.transcript = fopen(argv[++i], "w");
            if (!list.calls || !list.transcript) return 2;
        } else {
            fprintf(stderr, "usage: long_run [-s SEED] [-h HOURS] [-e SENDERS] [-x] [-l CALLS TRANSCRIPT]\n");
            return 2;
        }
    }
    chance_state = seed;
    all_profiles(list, hours, senders);
    return list.calls && (fclose(list.calls) | fclose(list.transcript)) ? 2 : 0;
}
