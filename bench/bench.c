/* Times the proved code beside plain C, both in one process, call for call on the same parcels, and compares what they answer.
   bench [ROUNDS]: a table on standard output; status 1 where an answer differs. With BEFORE another archive of the same calls, their
   names with before_ in front, is timed as a third side. With SEEN the archive also has trial_seen, the relation where both boxes are at
   hand; with CELLS trial_cell and trial_cells, a reading of a cell and of a list of pairs. */
#define _POSIX_C_SOURCE 199309L
#include "plain.h"
#include "sets.h"
#include <math.h>
#include <stdio.h>
#include <stdlib.h>
#include <string.h>
#include <time.h>

#define CALLS(prefix) \
    uint32_t prefix##trial_check(const int32_t *, size_t, const uint16_t *, size_t); \
    uint32_t prefix##trial_relation(const int32_t *, size_t, const uint16_t *, size_t, const int32_t *, size_t, const uint16_t *, size_t); \
    uint32_t prefix##trial_pair(const int32_t *, size_t, const uint16_t *, size_t, const int32_t *, size_t, const uint16_t *, size_t); \
    uint32_t prefix##trial_put(int32_t *, size_t, uint16_t *, size_t, uint16_t *, size_t, uint32_t, const int32_t *, size_t, const uint16_t *, size_t); \
    uint32_t prefix##trial_load(int32_t *, size_t, uint16_t *, size_t, uint16_t *, size_t, const uint8_t *, size_t);
CALLS()
#ifdef BEFORE
CALLS(before_)
#define SIDES 3
static const char *side_names[SIDES] = { "plain", "proved", "before" };
#else
#define SIDES 2
static const char *side_names[SIDES] = { "plain", "proved" };
#endif
#define MOST_ROUNDS 201
#ifdef SEEN /* eight places (coordinates plus 1,000,000): the other's west, south, east and north, then the region's own */
uint32_t trial_seen(uint64_t, uint64_t, uint64_t, uint64_t, uint64_t, uint64_t, uint64_t, uint64_t, const int32_t *, size_t, const uint16_t *, size_t);
#define PLACES(b) (uint64_t)((b).west + 1000000), (uint64_t)((b).south + 1000000), (uint64_t)((b).east + 1000000), (uint64_t)((b).north + 1000000)
#endif

#ifdef CELLS
uint32_t trial_cell(const uint16_t *, size_t, const uint16_t *, size_t, uint32_t, uint32_t);
uint32_t trial_cells(const uint16_t *, size_t, const uint16_t *, size_t, const uint16_t *, size_t, uint16_t *, size_t);
#endif

#define LIST(a) (a), sizeof(a) / sizeof *(a)
#define PARTS(r) (r).xy, 2 * vertices_of(r), (r).ends, (r).rings

static const Set *set; /* the one that is asked about */
static Box boxes[MOST_PARCELS];
static Sheet sheets[SIDES];
static uint8_t card[17036];
static size_t card_length;
static uint32_t rest;
static int differs;

/* ---- what is measured: each runs the whole set once on one side, and answers a number made of all answers */
static uint32_t mix(uint32_t sum, uint32_t answer) { return sum * 2654435761u + answer; }

static uint32_t run_check(int side) {
    uint32_t sum = 0;
    for (size_t i = 0; i < set->parcels; i++) {
        Region r = region_of(&set->parcel[i]);
        if (side == 0) sum = mix(sum, plain_check(r));
        if (side == 1) sum = mix(sum, trial_check(PARTS(r)));
#ifdef BEFORE
        if (side == 2) sum = mix(sum, before_trial_check(PARTS(r)));
#endif
    }
    return sum;
}

static uint32_t run_relation(int side) {
    uint32_t sum = 0;
    for (size_t i = 0; i < set->parcels; i++) {
        Region a = region_of(&set->parcel[i]);
        for (size_t j = 1; j < 12; j++) {
            Region b = region_of(&set->parcel[(i + 5 * j) % set->parcels]);
            if (side == 0) sum = mix(sum, plain_relation(a, b));
            if (side == 1) sum = mix(sum, trial_relation(PARTS(a), PARTS(b)));
#ifdef BEFORE
            if (side == 2) sum = mix(sum, before_trial_relation(PARTS(a), PARTS(b)));
#endif
        }
    }
    return sum;
}

#ifdef SEEN
/* The same where the boxes of all parcels are at hand. */
static uint32_t run_seen(int side) {
    uint32_t sum = 0;
    for (size_t i = 0; i < set->parcels; i++) {
        Region a = region_of(&set->parcel[i]);
        for (size_t j = 1; j < 12; j++) {
            Box b = boxes[(i + 5 * j) % set->parcels];
            if (side == 0) sum = mix(sum, plain_seen(b, a));
            if (side == 1) sum = mix(sum, trial_seen(PLACES(b), PLACES(boxes[i]), PARTS(a)));
        }
    }
    return sum;
}
#endif

static uint32_t run_pair(int side) {
    uint32_t sum = 0;
    for (size_t i = 0; i < set->parcels; i++) {
        Region a = region_of(&set->parcel[i]), b = region_of(&set->parcel[(i + 7) % set->parcels]);
        if (side == 0) sum = mix(sum, plain_pair(a, b, &rest));
        if (side == 1) sum = mix(sum, trial_pair(PARTS(a), PARTS(b)));
#ifdef BEFORE
        if (side == 2) sum = mix(sum, before_trial_pair(PARTS(a), PARTS(b)));
#endif
    }
    return sum;
}

/* Into a full sheet: each slot gets another parcel of the set. */
static uint32_t run_put(int side) {
    Sheet *s = &sheets[side];
    uint32_t sum = 0;
    for (size_t i = 0; i < SLOTS; i++) {
        Region r = region_of(&set->parcel[(i + 3) % set->parcels]);
        if (side == 0) sum = mix(sum, plain_put(s, i, r));
        if (side == 1) sum = mix(sum, trial_put(LIST(s->xs), LIST(s->records), LIST(s->relations), (uint32_t)i, PARTS(r)));
#ifdef BEFORE
        if (side == 2) sum = mix(sum, before_trial_put(LIST(s->xs), LIST(s->records), LIST(s->relations), (uint32_t)i, PARTS(r)));
#endif
    }
    for (size_t k = 0; k < SLOTS * SLOTS; k++) sum = mix(sum, s->relations[k]);
    return sum;
}

/* A full card onto a full sheet. There is no plain load: 32 plain puts into an empty sheet stand for it. */
static uint32_t run_load(int side) {
    Sheet *s = &sheets[side];
    uint32_t sum = 0;
    if (side == 0) {
        memset(s, 0, sizeof *s);
        for (size_t i = 0; i < SLOTS; i++) sum |= plain_put(s, i, region_of(&set->parcel[i]));
    }
    if (side == 1) sum = trial_load(LIST(s->xs), LIST(s->records), LIST(s->relations), card, card_length);
#ifdef BEFORE
    if (side == 2) sum = before_trial_load(LIST(s->xs), LIST(s->records), LIST(s->relations), card, card_length);
#endif
    for (size_t k = 0; k < SLOTS * SLOTS; k++) sum = mix(sum, s->relations[k]);
    return sum;
}

/* ---- a full card of the set's first 32 parcels */
static void put16(size_t at, size_t v) { card[at] = (uint8_t)v; card[at + 1] = (uint8_t)(v >> 8); }

static void make_card(void) {
    size_t rings = 0, vertices = 0;
    for (size_t i = 0; i < SLOTS; i++) { rings += set->parcel[i].rings; vertices += vertices_of(region_of(&set->parcel[i])); }
    size_t entry = 12, ring = 12 + 4 * SLOTS, vertex = ring + 2 * rings;
    put16(0, SLOTS), put16(2, rings), put16(4, vertices), put16(6, entry), put16(8, ring), put16(10, vertex);
    for (size_t i = 0; i < SLOTS; i++) {
        Region r = region_of(&set->parcel[i]);
        put16(entry, i), put16(entry + 2, r.rings), entry += 4;
        for (size_t k = 0; k < r.rings; k++) put16(ring, r.ends[k]), ring += 2;
        for (size_t k = 0; k < 2 * vertices_of(r); k++) {
            uint32_t v = (uint32_t)r.xy[k];
            put16(vertex, v & 65535), put16(vertex + 2, v >> 16), vertex += 4;
        }
    }
    card_length = vertex;
}

/* ---- timing */
/* One line of the table: a call on a set, how many calls a run has, and how many sides have it. */
typedef struct { const Set *set; const char *name; uint32_t (*run)(int); size_t calls; int sides; } Work;
typedef struct { double plain, proved, ratio; } Times;
#define MOST_WORKS 24

static double now(void) {
    struct timespec t;
    clock_gettime(CLOCK_THREAD_CPUTIME_ID, &t);
    return (double)t.tv_sec * 1e9 + (double)t.tv_nsec;
}

static int by_size(const void *a, const void *b) { double x = *(const double *)a, y = *(const double *)b; return (x > y) - (x < y); }

static double part(double *v, int n, double p) { qsort(v, (size_t)n, sizeof *v, by_size); return v[(int)(p * (n - 1) + 0.5)]; }

static double middle_of(const double *v, int n) {
    static double ordered[MOST_ROUNDS];
    memcpy(ordered, v, (size_t)n * sizeof *v);
    return part(ordered, n, 0.5);
}

static uint32_t run(const Work *w, int side) {
    set = w->set;
    return w->run(side);
}

/* Times all works, round by round, so that what disturbs the machine for a while disturbs all of them. Prints a line each: the times of plain
   and proved, and each other side's ratio to plain, the middle of all rounds with the middle 80 % of them. */
static void measure(const Work *works, int count, int rounds, Times *times) {
    static double time[MOST_WORKS][SIDES][MOST_ROUNDS], ratio[MOST_ROUNDS];
    static uint32_t answer[MOST_WORKS];
    static int turns[MOST_WORKS];
    for (int i = 0; i < count; i++) {
        const Work *w = &works[i];
        answer[i] = run(w, 0);
        for (int side = 1; side < w->sides; side++)
            if (run(w, side) != answer[i]) { printf("%s %s: %s answers otherwise than plain\n", w->set->name, w->name, side_names[side]); differs = 1; }
        double start = now();
        run(w, 0);
        turns[i] = (int)(2e6 / (now() - start + 1)) + 1;
    }
    for (int r = 0; r < rounds; r++)
        for (int i = 0; i < count; i++)
            for (int side = 0; side < works[i].sides; side++) {
                double from = now();
                for (int k = 0; k < turns[i]; k++)
                    if (run(&works[i], side) != answer[i]) differs = 1;
                time[i][side][r] = (now() - from) / turns[i] / (double)works[i].calls;
            }
    for (int i = 0; i < count; i++) {
        printf("%-22s %-9s", works[i].set->name, works[i].name);
        for (int side = 1; side < works[i].sides; side++) {
            for (int r = 0; r < rounds; r++) ratio[r] = time[i][side][r] / time[i][0][r];
            double low = part(ratio, rounds, 0.1), middle = part(ratio, rounds, 0.5), high = part(ratio, rounds, 0.9);
            if (side == 1) {
                times[i] = (Times){ middle_of(time[i][0], rounds), middle_of(time[i][1], rounds), middle };
                printf(" %9.0f %9.0f", times[i].plain, times[i].proved);
            }
            printf("   %5.2f (%.2f-%.2f)", middle, low, high);
        }
        printf("\n");
    }
    fflush(stdout);
}

/* ---- how the time grows with the vertices */
#define MOST_SIZES (MOST_WORKS / 2)

/* The straight line that fits times at sizes best (least squares of the deviations in parts of the time), and the largest deviation. */
static void fit(const char *what, const double *size, const double *time, int count) {
    double w = 0, wx = 0, wy = 0, wxx = 0, wxy = 0, worst = 0, at = 0;
    for (int i = 0; i < count; i++) {
        double weight = 1 / (time[i] * time[i]);
        w += weight, wx += weight * size[i], wy += weight * time[i], wxx += weight * size[i] * size[i], wxy += weight * size[i] * time[i];
    }
    double slope = (w * wxy - wx * wy) / (w * wxx - wx * wx), base = (wy - slope * wx) / w;
    for (int i = 0; i < count; i++) {
        double line = base + slope * size[i], off = (time[i] - line) / line;
        if (fabs(off) > fabs(worst)) worst = off, at = size[i];
    }
    printf("growth of %s, %.0f to %.0f vertices: %.0f ns + %.1f ns a vertex, furthest from the line %+.0f %% (at %.0f vertices)\n",
        what, size[0], size[count - 1], base, slope, 100 * worst, at);
}

static void measure_growth(int rounds) {
    static Set sets[MOST_SIZES];
    static char names[MOST_SIZES][16];
    Work works[2 * MOST_SIZES];
    Times times[2 * MOST_SIZES];
    double size[MOST_SIZES] = { 0 }, relation_plain[MOST_SIZES] = { 0 }, relation_proved[MOST_SIZES] = { 0 };
    int count = 0;
    for (size_t n = 4; n <= 64; n += n < 16 ? 4 : 8) {
        make_stars(n, &sets[count]);
        sprintf(names[count], "star%zu", n);
        sets[count].name = names[count];
        works[2 * count] = (Work){ &sets[count], "relation", run_relation, 11 * sets[count].parcels, SIDES };
        works[2 * count + 1] = (Work){ &sets[count], "check", run_check, sets[count].parcels, SIDES };
        size[count++] = (double)n;
    }
    measure(works, 2 * count, rounds, times);
    for (int i = 0; i < count; i++) relation_plain[i] = times[2 * i].plain, relation_proved[i] = times[2 * i].proved;
    /* from 8 vertices on: the first size is 4 */
    fit("relation, plain", size + 1, relation_plain + 1, count - 1);
    fit("relation, proved", size + 1, relation_proved + 1, count - 1);
    for (int i = 1; i < count; i++)
        for (int k = i + 1; k < count; k++)
            if (size[k] == 2 * size[i])
                printf("growth of check, %.0f to %.0f vertices: plain takes %.1f times as long, proved %.1f times\n", size[i], size[k],
                    times[2 * k + 1].plain / times[2 * i + 1].plain, times[2 * k + 1].proved / times[2 * i + 1].proved);
}

#ifdef CELLS
/* ---- a list of pairs beside as many single readings, both of the proved code: every other pair of different slots, and some that are refused */
#define PAIRS 512
static uint16_t asked[2 * PAIRS], results[PAIRS];

static uint32_t run_cells(int side) {
    Sheet *s = &sheets[1];
    uint32_t sum = 0;
    if (side == 0)
        for (size_t k = 0; k < PAIRS; k++)
            results[k] = (uint16_t)trial_cell(LIST(s->records), LIST(s->relations), asked[2 * k], asked[2 * k + 1]);
    if (side == 1) sum = trial_cells(LIST(s->records), LIST(s->relations), LIST(asked), LIST(results));
    for (size_t k = 0; k < PAIRS; k++) sum = mix(sum, results[k]);
    return sum;
}

/* On the sheet that the last set left. */
static void measure_cells(int rounds) {
    static Set none = { .name = "single, then a list" };
    Times times[1];
    for (size_t k = 0; k < 2 * PAIRS; k++) asked[k] = (uint16_t)(k * 2654435761u >> 16 & (k % 61 ? 31 : 63));
    const Work work = { &none, "cells", run_cells, PAIRS, 2 };
    measure(&work, 1, rounds, times);
    printf("a list of %d pairs: %.1f ns a pair, read one by one %.1f ns a pair\n", PAIRS, times[0].proved, times[0].plain);
}
#endif

/* ---- shapes that are hard for rule 6 */
static void measure_hard_shapes(int rounds) {
    static Set sets[MOST_WORKS];
    Work works[MOST_WORKS];
    Times times[MOST_WORKS];
    int count = 0, worst = 0;
    for (; (sets[count].name = hard_shape((size_t)count, &sets[count].parcel[0])) != 0; count++) {
        sets[count].parcels = 1;
        if (plain_check(region_of(&sets[count].parcel[0])) != 0) { printf("%s is refused\n", sets[count].name); exit(2); }
        works[count] = (Work){ &sets[count], "check", run_check, 1, SIDES };
    }
    measure(works, count, rounds, times);
    for (int i = 1; i < count; i++)
        if (times[i].ratio > times[worst].ratio) worst = i;
    printf("the worst of the hard shapes: %s, %.2f\n", sets[worst].name, times[worst].ratio);
}

static void measure_set(size_t k, int rounds) {
    static Set made;
    Times times[MOST_WORKS];
    make_set(k, &made);
    set = &made;
    for (size_t i = 0; i < made.parcels; i++) {
        Region r = region_of(&made.parcel[i]);
        if (plain_check(r) != 0) { printf("%s: parcel %zu is refused\n", made.name, i); exit(2); }
        boxes[i] = plain_box(r);
    }
    make_card();
    for (int side = 0; side < SIDES; side++) {
        memset(&sheets[side], 0, sizeof sheets[side]);
        run_put(side);
    }
    const Work works[] = {
        { set, "relation", run_relation, 11 * made.parcels, SIDES }, { set, "check", run_check, made.parcels, SIDES },
        { set, "pair", run_pair, made.parcels, SIDES }, { set, "put", run_put, SLOTS, SIDES }, { set, "load", run_load, 1, SIDES },
#ifdef SEEN
        { set, "seen", run_seen, 11 * made.parcels, 2 },
#endif
    };
    measure(works, (int)(sizeof works / sizeof *works), rounds, times);
}

int main(int argc, char **argv) {
    int rounds = argc > 1 ? atoi(argv[1]) : 31;
    if (rounds < 1 || MOST_ROUNDS < rounds) return 2;
    printf("%-22s %-9s %9s %9s", "set", "call", "plain ns", "proved ns");
    for (int side = 1; side < SIDES; side++) printf("   %-17s", side_names[side]);
    printf("\n");
    for (size_t k = 0; k < SETS; k++) measure_set(k, rounds);
    measure_growth(rounds);
    measure_hard_shapes(rounds);
#ifdef CELLS
    measure_cells(rounds);
#endif
    return differs;
}
