/* The same work in plain C, written for reading: what the proved code is measured against. */
#ifndef PLAIN_H
#define PLAIN_H
#include <stddef.h>
#include <stdint.h>

#define MOST_RINGS 8
#define MOST_VERTICES 64
#define SLOTS 32

/* A region: coordinates x, y, x, y .. and ring ends. */
typedef struct {
    const int32_t *xy;
    const uint16_t *ends;
    size_t rings;
} Region;

typedef struct {
    int32_t xs[2 * MOST_VERTICES * SLOTS];
    uint16_t records[(MOST_RINGS + 1) * SLOTS];
    uint16_t relations[SLOTS * SLOTS];
} Sheet;

typedef struct { int32_t west, south, east, north; } Box;

static inline size_t vertices_of(Region r) { return r.ends[r.rings - 1]; }

/* Number and 65,536 times the ring of a refusal, or 0. Rule 6 looks at all pairs of edges. */
uint32_t plain_check(Region r);
/* The relation of a to b and 65,536 times the pieces of a: every edge is walked tile by tile. */
uint32_t plain_relation(Region a, Region b);
/* The two halves of it: the box of a region, and what a region shows of a box that is at hand. */
Box plain_box(Region r);
uint32_t plain_seen(Box b, Region a);
/* Both checks, both relations, matrix and directions: the relation of a to b and 65,536 times that of b to a, or 0 beside a refusal.
   What else is in a pair answer is written to *rest, so that no compiler leaves it out. */
uint32_t plain_pair(Region a, Region b, uint32_t *rest);
/* The check, the outline into its slot, and the slot's row and column. No look for damage. */
uint32_t plain_put(Sheet *s, size_t slot, Region r);

#endif
