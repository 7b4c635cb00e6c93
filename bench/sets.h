/* Parcels to measure with: the same ones in every run. */
#ifndef SETS_H
#define SETS_H
#include "plain.h"

#define MOST_PARCELS 64

typedef struct {
    int32_t xy[2 * MOST_VERTICES];
    uint16_t ends[MOST_RINGS];
    size_t rings;
} Parcel;

typedef struct {
    const char *name;
    size_t parcels;
    Parcel parcel[MOST_PARCELS];
} Set;

/* star64 star-shaped parcels that overlap; far64 the same, small and spread; comb64 combs whose edges lie on each other's box lines;
   spiral64 square spirals; hex6 hexagons; rings8x8 parcels of eight rings; farm parcels beside each other that share their borders. */
#define SETS 7
void make_set(size_t k, Set *set);
/* Star-shaped parcels of n vertices, for the growth with n. */
void make_stars(size_t n, Set *set);
/* A shape of 64 vertices that is hard for rule 6, or 0 where there is no more of them. */
const char *hard_shape(size_t k, Parcel *p);

static inline Region region_of(const Parcel *p) { return (Region){ p->xy, p->ends, p->rings }; }

#endif
