/* What a geometry library has to bring to be timed beside plain C (libraries.cpp). */
#ifndef LIBRARY_H
#define LIBRARY_H
#include <string>
#include <vector>
extern "C" {
#include "sets.h"
}

/* One way to ask a library in which of the nine tiles of parcel b's box parcel a lies. What depends on one parcel alone, its geometry in
   the library's own form and the nine tiles of its box, is made before the clock starts. */
enum Kind {
    ORDINARY, /* one call a tile, whose own definition is the rule's: the inside of the polygon meets the open tile */
    BY_HAND,  /* exact too, but the caller does a part: shrinks the tiles so that touching does not count, or compares boxes first */
    TOUCHING  /* one call a tile, and touching counts: another answer than the rule's */
};
struct Call {
    const char *library, *name;
    Kind kind;
    unsigned (*tiles)(size_t a, size_t b);
};

struct Library {
    std::string version;
    void (*prepare)(const Set &);
    std::vector<Call> calls;
};

Library geos_library(), boost_library(), cgal_library();

/* A tile as a bounded rectangle; what has no end ends beyond every coordinate. A shrunk tile lacks a border of SHRUNK all round: a closed
   polygon of whole-number coordinates up to 1,000,000 meets it exactly when the polygon's inside meets the open tile. A vertex inside the
   tile is at least 1 away from its border; an edge that cuts off a corner cuts it 1 / 2,000,000 or more from the corner, and an edge that
   crosses from side to side keeps that distance from one corner at least; SHRUNK is less than a quarter of that. */
struct Tile { double west, south, east, north; };
static const double BEYOND = 1100000, SHRUNK = 1.0 / 8388608;

static inline Tile tile_of(Box b, int bit, double border) {
    const double xs[4] = { -BEYOND, double(b.west), double(b.east), BEYOND }, ys[4] = { -BEYOND, double(b.south), double(b.north), BEYOND };
    int column = bit % 3, row = 2 - bit / 3;
    return { xs[column] + border, ys[row] + border, xs[column + 1] - border, ys[row + 1] - border };
}

/* The boxes of the rings of each parcel, and the tiles of its box as they are. */
extern std::vector<std::vector<Tile>> ring_boxes, tile_boxes;

static inline bool overlap(const Tile &a, const Tile &b) { return a.west < b.east && b.west < a.east && a.south < b.north && b.south < a.north; }

/* The tiles of b's box in which a lies, by `meets`. Rings of a region are asked one by one, as the rule asks them: they may overlap, which
   no library takes as one valid polygon. */
template <bool boxes_first = false, class Kept, class Tiles, class Meets> unsigned tiles_of(const Kept &kept, size_t a, size_t b, Tiles tiles, Meets meets) {
    unsigned set = 0;
    for (size_t r = 0; r < kept[a].rings.size(); r++)
        for (int bit = 0; bit < 9; bit++) {
            if (set >> bit & 1 || (boxes_first && !overlap(ring_boxes[a][r], tile_boxes[b][bit]))) continue;
            if (meets(kept[a].rings[r], (kept[b].*tiles)[bit])) set |= 1u << bit;
        }
    return set;
}

#endif
