/* GEOS, through its C interface. */
#include "library.h"
#include <geos_c.h>

static GEOSContextHandle_t geos;
namespace { /* the other libraries have types of the same names */
struct Shape { GEOSGeometry *plain; const GEOSPreparedGeometry *prepared; };
struct Kept { std::vector<Shape> rings; Shape open[9], shrunk[9]; };
}
static std::vector<Kept> kept;

static Shape shape_of(const std::vector<double> &xy) {
    size_t n = xy.size() / 2;
    GEOSCoordSequence *points = GEOSCoordSeq_create_r(geos, unsigned(n + 1), 2);
    for (size_t k = 0; k <= n; k++) GEOSCoordSeq_setXY_r(geos, points, unsigned(k), xy[2 * (k % n)], xy[2 * (k % n) + 1]);
    GEOSGeometry *g = GEOSGeom_createPolygon_r(geos, GEOSGeom_createLinearRing_r(geos, points), nullptr, 0);
    return { g, GEOSPrepare_r(geos, g) };
}

static Shape rectangle(Tile t) { return shape_of({ t.west, t.south, t.west, t.north, t.east, t.north, t.east, t.south }); }

static void prepare(const Set &set) {
    kept.assign(set.parcels, Kept());
    for (size_t i = 0; i < set.parcels; i++) {
        Region r = region_of(&set.parcel[i]);
        Box b = plain_box(r);
        for (size_t ring = 0, from = 0; ring < r.rings; from = r.ends[ring++])
            kept[i].rings.push_back(shape_of(std::vector<double>(r.xy + 2 * from, r.xy + 2 * r.ends[ring])));
        for (int bit = 0; bit < 9; bit++) kept[i].open[bit] = rectangle(tile_of(b, bit, 0)), kept[i].shrunk[bit] = rectangle(tile_of(b, bit, SHRUNK));
    }
}

static bool insides_meet(const Shape &p, const Shape &t) { return GEOSRelatePattern_r(geos, p.plain, t.plain, "T********") == 1; }
static bool closed_meet(const Shape &p, const Shape &t) { return GEOSIntersects_r(geos, p.plain, t.plain) == 1; }
static bool parcel_prepared(const Shape &p, const Shape &t) { return GEOSPreparedIntersects_r(geos, p.prepared, t.plain) == 1; }
static bool tile_prepared(const Shape &p, const Shape &t) { return GEOSPreparedIntersects_r(geos, t.prepared, p.plain) == 1; }

Library geos_library() {
    geos = GEOS_init_r();
    return { std::string("GEOS ") + GEOSversion(), prepare, {
        { "GEOS", "relate", ORDINARY, [](size_t a, size_t b) { return tiles_of(kept, a, b, &Kept::open, insides_meet); } },
        { "GEOS", "relate, boxes first", BY_HAND, [](size_t a, size_t b) { return tiles_of<true>(kept, a, b, &Kept::open, insides_meet); } },
        { "GEOS", "intersects, shrunk", BY_HAND, [](size_t a, size_t b) { return tiles_of(kept, a, b, &Kept::shrunk, closed_meet); } },
        { "GEOS", "prepared parcel, shrunk", BY_HAND, [](size_t a, size_t b) { return tiles_of(kept, a, b, &Kept::shrunk, parcel_prepared); } },
        { "GEOS", "prepared tile, shrunk", BY_HAND, [](size_t a, size_t b) { return tiles_of(kept, a, b, &Kept::shrunk, tile_prepared); } },
        { "GEOS", "prepared parcel", TOUCHING, [](size_t a, size_t b) { return tiles_of(kept, a, b, &Kept::open, parcel_prepared); } } } };
}
