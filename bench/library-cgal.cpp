/* CGAL: polygons with exact constructions, and single edges with exact predicates. */
#include "library.h"
#include <CGAL/Boolean_set_operations_2.h>
#include <CGAL/Exact_predicates_exact_constructions_kernel.h>
#include <CGAL/Exact_predicates_inexact_constructions_kernel.h>
#include <CGAL/Polygon_2.h>
#include <CGAL/version.h>

typedef CGAL::Exact_predicates_exact_constructions_kernel Exact;
typedef CGAL::Exact_predicates_inexact_constructions_kernel Quick;
namespace { /* the other libraries have types of the same names */
struct Shape { CGAL::Polygon_2<Exact> exact; CGAL::Polygon_2<Quick> quick; CGAL::Bbox_2 box; std::vector<CGAL::Bbox_2> edge_boxes; };
struct Kept { std::vector<Shape> rings; CGAL::Polygon_2<Exact> open[9]; Quick::Iso_rectangle_2 shrunk[9]; };
}
static std::vector<Kept> kept;

static void prepare(const Set &set) {
    kept.assign(set.parcels, Kept());
    for (size_t i = 0; i < set.parcels; i++) {
        Region r = region_of(&set.parcel[i]);
        Box b = plain_box(r);
        for (size_t ring = 0, from = 0; ring < r.rings; from = r.ends[ring++]) {
            Shape s;
            for (size_t k = r.ends[ring]; k-- > from;) { /* CGAL's polygons run counterclockwise */
                s.exact.push_back(Exact::Point_2(r.xy[2 * k], r.xy[2 * k + 1]));
                s.quick.push_back(Quick::Point_2(r.xy[2 * k], r.xy[2 * k + 1]));
            }
            s.box = s.quick.bbox();
            for (auto e = s.quick.edges_begin(); e != s.quick.edges_end(); ++e) s.edge_boxes.push_back(e->bbox());
            kept[i].rings.push_back(s);
        }
        for (int bit = 0; bit < 9; bit++) {
            Tile t = tile_of(b, bit, 0), u = tile_of(b, bit, SHRUNK);
            const double corners[4][2] = { { t.west, t.south }, { t.east, t.south }, { t.east, t.north }, { t.west, t.north } };
            for (const auto &c : corners) kept[i].open[bit].push_back(Exact::Point_2(c[0], c[1]));
            kept[i].shrunk[bit] = Quick::Iso_rectangle_2(u.west, u.south, u.east, u.north);
        }
    }
}

static bool insides_meet(const Shape &p, const CGAL::Polygon_2<Exact> &t) { return CGAL::do_intersect(p.exact, t); }

/* An edge meets the shrunk tile, or the tile lies wholly inside the ring; boxes first. A program on top of CGAL rather than a call of it. */
static bool edge_meets(const Shape &p, const Quick::Iso_rectangle_2 &t) {
    CGAL::Bbox_2 tile = t.bbox();
    if (!CGAL::do_overlap(p.box, tile)) return false;
    auto box = p.edge_boxes.begin();
    for (auto e = p.quick.edges_begin(); e != p.quick.edges_end(); ++e, ++box)
        if (CGAL::do_overlap(*box, tile) && CGAL::do_intersect(*e, t)) return true;
    return p.quick.has_on_bounded_side(t[0]);
}

Library cgal_library() {
    return { std::string("CGAL ") + CGAL_VERSION_STR, prepare, {
        { "CGAL", "do_intersect", ORDINARY, [](size_t a, size_t b) { return tiles_of(kept, a, b, &Kept::open, insides_meet); } },
        { "CGAL", "do_intersect, boxes first", BY_HAND, [](size_t a, size_t b) { return tiles_of<true>(kept, a, b, &Kept::open, insides_meet); } },
        { "CGAL", "edge by edge, shrunk", BY_HAND, [](size_t a, size_t b) { return tiles_of(kept, a, b, &Kept::shrunk, edge_meets); } } } };
}
