/* Boost.Geometry. */
#include "library.h"
#include <boost/geometry.hpp>
#include <boost/geometry/geometries/box.hpp>
#include <boost/geometry/geometries/point_xy.hpp>
#include <boost/geometry/geometries/ring.hpp>
#include <boost/version.hpp>

namespace bg = boost::geometry;
/* relate gets whole numbers: Boost brings fractions onto a grid of its own first, which would cost exactness and time. A shrunk tile has
   fractions, and intersects leaves them as they are. */
typedef bg::model::d2::point_xy<int64_t> Whole;
typedef bg::model::d2::point_xy<double> Point;
typedef bg::model::ring<Whole> Whole_ring;
typedef bg::model::ring<Point> Ring;
typedef bg::model::box<Point> Rectangle;
namespace { /* the other libraries have types of the same names */
struct Shape { Whole_ring whole; Ring ring; };
struct Kept { std::vector<Shape> rings; Whole_ring open[9]; Rectangle closed[9], shrunk[9]; };
}
static std::vector<Kept> kept;

static Rectangle rectangle(Tile t) { return Rectangle(Point(t.west, t.south), Point(t.east, t.north)); }

static void prepare(const Set &set) {
    kept.assign(set.parcels, Kept());
    for (size_t i = 0; i < set.parcels; i++) {
        Region r = region_of(&set.parcel[i]);
        Box b = plain_box(r);
        for (size_t ring = 0, from = 0; ring < r.rings; from = r.ends[ring++]) {
            Shape s;
            for (size_t k = from; k <= r.ends[ring]; k++) {
                size_t v = k == r.ends[ring] ? from : k;
                s.whole.push_back(Whole(r.xy[2 * v], r.xy[2 * v + 1]));
                s.ring.push_back(Point(r.xy[2 * v], r.xy[2 * v + 1]));
            }
            kept[i].rings.push_back(s);
        }
        for (int bit = 0; bit < 9; bit++) {
            Tile t = tile_of(b, bit, 0);
            const double corners[5][2] = { { t.west, t.south }, { t.west, t.north }, { t.east, t.north }, { t.east, t.south }, { t.west, t.south } };
            for (const auto &c : corners) kept[i].open[bit].push_back(Whole(int64_t(c[0]), int64_t(c[1])));
            kept[i].closed[bit] = rectangle(t);
            kept[i].shrunk[bit] = rectangle(tile_of(b, bit, SHRUNK));
        }
    }
}

static bool insides_meet(const Shape &p, const Whole_ring &t) {
    static const bg::de9im::static_mask<'T', '*', '*', '*', '*', '*', '*', '*', '*'> insides;
    return bg::relate(p.whole, t, insides);
}
static bool closed_meet(const Shape &p, const Rectangle &t) { return bg::intersects(p.ring, t); }

Library boost_library() {
    std::string version = std::to_string(BOOST_VERSION / 100000) + "." + std::to_string(BOOST_VERSION / 100 % 1000);
    return { "Boost.Geometry " + version, prepare, {
        { "Boost", "relate", ORDINARY, [](size_t a, size_t b) { return tiles_of(kept, a, b, &Kept::open, insides_meet); } },
        { "Boost", "relate, boxes first", BY_HAND, [](size_t a, size_t b) { return tiles_of<true>(kept, a, b, &Kept::open, insides_meet); } },
        { "Boost", "intersects, shrunk", BY_HAND, [](size_t a, size_t b) { return tiles_of(kept, a, b, &Kept::shrunk, closed_meet); } },
        { "Boost", "intersects", TOUCHING, [](size_t a, size_t b) { return tiles_of(kept, a, b, &Kept::closed, closed_meet); } } } };
}
