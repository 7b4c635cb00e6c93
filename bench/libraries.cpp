/* Times geometry libraries beside plain C, which is the bridge to the proved code: in which of the nine tiles of one parcel's box another
   parcel lies. libraries ROUNDS RATIOS: a table on standard output; RATIOS is a file of lines "set ratio", the proved code's time over
   plain C's, and may be missing. Answers are compared with plain C's; an exact call that answers otherwise ends it with status 1. */
#include "library.h"
#include <algorithm>
#include <cmath>
#include <cstdio>
#include <cstdlib>
#include <ctime>
#include <fstream>
#include <map>

std::vector<std::vector<Tile>> ring_boxes, tile_boxes;
static Set set;
static volatile unsigned kept_answers; /* so that no compiler leaves a call out */
static std::map<std::string, double> proved; /* over plain C, by set */
static const char *kinds[] = { "ordinary", "by hand", "touching counts" };
static bool differs;
namespace {
struct Pair { size_t a, b; };
struct Least { double factor = INFINITY; std::string at; };
}
static std::map<std::pair<std::string, int>, Least> least; /* by library and kind */

static double now() {
    timespec t;
    clock_gettime(CLOCK_THREAD_CPUTIME_ID, &t);
    return double(t.tv_sec) * 1e9 + double(t.tv_nsec);
}

static double part(std::vector<double> v, double p) { std::sort(v.begin(), v.end()); return v[size_t(p * double(v.size() - 1) + 0.5)]; }

static unsigned plain_tiles(const Pair &p) { return plain_relation(region_of(&set.parcel[p.a]), region_of(&set.parcel[p.b])) & 511; }

static void make_boxes() {
    ring_boxes.assign(set.parcels, {});
    tile_boxes.assign(set.parcels, {});
    for (size_t i = 0; i < set.parcels; i++) {
        Region r = region_of(&set.parcel[i]);
        for (size_t ring = 0, from = 0; ring < r.rings; from = r.ends[ring++]) {
            const uint16_t end = uint16_t(r.ends[ring] - from);
            Box b = plain_box({ r.xy + 2 * from, &end, 1 });
            ring_boxes[i].push_back({ double(b.west), double(b.south), double(b.east), double(b.north) });
        }
        for (int bit = 0; bit < 9; bit++) tile_boxes[i].push_back(tile_of(plain_box(r), bit, 0));
    }
}

/* The time a pair takes, all pairs `turns` times. */
template <class Ask> double time_of(const std::vector<Pair> &pairs, int turns, Ask ask) {
    unsigned sum = 0;
    double from = now();
    for (int k = 0; k < turns; k++)
        for (const Pair &p : pairs) sum += ask(p);
    kept_answers = sum;
    return (now() - from) / turns / double(pairs.size());
}

/* One line. A call that is slow is asked about fewer pairs, spread over the set, and plain C about the same ones. */
static void measure(const Call &call, const std::vector<Pair> &all, int rounds) {
    size_t agree = 0;
    auto ask = [&](const Pair &p) { return call.tiles(p.a, p.b); };
    double from = now();
    for (const Pair &p : all) agree += ask(p) == plain_tiles(p);
    double each = (now() - from) / double(all.size());
    size_t wanted = std::min(all.size(), std::max(size_t(11), size_t(20e6 / each)));
    std::vector<Pair> some;
    for (size_t k = 0; k < wanted; k++) some.push_back(all[k * all.size() / wanted]);
    int plain_turns = int(2e6 / (time_of(some, 1, plain_tiles) * double(wanted))) + 1;
    std::vector<double> plain, library, ratio;
    for (int r = 0; r < rounds; r++) {
        plain.push_back(time_of(some, plain_turns, plain_tiles));
        library.push_back(time_of(some, 1, ask));
        ratio.push_back(library.back() / plain.back());
    }
    double middle = part(ratio, 0.5);
    printf("%-9s %-6s %-26s %-15s %8.0f %10.0f   %7.1f (%.1f-%.1f)%*s %zu of %zu", set.name, call.library, call.name, kinds[call.kind],
        part(plain, 0.5), part(library, 0.5), middle, part(ratio, 0.1), part(ratio, 0.9), 3, "", agree, all.size());
    if (proved.count(set.name)) {
        double factor = middle / proved[set.name];
        Least &l = least[{ call.library, call.kind }];
        printf("   %.1f", factor);
        if (factor < l.factor) l = { factor, std::string(call.name) + " on " + set.name };
    }
    printf("\n");
    if (agree != all.size() && call.kind != TOUCHING) differs = true;
    fflush(stdout);
}

int main(int argc, char **argv) {
    int rounds = argc > 1 ? atoi(argv[1]) : 21;
    if (rounds < 1) return 2;
    std::ifstream ratios(argc > 2 ? argv[2] : "");
    for (std::string name; ratios >> name;) ratios >> proved[name];
    std::vector<Library> libraries = { geos_library(), boost_library(), cgal_library() };
    for (const Library &l : libraries) printf("%s\n", l.version.c_str());
    printf("%-9s %-6s %-26s %-15s %8s %10s   %-20s %-12s   %s\n", "set", "of", "call", "kind", "plain ns", "library ns", "library / plain", "agree", "library / proved");
    for (size_t k = 0; k < SETS; k++) {
        make_set(k, &set);
        std::vector<Pair> all;
        for (size_t i = 0; i < set.parcels; i++)
            for (size_t j = 1; j < 12; j++) all.push_back({ i, (i + 5 * j) % set.parcels });
        make_boxes();
        for (const Library &l : libraries) {
            l.prepare(set);
            for (const Call &call : l.calls) measure(call, all, rounds);
        }
    }
    for (const auto &l : least)
        printf("%s, %s: at least %.1f times the proved code's time (%s)\n", l.first.first.c_str(), kinds[l.first.second], l.second.factor, l.second.at.c_str());
    return differs;
}
