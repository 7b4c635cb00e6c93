/* The direction part's inner work in plain C: exact in 64-bit whole numbers, one edge after the other. */
#include "plain.h"
#include <string.h>

typedef struct { uint32_t set, pieces; } Seen;
typedef struct { int64_t ax, ay, bx, by; } Edge;

static int64_t least(int64_t a, int64_t b) { return a < b ? a : b; }
static int64_t most(int64_t a, int64_t b) { return a < b ? b : a; }

static Edge edge_of(const int32_t *p, size_t n, size_t k) {
    size_t next = k + 1 == n ? 0 : k + 1;
    return (Edge){ p[2 * k], p[2 * k + 1], p[2 * next], p[2 * next + 1] };
}

/* ---- rules 1 to 7 */

/* Above 0: the point lies left of the edge; below 0: right of it; 0: on its line. */
static int64_t side(Edge g, int64_t x, int64_t y) { return (g.bx - g.ax) * (y - g.ay) - (g.by - g.ay) * (x - g.ax); }

static int overlap(int64_t a, int64_t b, int64_t c, int64_t d) { return least(a, b) <= most(c, d) && least(c, d) <= most(a, b); }

static int same_side(int64_t p, int64_t q) { return (p > 0 && q > 0) || (p < 0 && q < 0); }

static int share_a_point(Edge g, Edge h) {
    if (!overlap(g.ax, g.bx, h.ax, h.bx) || !overlap(g.ay, g.by, h.ay, h.by)) return 0;
    if (same_side(side(g, h.ax, h.ay), side(g, h.bx, h.by))) return 0;
    return !same_side(side(h, g.ax, g.ay), side(h, g.bx, g.by));
}

/* h goes on from g's end: do they share more than that? */
static int fold(Edge g, Edge h) {
    return side(g, h.bx, h.by) == 0 && (g.bx - g.ax) * (h.bx - h.ax) + (g.by - g.ay) * (h.by - h.ay) < 0;
}

static int repeated(const int32_t *p, size_t n) {
    for (size_t k = 0; k < n; k++) {
        Edge g = edge_of(p, n, k);
        if (g.ax == g.bx && g.ay == g.by) return 1;
    }
    return 0;
}

static int tangled(const int32_t *p, size_t n) {
    for (size_t j = 1; j < n; j++) {
        Edge h = edge_of(p, n, j);
        for (size_t i = 0; i < j; i++) {
            Edge g = edge_of(p, n, i);
            if (i + 1 == j ? fold(g, h) : i == 0 && j + 1 == n ? fold(h, g) : share_a_point(g, h)) return 1;
        }
    }
    return 0;
}

static int turned(const int32_t *p, size_t n) {
    int64_t sum = 0;
    for (size_t k = 0; k < n; k++) {
        Edge g = edge_of(p, n, k);
        sum += g.ax * g.by - g.bx * g.ay;
    }
    return sum >= 0;
}

static int outside(const int32_t *p, size_t n) {
    for (size_t k = 0; k < 2 * n; k++)
        if (p[k] < -1000000 || 1000000 < p[k]) return 1;
    return 0;
}

static uint32_t first_ring(Region r, uint32_t rule, int (*breaks)(const int32_t *, size_t)) {
    size_t from = 0;
    for (size_t i = 0; i < r.rings; i++) {
        if (breaks(r.xy + 2 * from, r.ends[i] - from)) return rule + 65536 * (uint32_t)i;
        from = r.ends[i];
    }
    return 0;
}

uint32_t plain_check(Region r) {
    if (r.rings == 0 || MOST_RINGS < r.rings) return 1;
    size_t from = 0;
    for (size_t i = 0; i < r.rings; i++) {
        if (r.ends[i] < from + 3) return 2 + 65536 * (uint32_t)i;
        from = r.ends[i];
    }
    if (MOST_VERTICES < from) return 3;
    uint32_t refused = first_ring(r, 4, outside);
    if (refused == 0) refused = first_ring(r, 5, repeated);
    if (refused == 0) refused = first_ring(r, 6, tangled);
    if (refused == 0) refused = first_ring(r, 7, turned);
    return refused;
}

/* ---- the relation */

static Box box_of(const int32_t *p, size_t n) {
    Box b = { p[0], p[1], p[0], p[1] };
    for (size_t k = 1; k < n; k++) {
        int32_t x = p[2 * k], y = p[2 * k + 1];
        if (x < b.west) b.west = x;
        if (x > b.east) b.east = x;
        if (y < b.south) b.south = y;
        if (y > b.north) b.north = y;
    }
    return b;
}

/* How many of two lines lie behind v: those at or before it, or those strictly before it. */
static int behind(int64_t v, int64_t lo, int64_t hi, int at_counts) {
    return at_counts ? (lo <= v) + (hi <= v) : (lo < v) + (hi < v);
}

/* From tile to tile along one edge. On a line that it runs along, the edge lies on the right of travel. */
static Seen walk(Box b, Edge g) {
    int64_t dx = g.bx - g.ax, dy = g.by - g.ay;
    if (dx == 0 && dy == 0) return (Seen){ 0, 1 };
    int east = dx > 0 || (dx == 0 && dy > 0), north = dy > 0 || (dy == 0 && dx < 0);
    int column = behind(g.ax, b.west, b.east, east), row = behind(g.ay, b.south, b.north, north);
    int last_column = dx == 0 ? column : behind(g.bx, b.west, b.east, !east);
    int last_row = dy == 0 ? row : behind(g.by, b.south, b.north, !north);
    int step_x = b.west == b.east ? 2 : 1, step_y = b.south == b.north ? 2 : 1;
    if (dx < 0) step_x = -step_x;
    if (dy < 0) step_y = -step_y;
    Seen seen = { 1u << ((2 - row) * 3 + column), 1 };
    while (column != last_column || row != last_row) {
        if (row == last_row) column += step_x;
        else if (column == last_column) row += step_y;
        else {
            int64_t to_x = dx > 0 ? (column == 0 ? b.west : b.east) - g.ax : g.ax - (column == 2 ? b.east : b.west);
            int64_t to_y = dy > 0 ? (row == 0 ? b.south : b.north) - g.ay : g.ay - (row == 2 ? b.north : b.south);
            int64_t sooner = to_x * (dy < 0 ? -dy : dy) - to_y * (dx < 0 ? -dx : dx);
            if (sooner <= 0) column += step_x;
            if (sooner >= 0) row += step_y;
        }
        seen.pieces++;
        seen.set |= 1u << ((2 - row) * 3 + column);
    }
    return seen;
}

static int covers(Box a, Box b) { return a.west <= b.west && a.south <= b.south && b.east <= a.east && b.north <= a.north; }

static int encloses_centre(Box b, const int32_t *p, size_t n) {
    int64_t x = (int64_t)b.west + b.east, y = (int64_t)b.south + b.north;
    int odd = 0;
    for (size_t k = 0; k < n; k++) {
        Edge g = edge_of(p, n, k);
        Edge d = { 2 * g.ax, 2 * g.ay, 2 * g.bx, 2 * g.by };
        if ((d.ay <= y) == (d.by <= y)) continue;
        if (d.by > d.ay ? side(d, x, y) > 0 : side(d, x, y) < 0) odd = !odd;
    }
    return odd;
}

static Seen seen_from(Box b, Region a) {
    Seen all = { 0, 0 };
    size_t from = 0;
    for (size_t r = 0; r < a.rings; r++) {
        const int32_t *p = a.xy + 2 * from;
        size_t n = a.ends[r] - from;
        Seen ring = { 0, 0 };
        for (size_t k = 0; k < n; k++) {
            Seen edge = walk(b, edge_of(p, n, k));
            ring.set |= edge.set;
            ring.pieces += edge.pieces;
        }
        if (!(ring.set & 16) && covers(box_of(p, n), b) && encloses_centre(b, p, n)) ring.set |= 16;
        all.set |= ring.set;
        all.pieces += ring.pieces;
        from = a.ends[r];
    }
    return all;
}

Box plain_box(Region r) { return box_of(r.xy, vertices_of(r)); }

uint32_t plain_seen(Box b, Region a) {
    Seen seen = seen_from(b, a);
    return seen.set + 65536 * seen.pieces;
}

uint32_t plain_relation(Region a, Region b) { return plain_seen(plain_box(b), a); }

/* ---- the pair answer */

static size_t lines_of(int32_t a, int32_t b, int32_t c, int32_t d, int32_t *lines) {
    int32_t all[4] = { a, b, c, d };
    size_t n = 0;
    for (size_t i = 0; i < 4; i++) {
        size_t at = 0;
        while (at < n && lines[at] < all[i]) at++;
        if (at < n && lines[at] == all[i]) continue;
        for (size_t k = n; k > at; k--) lines[k] = lines[k - 1];
        lines[at] = all[i];
        n++;
    }
    return n;
}

static int holds(Box a, Box b, uint32_t relation, int32_t west, int32_t east, int32_t south, int32_t north) {
    if (west < a.west || a.east < east || south < a.south || a.north < north) return 0;
    int row = behind(south, b.south, b.north, 1), column = behind(west, b.west, b.east, 1);
    return relation >> ((2 - row) * 3 + column) & 1;
}

uint32_t plain_pair(Region a, Region b, uint32_t *rest) {
    *rest = 0;
    if (plain_check(a) != 0 || plain_check(b) != 0) return 0;
    Box box_a = plain_box(a), box_b = plain_box(b);
    Seen there = seen_from(box_b, a), back = seen_from(box_a, b);
    int32_t x[4], y[4];
    size_t columns = lines_of(box_a.west, box_a.east, box_b.west, box_b.east, x) - 1;
    size_t rows = lines_of(box_a.south, box_a.north, box_b.south, box_b.north, y) - 1;
    uint32_t cells[9] = { 0 }, directions = 0;
    for (size_t i = 0; i < rows; i++)
        for (size_t j = 0; j < columns; j++) {
            int32_t south = y[rows - 1 - i], north = y[rows - i];
            cells[3 * i + j] = (uint32_t)holds(box_a, box_b, there.set, x[j], x[j + 1], south, north)
                + 2 * (uint32_t)holds(box_b, box_a, back.set, x[j], x[j + 1], south, north);
        }
    for (int c = 0; c < 9; c++)
        for (int d = 0; d < 9; d++)
            if (cells[c] & 1 && cells[d] & 2) {
                int row = c / 3 < d / 3 ? 0 : c / 3 == d / 3 ? 1 : 2, column = c % 3 < d % 3 ? 0 : c % 3 == d % 3 ? 1 : 2;
                directions |= 1u << (3 * row + column);
            }
    for (int c = 0; c < 9; c++) *rest = 4 * *rest + cells[c];
    *rest += directions + there.pieces + back.pieces;
    return there.set + 65536 * back.set;
}

/* ---- a put */

static Region outline_in(const Sheet *s, size_t slot) {
    const uint16_t *record = s->records + (MOST_RINGS + 1) * slot;
    return (Region){ s->xs + 2 * MOST_VERTICES * slot, record + 1, record[0] };
}

uint32_t plain_put(Sheet *s, size_t slot, Region r) {
    uint32_t refused = plain_check(r);
    if (refused != 0) return refused % 65536;
    uint16_t *record = s->records + (MOST_RINGS + 1) * slot;
    memset(record, 0, (MOST_RINGS + 1) * sizeof *record);
    record[0] = (uint16_t)r.rings;
    memcpy(record + 1, r.ends, r.rings * sizeof *record);
    int32_t *room = s->xs + 2 * MOST_VERTICES * slot;
    memset(room, 0, 2 * MOST_VERTICES * sizeof *room);
    memcpy(room, r.xy, 2 * vertices_of(r) * sizeof *room);
    for (size_t k = 0; k < SLOTS; k++) {
        uint32_t there = 0, back = 0;
        if (k != slot && s->records[(MOST_RINGS + 1) * k] != 0) {
            Region other = outline_in(s, k);
            there = plain_relation(r, other);
            back = plain_relation(other, r);
        }
        s->relations[SLOTS * slot + k] = (uint16_t)(there % 65536);
        s->relations[SLOTS * k + slot] = (uint16_t)(back % 65536);
    }
    return 0;
}
