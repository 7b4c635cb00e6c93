/* Parcels to measure with. Everything is made of whole numbers and one generator with a fixed seed, so each run has the same ones. */
#include "sets.h"
#include <math.h>

static uint64_t state;

static uint64_t draw(void) {
    state ^= state >> 12;
    state ^= state << 25;
    state ^= state >> 27;
    return state * 2685821657736338717u;
}

static double between(double lo, double hi) { return lo + (hi - lo) * (double)(draw() >> 11) / 9007199254740992.0; }

static void add_vertex(Parcel *p, size_t *n, double x, double y) {
    p->xy[2 * *n] = (int32_t)floor(x + 0.5);
    p->xy[2 * *n + 1] = (int32_t)floor(y + 0.5);
    ++*n;
}

static void end_ring(Parcel *p, size_t n) { p->ends[p->rings++] = (uint16_t)n; }

/* A star-shaped ring, clockwise: angles fall, distances vary. */
static void star(Parcel *p, size_t *n, size_t vertices, double x, double y, double radius) {
    const double turn = 6.283185307179586;
    for (size_t k = 0; k < vertices; k++) {
        double angle = -turn * ((double)k + between(0.0, 0.8)) / (double)vertices, r = radius * between(0.35, 1.0);
        add_vertex(p, n, x + r * cos(angle), y + r * sin(angle));
    }
    end_ring(p, *n);
}

static void stars(Set *set, size_t vertices, double radius, double spread) {
    for (size_t i = 0; i < set->parcels; i++) {
        size_t n = 0;
        set->parcel[i].rings = 0;
        star(&set->parcel[i], &n, vertices, between(-spread, spread), between(-spread, spread), radius * between(0.7, 1.0));
    }
}

static void rings(Set *set) {
    for (size_t i = 0; i < set->parcels; i++) {
        size_t n = 0;
        double x = between(-400000, 400000), y = between(-400000, 400000);
        set->parcel[i].rings = 0;
        for (size_t r = 0; r < 8; r++) star(&set->parcel[i], &n, 8, x + between(-300000, 300000), y + between(-300000, 300000), 60000);
    }
}

/* A comb with 16 teeth; its feet, backs and tips lie on lines that other combs have too. */
static void combs(Set *set) {
    for (size_t i = 0; i < set->parcels; i++) {
        Parcel *p = &set->parcel[i];
        double x = 1000.0 * (double)(draw() % 24), y = 5000.0 * (double)(draw() % 5), width = 1000.0 * (double)(1 + draw() % 2);
        size_t n = 0;
        p->rings = 0;
        add_vertex(p, &n, x, y);
        for (size_t tooth = 0; tooth < 16; tooth++) {
            double west = x + 2 * width * (double)tooth;
            add_vertex(p, &n, west, y + 10000);
            add_vertex(p, &n, west + width, y + 10000);
            if (tooth == 15) {
                add_vertex(p, &n, west + width, y);
            } else {
                add_vertex(p, &n, west + width, y + 5000);
                add_vertex(p, &n, west + 2 * width, y + 5000);
            }
        }
        end_ring(p, n);
    }
}

/* Corner k of a path that winds inwards; `turned` turns it by an angle. */
static void wind(Parcel *p, size_t *n, double x, double y, double size, double step, size_t k, double inset, double turned) {
    double r = size - step * (double)(k / 4) - (k % 4 == 3 ? step : 0) - inset, s = size - step * (double)((k + 1) / 4) - inset;
    const double sx[4] = { -1, -1, 1, 1 }, sy[4] = { -1, 1, 1, -1 };
    double u = sx[k % 4] * (k % 4 == 0 ? size - step * (double)(k / 4) - inset : r), v = sy[k % 4] * (k % 4 == 3 ? s : size - step * (double)(k / 4) - inset);
    add_vertex(p, n, x + u * cos(turned) - v * sin(turned), y + u * sin(turned) + v * cos(turned));
}

static void spiral(Parcel *p, double x, double y, double size, double turned) {
    size_t n = 0;
    p->rings = 0;
    for (size_t k = 0; k < 32; k++) wind(p, &n, x, y, size, size / 10, k, 0, turned);
    for (size_t k = 32; k-- > 0;) wind(p, &n, x, y, size, size / 10, k, size / 25, turned);
    end_ring(p, n);
}

static void spirals(Set *set) {
    for (size_t i = 0; i < set->parcels; i++) spiral(&set->parcel[i], between(-300000, 300000), between(-300000, 300000), 250000 * between(0.7, 1.0), 0);
}

/* A field divided into 8 by 4 parcels; neighbours share every vertex of their border. */
static void farm(Set *set) {
    enum { ACROSS = 8, UP = 4, PARTS = 4 };
    static double node_x[UP * PARTS + 1][ACROSS * PARTS + 1], node_y[UP * PARTS + 1][ACROSS * PARTS + 1];
    for (int i = 0; i <= UP * PARTS; i++)
        for (int j = 0; j <= ACROSS * PARTS; j++) {
            node_x[i][j] = 3000.0 * j + between(-700, 700);
            node_y[i][j] = 4000.0 * i + between(-900, 900);
        }
    set->parcels = ACROSS * UP;
    for (int i = 0; i < UP; i++)
        for (int j = 0; j < ACROSS; j++) {
            Parcel *p = &set->parcel[i * ACROSS + j];
            size_t n = 0;
            int south = i * PARTS, north = south + PARTS, west = j * PARTS, east = west + PARTS;
            p->rings = 0;
            for (int k = south; k < north; k++) add_vertex(p, &n, node_x[k][west], node_y[k][west]);
            for (int k = west; k < east; k++) add_vertex(p, &n, node_x[north][k], node_y[north][k]);
            for (int k = north; k > south; k--) add_vertex(p, &n, node_x[k][east], node_y[k][east]);
            for (int k = east; k > west; k--) add_vertex(p, &n, node_x[south][k], node_y[south][k]);
            end_ring(p, n);
        }
}

void make_set(size_t k, Set *set) {
    static const char *names[SETS] = { "star64", "far64", "comb64", "spiral64", "hex6", "rings8x8", "farm" };
    state = 88172645463325252u + k;
    set->name = names[k];
    set->parcels = 48;
    if (k == 0) stars(set, 64, 300000, 300000);
    if (k == 1) stars(set, 64, 90000, 900000);
    if (k == 2) combs(set);
    if (k == 3) spirals(set);
    if (k == 4) stars(set, 6, 300000, 300000);
    if (k == 5) rings(set);
    if (k == 6) farm(set);
}

void make_stars(size_t n, Set *set) {
    state = 1442695040888963407u + n;
    set->name = "stars";
    set->parcels = 48;
    stars(set, n, 300000, 300000);
}

/* Teeth that lean: a zigzag band, turned by an angle. */
static void zigzag(Parcel *p, double turned) {
    size_t n = 0;
    p->rings = 0;
    for (int k = 0; k < 32; k++) {
        double u = 10000.0 * k, v = k % 2 ? 150000 : 0;
        add_vertex(p, &n, u * cos(turned) - v * sin(turned), u * sin(turned) + v * cos(turned));
    }
    for (int k = 32; k-- > 0;) {
        double u = 10000.0 * k, v = (k % 2 ? 150000 : 0) - 12000;
        add_vertex(p, &n, u * cos(turned) - v * sin(turned), u * sin(turned) + v * cos(turned));
    }
    end_ring(p, n);
}

/* A small shape with one vertex far out, as a parcel with a lane: its bands are wide, so all the rest lies in one of them. */
static void star_with_a_lane(Parcel *p) {
    size_t n = 0;
    state = 2862933555777941757u;
    p->rings = 0;
    star(p, &n, 64, -900000, -900000, 15000);
    p->xy[2 * 56] = 900000; /* vertex 56 looks north-east; a star stays one where a vertex goes further out */
    p->xy[2 * 56 + 1] = 900000;
}

static void comb_with_a_lane(Parcel *p) {
    size_t n = 0;
    p->rings = 0;
    add_vertex(p, &n, -900000, 0);
    for (int tooth = 0; tooth < 16; tooth++) {
        double west = -900000 + 1000.0 * tooth;
        add_vertex(p, &n, west, 10000);
        add_vertex(p, &n, west + 500, 10000);
        if (tooth == 15) continue;
        add_vertex(p, &n, west + 500, 5000);
        add_vertex(p, &n, west + 1000, 5000);
    }
    add_vertex(p, &n, 900000, -900000);
    end_ring(p, n);
}

/* A triangle with all but one vertex on one short side: its edges lie on one line and in one band. */
static void line_with_a_lane(Parcel *p) {
    size_t n = 0;
    p->rings = 0;
    for (int k = 0; k < 63; k++) add_vertex(p, &n, -900000 + 500.0 * k, 250.0 * k);
    add_vertex(p, &n, 900000, -900000);
    end_ring(p, n);
}

const char *hard_shape(size_t k, Parcel *p) {
    static const char *names[] = { "smooth ring", "square spiral", "spiral at 22 degrees", "diamond spiral", "flat zigzag", "zigzag at 22 degrees", "diagonal zigzag",
        "star with a lane", "comb with a lane", "line with a lane" };
    const double eighth = 0.7853981633974483;
    if (sizeof names / sizeof *names <= k) return 0;
    if (k == 0) {
        size_t n = 0;
        p->rings = 0;
        for (int i = 0; i < 64; i++) add_vertex(p, &n, 300000 * cos(-i * eighth / 8), 300000 * sin(-i * eighth / 8));
        end_ring(p, n);
    } else if (k < 4) {
        spiral(p, 0, 0, 300000, (double)(k - 1) * eighth / 2);
    } else if (k < 7) {
        zigzag(p, (double)(k - 4) * eighth / 2);
    } else if (k == 7) {
        star_with_a_lane(p);
    } else if (k == 8) {
        comb_with_a_lane(p);
    } else {
        line_with_a_lane(p);
    }
    return names[k];
}
