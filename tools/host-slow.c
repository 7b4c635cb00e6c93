/* host-slow.c: writes cards that are slow for the C host's call into the folder of the command line, a file each, named for what is in them.
 * What costs most is rule 6: a pair of edges that lie near each other is asked with products. So the parcels have 64 vertices in one ring
 * and bring nearly every pair near: the hard shapes of bench/sets.c, spirals and zigzags turned by many angles, and small shapes with one
 * vertex far out, beside which all other edges lie in one band. Of each shape there are a card of two such parcels, which is answered, and
 * one of 32, which is refused with 17 only after all of them were checked; and one of 32 whose last is drawn the wrong way round and is
 * refused with 7. Two more cards are slow for the relation: each edge of one parcel but two crosses all four lines of the other's box.
 * For tools/host-instructions. The shapes are checked by plain C (bench/plain.c): one that breaks a rule ends it with status 1.
 */
#include "../bench/sets.h"

#include <math.h>
#include <stdio.h>
#include <stdlib.h>
#include <string.h>

static const char *folder;

static void put(FILE *file, uint32_t v, int bytes)
{
    for (int k = 0; k < bytes; k++)
        putc((int)(v >> 8 * k & 255), file);
}

/* A card of `count` parcels, all of one ring. */
static void write_card(const char *kind, const char *name, const Parcel *const *parcels, uint32_t count)
{
    char path[500];
    snprintf(path, sizeof path, "%s/%s-%s.card", folder, kind, name);
    for (char *c = path + strlen(folder); *c; c++)
        if (*c == ' ')
            *c = '-';
    FILE *file = fopen(path, "wb");
    if (!file)
        exit(1);
    uint32_t vertices = 0;
    for (uint32_t i = 0; i < count; i++)
        vertices += parcels[i]->ends[0];
    put(file, count, 2), put(file, count, 2), put(file, vertices, 2);
    put(file, 12, 2), put(file, 12 + 4 * count, 2), put(file, 12 + 6 * count, 2);
    for (uint32_t i = 0; i < count; i++)
        put(file, i, 2), put(file, 1, 2);
    for (uint32_t i = 0; i < count; i++)
        put(file, parcels[i]->ends[0], 2);
    for (uint32_t i = 0; i < count; i++)
        for (size_t k = 0; k < 2u * parcels[i]->ends[0]; k++)
            put(file, (uint32_t)parcels[i]->xy[k], 4);
    fclose(file);
}

static void add(Parcel *p, double x, double y)
{
    size_t n = p->rings ? p->ends[0] : 0;
    p->xy[2 * n] = (int32_t)floor(x + 0.5);
    p->xy[2 * n + 1] = (int32_t)floor(y + 0.5);
    p->ends[0] = (uint16_t)(n + 1);
    p->rings = 1;
}

static Parcel reversed(const Parcel *p)
{
    Parcel r = *p;
    size_t n = p->ends[0];
    for (size_t k = 0; k < n; k++)
        memcpy(r.xy + 2 * k, p->xy + 2 * (n - 1 - k), 2 * sizeof *r.xy);
    return r;
}

static uint32_t refusal(const Parcel *p)
{
    return plain_check(region_of(p)) % 65536;
}

/* The parcel, drawn clockwise. */
static Parcel clockwise(Parcel p)
{
    return refusal(&p) == 7 ? reversed(&p) : p;
}

/* The three cards of a shape. */
static void cards_of(const char *name, Parcel shape)
{
    const Parcel *all[SLOTS];
    shape = clockwise(shape);
    Parcel wrong = reversed(&shape);
    if (refusal(&shape) != 0) {
        fprintf(stderr, "host-slow: %s is refused with %lu\n", name, (unsigned long)refusal(&shape));
        exit(1);
    }
    for (int i = 0; i < SLOTS; i++)
        all[i] = &shape;
    write_card("two", name, all, 2);
    write_card("full", name, all, SLOTS);
    all[SLOTS - 1] = &wrong;
    write_card("full-last-turned", name, all, SLOTS);
}

/* A band along a way of 32 corners, so 64 vertices: there on one side, half its width beside the way, and back on the other. */
enum { CORNERS = 32 };
typedef struct { double x, y; } Point;

static Parcel band(const Point *way, double width)
{
    Parcel p = { .rings = 0 };
    for (int back = 0; back < 2; back++)
        for (int i = 0; i < CORNERS; i++) {
            int k = back ? CORNERS - 1 - i : i;
            Point a = way[k > 0 ? k - 1 : k], b = way[k < CORNERS - 1 ? k + 1 : k], c = way[k];
            /* along the bisector of the two edges, so that the side keeps its distance from both */
            double ux = c.x - a.x, uy = c.y - a.y, vx = b.x - c.x, vy = b.y - c.y, u = hypot(ux, uy), v = hypot(vx, vy);
            if (u == 0) ux = vx, uy = vy, u = v;
            if (v == 0) vx = ux, vy = uy, v = u;
            double nx = -(uy / u + vy / v), ny = ux / u + vx / v, cosine = (nx * -uy + ny * ux) / u;
            double far = (back ? -1 : 1) * width / 2 / cosine;
            add(&p, c.x + nx * far, c.y + ny * far);
        }
    return p;
}

static Parcel turned_by(Parcel p, double angle, double scale, double x, double y)
{
    for (size_t k = 0; k < p.ends[0]; k++) {
        double u = p.xy[2 * k], v = p.xy[2 * k + 1];
        p.xy[2 * k] = (int32_t)floor(scale * (u * cos(angle) - v * sin(angle)) + x + 0.5);
        p.xy[2 * k + 1] = (int32_t)floor(scale * (u * sin(angle) + v * cos(angle)) + y + 0.5);
    }
    return p;
}

/* A spiral of `sides` edges a turn. */
static Parcel spiral(int sides)
{
    Point way[CORNERS];
    const double turn = 6.283185307179586;
    double between = 560000.0 * sides / (CORNERS + sides) * cos(turn / 2 / sides); /* two windings */
    for (int k = 0; k < CORNERS; k++) {
        double r = 600000.0 * (CORNERS + sides - k) / (CORNERS + sides);
        way[k].x = r * cos(turn * k / sides), way[k].y = r * sin(turn * k / sides);
    }
    return band(way, between * 0.4);
}

static Parcel zigzag(double tall)
{
    Point way[CORNERS];
    for (int k = 0; k < CORNERS; k++)
        way[k].x = 20000.0 * (k - CORNERS / 2), way[k].y = k % 2 ? tall : -tall;
    return band(way, 9000);
}

/* The corner that lies furthest to the north-east moved far out. */
static Parcel with_a_lane(Parcel p)
{
    size_t best = 0;
    for (size_t k = 0; k < p.ends[0]; k++)
        if ((int64_t)p.xy[2 * k] + p.xy[2 * k + 1] > (int64_t)p.xy[2 * best] + p.xy[2 * best + 1])
            best = k;
    p.xy[2 * best] = p.xy[2 * best + 1] = 1000000;
    return p;
}

static void family(const char *name, Parcel p)
{
    char text[100];
    for (int degrees = 0; degrees < 90; degrees += 9) {
        double angle = degrees * 6.283185307179586 / 360;
        snprintf(text, sizeof text, "%s turned %d", name, degrees);
        cards_of(text, turned_by(p, angle, 1, 0, 0));
        snprintf(text, sizeof text, "%s turned %d with a lane", name, degrees);
        Parcel small = with_a_lane(turned_by(p, angle, 0.045, -955000, -955000));
        small = clockwise(small);
        if (refusal(&small) == 0) /* the lane of some crosses the shape */
            cards_of(text, small);
    }
}

int main(int count, char **words)
{
    if (count != 2)
        return 2;
    folder = words[1];
    Parcel p;
    const char *name;
    for (size_t k = 0; (name = hard_shape(k, &p)) != 0; k++)
        cards_of(name, p);
    family("spiral of 3", spiral(3));
    family("spiral of 4", spiral(4));
    family("spiral of 5", spiral(5));
    family("zigzag", zigzag(300000));
    family("flat zigzag", zigzag(80000));
    /* Every edge crosses four lines: a diagonal zigzag, and small parcels within all its edges' ranges. */
    Parcel wide = clockwise(turned_by(zigzag(600000), 0.7853981633974483, 0.9, 0, 0)), small = clockwise(turned_by(spiral(4), 0.4, 0.01, 0, 0));
    const Parcel *pair[2] = { &wide, &small };
    write_card("two", "four lines", pair, 2);
    pair[0] = &small, pair[1] = &wide;
    write_card("two", "four lines of the first", pair, 2);
    return 0;
}
