/* host.c: a C host in small. It makes cards, good and bad, asks direction_report about each, and prints a line a question.
 * It ends with status 1 if the call touched a byte that it must leave alone. Its output is kept in host.txt.
 *
 *     tools/c-program host examples/host.c     builds it with the archive, in the root of the repository
 *     tools/run host                           runs it
 */
#include "direction.h"

#include <stdio.h>
#include <string.h>

enum { CARD_ROOM = 2048, REPORT_ROOM = 64, UNTOUCHED = 0xA5 };

struct parcel {
    unsigned slot;
    unsigned rings;
    unsigned ends[8];
    int32_t vertices[64][2];
};

static const struct parcel a = {0, 1, {4}, {{0, 0}, {0, 10}, {10, 10}, {10, 0}}};
static const struct parcel c = {3, 1, {4}, {{5, 5}, {5, 25}, {25, 25}, {25, 5}}};
static const struct parcel triangle = {7, 1, {3}, {{-40, -40}, {-30, -20}, {-20, -40}}};
/* Four rectangles round a. */
static const struct parcel around = {
    4,
    4,
    {4, 8, 12, 16},
    {{-10, -10}, {-10, 40}, {0, 40}, {0, -10}, {0, 10}, {0, 40}, {10, 40}, {10, 10},
     {0, -10}, {0, 0}, {10, 0}, {10, -10}, {10, -10}, {10, 40}, {40, 40}, {40, -10}}};

static uint8_t card[CARD_ROOM];
static uint8_t report[REPORT_ROOM];
static int status = 0;

static void put_word(size_t at, unsigned value)
{
    card[at] = (uint8_t)(value % 256);
    card[at + 1] = (uint8_t)(value / 256);
}

static void put_number(size_t at, int32_t value)
{
    uint32_t bits = (uint32_t)value;
    put_word(at, bits % 65536);
    put_word(at + 2, bits / 65536);
}

/* Makes the card of the parcels and answers its length. */
static size_t make_card(size_t count, const struct parcel *const *parcels)
{
    unsigned rings = 0, vertices = 0;
    for (size_t i = 0; i < count; i++) {
        rings += parcels[i]->rings;
        vertices += parcels[i]->ends[parcels[i]->rings - 1];
    }
    unsigned rings_at = 12 + 4 * (unsigned)count;
    unsigned vertices_at = rings_at + 2 * rings;
    const unsigned header[6] = {(unsigned)count, rings, vertices, 12, rings_at, vertices_at};
    for (size_t k = 0; k < 6; k++)
        put_word(2 * k, header[k]);
    size_t entry = 12, ring = rings_at, vertex = vertices_at;
    for (size_t i = 0; i < count; i++) {
        const struct parcel *p = parcels[i];
        put_word(entry, p->slot);
        put_word(entry + 2, p->rings);
        entry += 4;
        for (unsigned r = 0; r < p->rings; r++, ring += 2)
            put_word(ring, p->ends[r]);
        for (unsigned v = 0; v < p->ends[p->rings - 1]; v++, vertex += 8) {
            put_number(vertex, p->vertices[v][0]);
            put_number(vertex + 4, p->vertices[v][1]);
        }
    }
    return vertex;
}

static size_t two(const struct parcel *first, const struct parcel *second)
{
    const struct parcel *parcels[2] = {first, second};
    return make_card(2, parcels);
}

static void print_set(unsigned set, const char *middle)
{
    const char *const names[9] = {"NW", "N", "NE", "W", middle, "E", "SW", "S", "SE"};
    const char *between = " ";
    for (unsigned k = 0; k < 9; k++) {
        if (set >> k & 1) {
            printf("%s%s", between, names[k]);
            between = ":";
        }
    }
}

static void print_report(void)
{
    print_set(direction_word(report, DIRECTION_FIRST_TO_SECOND), "B");
    print_set(direction_word(report, DIRECTION_SECOND_TO_FIRST), "B");
    unsigned rows = direction_word(report, DIRECTION_ROWS), columns = direction_word(report, DIRECTION_COLUMNS);
    for (unsigned i = 0; i < rows; i++) {
        fputs(i == 0 ? " " : "/", stdout);
        for (unsigned j = 0; j < columns; j++)
            printf("%u", direction_word(report, DIRECTION_CELLS + 3 * i + j));
    }
    print_set(direction_word(report, DIRECTION_DIRECTIONS), "O");
    printf(" %u %u", direction_word(report, DIRECTION_FIRST_PIECES), direction_word(report, DIRECTION_SECOND_PIECES));
}

/* Asks about the first `length` bytes of the card, with a report of `room` bytes, and prints what came. */
static void ask_with(const char *what, size_t length, size_t room)
{
    memset(report, UNTOUCHED, sizeof report);
    uint32_t number = direction_report(card, length, report, room);
    printf("%s: %lu", what, (unsigned long)number);
    if (number == 0)
        print_report();
    for (size_t i = number == 0 ? DIRECTION_REPORT_LENGTH : 0; i < sizeof report; i++) {
        if (report[i] != UNTOUCHED) {
            printf(" TOUCHED %lu", (unsigned long)i);
            status = 1;
        }
    }
    putchar('\n');
}

static void ask(const char *what, size_t length)
{
    ask_with(what, length, sizeof report);
}

/* The card of a and c with one number changed. */
static void ask_changed(const char *what, size_t at, unsigned value)
{
    size_t length = two(&a, &c);
    put_word(at, value);
    ask(what, length);
}

static void good_cards(void)
{
    ask("a and c", two(&a, &c));
    ask("a and the four round it", two(&a, &around));
    ask("the four round a and a triangle", two(&around, &triangle));
}

static void reports_of_other_lengths(void)
{
    size_t length = two(&a, &c);
    ask_with("a report of 0 bytes", length, 0);
    ask_with("a report of 37 bytes", length, 37);
    ask_with("a report of 38 bytes", length, 38);
    ask_with("a report of 37 bytes and no card", 0, 37);
}

static void other_lengths(void)
{
    size_t length = two(&a, &c);
    ask("no bytes", 0);
    ask("11 bytes", 11);
    ask("the card without its last byte", length - 1);
    ask("the card and a byte more", length + 1);
}

static void bad_headers_and_entries(void)
{
    ask_changed("33 parcels", 0, 33);
    ask_changed("257 rings", 2, 257);
    ask_changed("2049 vertices", 4, 2049);
    ask_changed("parcels at 13", 6, 13);
    ask_changed("rings at 19", 8, 19);
    ask_changed("vertices at 25", 10, 25);
    ask_changed("slot 32", 16, 32);
    ask_changed("slots 3 and 3", 12, 3);
    ask_changed("slots 4 and 3", 12, 4);
    ask_changed("a parcel without rings", 14, 0);
    ask_changed("a parcel of 9 rings", 14, 9);
    ask_changed("a ring more than the header says", 14, 2);
}

/* The card of a and c with the x of a's third vertex changed. */
static void ask_moved(const char *what, int32_t x)
{
    size_t length = two(&a, &c);
    put_number(40, x);
    ask(what, length);
}

static void bad_outlines(void)
{
    static const struct parcel repeated = {0, 1, {4}, {{0, 0}, {0, 10}, {0, 10}, {10, 0}}};
    static const struct parcel crossed = {0, 1, {4}, {{0, 0}, {10, 10}, {10, 0}, {0, 10}}};
    static const struct parcel turned = {0, 1, {4}, {{10, 0}, {10, 10}, {0, 10}, {0, 0}}};
    ask_changed("a ring of 2 vertices", 20, 2);
    ask_changed("a parcel of 65 vertices", 20, 65);
    ask_changed("a vertex less than the header says", 20, 3);
    ask_moved("x 1000000", 1000000);
    ask_moved("x 1000001", 1000001);
    ask("a vertex twice", two(&repeated, &c));
    ask("a ring that crosses itself", two(&crossed, &c));
    ask("a ring turned round", two(&turned, &c));
}

static void other_counts(void)
{
    const struct parcel *parcels[3] = {&a, &c, &triangle};
    ask("no parcels", make_card(0, parcels));
    ask("one parcel", make_card(1, parcels));
    ask("three parcels", make_card(3, parcels));
}

int main(void)
{
    good_cards();
    reports_of_other_lengths();
    other_lengths();
    bad_headers_and_entries();
    bad_outlines();
    other_counts();
    return status;
}
