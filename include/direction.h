/* direction.h: where two parcels lie from each other. One call for the C host beside the steering.
 * SPDX-License-Identifier: Apache-2.0
 *
 * The archive target/staticlib/libhost.a (made by `tools/archive`, for x86-64 Linux) holds the function below and nothing else that a
 * linker sees. It is proved: for every card of any content and length, and every report buffer of any length, the call ends, answers
 * exactly what is described here, and changes no other memory. What a proof does not reach, the compiler and this header, is tested: the
 * archive is run against a second program that was written apart from it.
 *
 *     uint8_t report[DIRECTION_REPORT_LENGTH];
 *     uint32_t number = direction_report(card, card_length, report, sizeof report);
 *     if (number == 0) {
 *         unsigned tiles = direction_word(report, DIRECTION_FIRST_TO_SECOND);
 *         if (tiles & DIRECTION_NW) ..
 *     }
 *
 * C99 or later, or C++. Build: cc -std=c99 -Iinclude host.c target/staticlib/libhost.a, or, where tools/install has put header and archive,
 * cc -std=c99 host.c $(pkg-config --cflags --libs direction). examples/host.c and examples/cards.c are such programs; docs/HOST.md is the
 * page for their writers.
 */
#ifndef DIRECTION_H
#define DIRECTION_H

#include <stddef.h>
#include <stdint.h>

#ifdef __cplusplus
extern "C" {
#endif

/* The version of this header and of the archive beside it; CHANGELOG.md says what each brought. A host can ask for one at compile time:
 *     #if DIRECTION_VERSION_NUMBER < 10100
 *     #error "direction 1.1.0 or later is needed"
 *     #endif
 */
#define DIRECTION_VERSION "1.1.0"
#define DIRECTION_VERSION_MAJOR 1
#define DIRECTION_VERSION_MINOR 1
#define DIRECTION_VERSION_PATCH 0
#define DIRECTION_VERSION_NUMBER (DIRECTION_VERSION_MAJOR * 10000 + DIRECTION_VERSION_MINOR * 100 + DIRECTION_VERSION_PATCH)

/* direction_report: reads a card of exactly two parcels and writes the report on them.
 *
 *   card, card_length       the card's bytes; they are only read.
 *   report, report_length   the buffer for the report. Its first 38 bytes are written if the answer is 0; every byte past them keeps its
 *                           value. If the answer is not 0, the whole buffer keeps its values.
 *   returns                 0, or the number of the refusal: one of the DIRECTION_REFUSED_ numbers below.
 *
 * Pointers: both must be non-null, also where the length is 0, and must point to at least as many bytes as the length says. The two
 * must not overlap. Any alignment is good. Lengths are counted in bytes.
 * Ownership: both blocks stay the caller's; the call keeps neither pointer.
 * Reentrant: the call keeps no state between calls and has no global variables. Threads may call it at the same time, each with a report
 * of its own; they may share a card.
 * Memory: no heap. At most DIRECTION_STACK bytes of stack, whatever the card, the call's own return address and frame included; what the
 * host's memcpy and memset take comes on top.
 * Library: no function of the C library is used but memcpy and memset, to which the compiler of the archive turns the copying and
 * clearing of arrays. A host without a C library has to have these two, as C compilers ask of every such environment.
 * Interrupts: the code keeps to the x86-64 System V calling convention, and with it uses the 128 bytes below the stack pointer (the "red
 * zone"; counted in DIRECTION_STACK) and the SSE registers. Signal handlers of Linux spare both. Code that interrupts a call on the same
 * stack, as in a kernel, must spare both too, or the answer may be wrong.
 * Time: bounded. The call has no loop without a fixed bound: at most 32 parcels of at most 64 vertices are looked at. No card that was
 * tried took more than DIRECTION_INSTRUCTIONS instructions; that is a trial and no bound.
 */
uint32_t direction_report(const uint8_t *card, size_t card_length, uint8_t *report, size_t report_length);

/* Sizes, in bytes. */
#define DIRECTION_REPORT_LENGTH 38
#define DIRECTION_CARD_TWO_MOST 1076 /* the longest card of two parcels: a card that is answered with 0 has no more */
#define DIRECTION_CARD_MOST 17036 /* the longest card of any number of parcels; a longer one is refused (14) */
#define DIRECTION_STACK 4096      /* stack of a call, at most; memcpy and memset are the host's and not counted */
#define DIRECTION_CODE 28672      /* code and constants of the archive, at most; it has no variables */

/* Instructions (x86-64): no card that was tried took more, and none that is answered with 0 more than the second; another card may. */
#define DIRECTION_INSTRUCTIONS 6000000
#define DIRECTION_INSTRUCTIONS_ANSWERED 700000

/* The refusals, in the order in which they are looked for. The first that applies is answered. */
#define DIRECTION_REFUSED_REPORT_SHORT 10  /* the report buffer has under 38 bytes; the card is not looked at */
#define DIRECTION_REFUSED_CARD_HEADER 14   /* under 12 bytes; more than 32 parcels, 256 rings or 2,048 vertices; an offset or the length wrong */
#define DIRECTION_REFUSED_CARD_PARCELS 15  /* slots not strictly rising or above 31; a ring count of 0 or above 8; counts not adding to the header's */
#define DIRECTION_REFUSED_RING_LENGTH 2    /* a ring has fewer than 3 vertices (ends that stall or fall included) */
#define DIRECTION_REFUSED_VERTICES 3       /* a parcel has more than 64 vertices.  2 and 3: parcel by parcel, in a parcel the lower first */
#define DIRECTION_REFUSED_CARD_VERTICES 16 /* the parcels' vertices do not add to the header's */
#define DIRECTION_REFUSED_COORDINATE 4     /* a coordinate outside -1,000,000 .. 1,000,000 */
#define DIRECTION_REFUSED_VERTEX_TWICE 5   /* two successive vertices of a ring are equal, last to first included */
#define DIRECTION_REFUSED_EDGES_MEET 6     /* edges of one ring cross, touch or fold back on each other */
#define DIRECTION_REFUSED_TURN 7           /* a ring not clockwise.  4 to 7: parcel by parcel, in a parcel the lowest first */
#define DIRECTION_REFUSED_NOT_TWO 17       /* the card is good, but does not hold exactly two parcels */

/* Proved: one of these or 0 is answered, and no other number. 13 stood for a relation without a tile, which two good parcels never have;
 * it was taken out, and no refusal to come gets it. */

/* The report: 19 numbers of two bytes, the lower byte first. Place of each, counted in numbers from 0. "First" is the parcel of the
 * lower slot.
 * Tiles: a parcel lies in a tile where some of it lies inside; what only touches the tile's rim from outside does not count.
 * Matrix: the lines of both boxes cut the frame round both into at most three rows and columns, fewer where two lines fall together; a gap
 * between the boxes is a row or a column of its own. A cell holds a parcel that has it in its box and lies in its tile of the other's box.
 * Directions: which way it is from some cell of the second to some cell of the first. They tell more than the tiles: a parcel with the
 * tiles N and B may have the directions NW, N, NE, W and O. Those of the second from the first are the opposite ones: bit k for bit 8 - k. */
#define DIRECTION_FIRST_TO_SECOND 3 /* places 0, 1 and 2 are 0. Tiles of the second's box in which the first lies: a set, see below */
#define DIRECTION_SECOND_TO_FIRST 4 /* tiles of the first's box in which the second lies */
#define DIRECTION_ROWS 5            /* rows of the interaction matrix, 1 to 3, from the north */
#define DIRECTION_COLUMNS 6         /* its columns, 1 to 3, from the west */
#define DIRECTION_CELLS 7           /* places 7 to 15: its cells, three to a row: 1 holds the first, 2 the second, 3 both, 0 neither; */
                                    /* cells past the rows and columns are 0 */
#define DIRECTION_DIRECTIONS 16     /* directions of the first from the second: a set */
#define DIRECTION_FIRST_PIECES 17   /* pieces into which the lines of the second's box cut the edges of the first */
#define DIRECTION_SECOND_PIECES 18  /* and those of the first's box the edges of the second */

/* The box of a parcel reaches from its least to its greatest x and y. The four lines of the box, drawn on without end, cut the plane into
 * nine tiles: the box itself, B, and the eight around it, named by the compass. A set of tiles or of directions: these numbers added up. In
 * a set of directions DIRECTION_B is the direction O, the same place. */
#define DIRECTION_NW 1
#define DIRECTION_N 2
#define DIRECTION_NE 4
#define DIRECTION_W 8
#define DIRECTION_B 16
#define DIRECTION_E 32
#define DIRECTION_SW 64
#define DIRECTION_S 128
#define DIRECTION_SE 256

/* The first parcel is around the second exactly where its tiles (DIRECTION_FIRST_TO_SECOND) are all but DIRECTION_B, 495, and the second's
 * (DIRECTION_SECOND_TO_FIRST) are DIRECTION_B alone, 16; the second around the first where it is the other way. Never both. */

/* The number at a place of a report. */
static inline unsigned direction_word(const uint8_t *report, unsigned place)
{
    return report[2 * place] + 256u * report[2 * place + 1];
}

/* The card: little-endian numbers, of two bytes unless said otherwise, without gaps.
 *
 *   bytes 0 to 11    parcels P, rings R, vertices V; then the offsets of the three parts: 12, 12 + 4 P, 12 + 4 P + 2 R
 *   from byte 12     for each parcel, in rising order of slots: its slot (0 to 31), the number of its rings (1 to 8)
 *   then             for each parcel, for each ring: how many vertices the parcel has up to the end of that ring
 *   then             for each parcel, for each vertex: x and y, signed, four bytes each. x grows east, y north.
 *   The length is exactly 12 + 4 P + 2 R + 8 V. Rings are clockwise, the last vertex joins the first and is not repeated.
 *   Coordinates are whole numbers of any unit, the same one for both parcels.
 *   A parcel is all that its rings enclose together; they may touch and overlap. A ring is never a hole: a hole turned clockwise would be
 *   filled. A field with a hole is drawn as rings that lie round the hole.
 *
 * Where the numbers above come from, of the archive as rt makes it. Stack: 4,048 bytes, added up from its code (tools/host-stack): it has no
 * recursion and no frame of variable size, so its deepest chain of calls tells what any card can take. Seen in runs (tools/host-cost.c):
 * 4,032 bytes, the most over 2,001 cards, the 2,000 good and bad ones that `independent cards 2000 1` makes and examples/two-parcels.card,
 * with the memcpy and memset of the C library that rt's programs run with; another card may take more, up to the first number. Code and
 * constants: 21,732 bytes (readelf). The gate (.ci/run) takes all three again and holds them to the sizes above.
 *
 * Instructions: some 5,698,000 on a card of 32 parcels, each a spiral that stands on its corner, the last one turned round: all are checked, and
 * then the card is refused with 7. Some 652,000 on a card of two such spirals, which is answered. Counted by valgrind's callgrind
 * (tools/host-instructions), memcpy and memset of glibc 2.36 included, over 2,298 cards: the 2,000 of `independent cards 2000 1`, the
 * examples, and those that tools/host-slow.c makes to be slow. What costs most is rule 6 on edges that lie near each other, so these have
 * parcels of 64 vertices whose edges nearly all do: spirals and zigzags at many angles, and small shapes beside one far vertex; in two of
 * them every edge of one parcel but two crosses all four lines of the other's box. The gate does not count again.
 */

#ifdef __cplusplus
}
#endif

#endif
