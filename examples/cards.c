/* cards.c: a C host that keeps the last cards it was given, with their reports, in a ring buffer of fixed size. Nothing is allocated: a new
 * card takes the place of the oldest. It feeds itself seven cards, as a cab would send them while a parcel is being drawn, and looks into
 * the buffer afterwards. It ends with status 1 if a card that is asked again answers otherwise. Its output is kept in cards.txt.
 *
 *     tools/c-program cards examples/cards.c                            builds it with the archive, in the root of the repository
 *     tools/run cards                                                   runs it
 *     cc -std=c99 cards.c $(pkg-config --cflags --libs direction)       builds it with the installed archive, on x86-64
 */
#include "direction.h"

#if DIRECTION_VERSION_NUMBER < 10100
#error "direction 1.1.0 or later is needed"
#endif

#include <stdio.h>
#include <string.h>

enum { KEPT = 4 };

/* A card as it came, and what was answered. */
struct kept {
    unsigned long which; /* cards are counted from 1 */
    size_t length;
    uint32_t number;
    uint8_t card[DIRECTION_CARD_TWO_MOST];   /* only where the number is 0: then the card fits */
    uint8_t report[DIRECTION_REPORT_LENGTH]; /* only where the number is 0 */
};

/* The last KEPT cards; all zeros is the empty buffer. */
struct buffer {
    struct kept cards[KEPT];
    unsigned long came;
};

/* Asks about a card, and keeps it and the answer in the place of the oldest. The card is lent for the call only. */
static const struct kept *keep(struct buffer *buffer, const uint8_t *card, size_t length)
{
    struct kept *kept = &buffer->cards[buffer->came % KEPT];
    kept->which = ++buffer->came;
    kept->length = length;
    kept->number = direction_report(card, length, kept->report, sizeof kept->report);
    if (kept->number == 0)
        memcpy(kept->card, card, length);
    return kept;
}

/* The card that came `back` cards before the newest, or NULL where it is no longer, or was never, there. */
static const struct kept *look(const struct buffer *buffer, unsigned long back)
{
    if (back >= KEPT || back >= buffer->came)
        return NULL;
    return &buffer->cards[(buffer->came - 1 - back) % KEPT];
}

/* The newest kept card on which the first parcel lies in one of these directions from the second, or NULL. */
static const struct kept *newest_with(const struct buffer *buffer, unsigned directions)
{
    const struct kept *kept;
    for (unsigned long back = 0; (kept = look(buffer, back)) != NULL; back++) {
        if (kept->number == 0 && (direction_word(kept->report, DIRECTION_DIRECTIONS) & directions) != 0)
            return kept;
    }
    return NULL;
}

/* Whether a kept card gives the same number and report when it is asked again. */
static int answers_again(const struct kept *kept)
{
    uint8_t report[DIRECTION_REPORT_LENGTH];
    return direction_report(kept->card, kept->length, report, sizeof report) == kept->number &&
           memcmp(report, kept->report, sizeof report) == 0;
}

static void print_set(unsigned set, const char *middle)
{
    const char *const names[9] = {"NW", "N", "NE", "W", middle, "E", "SW", "S", "SE"};
    const char *between = " ";
    for (unsigned k = 0; k < 9; k++) {
        if (set >> k & 1) {
            printf("%s%s", between, names[k]);
            between = ":";
        }
    }
}

static void print_kept(const struct kept *kept)
{
    printf("card %lu:", kept->which);
    if (kept->number != 0) {
        printf(" refused %lu\n", (unsigned long)kept->number);
        return;
    }
    print_set(direction_word(kept->report, DIRECTION_FIRST_TO_SECOND), "B");
    print_set(direction_word(kept->report, DIRECTION_DIRECTIONS), "O");
    printf(" %u\n", direction_word(kept->report, DIRECTION_FIRST_PIECES));
}

static void print_newest(const char *where, const struct kept *kept)
{
    printf("kept in the %s: ", where);
    if (kept != NULL)
        printf("card %lu\n", kept->which);
    else
        puts("none");
}

/* What the cab sends: the square 5 .. 25 in slot 3, and in slot 0 a parcel of four vertices. */
static size_t make_card(uint8_t *card, const int32_t *drawn)
{
    static const int32_t square[8] = {5, 5, 5, 25, 25, 25, 25, 5};
    static const unsigned words[12] = {2, 2, 8, 12, 20, 24, 0, 1, 3, 1, 4, 4};
    size_t at = 0;
    for (unsigned k = 0; k < 12; k++, at += 2) {
        card[at] = (uint8_t)words[k];
        card[at + 1] = 0;
    }
    for (unsigned k = 0; k < 16; k++) {
        uint32_t bits = (uint32_t)(k < 8 ? drawn[k] : square[k - 8]);
        for (unsigned b = 0; b < 4; b++)
            card[at++] = (uint8_t)(bits >> 8 * b);
    }
    return at;
}

int main(void)
{
    static const int32_t drawn[6][8] = {
        {0, 0, 0, 10, 10, 10, 10, 0},   /* the square of the first worked outline */
        {0, 0, 0, 10, 10, 10, 2, 4},    /* its last vertex is being moved */
        {0, 0, 0, 10, 10, 10, -5, 4},   /* too far: an edge crosses another */
        {0, 30, 0, 40, 10, 40, 10, 30}, /* the whole parcel farther north */
        {10, 0, 10, 10, 0, 10, 0, 0},   /* drawn the wrong way round */
        {30, 0, 30, 30, 40, 30, 40, 0}, /* the whole parcel in the east */
    };
    struct buffer buffer;
    uint8_t card[DIRECTION_CARD_TWO_MOST];
    memset(&buffer, 0, sizeof buffer);
    for (unsigned k = 0; k < 6; k++)
        print_kept(keep(&buffer, card, make_card(card, drawn[k])));
    print_kept(keep(&buffer, card, 40)); /* a card that was cut off on its way */

    fputs("kept, the newest first:", stdout);
    const struct kept *kept;
    for (unsigned long back = 0; (kept = look(&buffer, back)) != NULL; back++)
        printf(" %lu", kept->which);
    putchar('\n');
    print_newest("north", newest_with(&buffer, DIRECTION_N));
    print_newest("south-west", newest_with(&buffer, DIRECTION_SW));

    int status = 0;
    for (unsigned long back = 0; (kept = look(&buffer, back)) != NULL; back++) {
        if (kept->number == 0 && !answers_again(kept)) {
            printf("card %lu answers otherwise\n", kept->which);
            status = 1;
        }
    }
    return status;
}
