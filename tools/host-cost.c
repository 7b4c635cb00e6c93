/* host-cost.c: how much stack the C host's call takes on the cards of the command line, a file each. Each is asked about on a stack of its own
 * that was filled with a pattern; what the call changed of it, less what a function that does nothing changes, is the answer. Prints the most:
 * no bound, for another card may take more (tools/host-stack has the bound).
 */
#define _XOPEN_SOURCE 700
#include "direction.h"

#include <stdio.h>
#include <string.h>
#include <ucontext.h>

enum { STACK = 1 << 16, PATTERN = 0x5C };

static uint8_t stack[STACK];
static uint8_t card[DIRECTION_CARD_MOST + 1];
static size_t card_length;
static uint8_t report[DIRECTION_REPORT_LENGTH];
static uint32_t number;

static void nothing(void)
{
}

static void call(void)
{
    number = direction_report(card, card_length, report, sizeof report);
}

static size_t used_by(void (*function)(void))
{
    ucontext_t here, there;
    memset(stack, PATTERN, sizeof stack);
    getcontext(&there);
    there.uc_stack.ss_sp = stack;
    there.uc_stack.ss_size = sizeof stack;
    there.uc_link = &here;
    makecontext(&there, function, 0);
    swapcontext(&here, &there);
    size_t low = 0;
    while (low < sizeof stack && stack[low] == PATTERN)
        low++;
    return sizeof stack - low;
}

int main(int count, char **names)
{
    size_t most = 0, base = used_by(nothing);
    for (int i = 1; i < count; i++) {
        FILE *file = fopen(names[i], "rb");
        if (!file)
            return 1;
        card_length = fread(card, 1, sizeof card, file);
        fclose(file);
        call(); /* so that the linker's first look for memcpy and memset is not counted */
        size_t used = used_by(call) - base;
        if (used > most)
            most = used;
    }
    printf("%lu\n", (unsigned long)most);
    return 0;
}
