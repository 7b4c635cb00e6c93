/* host-ask.c: asks direction_report about each card on the command line, a file each, and prints the number and the report of 38 bytes, which
 * held A5 before, as the desk's request `host 38` does. For the gate, which compares the archive with the independent program.
 */
#include "direction.h"

#include <stdio.h>
#include <string.h>

int main(int count, char **names)
{
    static uint8_t card[DIRECTION_CARD_MOST + 1];
    uint8_t report[DIRECTION_REPORT_LENGTH];
    for (int i = 1; i < count; i++) {
        FILE *file = fopen(names[i], "rb");
        if (!file)
            return 1;
        size_t length = fread(card, 1, sizeof card, file);
        fclose(file);
        memset(report, 0xA5, sizeof report);
        printf("%lu ", (unsigned long)direction_report(card, length, report, sizeof report));
        for (size_t k = 0; k < sizeof report; k++)
            printf("%02x", report[k]);
        putchar('\n');
    }
    return 0;
}
