/*
 * Reads one exchange record from standard input and prints its heading by a list of four known strings: symbol 0 with the numbers of the name and
 * the dates, 9 where there are no dates.
 *
 * From the top of the repository, on x86-64:
 *
 *     tools/library
 *     cc -std=c11 -Wall -Wextra -Iinclude examples/marc.c target/staticlib/libcapi.a -o target/marc
 *     leader='00082nz  a2200037n  4500' entry=100004400000
 *     printf '%s%s\036%s\037%s\037%s\036\035' "$leader" "$entry" '1 ' 'aGoethe, Johann Wolfgang von,' 'd1749-1832' | target/marc
 *
 * That prints `heading 0 7 5`.
 */
#include <inttypes.h>
#include <stdio.h>

#include "shuuxideg.h"

enum { MOST_BYTES = 99999, STRINGS = 4, NODES = 3, HEADING = 0, ABSENT = 9 };

int main(void)
{
    /* the strings rise, so that a call tests them by one walk */
    static const char *const strings[STRINGS] = {"1749-1832", "1759-1805", "Goethe, Johann Wolfgang von,", "Schiller, Friedrich,"};
    static const uint16_t numbers[STRINGS] = {5, 6, 7, 8};

    uint8_t text[80];
    uint32_t ends[STRINGS];
    uint32_t end = 0;
    for (int j = 0; j < STRINGS; j++) {
        for (const char *byte = strings[j]; *byte != 0; byte++)
            text[end++] = (uint8_t)*byte;
        ends[j] = end;
    }

    /* one byte more than a record can have, so that a longer input is not taken for its beginning */
    static uint8_t record[MOST_BYTES + 1];
    size_t length = fread(record, 1, sizeof record, stdin);

    uint16_t nodes[NODES];
    uint64_t answer = shx_marc_heading(record, length, text, end, ends, STRINGS, numbers, STRINGS, HEADING, ABSENT, nodes, NODES);
    if (answer != 0) {
        printf("refused %u %" PRIu64 "\n", SHX_NUMBER(answer), SHX_PLACE(answer));
        return 1;
    }
    printf("heading %u %u %u\n", nodes[0], nodes[1], nodes[2]);
    return 0;
}
