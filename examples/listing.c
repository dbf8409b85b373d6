/*
 * Writes table T, matches the pattern 0 x0 x0 with the heading 0 1 5 2 6 at cut 600, and prints what may stand for x0:
 *
 *     match 600 700
 *     x0 2 600 700
 *     3 4
 *     7
 *
 * From the top of the repository, on x86-64:
 *
 *     tools/library
 *     cc -std=c11 -Wall -Wextra -Iinclude examples/listing.c target/staticlib/libcapi.a -o target/listing
 *     target/listing
 */
#include <stdio.h>

#include "shuuxideg.h"

enum { SYMBOLS = 8, PAIRS = 8, NODES = 5 };

static int refused(uint32_t answer)
{
    printf("refused %u %u\n", SHX_NUMBER(answer), SHX_PLACE(answer));
    return 1;
}

/* A line for each position of a variable, with the symbols that may stand there. */
static void print_variable(int v, const uint16_t *spans, const uint64_t *sets)
{
    int first = spans[4 * v];
    int count = spans[4 * v + 1];
    printf("x%d %d %d %d\n", v, count, spans[4 * v + 2], spans[4 * v + 3]);
    for (int p = first; p < first + count; p++) {
        const char *between = "";
        for (int k = 0; k < SYMBOLS; k++) {
            if (SHX_HAS(sets, p, k)) {
                printf("%s%d", between, k);
                between = " ";
            }
        }
        printf("\n");
    }
}

int main(void)
{
    static const uint8_t arities[SYMBOLS] = {2, 1, 1, 1, 1, 0, 0, 0};
    static const struct shx_pair_record pairs[PAIRS] = {
        {1, 2, 500}, {1, 3, 600}, {1, 4, 700}, {2, 3, 600}, {2, 4, 800}, {5, 6, 500}, {5, 7, 700}, {6, 7, 800},
    };
    uint8_t table[10 + SYMBOLS + 6 * PAIRS];
    size_t total;
    uint32_t answer = shx_write_table(arities, SYMBOLS, pairs, PAIRS, table, sizeof table, &total);
    if (answer != 0)
        return refused(answer);

    static const uint16_t pattern[] = {0, SHX_VARIABLE(0), SHX_VARIABLE(0)};
    static const uint16_t heading[NODES] = {0, 1, 5, 2, 6};
    uint16_t spans[SHX_SPANS];
    uint64_t sets[SHX_SET_WORDS * NODES];
    uint16_t lowest, highest;
    answer = shx_match(
        table, total, pattern, 3, heading, NODES, 600, spans, SHX_SPANS, sets, SHX_SET_WORDS * NODES, &lowest, &highest);
    if (answer != 0)
        return refused(answer);

    printf("match %u %u\n", lowest, highest);
    for (int v = 0; v < 32; v++)
        if (spans[4 * v + 1] > 0)
            print_variable(v, spans, sets);
    return 0;
}
