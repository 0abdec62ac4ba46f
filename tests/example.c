/*
 * Erodes a full sheet of 3 by 3 with the cross, in two slices with a look after each, and prints its levels.
 *
 * Build: cc -I include tests/example.c crates/harness/out/libharness.a -o example
 */
#include <stdio.h>

#include "walugtirim.h"

#define WIDTH 3
#define HEIGHT 3
#define POINTS (WIDTH * HEIGHT)

static int refused(const char *call, uint32_t number)
{
    printf("%s: refused %u\n", call, (unsigned)number);
    return 1;
}

int main(void)
{
    const uint8_t sheet[HEIGHT] = { 0xE0, 0xE0, 0xE0 };
    const uint8_t cross[9] = { 0, 1, 0, 1, 1, 1, 0, 1, 0 };
    /* The rows due are 2 * HEIGHT; a batch system may cut them anywhere. */
    const uint64_t slices[2] = { 2, 4 };
    uint16_t levels[POINTS];
    uint16_t picture[POINTS];
    uint64_t record[WT_RECORD_WORDS];
    uint64_t answer[2];
    uint8_t seen[HEIGHT];
    uint64_t state[1];
    uint32_t number;

    number = wt_start_erosion(WIDTH, HEIGHT, sheet, sizeof sheet, 3, cross, sizeof cross, levels, POINTS, record,
                              WT_RECORD_WORDS);
    if (number != 0)
        return refused("start", number);

    for (int slice = 0; slice < 2; slice++) {
        number = wt_continue(record, WT_RECORD_WORDS, levels, POINTS, slices[slice], answer, 2);
        if (number != 0)
            return refused("continue", number);
        printf("rows done %u, %s; points lowered %u\n", (unsigned)record[WT_RECORD_ROWS_DONE],
               answer[0] ? "complete" : "rows still due", (unsigned)answer[1]);

        /* A look at size 1: before the end it may hold too much, at the end it is the eroded sheet. */
        number = wt_provisional(record, WT_RECORD_WORDS, levels, POINTS, 1, seen, sizeof seen, state, 1);
        if (number != 0)
            return refused("provisional", number);
        printf("eroded by 1, %s: %02X %02X %02X\n", state[0] ? "final" : "provisional", (unsigned)seen[0], (unsigned)seen[1],
               (unsigned)seen[2]);

        number = wt_collect(record, WT_RECORD_WORDS, levels, POINTS, picture, POINTS);
        if (number != 0)
            /* 13, as long as rows are due: an unfinished run has no picture. */
            printf("no picture: %u\n", (unsigned)number);
    }
    if (number != 0)
        return 1;

    for (int row = 0; row < HEIGHT; row++)
        for (int column = 0; column < WIDTH; column++)
            printf("%u%c", (unsigned)picture[row * WIDTH + column], column + 1 < WIDTH ? ' ' : '\n');
    return 0;
}
