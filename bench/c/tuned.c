/*
 * The same scan in a shape that compilers vectorise: the rows already met are taken as minima of whole rows, and only
 * the partners in the row itself are taken one after the other, with the last three levels in registers.
 */
#include "scan.h"

/* The widest area, with room for a partner on both sides. */
#define MOST_WIDTH 4096

static uint16_t least_of(uint16_t a, uint16_t b)
{
    return a < b ? a : b;
}

/* One more, except that 65,535 stays. */
static uint16_t one_more(uint16_t level)
{
    return (uint16_t)(level + (level != UINT16_MAX));
}

/* least[x] becomes the smaller of itself and the level at x + shift in a row, or what is beyond it. */
static void take_row(uint16_t *restrict least, const uint16_t *restrict row, long width, long shift, uint16_t beyond)
{
    long first = shift < 0 ? -shift : 0, last = shift > 0 ? width - shift : width;
    if (first > width)
        first = width;
    if (last < first)
        last = first;
    for (long x = 0; x < first; x++)
        least[x] = least_of(least[x], beyond);
    for (long x = first; x < last; x++)
        least[x] = least_of(least[x], row[x + shift]);
    for (long x = last; x < width; x++)
        least[x] = least_of(least[x], beyond);
}

/*
 * The partners in the row itself, from the side where they are met. A cost is 1, or more than any level where the
 * element lacks that partner. In 32 bits 65,535 + 1 needs no care: it is never smaller than the point's own level. What
 * doesn't depend on the last level is settled first, so that one sum and one comparison are left to wait for it.
 */
static void work_own_row(uint16_t *own, long width, const uint32_t cost[3], uint16_t beyond, int step)
{
    uint32_t first = beyond, second = beyond, third = beyond;
    uint16_t *at = step < 0 ? own : own + width - 1;
    for (long count = 0; count < width; count++, at -= step) {
        uint32_t far = second + cost[1] < third + cost[2] ? second + cost[1] : third + cost[2];
        uint32_t known = far < *at ? far : *at;
        /* An empty statement that keeps the compiler from turning the comparisons round again. */
        __asm__("" : "+r"(known));
        third = second;
        second = first;
        first = first + cost[0] < known ? first + cost[0] : known;
        *at = (uint16_t)first;
    }
}

/* Works one row; `step` is -1 on the downward scan, where earlier rows and columns are met, and 1 on the upward. */
static void work_row(uint16_t *levels, long width, long height, long y, const uint8_t cells[7][7], uint16_t beyond,
                     int step)
{
    uint16_t least[MOST_WIDTH];
    uint16_t *own = levels + y * width;
    int taken = 0;
    for (long x = 0; x < width; x++)
        least[x] = UINT16_MAX;
    for (int away = 1; away <= 3; away++) {
        long row = y + step * away;
        for (int column = 0; column < 7; column++) {
            if (cells[3 + step * away][column] == 0)
                continue;
            taken = 1;
            if (row >= 0 && row < height)
                take_row(least, levels + row * width, width, column - 3, beyond);
            else
                for (long x = 0; x < width; x++)
                    least[x] = least_of(least[x], beyond);
        }
    }
    if (taken)
        for (long x = 0; x < width; x++)
            own[x] = least_of(own[x], one_more(least[x]));

    uint32_t cost[3];
    for (int away = 1; away <= 3; away++)
        cost[away - 1] = cells[3][3 + step * away] ? 1 : UINT16_MAX + 1u;
    if (cost[0] == 1 || cost[1] == 1 || cost[2] == 1)
        work_own_row(own, width, cost, beyond, step);
}

void tuned_scan(uint16_t *levels, size_t width, size_t height, const uint8_t *cells, int dilation)
{
    uint8_t turned[7][7];
    for (int at = 0; at < 49; at++)
        turned[at / 7][at % 7] = cells[dilation ? 48 - at : at];
    const uint16_t beyond = dilation ? UINT16_MAX : 0;
    const long w = (long)width, h = (long)height;
    if (w > MOST_WIDTH)
        return;
    for (long y = 0; y < h; y++)
        work_row(levels, w, h, y, (const uint8_t(*)[7])turned, beyond, -1);
    for (long y = h - 1; y >= 0; y--)
        work_row(levels, w, h, y, (const uint8_t(*)[7])turned, beyond, 1);
}
