/* The two-pass scan, point by point, as one would write it first. */
#include "scan.h"

typedef struct {
    int columns[48], rows[48], count;
} Partners;

/* The partners met on the downward scan, or the others. */
static Partners partners_of(const uint8_t *cells, int dilation, int downward)
{
    Partners met = { { 0 }, { 0 }, 0 };
    for (int at = 0; at < 49; at++) {
        int column = at % 7 - 3, row = at / 7 - 3;
        if (cells[at] == 0 || at == 24)
            continue;
        if (dilation) {
            column = -column;
            row = -row;
        }
        if ((row < 0 || (row == 0 && column < 0)) == downward) {
            met.columns[met.count] = column;
            met.rows[met.count] = row;
            met.count++;
        }
    }
    return met;
}

static void work_point(uint16_t *levels, long width, long height, const Partners *met, uint16_t beyond, long x, long y)
{
    uint16_t least = UINT16_MAX;
    for (int at = 0; at < met->count; at++) {
        long column = x + met->columns[at], row = y + met->rows[at];
        uint16_t level = beyond;
        if (column >= 0 && column < width && row >= 0 && row < height)
            level = levels[row * width + column];
        if (level < least)
            least = level;
    }
    if (least != UINT16_MAX)
        least++;
    if (least < levels[y * width + x])
        levels[y * width + x] = least;
}

void plain_scan(uint16_t *levels, size_t width, size_t height, const uint8_t *cells, int dilation)
{
    const uint16_t beyond = dilation ? UINT16_MAX : 0;
    const long w = (long)width, h = (long)height;
    const Partners down = partners_of(cells, dilation, 1), up = partners_of(cells, dilation, 0);
    for (long y = 0; y < h; y++)
        for (long x = 0; x < w; x++)
            work_point(levels, w, h, &down, beyond, x, y);
    for (long y = h - 1; y >= 0; y--)
        for (long x = w - 1; x >= 0; x--)
            work_point(levels, w, h, &up, beyond, x, y);
}
