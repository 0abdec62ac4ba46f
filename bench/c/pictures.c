#include "pictures.h"

#include <string.h>

static size_t row_bytes(Frame frame)
{
    return (frame.width + 7) / 8;
}

/* Where a row of the frame begins in the levels. */
static const uint16_t *row_of(const uint16_t *levels, Frame frame, size_t y)
{
    return levels + (y + frame.margin) * (frame.width + 2 * frame.margin) + frame.margin;
}

static unsigned held(uint16_t level, uint16_t low, uint16_t high)
{
    return low < level && level <= high;
}

/* Pixel by pixel into a cleared sheet, as one would write it first. */
void plain_pack(const uint16_t *levels, Frame frame, uint16_t low, uint16_t high, uint8_t *out)
{
    memset(out, 0, frame.height * row_bytes(frame));
    for (size_t y = 0; y < frame.height; y++) {
        const uint16_t *row = row_of(levels, frame, y);
        uint8_t *bytes = out + y * row_bytes(frame);
        for (size_t x = 0; x < frame.width; x++)
            if (held(row[x], low, high))
                bytes[x / 8] |= (uint8_t)(0x80 >> x % 8);
    }
}

/* Byte by byte, each the sum of eight tests; the last byte of a row apart. */
void tuned_pack(const uint16_t *levels, Frame frame, uint16_t low, uint16_t high, uint8_t *out)
{
    for (size_t y = 0; y < frame.height; y++) {
        const uint16_t *row = row_of(levels, frame, y);
        uint8_t *bytes = out + y * row_bytes(frame);
        size_t full = frame.width / 8;
        for (size_t k = 0; k < full; k++) {
            const uint16_t *eight = row + 8 * k;
            bytes[k] = (uint8_t)(128 * held(eight[0], low, high) + 64 * held(eight[1], low, high)
                                 + 32 * held(eight[2], low, high) + 16 * held(eight[3], low, high)
                                 + 8 * held(eight[4], low, high) + 4 * held(eight[5], low, high)
                                 + 2 * held(eight[6], low, high) + held(eight[7], low, high));
        }
        if (frame.width % 8 != 0) {
            unsigned last = 0;
            for (size_t x = 8 * full; x < frame.width; x++)
                last += held(row[x], low, high) * 0x80 >> x % 8;
            bytes[full] = (uint8_t)last;
        }
    }
}

void plain_collect(const uint16_t *levels, Frame frame, uint16_t limit, uint16_t *out)
{
    for (size_t y = 0; y < frame.height; y++) {
        const uint16_t *row = row_of(levels, frame, y);
        for (size_t x = 0; x < frame.width; x++)
            out[y * frame.width + x] = row[x] <= limit ? row[x] : 0;
    }
}
