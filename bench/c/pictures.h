/*
 * What a finished run gives, in C, for comparison only. The frame lies in the levels with a margin of background on all
 * four sides.
 *
 *   pack       the packed sheet of the points whose level is above `low` and at most `high`
 *   collect    the frame's levels, with 0 for each that is above the limit
 */
#ifndef PICTURES_H
#define PICTURES_H

#include <stddef.h>
#include <stdint.h>

typedef struct {
    size_t width, height, margin;
} Frame;

void plain_pack(const uint16_t *levels, Frame frame, uint16_t low, uint16_t high, uint8_t *out);
void tuned_pack(const uint16_t *levels, Frame frame, uint16_t low, uint16_t high, uint8_t *out);
void plain_collect(const uint16_t *levels, Frame frame, uint16_t limit, uint16_t *out);

#endif
