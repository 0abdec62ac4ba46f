/*
 * Two scans in C, for comparison only. Each works all 2 * height rows on levels that are already set up.
 *
 *   cells      the element as seven rows of seven, 0 or 1
 *   dilation   0: partners are x + b and all beyond the area reads 0
 *              1: partners are x - b and all beyond the area reads 65,535
 */
#ifndef SCAN_H
#define SCAN_H

#include <stddef.h>
#include <stdint.h>

void plain_scan(uint16_t *levels, size_t width, size_t height, const uint8_t *cells, int dilation);
void tuned_scan(uint16_t *levels, size_t width, size_t height, const uint8_t *cells, int dilation);

#endif
