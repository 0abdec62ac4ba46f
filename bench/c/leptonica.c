/*
 * leptonica's pixDistanceFunction, with background beyond the frame: for the cross (4 neighbours) and the box (8) its
 * numbers are the erosion levels.
 */
#include <stddef.h>
#include <stdint.h>

#ifdef NOT_INSTALLED

void *leptonica_sheet(const uint8_t *sheet, size_t width, size_t height)
{
    (void)sheet;
    (void)width;
    (void)height;
    return NULL;
}

int leptonica_distance(void *from, int neighbours, uint16_t *levels)
{
    (void)from;
    (void)neighbours;
    (void)levels;
    return 0;
}

void leptonica_free(void *from)
{
    (void)from;
}

#else

#include <leptonica/allheaders.h>

/* The sheet as leptonica holds it, or NULL. */
void *leptonica_sheet(const uint8_t *sheet, size_t width, size_t height)
{
    PIX *pix = pixCreate((l_int32)width, (l_int32)height, 1);
    if (pix == NULL)
        return NULL;
    size_t row_bytes = (width + 7) / 8;
    for (size_t y = 0; y < height; y++) {
        l_uint32 *line = pixGetData(pix) + y * (size_t)pixGetWpl(pix);
        for (size_t x = 0; x < width; x++)
            if (sheet[y * row_bytes + x / 8] >> (7 - x % 8) & 1)
                SET_DATA_BIT(line, x);
    }
    return pix;
}

/* Works out the distances; where levels isn't NULL, copies them. Answers 1, or 0 where it failed. */
int leptonica_distance(void *from, int neighbours, uint16_t *levels)
{
    PIX *out = pixDistanceFunction(from, neighbours, 16, L_BOUNDARY_BG);
    if (out == NULL)
        return 0;
    if (levels != NULL) {
        l_int32 width = pixGetWidth(out), height = pixGetHeight(out);
        for (l_int32 y = 0; y < height; y++) {
            l_uint32 *line = pixGetData(out) + (size_t)y * (size_t)pixGetWpl(out);
            for (l_int32 x = 0; x < width; x++)
                levels[(size_t)y * (size_t)width + (size_t)x] = (uint16_t)GET_DATA_TWO_BYTES(line, x);
        }
    }
    pixDestroy(&out);
    return 1;
}

void leptonica_free(void *from)
{
    PIX *pix = from;
    pixDestroy(&pix);
}

#endif
