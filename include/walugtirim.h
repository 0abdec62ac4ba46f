/*
 * walugtirim: erosion, dilation, opening and closing of bilevel sheets.
 *
 * This is the C boundary of the verified library. Link it with the static archive libharness.a; the archive needs
 * no library but C's own (memcpy and memset).
 *
 * Words
 *
 *   sheet     The raster of a raw PBM: rows from top to bottom, each padded to a whole byte, the leftmost pixel in
 *             the highest bit, 1 is foreground. Padding bits are ignored on reading and 0 on writing. A sheet of
 *             WIDTH by HEIGHT has HEIGHT * ((WIDTH + 7) / 8) bytes. All beyond the frame is background, but for a
 *             cropped run.
 *   frame     The width and height of a sheet, each 1 to 4,096.
 *   element   A side (3, 5 or 7) and side * side cells, each 0 or 1, row by row, the origin at the centre. The
 *             centre is 1 and at least one other cell is 1. Its reach is (side - 1) / 2, whatever the cells hold.
 *   cropped   Of a run: the erosion of a sheet that was cropped from a larger one, so that its border is no real edge.
 *             All beyond the frame is foreground.
 *   cap       Written R: the largest size a dilation, a closing or a cropped run is asked for, 0 to 2,047.
 *   canvas    What a dilation, a closing or a cropped run works on: the frame with a margin of R * reach on all four
 *             sides. No side of it may exceed 4,096. Erosion and opening work on the frame itself, which is then the
 *             area.
 *   levels    16-bit numbers, row by row, one for each point of a frame or canvas. 65,535 is "nothing found yet".
 *   record    56 words that say what a run is and how far it has come: see WT_RECORD_WORDS below.
 *
 * Slices
 *
 *   A slice is a pointer and a count of elements, in this order. The pointer is aligned for its element and not
 *   NULL, also where the count is 0. A slice that a function may write overlaps no other slice of the same call.
 *
 * Answers
 *
 *   Every function returns 0 where the call is accepted and else the number of the refusal. A refused call leaves
 *   every slice as it was, answer slices included. Where several refusals apply, the first in the order listed
 *   with the function is given. No function traps, for any number and any slice.
 *
 * Refusals
 *
 *     1   the record is none that a start could give (rows done aside), or its rows done exceed the rows due in
 *         all; also a record slice of another length than 56
 *     2   a frame side outside 1 to 4,096
 *     3   the sheet's length is not the height times the bytes of a row
 *     4   the element's side is not 1, 3, 5 or 7, or its length is not the side squared
 *     5   an element byte above 1
 *     6   the element's centre is 0
 *     7   the element's centre is its only point (so side 1 always earns 5, 6 or 7)
 *     8   a size or cap outside its range, also a size of a map, which is judged last; in PGM writing, a level above the
 *         maximum
 *     9   a canvas side above 4,096
 *    10   the length of the levels, of a map, or of a work buffer, is wrong
 *    11   the length of an answer slice or of a table is wrong; in file reading and writing, room shorter than what is
 *         written
 *    12   an allowance above 8,192
 *    13   a picture asked of a run with rows still due
 *    14   a spectrum asked of a sheet without foreground
 *    21   the file doesn't begin with P4
 *    22   the file's header is broken
 *    23   the file's raster is short
 *    24   the file has bytes after the raster
 */
#ifndef WALUGTIRIM_H
#define WALUGTIRIM_H

#include <stddef.h>
#include <stdint.h>

#ifdef __cplusplus
extern "C" {
#endif

/*
 * The layout of a record. The 49 cells are the element as seven rows of seven, a smaller one centred.
 *
 *   word 0        kind: 1 is an erosion, cropped or not, 2 a dilation
 *   word 1        width of the frame
 *   word 2        height of the frame
 *   word 3        cap (0 for an erosion that is not cropped)
 *   word 4        side of the element as given: 3, 5 or 7
 *   word 5        rows done: 0 to 2 * H, where H is the height of the frame (erosion) or of the canvas (dilation, cropped)
 *   words 6..54   cells of the element as given
 *   word 55       edge rule, what lies beyond the frame: 0 is background, 1 foreground (cropped)
 *
 * Kind 1 goes with both edge rules, kind 2 with 0 alone.
 */
#define WT_RECORD_WORDS 56

#define WT_RECORD_KIND 0
#define WT_RECORD_WIDTH 1
#define WT_RECORD_HEIGHT 2
#define WT_RECORD_CAP 3
#define WT_RECORD_SIDE 4
#define WT_RECORD_ROWS_DONE 5
#define WT_RECORD_CELLS 6
#define WT_RECORD_EDGE 55

#define WT_KIND_EROSION 1
#define WT_KIND_DILATION 2

#define WT_EDGE_BACKGROUND 0
#define WT_EDGE_FOREGROUND 1

/* The largest values accepted. */
#define WT_MOST_FRAME_SIDE 4096
#define WT_MOST_CANVAS_SIDE 4096
#define WT_MOST_SIZE 4096     /* of an erosion or opening */
#define WT_MOST_CAP 2047      /* also the largest size of a closing */
#define WT_MOST_ALLOWANCE 8192

/*
 * Starts an erosion run; no row is worked yet.
 *
 *   width, height   the frame
 *   sheet           the sheet
 *   side, cells     the element
 *   levels          width * height levels; becomes 65,535 on the foreground and 0 elsewhere
 *   record          56 words; becomes the record of the run, with 0 rows done
 *
 * Refusals, in order: 2, 3, 4, 5, 6, 7, 10, 11 (record not 56 words).
 */
uint32_t wt_start_erosion(uint64_t width, uint64_t height,
                          const uint8_t *sheet, size_t sheet_len,
                          uint64_t side,
                          const uint8_t *cells, size_t cells_len,
                          uint16_t *levels, size_t levels_len,
                          uint64_t *record, size_t record_len);

/*
 * Starts a dilation run; no row is worked yet.
 *
 *   width, height   the frame
 *   sheet           the sheet
 *   side, cells     the element
 *   cap             R, 0 to 2,047
 *   levels          as many levels as the canvas has points; becomes 1 on the foreground and 65,535 elsewhere
 *   record          56 words; becomes the record of the run, with 0 rows done
 *
 * Refusals, in order: 2, 3, 4, 5, 6, 7, 8, 9, 10, 11 (record not 56 words).
 */
uint32_t wt_start_dilation(uint64_t width, uint64_t height,
                           const uint8_t *sheet, size_t sheet_len,
                           uint64_t side,
                           const uint8_t *cells, size_t cells_len,
                           uint64_t cap,
                           uint16_t *levels, size_t levels_len,
                           uint64_t *record, size_t record_len);

/*
 * Starts a cropped run, the erosion of a sheet that was cropped from a larger one; no row is worked yet. What is eroded, by
 * sizes up to R, is the sheet's foreground together with all points beyond the frame.
 *
 *   width, height   the frame
 *   sheet           the sheet
 *   side, cells     the element
 *   cap             R, 0 to 2,047
 *   levels          as many levels as the canvas has points; becomes 1 on the frame's background points and 65,535
 *                   elsewhere
 *   record          56 words; becomes the record of the run, with 0 rows done
 *
 * Refusals, in order: 2, 3, 4, 5, 6, 7, 8, 9, 10, 11 (record not 56 words).
 */
uint32_t wt_start_cropped(uint64_t width, uint64_t height,
                          const uint8_t *sheet, size_t sheet_len,
                          uint64_t side,
                          const uint8_t *cells, size_t cells_len,
                          uint64_t cap,
                          uint16_t *levels, size_t levels_len,
                          uint64_t *record, size_t record_len);

/*
 * Continues a run by so many rows, or by the rows still due where these are fewer.
 *
 * The record has to be the one last given, and the levels the run's own, which nothing else has written: no call can see
 * that. A later record beside earlier levels passes unseen, and what is then taken for the picture need not be one; an
 * earlier record beside later levels passes unseen too. The same holds of wt_collect, wt_threshold and wt_provisional, and
 * of wt_write_pgm, which takes the levels that were collected.
 *
 *   record      56 words, the record last given; its rows done grow by the rows worked, all else stays
 *   levels      the run's levels, as many as its frame (erosion) or canvas (dilation, cropped) has points; worked row by
 *               row
 *   allowance   rows to work, 0 to 8,192
 *   answer      2 words; the first becomes 1 when all rows are done, else 0, the second the number of points lowered:
 *               for each row worked, the points whose level after the row is smaller than before it, summed over the rows
 *
 * The rule of the rows is followed for any levels lent, also such that no start gave. A row is worked once downward and once
 * upward, so a point counts at most twice in a run; and however a run is cut, its slices' numbers have the same sum.
 *
 * Refusals, in order: 1, 10, 11 (answer not 2 words), 12. A refused call doesn't count towards the rows.
 */
uint32_t wt_continue(uint64_t *record, size_t record_len,
                     uint16_t *levels, size_t levels_len,
                     uint64_t allowance,
                     uint64_t *answer, size_t answer_len);

/*
 * Collects the levels of a finished run.
 *
 *   record   the run's record
 *   levels   the run's levels
 *   out      width * height levels of the frame. For an erosion the levels are copied; for a dilation the frame's
 *            part of the canvas is taken, with 0 for every level above R + 1. For a cropped run that part is taken with
 *            every level of 1 to R + 1 given one less, 65,535 for every level above that, and 0 for 0.
 *
 * So a cropped run's level of at most R is the erosion level with foreground beyond the frame, and 65,535 says that it is
 * more than R: eroding by R still holds the point.
 *
 * Refusals, in order: 1, 10, 11, 13.
 */
uint32_t wt_collect(const uint64_t *record, size_t record_len,
                    const uint16_t *levels, size_t levels_len,
                    uint16_t *out, size_t out_len);

/*
 * Takes the sheet of one size from a finished run.
 *
 *   record   the run's record
 *   levels   the run's own levels (not collected ones)
 *   size     n: 0 to 4,096 for an erosion, 0 to R for a dilation or a cropped run
 *   out      a sheet of the frame. A pixel is foreground where its level is above n (erosion) or 1 to n + 1 (dilation),
 *            or where its level as wt_collect gives it is above n (cropped).
 *
 * Refusals, in order: 1, 8, 10, 11, 13.
 */
uint32_t wt_threshold(const uint64_t *record, size_t record_len,
                      const uint16_t *levels, size_t levels_len,
                      uint64_t size,
                      uint8_t *out, size_t out_len);

/*
 * Looks at a run that may have rows still due: the rule of wt_threshold on the levels as they stand. The sheet is no
 * picture until it is final. Of a run that was started and continued as it should be, an erosion's sheet, cropped or not,
 * holds the eroded set and perhaps more, a dilation's lies within the dilated set; of a finished run it is what
 * wt_threshold gives.
 *
 *   record   the run's record
 *   levels   the run's own levels as they stand, also such that no start gave
 *   size     n: 0 to 4,096 for an erosion, 0 to R for a dilation or a cropped run
 *   out      a sheet of the frame. A pixel is foreground where its level is above n (erosion) or 1 to n + 1 (dilation),
 *            or where its level as wt_collect gives it is above n (cropped).
 *   state    1 word; becomes 1 where all rows are done and the sheet is final, else 0: it is provisional
 *
 * Refusals, in order: 1, 8, 10, 11 (out of another length, or state not 1 word).
 */
uint32_t wt_provisional(const uint64_t *record, size_t record_len,
                        const uint16_t *levels, size_t levels_len,
                        uint64_t size,
                        uint8_t *out, size_t out_len,
                        uint64_t *state, size_t state_len);

/*
 * Opens a sheet by one size: erodes by it, then dilates by it. A chain of openings with one element, each of the sheet that
 * the one before it gave, is one opening by the largest of its sizes, byte for byte.
 *
 *   width, height    the frame
 *   sheet            the sheet
 *   side, cells      the element
 *   size             0 to 4,096
 *   work_a, work_b   width * height levels each; what they hold doesn't matter, and both become all zero
 *   out              a sheet of the frame: the opened sheet
 *
 * Refusals, in order: 2, 3, 4, 5, 6, 7, 8, 10, 11.
 */
uint32_t wt_open(uint64_t width, uint64_t height,
                 const uint8_t *sheet, size_t sheet_len,
                 uint64_t side,
                 const uint8_t *cells, size_t cells_len,
                 uint64_t size,
                 uint16_t *work_a, size_t work_a_len,
                 uint16_t *work_b, size_t work_b_len,
                 uint8_t *out, size_t out_len);

/*
 * Closes a sheet by one size: dilates by it on the infinite grid, then erodes by it. A chain of closings with one element is
 * one closing by the largest of its sizes, as with openings. Dilations do not fold so: what the frame shows of one is not
 * all of it.
 *
 *   width, height    the frame
 *   sheet            the sheet
 *   side, cells      the element
 *   size             n, 0 to 2,047; the canvas is that of the cap R = n
 *   work_a, work_b   as many levels as the canvas has points, each; both become all zero
 *   out              a sheet of the frame: the closed sheet
 *
 * Refusals, in order: 2, 3, 4, 5, 6, 7, 8, 9, 10, 11.
 */
uint32_t wt_close(uint64_t width, uint64_t height,
                  const uint8_t *sheet, size_t sheet_len,
                  uint64_t side,
                  const uint8_t *cells, size_t cells_len,
                  uint64_t size,
                  uint16_t *work_a, size_t work_a_len,
                  uint16_t *work_b, size_t work_b_len,
                  uint8_t *out, size_t out_len);

/*
 * The opening transform: at each foreground point the largest m for which opening by m - 1 still holds it, and 0
 * elsewhere.
 *
 *   width, height    the frame
 *   sheet            the sheet
 *   side, cells      the element
 *   work_a, work_b   width * height levels each; both become all zero
 *   out              width * height levels
 *
 * Refusals, in order: 2, 3, 4, 5, 6, 7, 10, 11.
 */
uint32_t wt_opening_levels(uint64_t width, uint64_t height,
                           const uint8_t *sheet, size_t sheet_len,
                           uint64_t side,
                           const uint8_t *cells, size_t cells_len,
                           uint16_t *work_a, size_t work_a_len,
                           uint16_t *work_b, size_t work_b_len,
                           uint16_t *out, size_t out_len);

/*
 * The closing transform: at each point of the frame the least m from 1 to R + 1 for which closing by m - 1 holds it,
 * and 0 if there is none.
 *
 *   width, height    the frame
 *   sheet            the sheet
 *   side, cells      the element
 *   cap              R, 0 to 2,047
 *   work_a, work_b   as many levels as the canvas has points, each; both become all zero
 *   out              width * height levels
 *
 * Refusals, in order: 2, 3, 4, 5, 6, 7, 8, 9, 10, 11.
 */
uint32_t wt_closing_levels(uint64_t width, uint64_t height,
                           const uint8_t *sheet, size_t sheet_len,
                           uint64_t side,
                           const uint8_t *cells, size_t cells_len,
                           uint64_t cap,
                           uint16_t *work_a, size_t work_a_len,
                           uint16_t *work_b, size_t work_b_len,
                           uint16_t *out, size_t out_len);

/*
 * The spectrum of sizes: how many points of the frame have each opening level, without the transform that says which. The
 * points of level n, from 1, are those that opening by n - 1 holds and opening by n does not.
 *
 *   width, height    the frame
 *   sheet            the sheet
 *   side, cells      the element
 *   work_a, work_b   width * height levels each; what they hold doesn't matter, and both become all zero
 *   table            as many entries as the larger side of the frame, and one more; entry n becomes the number of the
 *                    frame's points of opening level n, entry 0 that of the background. They add up to width * height.
 *   summary          2 doubles; the first becomes the mean opening level over the foreground, the sum of n times entry n
 *                    divided by the number of foreground points, the second the share of the foreground at level 1,
 *                    entry 1 divided by the same number. Each is one division of two whole numbers that a double holds
 *                    exactly.
 *
 * Refusals, in order: 2, 3, 4, 5, 6, 7, 10, 11 (table of another length, or summary not 2 doubles), 14.
 */
uint32_t wt_spectrum(uint64_t width, uint64_t height,
                     const uint8_t *sheet, size_t sheet_len,
                     uint64_t side,
                     const uint8_t *cells, size_t cells_len,
                     uint16_t *work_a, size_t work_a_len,
                     uint16_t *work_b, size_t work_b_len,
                     uint64_t *table, size_t table_len,
                     double *summary, size_t summary_len);

/*
 * Dilates each foreground point by a size of its own, which a map gives. The sheet is the union, over the foreground points
 * a, of the element added to itself S(a) times and moved to a, taken on the infinite grid and seen in the frame. Where the
 * map gives one size n everywhere, it is what wt_threshold gives at n of a dilation with the same cap.
 *
 *   width, height   the frame
 *   sheet           the sheet
 *   side, cells     the element
 *   cap             R, 0 to 2,047; the canvas is that of R
 *   map             width * height sizes, row by row: S(a), 0 to R, at each foreground point a. What stands at background
 *                   points doesn't matter.
 *   work            as many levels as the canvas has points; what they hold doesn't matter, and all become zero
 *   out             a sheet of the frame: the dilated sheet
 *
 * Refusals, in order: 2, 3, 4, 5, 6, 7, 8, 9, 10 (map or work), 11, and last 8 for a size above R at a foreground point.
 */
uint32_t wt_dilate_by_map(uint64_t width, uint64_t height,
                          const uint8_t *sheet, size_t sheet_len,
                          uint64_t side,
                          const uint8_t *cells, size_t cells_len,
                          uint64_t cap,
                          const uint16_t *map, size_t map_len,
                          uint16_t *work, size_t work_len,
                          uint8_t *out, size_t out_len);

/*
 * Reflects an element about its origin: the cell at each b takes the byte at -b.
 *
 *   side, cells   the element
 *   out           side * side bytes: the cells of the reflected element
 *
 * Refusals, in order: 4, 5, 6, 7, 11.
 */
uint32_t wt_reflect(uint64_t side,
                    const uint8_t *cells, size_t cells_len,
                    uint8_t *out, size_t out_len);

/*
 * Reads a raw PBM: "P4", one or more white bytes, width, one or more white bytes, height, exactly one white byte, and
 * the raster up to the end of the file. White is blank, TAB, CR or LF. Numbers are decimal digits of any length,
 * leading zeros allowed. There are no comments.
 *
 *   file    the file
 *   out     room for the raster; its first bytes become the sheet, padding cleared, and the rest stays
 *   frame   2 words; become the width and the height
 *
 * Refusals, in order: 21, 22, 2, 23, 24, 11 (out shorter than the raster, or frame not 2 words).
 */
uint32_t wt_read_pbm(const uint8_t *file, size_t file_len,
                     uint8_t *out, size_t out_len,
                     uint64_t *frame, size_t frame_len);

/*
 * Writes a raw PBM: "P4", LF, width, blank, height, LF, raster.
 *
 *   width, height   the frame
 *   sheet           the sheet
 *   out             room for the file; its first bytes become the file, and the rest stays
 *   length          1 word; becomes the length of the file
 *
 * Refusals, in order: 2, 3, 11 (out shorter than the file, or length not 1 word).
 */
uint32_t wt_write_pbm(uint64_t width, uint64_t height,
                      const uint8_t *sheet, size_t sheet_len,
                      uint8_t *out, size_t out_len,
                      uint64_t *length, size_t length_len);

/*
 * Writes the levels of a finished run as a plain PGM: "P2"; the remark "# rows DONE of DUE"; width and height; the
 * maximum (the larger side of the frame for an erosion, R + 1 for a dilation, 65,535 for a cropped run); then the levels.
 * Each row of the frame begins a line, no line is longer than 70 characters, and every line ends with LF.
 *
 *   record   the run's record
 *   levels   width * height levels, as collected
 *   out      room for the file; its first bytes become the file, and the rest stays
 *   length   1 word; becomes the length of the file
 *
 * Refusals, in order: 1, 8 (any level lent is above the maximum), 10, 11 (out shorter than the file, or length not
 * 1 word), 13. For an unfinished run, 11 is judged by the text with the rows it has done.
 */
uint32_t wt_write_pgm(const uint64_t *record, size_t record_len,
                      const uint16_t *levels, size_t levels_len,
                      uint8_t *out, size_t out_len,
                      uint64_t *length, size_t length_len);

#ifdef __cplusplus
}
#endif

#endif
