/*
 * Reads and writes files through the library, for tests/netpbm.sh, which compares them with what Netpbm's own tools
 * make of them. Prints what it has in memory: pixels or levels, one row of the frame a line.
 *
 *   netpbm sheet WIDTH HEIGHT SEED OUT.pbm   makes a sheet, writes it, prints its pixels
 *   netpbm pixels IN.pbm                     reads a sheet, prints its pixels
 *   netpbm erosion IN.pbm OUT.pgm            erodes with the cross, writes and prints the levels
 *   netpbm dilation IN.pbm CAP OUT.pgm       dilates with the cross, writes and prints the levels
 *   netpbm cropped IN.pbm CAP OUT.pgm        erodes likewise, with foreground beyond the frame
 *   netpbm eroded IN.pbm SIZE OUT.pbm        erodes by one size with the cross, writes the sheet and prints its pixels
 *   netpbm dilated IN.pbm SIZE OUT.pbm       dilates likewise
 *   netpbm crop-eroded IN.pbm SIZE OUT.pbm   erodes likewise, with foreground beyond the frame
 *
 * A refusal prints "refused", a blank and the number.
 */
#include <stdio.h>
#include <stdlib.h>
#include <string.h>

#include "walugtirim.h"

static const uint8_t cross[9] = { 0, 1, 0, 1, 1, 1, 0, 1, 0 };

/* A sheet, or a run on one; what is not used is NULL. */
typedef struct {
    uint64_t width, height;
    uint8_t *pixels;
    size_t pixels_len;
} Sheet;

typedef struct {
    uint64_t record[WT_RECORD_WORDS];
    uint16_t *levels;
    size_t levels_len;
} Run;

static void stop(const char *why)
{
    fprintf(stderr, "netpbm: %s\n", why);
    exit(2);
}

static void accept(uint32_t number)
{
    if (number != 0) {
        printf("refused %u\n", (unsigned)number);
        exit(0);
    }
}

/* Never empty, so that no slice of the library begins at NULL. */
static void *room(size_t bytes)
{
    void *memory = calloc(bytes + 1, 1);
    if (memory == NULL)
        stop("no memory");
    return memory;
}

static uint64_t number_of(const char *text)
{
    return strtoull(text, NULL, 10);
}

static size_t row_bytes(uint64_t width)
{
    return (size_t)((width + 7) / 8);
}

static int pixel(const Sheet *sheet, uint64_t column, uint64_t row)
{
    return sheet->pixels[row * row_bytes(sheet->width) + column / 8] >> (7 - column % 8) & 1;
}

static void print_pixels(const Sheet *sheet)
{
    for (uint64_t row = 0; row < sheet->height; row++) {
        for (uint64_t column = 0; column < sheet->width; column++)
            putchar('0' + pixel(sheet, column, row));
        putchar('\n');
    }
}

static void save(const char *name, const uint8_t *bytes, uint64_t length)
{
    FILE *file = fopen(name, "wb");
    if (file == NULL || fwrite(bytes, 1, (size_t)length, file) != length || fclose(file) != 0)
        stop("can't write a file");
}

static Sheet read_sheet(const char *name)
{
    FILE *file = fopen(name, "rb");
    if (file == NULL || fseek(file, 0, SEEK_END) != 0)
        stop("can't read a file");
    size_t length = (size_t)ftell(file);
    uint8_t *bytes = room(length);
    rewind(file);
    if (fread(bytes, 1, length, file) != length)
        stop("can't read a file");
    fclose(file);

    Sheet sheet = { 0, 0, room(length), 0 };
    uint64_t frame[2];
    accept(wt_read_pbm(bytes, length, sheet.pixels, length, frame, 2));
    sheet.width = frame[0];
    sheet.height = frame[1];
    sheet.pixels_len = row_bytes(sheet.width) * sheet.height;
    free(bytes);
    return sheet;
}

static void write_sheet(const Sheet *sheet, const char *name)
{
    size_t most = sheet->pixels_len + 100;
    uint8_t *bytes = room(most);
    uint64_t length[1];
    accept(wt_write_pbm(sheet->width, sheet->height, sheet->pixels, sheet->pixels_len, bytes, most, length, 1));
    save(name, bytes, length[0]);
    free(bytes);
}

/* A sheet of random points, half of them set; also its padding bits, which the writer has to clear. */
static Sheet make_sheet(uint64_t width, uint64_t height, uint64_t seed)
{
    Sheet sheet = { width, height, room(row_bytes(width) * height), row_bytes(width) * height };
    for (size_t at = 0; at < sheet.pixels_len; at++) {
        seed = seed * 6364136223846793005u + 1442695040888963407u;
        sheet.pixels[at] = (uint8_t)(seed >> 56 | seed >> 48);
    }
    return sheet;
}

static Run finish(Run run)
{
    uint64_t answer[2];
    accept(wt_continue(run.record, WT_RECORD_WORDS, run.levels, run.levels_len, WT_MOST_ALLOWANCE, answer, 2));
    return run;
}

static Run erode(const Sheet *sheet)
{
    Run run;
    run.levels_len = (size_t)(sheet->width * sheet->height);
    run.levels = room(run.levels_len * sizeof(uint16_t));
    accept(wt_start_erosion(sheet->width, sheet->height, sheet->pixels, sheet->pixels_len, 3, cross, 9, run.levels,
                            run.levels_len, run.record, WT_RECORD_WORDS));
    return finish(run);
}

/* wt_start_dilation or wt_start_cropped, which take the same. */
typedef uint32_t CanvasStart(uint64_t, uint64_t, const uint8_t *, size_t, uint64_t, const uint8_t *, size_t, uint64_t,
                             uint16_t *, size_t, uint64_t *, size_t);

static Run run_on_canvas(CanvasStart *start, const Sheet *sheet, uint64_t cap)
{
    Run run;
    run.levels_len = (size_t)((sheet->width + 2 * cap) * (sheet->height + 2 * cap));
    run.levels = room(run.levels_len * sizeof(uint16_t));
    accept(start(sheet->width, sheet->height, sheet->pixels, sheet->pixels_len, 3, cross, 9, cap, run.levels,
                 run.levels_len, run.record, WT_RECORD_WORDS));
    return finish(run);
}

static void write_levels(const Sheet *sheet, const Run *run, const char *name)
{
    size_t points = (size_t)(sheet->width * sheet->height);
    size_t most = points * 6 + 100;
    uint16_t *levels = room(points * sizeof(uint16_t));
    uint8_t *bytes = room(most);
    uint64_t length[1];
    accept(wt_collect(run->record, WT_RECORD_WORDS, run->levels, run->levels_len, levels, points));
    accept(wt_write_pgm(run->record, WT_RECORD_WORDS, levels, points, bytes, most, length, 1));
    save(name, bytes, length[0]);
    for (size_t at = 0; at < points; at++)
        printf("%u%c", (unsigned)levels[at], (at + 1) % sheet->width == 0 ? '\n' : ' ');
    free(levels);
    free(bytes);
}

static void write_size(const Sheet *sheet, const Run *run, uint64_t size, const char *name)
{
    Sheet answer = { sheet->width, sheet->height, room(sheet->pixels_len), sheet->pixels_len };
    accept(wt_threshold(run->record, WT_RECORD_WORDS, run->levels, run->levels_len, size, answer.pixels,
                        answer.pixels_len));
    write_sheet(&answer, name);
    print_pixels(&answer);
    free(answer.pixels);
}

int main(int count, char **words)
{
    const char *command = count > 2 ? words[1] : "";
    if (strcmp(command, "sheet") == 0 && count == 6) {
        Sheet sheet = make_sheet(number_of(words[2]), number_of(words[3]), number_of(words[4]));
        write_sheet(&sheet, words[5]);
        print_pixels(&sheet);
        return 0;
    }
    if (count < 3)
        stop("see the head of netpbm.c");
    Sheet sheet = read_sheet(words[2]);
    if (strcmp(command, "pixels") == 0 && count == 3) {
        print_pixels(&sheet);
    } else if (strcmp(command, "erosion") == 0 && count == 4) {
        Run run = erode(&sheet);
        write_levels(&sheet, &run, words[3]);
    } else if (strcmp(command, "dilation") == 0 && count == 5) {
        Run run = run_on_canvas(wt_start_dilation, &sheet, number_of(words[3]));
        write_levels(&sheet, &run, words[4]);
    } else if (strcmp(command, "cropped") == 0 && count == 5) {
        Run run = run_on_canvas(wt_start_cropped, &sheet, number_of(words[3]));
        write_levels(&sheet, &run, words[4]);
    } else if (strcmp(command, "eroded") == 0 && count == 5) {
        Run run = erode(&sheet);
        write_size(&sheet, &run, number_of(words[3]), words[4]);
    } else if (strcmp(command, "dilated") == 0 && count == 5) {
        Run run = run_on_canvas(wt_start_dilation, &sheet, number_of(words[3]));
        write_size(&sheet, &run, number_of(words[3]), words[4]);
    } else if (strcmp(command, "crop-eroded") == 0 && count == 5) {
        Run run = run_on_canvas(wt_start_cropped, &sheet, number_of(words[3]));
        write_size(&sheet, &run, number_of(words[3]), words[4]);
    } else {
        stop("see the head of netpbm.c");
    }
    return 0;
}
