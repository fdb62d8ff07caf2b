/* The exported library from C: the paper's single sample, from the bitmap to its sheet, the figures of refusals as the header has them, a pinned
 * vertex, areas, and the sums after each drawn edge. Silent if all is right. */
#include "../../include/puzhenim.h"
#include <stdio.h>
#include <string.h>

#define LAYER 3, 3, bitmap, sizeof bitmap
#define TABLE table, 12
#define FIGURES figures, 4

/* What an output holds before a call. */
#define UNTOUCHED (-1)

#define ARE(a, b, c, d) (figures[0] == (a) && figures[1] == (b) && figures[2] == (c) && figures[3] == (d))

static int expect(int right, const char *what) {
    if (!right) fprintf(stderr, "cases.c: %s\n", what);
    return right;
}

/* Are the numbers of an output these, and what follows as found, up to so many? */
static int holds(const int64_t *output, size_t length, const int64_t *numbers, size_t count) {
    size_t same = 0;
    for (size_t i = 0; i < length; i++) same += output[i] == (i < count ? numbers[i] : UNTOUCHED);
    return same == length;
}

/* The single sample: its vertices are the ends of a diagonal in a row and of one in a column, and twice the area is their product. Edges come by
 * the stick they start from, 2 on the left, 3 on the right, 7 below, 10 above: 2 to 7, 3 to 10, 7 to 3, 10 to 2. As traced they add
 * 128 * 128 - 256 * 256, 384 * 384 - 256 * 256, 256 * 256 - 384 * 128 and 256 * 256 - 128 * 384; with pins
 * 100 * 50 - 256 * 256, 456 * 286 - 256 * 256, 256 * 256 - 456 * 50 and 256 * 256 - 100 * 286. */
static int area_of_sample(void) {
    const uint8_t bitmap[3] = {0, 2, 0};
    const int64_t traced[4] = {-49152, 32768, 49152, 256 * 256}, pinned[4] = {-60536, 4344, 47080, 356 * 236};
    uint16_t table[12] = {0, 0, 128, 128, 0, 0, 0, 128, 0, 0, 128, 0};
    int64_t areas[2] = {UNTOUCHED, UNTOUCHED}, sums[6] = {UNTOUCHED, UNTOUCHED, UNTOUCHED, UNTOUCHED, UNTOUCHED, UNTOUCHED};
    uint64_t figures[4] = {9, 9, 9, 9};
    int good = expect(pz_areas(LAYER, TABLE, areas, 1, sums, 4, figures, 3) == 14 && ARE(9, 9, 9, 9), "three figures");
    good &= expect(pz_areas(LAYER, TABLE, NULL, 0, sums, 4, FIGURES) == 14 && ARE(0, 0, 0, 0), "no room for an area");
    good &= expect(pz_areas(LAYER, TABLE, areas, 1, NULL, 0, FIGURES) == 14 && ARE(0, 0, 0, 0), "no room for sums");
    good &= expect(pz_areas(LAYER, TABLE, areas, 1, sums, 3, FIGURES) == 14 && ARE(0, 0, 0, 0), "one sum short");
    good &= expect(pz_areas(LAYER, TABLE, NULL, 0, NULL, 0, FIGURES) == 14 && ARE(0, 0, 0, 0), "no room for either");
    good &= expect(holds(areas, 2, NULL, 0) && holds(sums, 6, NULL, 0), "refused, and written");
    good &= expect(pz_areas(LAYER, TABLE, areas, 1, sums, 4, FIGURES) == 0 && ARE(0, 1, 4, 256 * 256), "the area");
    good &= expect(holds(areas, 2, traced + 3, 1) && holds(sums, 6, traced, 4), "the area and the sums");
    table[2] = 512 + 100, table[3] = 200, table[7] = 50, table[10] = 512 + 30;
    good &= expect(pz_areas(LAYER, TABLE, areas, 2, sums, 6, FIGURES) == 0 && ARE(0, 1, 4, 356 * 236), "the area with pins");
    good &= expect(holds(areas, 2, pinned + 3, 1) && holds(sums, 6, pinned, 4), "the area and the sums with pins");
    table[10] = 256 + 128;
    good &= expect(pz_areas(LAYER, TABLE, NULL, 0, NULL, 0, FIGURES) == 7 && ARE(2, 0, 0, 0), "7 before 14");
    return good;
}

/* A ring of 3 by 3 samples as traced: nine square pitches less an eighth at each corner, and a bore of half a square pitch. In halves of the pitch
 * the edges from 4, 7, 8, then 9 and 10 of the bore, 11, 12, 15, 21, 22, 23, then 27 and 32 of the bore, 36, 37 and 38 add these numbers. */
static int areas_of_ring(void) {
    const uint8_t bitmap[5] = {0, 0x0E, 0x0A, 0x0E, 0};
    const int64_t outline_and_bore[2] = {17 * 65536, -65536}, added[16] = {-3, 14, -2, -1, -1, 14, -2, 13, -2, -2, 5, 7, -9, 5, 14, 14};
    uint16_t table[40];
    int64_t areas[3], sums[18], expected[16], sum = 0;
    uint64_t figures[4];
    for (size_t i = 0; i < 16; i++) expected[i] = sum += 128 * 128 * added[i];
    for (size_t i = 0; i < 18; i++) areas[i % 3] = sums[i] = UNTOUCHED;
    int good = expect(pz_trace(5, 5, bitmap, 5, table, 40, FIGURES) == 0, "trace of a ring");
    good &= expect(pz_areas(5, 5, bitmap, 5, table, 40, areas, 1, sums, 16, FIGURES) == 14 && ARE(0, 0, 0, 0), "one area short");
    good &= expect(pz_areas(5, 5, bitmap, 5, table, 40, areas, 3, sums, 15, FIGURES) == 14 && ARE(0, 0, 0, 0), "15 sums for 16 edges");
    good &= expect(holds(areas, 3, NULL, 0) && holds(sums, 18, NULL, 0), "refused, and written for a ring");
    good &= expect(pz_areas(5, 5, bitmap, 5, table, 40, areas, 3, sums, 18, FIGURES) == 0 && ARE(0, 2, 16, 16 * 65536), "a ring");
    good &= expect(holds(areas, 3, outline_and_bore, 2) && holds(sums, 18, expected, 16), "an outline and a bore");
    return good;
}

/* A bar of three samples, its lower middle vertex slid to 140 and pinned, its last vertex, on stick 18, removed: seven edges, those from 4, 7, 13,
 * 14, 15, 19 (which closes the contour) and 20. And a layer without a contour. */
static int sums_of_bar(void) {
    const uint8_t bitmap[3] = {0, 0x0E, 0}, blank[3] = {0, 0, 0};
    const int64_t added[7] = {128 * 128 - 256 * 256, 896 * 384 - 768 * 256, 256 * 140 - 512 * 128, 512 * 128 - 768 * 140,
                              768 * 256 - 896 * 128, 512 * 256 - 128 * 384, 768 * 384 - 512 * 384};
    uint16_t table[22], none[22] = {0};
    int64_t areas[1] = {UNTOUCHED}, sums[8], expected[7], sum = 0;
    uint64_t figures[4];
    for (size_t i = 0; i < 8; i++) sums[i] = UNTOUCHED;
    for (size_t i = 0; i < 7; i++) expected[i] = sum += added[i];
    int good = expect(pz_areas(5, 3, blank, 3, none, 22, areas, 0, sums, 0, FIGURES) == 0 && ARE(0, 0, 0, 0), "no contour");
    good &= expect(pz_areas(5, 3, blank, 3, none, 22, areas, 1, sums, 8, FIGURES) == 0 && ARE(0, 0, 0, 0), "no contour, and room");
    good &= expect(pz_trace(5, 3, bitmap, 3, table, 22, FIGURES) == 0, "trace of a bar");
    table[14] = 512 + 140, table[18] = 256 + 128;
    good &= expect(pz_areas(5, 3, bitmap, 3, table, 22, areas, 1, sums, 6, FIGURES) == 14 && ARE(0, 0, 0, 0), "six sums for seven edges");
    good &= expect(holds(areas, 1, NULL, 0) && holds(sums, 8, NULL, 0), "written without a contour, or refused");
    good &= expect(pz_areas(5, 3, bitmap, 3, table, 22, areas, 1, sums, 7, FIGURES) == 0 && ARE(0, 1, 7, 288768), "the area of a bar");
    good &= expect(areas[0] == 288768 && holds(sums, 8, expected, 7), "the sums of a bar");
    return good;
}

int main(void) {
    const uint8_t bitmap[3] = {0, 2, 0}, spare[3] = {0, 10, 0};
    const uint8_t expected[20] = {0x4C, 3, 0, 3, 0, 0x43, 0, 0, 0, 1, 0, 0x4B, 255, 0x4B, 255, 0x4B, 1, 0x4B, 1, 0x45};
    const uint8_t edits[14] = {'S', 0, 0, 0, 1, 0, 128, 'X', 0, 0, 0, 1, 0, 'E'};
    const uint8_t pins[14] = {'P', 0, 0, 0, 1, 0, 'S', 0, 0, 0, 1, 0, 0, 'E'};
    uint16_t table[12] = {7}, read[12] = {9};
    uint8_t sheet[21], items[8];
    double points[8];
    uint64_t figures[4];
    int good = area_of_sample() & areas_of_ring() & sums_of_bar();
    memset(sheet, 0xAA, sizeof sheet);
    good &= expect(pz_counts(LAYER, TABLE, FIGURES) == 0 && figures[1] == 1 && figures[2] == 4 && figures[3] == 1, "counts");
    good &= expect(pz_trace(LAYER, TABLE, FIGURES) == 0 && table[2] == 128 && table[0] == 0, "trace");
    good &= expect(pz_smooth(LAYER, TABLE, 100, FIGURES) == 0 && figures[1] == 10 && figures[2] == 0 && figures[3] == 1, "smooth");
    good &= expect(pz_simplify(LAYER, TABLE, 64, FIGURES) == 0 && figures[1] == 0 && figures[2] == 6, "simplify");
    good &= expect(pz_write_sheet(LAYER, TABLE, sheet, 21, FIGURES) == 0 && figures[1] == 20, "write");
    good &= expect(memcmp(sheet, expected, 20) == 0 && sheet[20] == 0xAA, "the sheet");
    good &= expect(pz_read_sheet(LAYER, read, 12, sheet, 20, FIGURES) == 0 && memcmp(read, table, sizeof table) == 0, "read");
    good &= expect(pz_read_sheet(LAYER, read, 12, sheet, 21, FIGURES) == 8 && figures[0] == 20, "a byte too many");
    good &= expect(pz_roll(LAYER, TABLE, (const uint8_t *)"E", 1, 0, FIGURES) == 0 && figures[1] == 0, "an empty roll");
    good &= expect(pz_plan(LAYER, TABLE, items, 8, points, 8, FIGURES) == 0 && memcmp(items, "MlllZ", 5) == 0, "the list");
    good &= expect(points[0] == 255 / 256.0 && points[1] == 1.0, "its first point");
    good &= expect(pz_sample(LAYER, 1, 1, FIGURES) == 0 && figures[1] == 1, "a sample");
    good &= expect(pz_trace(3, 3, spare, sizeof spare, TABLE, FIGURES) == 3 && ARE(1, 0, 0, 0), "spare bits");
    good &= expect(pz_roll(LAYER, TABLE, edits, sizeof edits, 255, FIGURES) == 11 && ARE(7, 1, 0, 0), "an edit after one that is done");
    good &= expect(table[2] == 128 && table[7] == 255, "the table after it");
    good &= expect(pz_roll(LAYER, TABLE, pins, sizeof pins, 255, FIGURES) == 16 && ARE(6, 1, 0, 0), "a slide after a pin");
    good &= expect(table[2] == 640 && table[7] == 255, "the pin");
    good &= expect(pz_smooth(LAYER, TABLE, 100, FIGURES) == 0 && ARE(0, 1, 0, 1) && table[2] == 640, "smooth beside a pin");
    good &= expect(pz_simplify(LAYER, TABLE, 255, FIGURES) == 0 && ARE(0, 0, 6, 0) && table[2] == 640, "simplify beside a pin");
    good &= expect(pz_write_sheet(LAYER, TABLE, sheet, 20, FIGURES) == 0 && sheet[11] == 'N' && sheet[12] == 128, "the pin in the sheet");
    good &= expect(pz_read_sheet(LAYER, read, 12, sheet, 20, FIGURES) == 0 && memcmp(read, table, sizeof table) == 0, "the pin read");
    good &= expect(pz_trace(LAYER, TABLE, FIGURES) == 0 && table[2] == 128, "no pin after a trace");
    good &= expect(pz_counts(LAYER, NULL, 0, FIGURES) == 5 && ARE(0, 0, 0, 0), "no table");
    good &= expect(pz_roll(LAYER, TABLE, NULL, 0, 0, FIGURES) == 8 && ARE(0, 0, 0, 0), "no roll");
    good &= expect(pz_plan(LAYER, TABLE, items, 8, NULL, 0, FIGURES) == 14 && ARE(0, 0, 0, 0), "no room for points");
    good &= expect(pz_sample(LAYER, 1, 1, NULL, 0) == 14, "no figures");
    return !good;
}
