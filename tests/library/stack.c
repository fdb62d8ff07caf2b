/* Every exported call on five layers of 1024 by 1024 samples, each in a thread of its own with a stack of exactly 512 kB and a page below it
 * that must not be touched. The answers are those that the rules give by arithmetic alone, and no call needs more stack than the header
 * says. Silent if all is right; with an argument it prints how much stack each call needed. */
#define _GNU_SOURCE
#include "../../include/puzhenim.h"
#include <pthread.h>
#include <stdio.h>
#include <stdlib.h>
#include <string.h>
#include <sys/mman.h>

#define SIDE 1024
#define HORIZONTAL ((SIDE - 1) * SIDE)
#define EDGES (2 * HORIZONTAL)
#define STACK (512 * 1024)
#define PAGE 4096
#define PAINT 0xA5

static uint8_t bitmap[SIDE * SIDE / 8], sheet[4 * EDGES], roll[7 * EDGES + 7], items[2 * EDGES];
static uint16_t table[EDGES], before[EDGES];
static double points[2 * EDGES];
static int64_t areas[EDGES / 4], sums[EDGES], added[EDGES];
static uint64_t figures[4];
static size_t sheet_len, roll_len;
static uint8_t *stack, *start;

#define LAYER SIDE, SIDE, bitmap, sizeof bitmap
#define TABLE table, EDGES
#define FIGURES figures, 4

static uint32_t counts(void) { return pz_counts(LAYER, TABLE, FIGURES); }
static uint32_t trace(void) { return pz_trace(LAYER, TABLE, FIGURES); }
static uint32_t smooth(void) { return pz_smooth(LAYER, TABLE, 1, FIGURES); }
static uint32_t simplify(void) { return pz_simplify(LAYER, TABLE, 64, FIGURES); }
static uint32_t edit(void) { return pz_roll(LAYER, TABLE, roll, roll_len, 255, FIGURES); }
static uint32_t write_sheet(void) { return pz_write_sheet(LAYER, TABLE, sheet, sizeof sheet, FIGURES); }
static uint32_t read_sheet(void) { return pz_read_sheet(LAYER, TABLE, sheet, sheet_len, FIGURES); }
static uint32_t plan(void) { return pz_plan(LAYER, TABLE, items, sizeof items, points, 2 * EDGES, FIGURES); }
static uint32_t measure(void) { return pz_areas(LAYER, TABLE, areas, EDGES / 4, sums, EDGES, FIGURES); }
static uint32_t sample(void) { return pz_sample(LAYER, 1, 1, FIGURES); }

/* A call, and the most stack that the header grants it. */
typedef struct {
    const char *name;
    uint32_t (*make)(void);
    size_t most;
} Call;

static const Call COUNTS = {"pz_counts", counts, 132 * 1024}, TRACE = {"pz_trace", trace, 1024}, SMOOTH = {"pz_smooth", smooth, 132 * 1024},
                  SIMPLIFY = {"pz_simplify", simplify, 258 * 1024}, ROLL = {"pz_roll", edit, 132 * 1024},
                  WRITE = {"pz_write_sheet", write_sheet, 132 * 1024}, READ = {"pz_read_sheet", read_sheet, 132 * 1024},
                  PLAN = {"pz_plan", plan, 265 * 1024}, AREAS = {"pz_areas", measure, 132 * 1024}, SAMPLE = {"pz_sample", sample, 1024};

static const char *layer;
static int shows;

static void expect(int right, const char *call, const char *what) {
    if (right) return;
    fprintf(stderr, "stack.c: %s, %s: %s\n", layer, call, what);
    exit(1);
}

static void *run(void *call) {
    start = __builtin_frame_address(0);
    return (void *)(uintptr_t)((const Call *)call)->make();
}

/* Makes a call that must be done, on a stack that is filled before and looked through after. */
static void make(const Call *call) {
    pthread_attr_t attributes;
    pthread_t thread;
    void *number;
    size_t low = 0;
    memset(stack, PAINT, STACK);
    memset(figures, PAINT, sizeof figures);
    pthread_attr_init(&attributes);
    expect(!pthread_attr_setstack(&attributes, stack, STACK), call->name, "the stack is not taken");
    expect(!pthread_create(&thread, &attributes, run, (void *)call), call->name, "no thread");
    pthread_join(thread, &number);
    pthread_attr_destroy(&attributes);
    while (stack[low] == PAINT) low++;
    size_t need = start - (stack + low);
    if (shows) printf("%-12s %-14s %6zu\n", layer, call->name, need);
    expect(!number && figures[0] == 0, call->name, "refused");
    expect(need <= call->most, call->name, "more stack than the header says");
}

static void answered(const Call *call, uint64_t one, uint64_t two, uint64_t three) {
    expect(figures[1] == one && figures[2] == two && figures[3] == three, call->name, "other figures");
}

static size_t inside(size_t c, size_t r) { return bitmap[r * (SIDE / 8) + c / 8] >> c % 8 & 1; }

/* How far a sample is from the border. */
static size_t way(size_t c, size_t r) {
    size_t across = c < SIDE - 1 - c ? c : SIDE - 1 - c, up = r < SIDE - 1 - r ? r : SIDE - 1 - r;
    return across < up ? across : up;
}

/* The rule of a layer, for the samples off the border. */
static int is_inside(size_t c, size_t r) {
    if (!strcmp(layer, "checkerboard")) return (c + r) % 2 == 0;
    if (!strcmp(layer, "serpentine")) return r % 2 == 1 || (r / 2 % 2 == 0 ? c == 1 : c == SIDE - 2);
    if (!strcmp(layer, "squares")) return way(c, r) % 2;
    if (!strcmp(layer, "passages")) return r % 5 > 1 || c < 4 || c > SIDE - 5 || (c + 16 * (r / 5)) % 256 < 3;
    uint32_t noise = (uint32_t)(r * SIDE + c) * 2654435761u;
    noise = (noise ^ noise >> 15) * 2246822519u;
    return (noise ^ noise >> 13) >> 7 & 1;
}

static void fill_bitmap(void) {
    memset(bitmap, 0, sizeof bitmap);
    for (size_t r = 1; r + 1 < SIDE; r++)
        for (size_t c = 1; c + 1 < SIDE; c++)
            if (is_inside(c, r)) bitmap[r * (SIDE / 8) + c / 8] |= 1 << c % 8;
}

/* Fills the roll with a command for each vertex that is kept and not pinned, and answers how many: S, a slide to an offset, or to where it is
 * if that is 0; or P. */
static size_t fill_roll(uint8_t letter, uint8_t offset) {
    size_t n = 0, width = letter == 'S' ? 7 : 6;
    for (size_t e = 0; e < EDGES; e++) {
        size_t kind = e >= HORIZONTAL, across = SIDE - 1 + kind, k = e - kind * HORIZONTAL, c = k % across, r = k / across;
        if (table[e] == 0 || table[e] > 255) continue;
        const uint8_t command[7] = {letter, kind, c % 256, c / 256, r % 256, r / 256, offset ? offset : table[e]};
        memcpy(roll + width * n++, command, width);
    }
    roll[width * n] = 'E';
    roll_len = width * n + 1;
    return n;
}

/* How many entries are `low` to `high`. */
static size_t entries(uint16_t low, uint16_t high) {
    size_t n = 0;
    for (size_t e = 0; e < EDGES; e++) n += low <= table[e] && table[e] <= high;
    return n;
}

static uint64_t movement(void) {
    uint64_t total = 0;
    for (size_t e = 0; e < EDGES; e++) total += abs(table[e] - before[e]);
    return total;
}

/* Twice what the contours of a traced layer enclose, square by square: an inside corner that is cut off has an eighth of a square pitch. */
static int64_t traced_area(void) {
    int64_t eighths = 0;
    for (size_t r = 0; r + 1 < SIDE; r++)
        for (size_t c = 0; c + 1 < SIDE; c++) {
            size_t one = inside(c, r) + inside(c + 1, r + 1), other = inside(c + 1, r) + inside(c, r + 1);
            eighths += one + other == 2 ? (one == 1 ? 4 : 2) : one + other == 3 ? 7 : one + other == 4 ? 8 : one + other;
        }
    return 2 * 65536 / 8 * eighths;
}

static int64_t coordinate(size_t k) { return (int64_t)(256 * points[k]); }

/* The number of the stick that a point of the list lies on: a horizontal one in a row of samples. */
static size_t stick_of(size_t k) {
    size_t x = coordinate(2 * k), y = coordinate(2 * k + 1);
    return y % 256 == 0 ? y / 256 * (SIDE - 1) + x / 256 : HORIZONTAL + y / 256 * SIDE + x / 256;
}

/* What the edge from a point of the list to another adds. */
static int64_t adds(size_t from, size_t to) {
    return coordinate(2 * from) * coordinate(2 * to + 1) - coordinate(2 * to) * coordinate(2 * from + 1);
}

/* Twice what the contours of a list of so many items enclose, by the trapezoids between their edges and x = 0. What each edge adds is left at the
 * number of the stick that it starts from. */
static int64_t listed_area(size_t count) {
    int64_t area = 0;
    size_t first = 0, last = 0, next = 0;
    for (size_t i = 0; i < count; i++) {
        size_t to = items[i] == 'Z' ? first : next++;
        if (items[i] == 'M') {
            first = to;
        } else {
            area += (coordinate(2 * last) + coordinate(2 * to)) * (coordinate(2 * to + 1) - coordinate(2 * last + 1));
            added[stick_of(last)] = adds(last, to);
        }
        last = to;
    }
    return area;
}

/* The areas: those of outlines are above 0 and those of bores below, they add up to the total, and what is past them stays. The sums: one for each
 * kept vertex, the last of them the total, and what is past them stays. */
static void measured(uint64_t outlines, uint64_t bores, int64_t total) {
    uint64_t contours = outlines + bores, edges = entries(1, 255) + entries(513, 767), above = 0, below = 0, stay = 0;
    int64_t sum = 0;
    memset(areas, 0xFF, sizeof areas);
    memset(sums, 0xFF, sizeof sums);
    make(&AREAS), answered(&AREAS, contours, edges, total);
    for (size_t i = 0; i < contours; i++) above += areas[i] > 0, below += areas[i] < 0, sum += areas[i];
    for (size_t i = contours; i < EDGES / 4; i++) stay += areas[i] == -1;
    for (size_t i = edges; i < EDGES; i++) stay += sums[i] == -1;
    expect(above == outlines && below == bores && sum == total, "pz_areas", "other areas");
    expect(sums[edges - 1] == total, "pz_areas", "another last sum");
    expect(stay == EDGES / 4 - contours + EDGES - edges, "pz_areas", "more areas or sums");
}

/* The sums after each edge of the list, by the number of the stick that it starts from. */
static void summed(void) {
    int64_t sum = 0;
    size_t place = 0;
    for (size_t e = 0; e < EDGES; e++) {
        if (table[e] % 512 == 0 || table[e] % 512 > 255) continue;
        sum += added[e];
        expect(sums[place++] == sum, "pz_areas", "other sums");
    }
}

/* The sheet, read back over another table, and the list, with so many vertices kept; areas and sums are those of the list's contours. */
static void write_and_read(uint64_t outlines, uint64_t bores, uint64_t sticks, uint64_t kept) {
    uint64_t contours = outlines + bores;
    memcpy(before, table, sizeof table);
    sheet_len = 6 + 6 * contours + 2 * sticks;
    make(&WRITE), answered(&WRITE, sheet_len, 0, 0);
    memset(table, 7, sizeof table);
    make(&READ), answered(&READ, 0, 0, 0);
    expect(!memcmp(before, table, sizeof table), "pz_read_sheet", "another table");
    make(&PLAN), answered(&PLAN, kept + contours, 2 * kept, 0);
    measured(outlines, bores, listed_area(kept + contours));
    summed();
}

/* All calls on a layer of so many outlines and bores. */
static void all_calls(const char *name, uint64_t outlines, uint64_t bores) {
    uint64_t samples = 0, sticks = 0, contours = outlines + bores;
    layer = name;
    fill_bitmap();
    for (size_t r = 0; r + 1 < SIDE; r++)
        for (size_t c = 0; c + 1 < SIDE; c++) {
            samples += inside(c, r);
            sticks += (inside(c, r) ^ inside(c + 1, r)) + (inside(c, r) ^ inside(c, r + 1));
        }
    make(&SAMPLE), answered(&SAMPLE, is_inside(1, 1), 0, 0);
    make(&COUNTS), answered(&COUNTS, samples, sticks, contours);
    make(&TRACE), answered(&TRACE, 0, 0, 0);
    expect(entries(128, 128) == sticks && entries(0, 0) == EDGES - sticks, "pz_trace", "another table");
    measured(outlines, bores, traced_area());
    /* Between two kept vertices there is no stick to cross. */
    fill_roll('S', 100);
    make(&ROLL), answered(&ROLL, sticks, 0, 0);
    expect(entries(100, 100) == sticks, "pz_roll", "another table");
    memcpy(before, table, sizeof table);
    /* After one pass the last totals are all that moved. One contour is settled if that is below its bound. Of several one is short and moves at
     * its corners, so that not all are settled; taken together the squares would be. */
    make(&SMOOTH), answered(&SMOOTH, 1, movement(), contours == 1 && 1000 * movement() < 256 * sticks);
    expect(entries(1, 255) == sticks, "pz_smooth", "another table");
    make(&SIMPLIFY);
    expect(figures[1] == entries(257, 511) && figures[3] == 0, "pz_simplify", "other vertices removed");
    expect(2 * contours <= figures[2] && figures[2] <= 2 * (sticks - contours), "pz_simplify", "runs tried");
    /* A vertex slid to where it is redraws the edges that are held, and no slide is longer than 255. */
    memcpy(before, table, sizeof table);
    uint64_t kept = fill_roll('S', 0);
    make(&ROLL), answered(&ROLL, kept, 0, 0);
    expect(!memcmp(before, table, sizeof table), "pz_roll", "another table");
    /* Pinned vertices are kept ones: sheet and list are as long as without pins. */
    fill_roll('P', 0);
    make(&ROLL), answered(&ROLL, kept, 0, 0);
    expect(entries(513, 767) == kept && entries(1, 255) == 0, "pz_roll", "not every kept vertex is pinned");
    write_and_read(outlines, bores, sticks, kept);
}

int main(int argc, char **argv) {
    (void)argv;
    shows = argc > 1;
    uint8_t *memory = mmap(NULL, PAGE + STACK, PROT_NONE, MAP_PRIVATE | MAP_ANONYMOUS, -1, 0);
    stack = memory + PAGE;
    if (memory == MAP_FAILED || mprotect(stack, STACK, PROT_READ | PROT_WRITE)) return 1;
    /* Outlines go around the connected parts of inside samples, by sides; bores around those of outside ones, by sides and corners, but for
     * the outermost. */
    all_calls("checkerboard", 522242, 0);
    all_calls("serpentine", 1, 0);
    all_calls("passages", 1, 1008);
    all_calls("squares", SIDE / 4, SIDE / 4 - 1);
    all_calls("noise", 69357, 3408 - 1);
    return 0;
}
