/* Puzhenim: contours of a sampled layer, proved correct. Link with libpuzhenim.a (x86-64-v2, Linux).
 *
 * Every function returns 0 if the call is done, else the number of the question that was answered no (1 to 16, below), and writes four
 * figures: the place that goes with a refusal, 0 if there is none, then the call's own, 0 for the rest. All figures of a refused call but the
 * place are 0, except that figures[1] of a roll that is refused by 9 to 13 or 16 is the count of commands done. With fewer than four figures
 * lent a call returns 14 before any question and touches nothing; figures past the fourth stay.
 *
 * A refusal leaves every other buffer as found, but for the earlier commands of a roll, which stay done. Outputs past the answer's end stay.
 *
 * What the caller owes: a length counts elements; a pointer is valid for so many elements, aligned for its type, and not null unless the
 * length is 0; a buffer that is not const overlaps no other of the same call, figures included. Nothing else: every value and every length
 * is allowed. A call allocates nothing and keeps nothing, so calls may run at once where none writes a buffer that another is lent.
 *
 * w, h       columns and rows, 2 to 1024 each
 * bitmap     h * ((w + 7) / 8) bytes; sample (c, r) is bit c % 8, least significant first, of byte r * ((w + 7) / 8) + c / 8; 1 is inside;
 *            row 0 is lowest; spare bits are 0 and border samples outside
 * table      the hold table, an entry for each grid edge: (w - 1) * h + w * (h - 1). Edge (c, r) to (c + 1, r) has entry r * (w - 1) + c,
 *            edge (c, r) to (c, r + 1) entry h * (w - 1) + r * w + c. 0: no stick, its samples are alike; 1 to 255: a stick with a kept
 *            vertex at that offset from (c, r), in 1/256 of the pitch; 257 to 511: 256 and the offset that a removed vertex last had;
 *            513 to 767: 512 and the offset of a kept vertex that is pinned
 * roll       S and a stick and an offset slides a vertex, X and a stick removes one, P and a stick pins one, E ends the roll: 7, 6, 6 and
 *            1 bytes. A stick is kind (0 from (c, r) to (c + 1, r), 1 to (c, r + 1)), c, r: 5 bytes, c and r of 16 bits, low byte first
 * sheet      L, w, h (16 bits, low byte first); for each contour C and its first stick, then K (kept), N (kept and pinned) or R (removed)
 *            and the offset of each vertex; E. A contour is walked with inside on its left from the stick with its lowest entry, and
 *            contours are ordered by that entry. Letters are ASCII bytes
 *
 * A pinned vertex is a kept one wherever kept vertices are spoken of. Only pz_trace, which pins none, and pz_read_sheet, which pins those with
 * N, move or remove a pinned vertex or take its pin away; no command of a roll does.
 *
 * The questions, in this order, and the place of a refusal. pz_counts and pz_trace put 1 to 5, pz_smooth and pz_simplify 1 to 7 and 15,
 * pz_roll 1 to 8 and for each command those of 9, 16 and 10 to 13 that it has (P has 9 alone), pz_write_sheet, pz_plan and pz_areas 1 to 7
 * and 14, pz_read_sheet 1 to 5, 8 and then 7, pz_sample 1 to 4.
 *
 *  1  Are w and h 2 to 1024? (0)
 *  2  Is the bitmap's length exact? (0)
 *  3  Are spare bits 0? (lowest byte index)
 *  4  Are border samples outside? (lowest r * w + c)
 *  5  Is the table's length exact? (0)
 *  6  Is each entry 0 off sticks, and 1 to 255, 257 to 511 or 513 to 767 on them? (lowest entry)
 *  7  Has each contour three kept vertices or more, and does each drawn edge cross every removed stick between its ends? (entry of the
 *     first stick of the first contour of which it is not so)
 *  8  Is the roll or sheet well formed to its last byte, a sheet also that of this bitmap with offsets 1 to 255? (byte index where the first
 *     command starts that is wrong, cut short, missing or extra)
 *  9  Does the named stick lie in the grid (a kind above 1 does not) and carry a kept vertex? (9 to 13 and 16: byte index where the command
 *     starts)
 * 10  Is the new offset 1 to 255?
 * 11  Does each redrawn edge cross its removed sticks, the one being removed included?
 * 12  Does each such vertex slide by at most t along its stick to the redrawn edge?
 * 13  Are three kept vertices left?
 * 14  Does each output hold the whole answer? (0). Fewer than four figures are 14 for every call, before 1, and nothing is written
 * 15  Is every vertex kept? (lowest entry of a removed one)
 * 16  Is the vertex that is to be slid or removed not pinned? It is put after 9 and before 10
 *
 * Stack that a call needs at most, in units of 1024 bytes: pz_plan 265, pz_simplify 258, pz_trace and pz_sample 1, the others 132. This is
 * measured on the archive, not proved. */
#ifndef PUZHENIM_H
#define PUZHENIM_H

#include <stddef.h>
#include <stdint.h>

#ifdef __cplusplus
extern "C" {
#endif

/* Of the table only the length is looked at. figures: place, inside samples, sticks, contours */
uint32_t pz_counts(uint16_t w, uint16_t h, const uint8_t *bitmap, size_t bitmap_len, const uint16_t *table, size_t table_len,
                   uint64_t *figures, size_t figures_len);

/* Every stick kept at 128 and none pinned, whatever the table held. figures: place */
uint32_t pz_trace(uint16_t w, uint16_t h, const uint8_t *bitmap, size_t bitmap_len, uint16_t *table, size_t table_len,
                  uint64_t *figures, size_t figures_len);

/* Each contour by passes of its own until it is settled, by at most `limit`. A pinned vertex stays: it adds 0 to a total and counts among the
 * contour's vertices. figures: place, most passes of a contour, sum of the contours' last totals in 1/256 of the pitch, 1 if all are settled */
uint32_t pz_smooth(uint16_t w, uint16_t h, const uint8_t *bitmap, size_t bitmap_len, uint16_t *table, size_t table_len,
                   uint16_t limit, uint64_t *figures, size_t figures_len);

/* Removes the inner vertices of runs whose chord crosses every stick between and slides none by more than t, in 1/256 of the pitch, and that have
 * no pinned vertex inside. figures: place, removed, runs tried. With the figures of pz_counts the runs tried are 2 * sticks - 2 * contours at most,
 * and two fewer for each vertex removed */
uint32_t pz_simplify(uint16_t w, uint16_t h, const uint8_t *bitmap, size_t bitmap_len, uint16_t *table, size_t table_len,
                     uint8_t t, uint64_t *figures, size_t figures_len);

/* Applies an edit roll with the tolerance t, up to the first edit that is refused. A pin on a pinned vertex is done and alters nothing. figures:
 * place, commands done, E not counted */
uint32_t pz_roll(uint16_t w, uint16_t h, const uint8_t *bitmap, size_t bitmap_len, uint16_t *table, size_t table_len,
                 const uint8_t *roll, size_t roll_len, uint8_t t, uint64_t *figures, size_t figures_len);

/* Writes the sheet, 6 + 6 * contours + 2 * sticks bytes. figures: place, length */
uint32_t pz_write_sheet(uint16_t w, uint16_t h, const uint8_t *bitmap, size_t bitmap_len, const uint16_t *table, size_t table_len,
                        uint8_t *sheet, size_t sheet_len, uint64_t *figures, size_t figures_len);

/* Reads a sheet into the table, whatever that held; pinned are the vertices with N. figures: place */
uint32_t pz_read_sheet(uint16_t w, uint16_t h, const uint8_t *bitmap, size_t bitmap_len, uint16_t *table, size_t table_len,
                       const uint8_t *sheet, size_t sheet_len, uint64_t *figures, size_t figures_len);

/* Writes the planner's list: for each contour an 'M' and the first kept vertex, an 'l' and a vertex for each further one, a 'Z' without any;
 * x and y in samples. kept + contours items and 2 * kept floats, at most sticks + contours and 2 * sticks. Contours come by depth, which is the
 * number of other contours around them, and among equal depth by the entry of their first stick; so each comes after those around it. Outlines
 * have even depth and bores odd depth. The order depends on the bitmap alone. figures: place, items, floats */
uint32_t pz_plan(uint16_t w, uint16_t h, const uint8_t *bitmap, size_t bitmap_len, const uint16_t *table, size_t table_len,
                 uint8_t *items, size_t items_len, double *points, size_t points_len, uint64_t *figures, size_t figures_len);

/* Writes to areas a number for each contour, in the order of the sheet, which is not that of the planner's list: twice its signed area in
 * 1/65536 of a square pitch, so that a square of one pitch by one pitch is 131072. It is the sum over the contour's drawn edges, in 1/256 of the
 * pitch, of start x * end y - end x * start y; a drawn edge joins two kept vertices, pinned or not, with only removed ones between. The number
 * of an outline, which winds around the inside ends of its sticks, is above 0, that of a bore, which winds around the outside ends, below 0.
 *
 * Writes to sums a number for each drawn edge, in the order of the index in the table of the stick that it starts from: the sum over the drawn
 * edges up to and including this one, whatever their contours. A drawn edge starts from each kept vertex, so there are as many sums as kept
 * entries. On the way a sum may be below 0 or above the last.
 *
 * The total is the last of the sums, 0 if there is none, and the sum of the areas. It is above 0 if there is a contour. As a figure it is
 * signed, in two's complement: (int64_t)figures[3]. figures: place, contours, drawn edges, total */
uint32_t pz_areas(uint16_t w, uint16_t h, const uint8_t *bitmap, size_t bitmap_len, const uint16_t *table, size_t table_len,
                  int64_t *areas, size_t areas_len, int64_t *sums, size_t sums_len, uint64_t *figures, size_t figures_len);

/* One sample, 1 if inside; off the grid it is outside. figures: place, sample */
uint32_t pz_sample(uint16_t w, uint16_t h, const uint8_t *bitmap, size_t bitmap_len, uint16_t column, uint16_t row,
                   uint64_t *figures, size_t figures_len);

#ifdef __cplusplus
}
#endif

#endif
