// The programs that are measured: each has the calls of the exported library, with its arguments and answers, four figures lent.
#pragma once
#include <cstddef>
#include <cstdint>
#include <vector>

struct Program {
    const char *name;
    uint32_t (*counts)(uint16_t w, uint16_t h, const uint8_t *bitmap, size_t bytes, const uint16_t *table, size_t entries, uint64_t *figures);
    uint32_t (*trace)(uint16_t w, uint16_t h, const uint8_t *bitmap, size_t bytes, uint16_t *table, size_t entries, uint64_t *figures);
    uint32_t (*smooth)(uint16_t w, uint16_t h, const uint8_t *bitmap, size_t bytes, uint16_t *table, size_t entries, uint16_t limit,
                       uint64_t *figures);
    uint32_t (*simplify)(uint16_t w, uint16_t h, const uint8_t *bitmap, size_t bytes, uint16_t *table, size_t entries, uint8_t t, uint64_t *figures);
    uint32_t (*roll)(uint16_t w, uint16_t h, const uint8_t *bitmap, size_t bytes, uint16_t *table, size_t entries, const uint8_t *roll, size_t length,
                     uint8_t t, uint64_t *figures);
    uint32_t (*write_sheet)(uint16_t w, uint16_t h, const uint8_t *bitmap, size_t bytes, const uint16_t *table, size_t entries, uint8_t *sheet,
                            size_t length, uint64_t *figures);
    uint32_t (*read_sheet)(uint16_t w, uint16_t h, const uint8_t *bitmap, size_t bytes, uint16_t *table, size_t entries, const uint8_t *sheet,
                           size_t length, uint64_t *figures);
    uint32_t (*plan)(uint16_t w, uint16_t h, const uint8_t *bitmap, size_t bytes, const uint16_t *table, size_t entries, uint8_t *items,
                     size_t item_count, double *points, size_t float_count, uint64_t *figures);
    uint32_t (*areas)(uint16_t w, uint16_t h, const uint8_t *bitmap, size_t bytes, const uint16_t *table, size_t entries, int64_t *areas,
                      size_t area_count, int64_t *sums, size_t sum_count, uint64_t *figures);
};

// The library; C++ that says each rule as plainly as it can, contours as vectors of sticks; C++ that looks at the time.
extern const Program puzhenim, plain, fast;

// The commands of a roll that are accepted one after the other on this table, which they change; the refused ones are left out.
std::vector<uint8_t> accepted(uint16_t w, uint16_t h, const uint8_t *bitmap, uint16_t *table, const std::vector<uint8_t> &roll, uint8_t t);
