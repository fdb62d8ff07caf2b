// A layer, what a call may change, and each call with its arguments, to be made by any program.
#pragma once
#include "layers.h"
#include "programs.h"
#include <functional>

struct Layer {
    const char *name;
    uint16_t w, h;
    std::vector<uint8_t> bitmap;
    size_t entries() const { return size_t(w - 1) * h + size_t(w) * (h - 1); }
};

struct Buffers {
    std::vector<uint16_t> table;
    std::vector<uint8_t> bytes;
    std::vector<double> floats;
    std::vector<int64_t> areas, sums;
    uint64_t figures[4] = {};
    uint32_t number = 0;
    bool operator==(const Buffers &o) const {
        return table == o.table && bytes == o.bytes && floats == o.floats && areas == o.areas && sums == o.sums &&
               number == o.number && !memcmp(figures, o.figures, sizeof figures);
    }
};

using Call = std::function<void(const Program &, Buffers &)>;

// Calls refer to the layer and copy the roll or the sheet that they are made with.
struct Calls {
    const Layer &layer;

#define CALL(name, ...) \
    [=, &layer = layer](const Program &p, Buffers &b) { \
        b.number = p.name(layer.w, layer.h, layer.bitmap.data(), layer.bitmap.size(), b.table.data(), b.table.size(), __VA_ARGS__); \
    }
    Call counts() const { return CALL(counts, b.figures); }
    Call trace() const { return CALL(trace, b.figures); }
    Call smooth(uint16_t limit) const { return CALL(smooth, limit, b.figures); }
    Call simplify(uint8_t t) const { return CALL(simplify, t, b.figures); }
    Call roll(const std::vector<uint8_t> &roll, uint8_t t) const { return CALL(roll, roll.data(), roll.size(), t, b.figures); }
    Call write_sheet() const { return CALL(write_sheet, b.bytes.data(), b.bytes.size(), b.figures); }
    Call read_sheet(const std::vector<uint8_t> &sheet) const { return CALL(read_sheet, sheet.data(), sheet.size(), b.figures); }
    Call plan() const { return CALL(plan, b.bytes.data(), b.bytes.size(), b.floats.data(), b.floats.size(), b.figures); }
    Call areas() const { return CALL(areas, b.areas.data(), b.areas.size(), b.sums.data(), b.sums.size(), b.figures); }
#undef CALL
};
