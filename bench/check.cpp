// Compares the programs on random small layers and tables, damaged ones too: every call must give the same answer and leave the same buffers.
#include "buffers.h"
#include <algorithm>
#include <cstdio>
#include <cstdlib>

namespace {

uint64_t state = 1;
// A random number below n.
size_t below(size_t n) { return (state = state * 6364136223846793005u + 1442695040888963407u, state >> 33) % n; }
bool one_in(size_t n) { return below(n) == 0; }

// Sides around those where a byte or a word begins too.
size_t side() { return one_in(4) ? 62 + below(5) : one_in(4) ? 7 + below(4) : 2 + below(20); }

Layer random_layer() {
    Layer layer = {"random", uint16_t(side()), uint16_t(side()), {}};
    size_t w = layer.w, h = layer.h, stride = (w + 7) / 8, dense = 1 + below(4), coarse = one_in(3) ? 4 + below(9) : 1 + below(3), salt = below(1 << 30);
    layer.bitmap.assign(stride * h, 0);
    for (size_t r = 1; r + 1 < h; r++)
        for (size_t c = 1; c + 1 < w; c++)
            if (mixed(salt + (r / coarse << 20) + c / coarse) % 4 < dense) layer.bitmap[r * stride + c / 8] |= 1 << c % 8;
    return layer;
}

void damage(Layer &layer) {
    switch (below(4)) {
    case 0: layer.bitmap.resize(layer.bitmap.size() + below(3) - 1); break;
    case 1: layer.w = one_in(2) ? below(3) : 1023 + below(3); break;
    case 2: layer.h = one_in(2) ? below(3) : 1023 + below(3); break;
    default: layer.bitmap[below(layer.bitmap.size())] ^= 1 << below(8);
    }
}

// Offsets, pins and removals of a table of sticks, and now and then a wrong entry.
void alter(std::vector<uint16_t> &table) {
    size_t offsets = below(4), pins = 1 + below(40), removals = 1 + below(40);
    bool removes = one_in(3), pinned = one_in(3);
    for (uint16_t &entry : table)
        if (entry) {
            if (offsets == 1) entry = (entry & ~255) + 1 + below(255);
            if (offsets == 2) entry = (entry & ~255) + 120 + below(17);
            if (pinned && entry < 256 && one_in(pins)) entry += 512;
            if (removes && entry < 256 && one_in(removals)) entry += 256;
        }
    if (!one_in(8)) return;
    size_t n = below(table.size());
    for (size_t tries = below(50); table[n] == 0 && tries > 0; tries--) n = below(table.size());
    table[n] = one_in(2) ? 256 * below(5) + below(2) : below(one_in(2) ? 1024 : 65536);
}

// Commands for the vertices, which may be among few so that neighbours are edited, and now and then for any edge.
std::vector<uint8_t> random_roll(const Layer &layer, const std::vector<uint16_t> &table, size_t times) {
    std::vector<uint8_t> roll;
    std::vector<size_t> vertices;
    size_t w = layer.w, h = layer.h, across = h * (w - 1), few = one_in(2) ? 12 : table.size(), removals = 1 + below(4);
    for (size_t n = 0; n < table.size(); n++)
        if (table[n] && table[n] < 256) vertices.push_back(n);
    for (; times > 0 && w > 1; times--) {
        size_t n = vertices.empty() || one_in(500) ? below(table.size() + 1) : vertices[below(std::min(few, vertices.size()))];
        size_t kind = n >= across, c = kind ? (n - across) % w : n % (w - 1), r = kind ? (n - across) / w : n / (w - 1);
        if (one_in(1000)) kind = below(256);
        uint8_t letter = one_in(100) ? 'P' : one_in(removals) ? 'X' : 'S';
        for (size_t byte : {size_t(letter), kind, c % 256, c / 256, r % 256, r / 256}) roll.push_back(byte);
        if (letter == 'S') roll.push_back(one_in(200) ? 0 : one_in(2) ? 1 + below(255) : 100 + below(57));
    }
    roll.push_back('E');
    return roll;
}

void damage(std::vector<uint8_t> &bytes) {
    size_t at = below(bytes.size());
    switch (below(4)) {
    case 0: bytes.resize(at); break;
    case 1: bytes.push_back(below(256)); break;
    case 2: bytes[at] = "KRNCLESXP"[below(9)]; break;
    default: bytes[at] = below(4) ? below(256) : 0;
    }
}

size_t calls = 0, done = 0;

// The call by each program on the same buffers; the buffers that it leaves.
Buffers same(const char *name, const Layer &layer, const Buffers &before, const Call &call) {
    Buffers after = before;
    call(plain, after);
    calls++, done += after.number == 0;
    for (const Program *program : {&puzhenim, &fast}) {
        Buffers other = before;
        call(*program, other);
        if (other == after) continue;
        fprintf(stderr, "%s and plain differ: %s, %u by %u samples, %u %llu and %u %llu\n", program->name, name, layer.w, layer.h, other.number,
                (unsigned long long)other.figures[0], after.number, (unsigned long long)after.figures[0]);
        exit(1);
    }
    return after;
}

void every_call(const Layer &layer, Buffers start) {
    auto check = [&](const char *name, const Buffers &before, const Call &call) { return same(name, layer, before, call); };
    Calls make{layer};
    start.bytes.assign(6 + 4 * start.table.size(), 1);
    start.floats.assign(2 * start.table.size(), 1);
    start.areas.assign(start.table.size() / 4 + 1, 1);
    start.sums.assign(start.table.size(), 1);
    check("counts", start, make.counts());
    check("trace", start, make.trace());
    Buffers smoothed = check("smooth", start, make.smooth(one_in(5) ? 0 : below(30)));
    check("simplify", start, make.simplify(below(2) ? below(256) : below(3)));
    Buffers simplified = check("simplify", smoothed, make.simplify(one_in(2) ? 255 : below(256)));
    for (Buffers *from : {&start, &simplified}) {
        std::vector<uint8_t> roll = random_roll(layer, from->table, below(300));
        uint8_t t = one_in(3) ? below(256) : one_in(2) ? below(40) : 255;
        Buffers asked = *from;
        make.roll({'E'}, t)(plain, asked);
        if (asked.number == 0 && !one_in(8)) { // most of the commands that are refused are left out
            std::vector<uint8_t> good = accepted(layer.w, layer.h, layer.bitmap.data(), asked.table.data(), roll, t);
            good.pop_back();
            if (one_in(3)) good.insert(good.end(), roll.begin(), roll.end());
            else good.push_back('E');
            roll = good;
        }
        if (one_in(10)) damage(roll);
        check("roll", *from, make.roll(roll, t));
    }
    for (int i = 0; i < 4; i++) check("roll", simplified, make.roll(random_roll(layer, simplified.table, 1 + below(3)), below(40)));
    Buffers sheet = check("write sheet", simplified, make.write_sheet());
    std::vector<uint8_t> bytes(sheet.bytes.begin(), sheet.bytes.begin() + sheet.figures[1]);
    if (!bytes.empty()) {
        check("read sheet", start, make.read_sheet(bytes));
        for (int i = 0; i < 3; i++) {
            damage(bytes);
            if (bytes.empty()) break;
            check("read sheet", start, make.read_sheet(bytes));
        }
    }
    if (one_in(4)) simplified.bytes.resize(below(simplified.bytes.size())), simplified.floats.resize(below(simplified.floats.size() + 1));
    if (one_in(8)) simplified.areas.resize(below(simplified.areas.size()));
    if (one_in(8)) simplified.sums.resize(below(simplified.sums.size() + 1));
    check("write sheet", simplified, make.write_sheet());
    check("plan", simplified, make.plan());
    check("areas", simplified, make.areas());
}

}

void check() {
    for (int i = 0; i < 4000; i++) {
        Layer layer = random_layer();
        Buffers start;
        start.table.assign(layer.entries(), 7);
        if (!one_in(20)) Calls{layer}.trace()(plain, start);
        alter(start.table);
        if (one_in(10)) damage(layer);
        if (one_in(30)) start.table.resize(start.table.size() + below(3) - 1);
        every_call(layer, start);
    }
    printf("%zu calls on random layers, %zu of them done: the three programs agree\n", calls, done);
}
