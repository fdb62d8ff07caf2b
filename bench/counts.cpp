// Counts as a straightforward program: ones of the row bytes, and walks with a byte for each horizontal edge that one has passed. `counts make NAME`
// writes a script with one layer and one call, `counts answer` answers a script as the tests' scripts are.
#include "layers.h"
#include <cstdint>
#include <cstdio>
#include <cstring>
#include <vector>

struct Layer {
    size_t w, h, stride;
    std::vector<uint8_t> bytes;
    Layer(size_t w, size_t h) : w(w), h(h), stride((w + 7) / 8), bytes(stride * h, 0) {}
    bool inside(size_t c, size_t r) const { return bytes[r * stride + c / 8] >> (c % 8) & 1; }
    void set(size_t c, size_t r) { bytes[r * stride + c / 8] |= 1 << (c % 8); }
};

// Walks with inside on the left, in directions 0 north, 1 east, 2 south, 3 west, all state in local variables.
static size_t contours(const Layer &layer) {
    std::vector<uint8_t> passed((layer.w - 1) * layer.h, 0);
    size_t found = 0;
    for (size_t row = 0; row < layer.h; row++)
        for (size_t column = 0; column + 1 < layer.w; column++) {
            bool first = layer.inside(column, row);
            if (first == layer.inside(column + 1, row) || passed[row * (layer.w - 1) + column]) continue;
            found++;
            bool vertical = false;
            size_t x = column, y = row;
            int direction = first ? 0 : 2;
            do {
                if (!vertical) passed[y * (layer.w - 1) + x] = 1;
                size_t c = x, r = y;
                if (direction == 2) r--;
                if (direction == 3) c--;
                bool sw = layer.inside(c, r), se = layer.inside(c + 1, r);
                bool nw = layer.inside(c, r + 1), ne = layer.inside(c + 1, r + 1);
                bool left, right;
                switch (direction) {
                case 0: left = nw, right = ne; break;
                case 1: left = ne, right = se; break;
                case 2: left = se, right = sw; break;
                default: left = sw, right = nw;
                }
                if (!left) direction = (direction + 3) % 4;
                else if (right) direction = (direction + 1) % 4;
                switch (direction) {
                case 0: vertical = false, x = c, y = r + 1; break;
                case 1: vertical = true, x = c + 1, y = r; break;
                case 2: vertical = false, x = c, y = r; break;
                default: vertical = true, x = c, y = r;
                }
            } while (vertical || x != column || y != row);
        }
    return found;
}

// The number of the first question answered no, and its place.
static unsigned refusal(const Layer &layer, size_t entries, size_t &place) {
    place = 0;
    if (layer.w < 2 || layer.w > 1024 || layer.h < 2 || layer.h > 1024) return 1;
    if (layer.bytes.size() != layer.h * layer.stride) return 2;
    for (size_t r = 0; r < layer.h; r++)
        for (size_t c = layer.w; c < 8 * layer.stride; c++)
            if (layer.inside(c, r)) return place = r * layer.stride + layer.stride - 1, 3;
    for (size_t r = 0; r < layer.h; r++)
        for (size_t c = 0; c < layer.w; c += r == 0 || r + 1 == layer.h ? 1 : layer.w - 1)
            if (layer.inside(c, r)) return place = r * layer.w + c, 4;
    return entries != (layer.w - 1) * layer.h + layer.w * (layer.h - 1) ? 5 : 0;
}

static void answer(const Layer &layer, const std::vector<uint16_t> &table) {
    size_t place, inside = 0, sticks = 0, loops = 0;
    unsigned number = refusal(layer, table.size(), place);
    if (number == 0) {
        for (size_t r = 0; r < layer.h; r++)
            for (size_t j = 0; j < layer.stride; j++) {
                const uint8_t *here = &layer.bytes[r * layer.stride + j];
                unsigned shifted = *here >> 1 | (j + 1 < layer.stride ? here[1] << 7 & 128 : 0);
                inside += __builtin_popcount(*here);
                sticks += __builtin_popcount(*here ^ shifted);
                if (r + 1 < layer.h) sticks += __builtin_popcount(*here ^ here[layer.stride]);
            }
        loops = contours(layer);
    }
    uint64_t digest = 1;
    for (uint16_t entry : table) digest = (digest * 65599 + entry + 1) % 2147483647;
    printf("N %u %zu %zu %zu %zu %llu\n", number, place, inside, sticks, loops, (unsigned long long)digest);
}

static size_t number(const uint8_t *from, int bytes) {
    size_t value = 0;
    while (bytes-- > 0) value = value << 8 | from[bytes];
    return value;
}

static int answers() {
    static uint8_t script[1 << 20];
    size_t length = fread(script, 1, sizeof script, stdin), at = 0;
    Layer layer(0, 0);
    std::vector<uint16_t> table;
    while (at < length && script[at] != 'E') {
        const uint8_t *fields = script + at + 1;
        if (script[at] == 'B') {
            layer = Layer(number(fields, 2), number(fields + 2, 2));
            size_t n = number(fields + 4, 4);
            layer.bytes.assign(fields + 8, fields + 8 + n);
            at += 9 + n;
        } else if (script[at] == 'M') {
            table.resize(number(fields, 4));
            for (size_t i = 0; i < table.size(); i++) table[i] = number(fields + 4, 2) + i * 40503;
            at += 7;
        } else {
            answer(layer, table);
            at += 1;
        }
    }
    return 0;
}

static void put(size_t value, int bytes) {
    for (; bytes > 0; bytes--, value >>= 8) putchar(value & 255);
}

// A layer of 1024 by 1024 and one call; `short` leaves the last byte out, so that the call is refused at once.
static int make(const char *name, bool cut) {
    const size_t n = 1024;
    Layer layer(n, n);
    for (size_t r = 1; r + 1 < n; r++)
        for (size_t c = 1; c + 1 < n; c++)
            if (inside(name, c, r, n)) layer.set(c, r);
    putchar('B'), put(n, 2), put(n, 2), put(layer.bytes.size() - cut, 4);
    fwrite(layer.bytes.data(), 1, layer.bytes.size() - cut, stdout);
    putchar('M'), put(2 * n * (n - 1), 4), put(7, 2);
    putchar('N'), putchar('E');
    return 0;
}

int main(int count, char **words) {
    if (count == 2 && !strcmp(words[1], "answer")) return answers();
    if (count >= 3 && !strcmp(words[1], "make")) return make(words[2], count == 4);
    return fputs("usage: counts answer | make NAME [short]\n", stderr), 2;
}
