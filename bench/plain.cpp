// The plain program. Nothing here is taken from the proved code; every rule is written down as plainly as it can be.
#include "programs.h"
#include <algorithm>
#include <cstdlib>
#include <cstring>
#include <numeric>
#include <vector>

namespace {

struct Stick {
    uint32_t number;
    uint16_t column, row;
    bool vertical;
};

using Contour = std::vector<Stick>;

struct Point {
    int64_t x, y;
};

struct Layer {
    size_t w, h, stride;
    const uint8_t *bytes;

    bool inside(size_t c, size_t r) const { return bytes[r * stride + c / 8] >> (c % 8) & 1; }
    size_t edges() const { return (w - 1) * h + w * (h - 1); }
    uint32_t number(bool vertical, size_t c, size_t r) const { return vertical ? h * (w - 1) + r * w + c : r * (w - 1) + c; }

    // Calls visit(n, stick) for every edge, by number, until it says no; whether it never did.
    template <class Visit> bool each_edge(Visit visit) const {
        size_t n = 0;
        for (size_t r = 0; r < h; r++)
            for (size_t c = 0; c + 1 < w; c++)
                if (!visit(n++, inside(c, r) != inside(c + 1, r))) return false;
        for (size_t r = 0; r + 1 < h; r++)
            for (size_t c = 0; c < w; c++)
                if (!visit(n++, inside(c, r) != inside(c, r + 1))) return false;
        return true;
    }

    // Calls visit for the sticks of the contour that starts at a horizontal one, with inside on the left: directions 0 north, 1 east,
    // 2 south, 3 west.
    template <class Visit> void walk(size_t column, size_t row, Visit visit) const {
        bool vertical = false;
        size_t x = column, y = row;
        int direction = inside(column, row) ? 0 : 2;
        do {
            visit(Stick{number(vertical, x, y), uint16_t(x), uint16_t(y), vertical});
            size_t c = x - (direction == 3), r = y - (direction == 2);
            bool sw = inside(c, r), se = inside(c + 1, r), nw = inside(c, r + 1), ne = inside(c + 1, r + 1);
            bool left = direction == 0 ? nw : direction == 1 ? ne : direction == 2 ? se : sw;
            bool right = direction == 0 ? ne : direction == 1 ? se : direction == 2 ? sw : nw;
            direction = !left ? (direction + 3) % 4 : right ? (direction + 1) % 4 : direction;
            vertical = direction % 2 == 1;
            x = c + (direction == 1), y = r + (direction == 0);
        } while (vertical || x != column || y != row);
    }

    // Calls begin for the first stick of each contour, in order, and visit for its sticks.
    template <class Begin, class Visit> void each_contour(Begin begin, Visit visit) const {
        std::vector<bool> passed(h * (w - 1));
        for (size_t r = 0; r < h; r++)
            for (size_t c = 0; c + 1 < w; c++)
                if (inside(c, r) != inside(c + 1, r) && !passed[r * (w - 1) + c]) {
                    begin();
                    walk(c, r, [&](const Stick &stick) {
                        if (!stick.vertical) passed[stick.number] = true;
                        visit(stick);
                    });
                }
    }

    std::vector<Contour> contours() const {
        std::vector<Contour> all;
        each_contour([&] { all.emplace_back(); }, [&](const Stick &stick) { all.back().push_back(stick); });
        return all;
    }
};

// How many other contours are around each one. Along a row a contour is entered at one of its sticks and left at the next, and in the sweep over
// all rows the first stick of a contour is the one that is met first.
std::vector<uint32_t> depths(const Layer &layer, const std::vector<Contour> &contours) {
    const uint32_t none = UINT32_MAX;
    std::vector<uint32_t> on(layer.h * (layer.w - 1), none), depth(contours.size(), none);
    for (size_t k = 0; k < contours.size(); k++)
        for (const Stick &stick : contours[k])
            if (!stick.vertical) on[stick.number] = k;
    std::vector<bool> around(contours.size());
    uint32_t count = 0;
    for (uint32_t k : on)
        if (k != none) {
            if (depth[k] == none) depth[k] = count;
            count += around[k] ? -1 : 1;
            around[k] = !around[k];
        }
    return depth;
}

// The contours' places, by depth and then by first stick.
std::vector<uint32_t> by_depth(const Layer &layer, const std::vector<Contour> &contours) {
    std::vector<uint32_t> depth = depths(layer, contours), order(contours.size());
    std::iota(order.begin(), order.end(), 0);
    std::stable_sort(order.begin(), order.end(), [&](uint32_t a, uint32_t b) { return depth[a] < depth[b]; });
    return order;
}

struct Refusal {
    uint32_t number;
    uint64_t place;
};

const Refusal YES = {0, 0};

Refusal ask_1_to_5(const Layer &layer, size_t bytes, size_t entries) {
    size_t w = layer.w, h = layer.h;
    if (w < 2 || w > 1024 || h < 2 || h > 1024) return {1, 0};
    if (bytes != h * layer.stride) return {2, 0};
    if (w % 8 != 0)
        for (size_t r = 0; r < h; r++)
            if (layer.bytes[(r + 1) * layer.stride - 1] >> (w % 8)) return {3, (r + 1) * layer.stride - 1};
    for (size_t r = 0; r < h; r++)
        for (size_t c = 0; c < w; c += r == 0 || r + 1 == h ? 1 : w - 1)
            if (layer.inside(c, r)) return {4, r * w + c};
    return entries == layer.edges() ? YES : Refusal{5, 0};
}

bool is_pinned(uint16_t entry) { return 513 <= entry && entry <= 767; }
bool is_kept(uint16_t entry) { return (1 <= entry && entry <= 255) || is_pinned(entry); }
bool is_removed(uint16_t entry) { return 257 <= entry && entry <= 511; }

Point vertex(const Stick &stick, uint16_t entry) {
    int64_t offset = entry % 256;
    return {256 * int64_t(stick.column) + (stick.vertical ? 0 : offset), 256 * int64_t(stick.row) + (stick.vertical ? offset : 0)};
}

// Where the chord from p to q meets the stick's line, as met / whole in 1/256 of the pitch along the stick.
struct Meeting {
    bool parted;
    int64_t met, whole;
};

Meeting meeting(Point p, Point q, const Stick &stick) {
    int64_t line = 256 * int64_t(stick.vertical ? stick.column : stick.row), base = 256 * int64_t(stick.vertical ? stick.row : stick.column);
    int64_t a = (stick.vertical ? p.x : p.y) - line, b = (stick.vertical ? q.x : q.y) - line;
    int64_t s = (stick.vertical ? p.y : p.x) - base, t = (stick.vertical ? q.y : q.x) - base;
    return {(a < 0 && b > 0) || (a > 0 && b < 0), llabs(b) * s + llabs(a) * t, llabs(a) + llabs(b)};
}

bool crosses(const Meeting &m) { return m.parted && 0 < m.met && m.met < 256 * m.whole; }
bool within(const Meeting &m, uint16_t entry, uint8_t t) { return llabs(m.met - (entry % 256) * m.whole) <= t * m.whole; }

bool is_held(const Contour &contour, const uint16_t *table) {
    size_t n = contour.size(), first = 0, kept = 0;
    for (size_t i = 0; i < n; i++) kept += is_kept(table[contour[i].number]);
    if (kept < 3) return false;
    while (!is_kept(table[contour[first].number])) first++;
    for (size_t from = first; from < first + n;) {
        size_t to = from + 1;
        while (!is_kept(table[contour[to % n].number])) to++;
        Point p = vertex(contour[from % n], table[contour[from % n].number]), q = vertex(contour[to % n], table[contour[to % n].number]);
        for (size_t i = from + 1; i < to; i++)
            if (!crosses(meeting(p, q, contour[i % n]))) return false;
        from = to;
    }
    return true;
}

Refusal ask_1_to_7(const Layer &layer, size_t bytes, const uint16_t *table, size_t entries, std::vector<Contour> &contours) {
    Refusal refusal = ask_1_to_5(layer, bytes, entries);
    if (refusal.number) return refusal;
    size_t wrong = 0;
    if (!layer.each_edge([&](size_t n, bool stick) {
            return wrong = n, stick ? is_kept(table[n]) || is_removed(table[n]) : table[n] == 0;
        }))
        return {6, wrong};
    contours = layer.contours();
    for (const Contour &contour : contours)
        if (!is_held(contour, table)) return {7, contour[0].number};
    return YES;
}

Refusal ask_all_kept(const uint16_t *table, size_t entries) {
    for (size_t n = 0; n < entries; n++)
        if (is_removed(table[n])) return {15, n};
    return YES;
}

uint32_t answer(uint64_t *figures, Refusal refusal, uint64_t one = 0, uint64_t two = 0, uint64_t three = 0) {
    figures[0] = refusal.place, figures[1] = one, figures[2] = two, figures[3] = three;
    return refusal.number;
}

Layer layer_of(uint16_t w, uint16_t h, const uint8_t *bitmap) { return {w, h, size_t(w + 7) / 8, bitmap}; }

// top / 5d is old + 2/5 of (v - old), which is not below 0. The nearest whole number is that and a half, rounded down; above 128 a little less is
// added, so that a half goes down there.
uint16_t smoothed(Point p, Point q, const Stick &stick, int64_t old) {
    int64_t line = 256 * int64_t(stick.vertical ? stick.column : stick.row), base = 256 * int64_t(stick.vertical ? stick.row : stick.column);
    int64_t a = stick.vertical ? p.x : p.y, b = stick.vertical ? q.x : q.y, s = stick.vertical ? p.y : p.x, t = stick.vertical ? q.y : q.x;
    int64_t d = b - a, n = (s - base - old) * d + (t - s) * (line - a);
    if (d < 0) n = -n, d = -d;
    int64_t top = 5 * d * old + 2 * n;
    return (2 * top + 5 * d - (top > 5 * d * 128)) / (10 * d);
}

// A pass along a contour; answers the sum of the changes.
uint64_t pass(const Contour &contour, uint16_t *table) {
    uint64_t total = 0;
    for (size_t i = 0, n = contour.size(); i < n; i++) {
        const Stick &before = contour[i == 0 ? n - 1 : i - 1], &after = contour[i + 1 == n ? 0 : i + 1];
        uint16_t &entry = table[contour[i].number], old = entry;
        if (is_pinned(entry)) continue;
        entry = smoothed(vertex(before, table[before.number]), vertex(after, table[after.number]), contour[i], old);
        total += abs(int(entry) - int(old));
    }
    return total;
}

struct Simplifier {
    const Contour &contour;
    uint16_t *table;
    uint8_t t;
    uint64_t removed, tried;

    uint16_t &entry(size_t i) { return table[contour[i % contour.size()].number]; }

    bool passes(size_t from, size_t to) {
        size_t n = contour.size();
        Point p = vertex(contour[from % n], entry(from)), q = vertex(contour[to % n], entry(to));
        for (size_t i = from + 1; i < to; i++) {
            Meeting m = meeting(p, q, contour[i % n]);
            if (is_pinned(entry(i)) || !crosses(m) || !within(m, entry(i), t)) return false;
        }
        return true;
    }

    void try_run(size_t from, size_t to) {
        tried++;
        if (passes(from, to)) {
            for (size_t i = from + 1; i < to; i++) entry(i) += 256, removed++;
        } else {
            size_t middle = from + (to - from) / 2;
            try_run(from, middle);
            try_run(middle, to);
        }
    }
};

size_t kept_in(const uint16_t *table, size_t entries) { return std::count_if(table, table + entries, is_kept); }

// Twice the signed area of a held contour: of each drawn edge its start's x times its end's y, less its end's x times its start's y. What an
// edge adds is noted by the number of the stick that it starts from.
int64_t twice_area(const Contour &contour, const uint16_t *table, std::vector<int64_t> &adds) {
    const Stick *first = nullptr, *last = nullptr;
    int64_t sum = 0;
    auto add_edge = [&](const Stick &from, const Stick &to) {
        Point p = vertex(from, table[from.number]), q = vertex(to, table[to.number]);
        sum += adds[from.number] = p.x * q.y - q.x * p.y;
    };
    for (const Stick &stick : contour)
        if (is_kept(table[stick.number])) {
            if (last) add_edge(*last, stick);
            else first = &stick;
            last = &stick;
        }
    add_edge(*last, *first);
    return sum;
}

// A contour of the layer, and where each stick stands on it.
struct Places {
    const std::vector<Contour> &contours;
    std::vector<uint32_t> contour, at;

    Places(const std::vector<Contour> &contours, size_t entries) : contours(contours), contour(entries), at(entries) {
        for (size_t k = 0; k < contours.size(); k++)
            for (size_t i = 0; i < contours[k].size(); i++) contour[contours[k][i].number] = k, at[contours[k][i].number] = i;
    }
};

struct Roller {
    const Layer &layer;
    const Places &places;
    uint16_t *table;
    uint8_t t;

    // The chord from p to q against the sticks between two places of a contour: 0, 11 or 12.
    uint32_t test(const Contour &contour, size_t from, size_t to, Point p, Point q, bool tolerance) {
        for (size_t i = from + 1; i < to; i++) {
            const Stick &stick = contour[i % contour.size()];
            Meeting m = meeting(p, q, stick);
            if (tolerance ? !within(m, table[stick.number], t) : !crosses(m)) return tolerance ? 12 : 11;
        }
        return 0;
    }

    uint32_t edit(const uint8_t *command) {
        size_t kind = command[1], c = command[2] + 256 * command[3], r = command[4] + 256 * command[5];
        if (kind > 1 || c >= (kind ? layer.w : layer.w - 1) || r >= (kind ? layer.h - 1 : layer.h)) return 9;
        uint32_t number = layer.number(kind, c, r);
        if (!is_kept(table[number])) return 9;
        if (command[0] == 'P') return table[number] = 512 + table[number] % 256, 0;
        if (is_pinned(table[number])) return 16;
        bool slides = command[0] == 'S';
        if (slides && command[6] == 0) return 10;
        const Contour &contour = places.contours[places.contour[number]];
        size_t n = contour.size(), at = places.at[number] + n, before = at - 1, after = at + 1;
        while (!is_kept(table[contour[before % n].number])) before--;
        while (!is_kept(table[contour[after % n].number])) after++;
        Point p = vertex(contour[before % n], table[contour[before % n].number]), q = vertex(contour[after % n], table[contour[after % n].number]);
        if (slides) {
            Point m = vertex(contour[at % n], command[6]);
            for (bool tolerance : {false, true}) {
                if (uint32_t no = test(contour, before, at, p, m, tolerance)) return no;
                if (uint32_t no = test(contour, at, after, m, q, tolerance)) return no;
            }
            table[number] = command[6];
        } else {
            for (bool tolerance : {false, true})
                if (uint32_t no = test(contour, before, after, p, q, tolerance)) return no;
            size_t kept = 0;
            for (size_t i = after; kept < 3 && i <= before + n; i++) kept += is_kept(table[contour[i % n].number]);
            if (kept < 3) return 13;
            table[number] += 256;
        }
        return 0;
    }
};

size_t width(uint8_t command) { return command == 'S' ? 7 : command == 'X' || command == 'P' ? 6 : command == 'E' ? 1 : 0; }

Refusal ask_roll(const uint8_t *roll, size_t length) {
    for (size_t at = 0;;) {
        size_t n = at < length ? width(roll[at]) : 0;
        if (n == 0 || length - at < n) return {8, at};
        at += n;
        if (n == 1) return at == length ? YES : Refusal{8, at};
    }
}

void put_u16(uint8_t *&to, size_t n) { *to++ = n % 256, *to++ = n / 256; }

// What reads a sheet: the bytes, and the place of the command that is looked at.
struct Reader {
    const uint8_t *sheet;
    size_t length, at;

    bool command(std::initializer_list<size_t> bytes) {
        if (length - at < bytes.size()) return false;
        size_t i = at;
        for (size_t byte : bytes)
            if (sheet[i++] != byte) return false;
        at = i;
        return true;
    }

    bool vertex(uint16_t &entry) {
        if (length - at < 2 || (sheet[at] != 'K' && sheet[at] != 'R' && sheet[at] != 'N') || sheet[at + 1] == 0) return false;
        entry = sheet[at + 1] + (sheet[at] == 'R' ? 256 : sheet[at] == 'N' ? 512 : 0);
        at += 2;
        return true;
    }
};

Refusal read(const Layer &layer, const std::vector<Contour> &contours, const uint8_t *sheet, size_t length, std::vector<uint16_t> &table) {
    Reader reader = {sheet, length, 0};
    if (!reader.command({'L', layer.w % 256, layer.w / 256, layer.h % 256, layer.h / 256})) return {8, reader.at};
    for (const Contour &contour : contours) {
        const Stick &f = contour[0];
        if (!reader.command({'C', f.vertical, f.column % 256u, f.column / 256u, f.row % 256u, f.row / 256u})) return {8, reader.at};
        for (const Stick &stick : contour)
            if (!reader.vertex(table[stick.number])) return {8, reader.at};
    }
    if (!reader.command({'E'}) || reader.at != length) return {8, reader.at};
    for (const Contour &contour : contours)
        if (!is_held(contour, table.data())) return {7, contour[0].number};
    return YES;
}

uint32_t counts(uint16_t w, uint16_t h, const uint8_t *bitmap, size_t bytes, const uint16_t *, size_t entries, uint64_t *figures) {
    Layer layer = layer_of(w, h, bitmap);
    Refusal refusal = ask_1_to_5(layer, bytes, entries);
    if (refusal.number) return answer(figures, refusal);
    uint64_t inside = 0, sticks = 0;
    for (size_t r = 0; r < h; r++)
        for (size_t j = 0; j < layer.stride; j++) {
            const uint8_t *here = bitmap + r * layer.stride + j;
            unsigned shifted = *here >> 1 | (j + 1 < layer.stride ? here[1] << 7 & 128 : 0);
            inside += __builtin_popcount(*here);
            sticks += __builtin_popcount(*here ^ shifted);
            if (r + 1 < h) sticks += __builtin_popcount(*here ^ here[layer.stride]);
        }
    uint64_t contours = 0;
    layer.each_contour([&] { contours++; }, [](const Stick &) {});
    return answer(figures, YES, inside, sticks, contours);
}

uint32_t trace(uint16_t w, uint16_t h, const uint8_t *bitmap, size_t bytes, uint16_t *table, size_t entries, uint64_t *figures) {
    Layer layer = layer_of(w, h, bitmap);
    Refusal refusal = ask_1_to_5(layer, bytes, entries);
    if (refusal.number) return answer(figures, refusal);
    layer.each_edge([&](size_t n, bool stick) { return table[n] = stick ? 128 : 0, true; });
    return answer(figures, YES);
}

uint32_t smooth(uint16_t w, uint16_t h, const uint8_t *bitmap, size_t bytes, uint16_t *table, size_t entries, uint16_t limit, uint64_t *figures) {
    Layer layer = layer_of(w, h, bitmap);
    std::vector<Contour> contours;
    Refusal refusal = ask_1_to_7(layer, bytes, table, entries, contours);
    if (!refusal.number) refusal = ask_all_kept(table, entries);
    if (refusal.number) return answer(figures, refusal);
    uint64_t most = 0, totals = 0;
    bool all_settled = true;
    for (const Contour &contour : contours) {
        uint64_t passes = 0, total = 0;
        bool settled = false;
        while (!settled && passes < limit) {
            total = pass(contour, table);
            passes++;
            settled = 1000 * total < 256 * contour.size();
        }
        most = std::max(most, passes);
        totals += total;
        all_settled = all_settled && settled;
    }
    return answer(figures, YES, most, totals, all_settled);
}

uint32_t simplify(uint16_t w, uint16_t h, const uint8_t *bitmap, size_t bytes, uint16_t *table, size_t entries, uint8_t t, uint64_t *figures) {
    Layer layer = layer_of(w, h, bitmap);
    std::vector<Contour> contours;
    Refusal refusal = ask_1_to_7(layer, bytes, table, entries, contours);
    if (!refusal.number) refusal = ask_all_kept(table, entries);
    if (refusal.number) return answer(figures, refusal);
    uint64_t removed = 0, tried = 0;
    for (const Contour &contour : contours) {
        Simplifier s = {contour, table, t, 0, 0};
        s.try_run(0, contour.size() / 2);
        s.try_run(contour.size() / 2, contour.size());
        removed += s.removed, tried += s.tried;
    }
    return answer(figures, YES, removed, tried);
}

uint32_t roll(uint16_t w, uint16_t h, const uint8_t *bitmap, size_t bytes, uint16_t *table, size_t entries, const uint8_t *roll, size_t length,
              uint8_t t, uint64_t *figures) {
    Layer layer = layer_of(w, h, bitmap);
    std::vector<Contour> contours;
    Refusal refusal = ask_1_to_7(layer, bytes, table, entries, contours);
    if (!refusal.number) refusal = ask_roll(roll, length);
    if (refusal.number) return answer(figures, refusal);
    Places places(contours, entries);
    Roller roller = {layer, places, table, t};
    uint64_t done = 0;
    for (size_t at = 0; roll[at] != 'E'; at += width(roll[at])) {
        if (uint32_t no = roller.edit(roll + at)) return answer(figures, {no, at}, done);
        done++;
    }
    return answer(figures, YES, done);
}

uint32_t write_sheet(uint16_t w, uint16_t h, const uint8_t *bitmap, size_t bytes, const uint16_t *table, size_t entries, uint8_t *sheet,
                     size_t length, uint64_t *figures) {
    Layer layer = layer_of(w, h, bitmap);
    std::vector<Contour> contours;
    Refusal refusal = ask_1_to_7(layer, bytes, table, entries, contours);
    if (refusal.number) return answer(figures, refusal);
    size_t needed = 6;
    for (const Contour &contour : contours) needed += 6 + 2 * contour.size();
    if (length < needed) return answer(figures, {14, 0});
    *sheet++ = 'L', put_u16(sheet, w), put_u16(sheet, h);
    for (const Contour &contour : contours) {
        *sheet++ = 'C', *sheet++ = contour[0].vertical, put_u16(sheet, contour[0].column), put_u16(sheet, contour[0].row);
        for (const Stick &stick : contour) {
            uint16_t entry = table[stick.number];
            *sheet++ = is_removed(entry) ? 'R' : is_pinned(entry) ? 'N' : 'K', *sheet++ = entry % 256;
        }
    }
    *sheet = 'E';
    return answer(figures, YES, needed);
}

uint32_t read_sheet(uint16_t w, uint16_t h, const uint8_t *bitmap, size_t bytes, uint16_t *table, size_t entries, const uint8_t *sheet,
                    size_t length, uint64_t *figures) {
    Layer layer = layer_of(w, h, bitmap);
    Refusal refusal = ask_1_to_5(layer, bytes, entries);
    if (refusal.number) return answer(figures, refusal);
    std::vector<uint16_t> described(entries, 0);
    refusal = read(layer, layer.contours(), sheet, length, described);
    if (!refusal.number) memcpy(table, described.data(), 2 * entries);
    return answer(figures, refusal);
}

uint32_t plan(uint16_t w, uint16_t h, const uint8_t *bitmap, size_t bytes, const uint16_t *table, size_t entries, uint8_t *items,
              size_t item_count, double *points, size_t float_count, uint64_t *figures) {
    Layer layer = layer_of(w, h, bitmap);
    std::vector<Contour> contours;
    Refusal refusal = ask_1_to_7(layer, bytes, table, entries, contours);
    if (refusal.number) return answer(figures, refusal);
    size_t kept = kept_in(table, entries);
    if (item_count < kept + contours.size() || float_count < 2 * kept) return answer(figures, {14, 0});
    for (uint32_t k : by_depth(layer, contours)) {
        bool moved = false;
        for (const Stick &stick : contours[k])
            if (is_kept(table[stick.number])) {
                Point p = vertex(stick, table[stick.number]);
                *items++ = moved ? 'l' : 'M', *points++ = p.x / 256.0, *points++ = p.y / 256.0;
                moved = true;
            }
        *items++ = 'Z';
    }
    return answer(figures, YES, kept + contours.size(), 2 * kept);
}

uint32_t areas(uint16_t w, uint16_t h, const uint8_t *bitmap, size_t bytes, const uint16_t *table, size_t entries, int64_t *areas, size_t area_count,
               int64_t *sums, size_t sum_count, uint64_t *figures) {
    Layer layer = layer_of(w, h, bitmap);
    std::vector<Contour> contours;
    Refusal refusal = ask_1_to_7(layer, bytes, table, entries, contours);
    if (refusal.number) return answer(figures, refusal);
    size_t kept = kept_in(table, entries);
    if (area_count < contours.size() || sum_count < kept) return answer(figures, {14, 0});
    std::vector<int64_t> adds(entries);
    for (const Contour &contour : contours) *areas++ = twice_area(contour, table, adds);
    int64_t sum = 0;
    for (size_t n = 0; n < entries; n++)
        if (is_kept(table[n])) *sums++ = sum += adds[n];
    return answer(figures, YES, contours.size(), kept, sum);
}

}

const Program plain = {"plain", counts, trace, smooth, simplify, roll, write_sheet, read_sheet, plan, areas};

std::vector<uint8_t> accepted(uint16_t w, uint16_t h, const uint8_t *bitmap, uint16_t *table, const std::vector<uint8_t> &roll, uint8_t t) {
    Layer layer = layer_of(w, h, bitmap);
    std::vector<Contour> contours = layer.contours();
    Places places(contours, layer.edges());
    Roller roller = {layer, places, table, t};
    std::vector<uint8_t> good;
    for (size_t at = 0; roll[at] != 'E'; at += width(roll[at]))
        if (!roller.edit(&roll[at])) good.insert(good.end(), &roll[at], &roll[at] + width(roll[at]));
    good.push_back('E');
    return good;
}
