// `bench`: each call on some layers by the library, the plain and the fast program in one run, the shortest of several times of each, and the ratios
// of the library to the two. `bench --check` compares the three on random layers, `bench --growth` shows how the time per vertex grows.
#include "../include/puzhenim.h"
#include "buffers.h"
#include <algorithm>
#include <cmath>
#include <cstdio>
#include <cstdlib>
#include <map>
#include <string>
#include <time.h>

void check();

// An exported function with four figures lent.
template <auto call> constexpr auto four = [](auto... arguments) { return call(arguments..., 4); };
const Program puzhenim = {"Puzhenim",           four<pz_counts>,     four<pz_trace>, four<pz_smooth>, four<pz_simplify>, four<pz_roll>,
                          four<pz_write_sheet>, four<pz_read_sheet>, four<pz_plan>,  four<pz_areas>};

using Programs = std::vector<const Program *>;

static Layer make(const char *name, size_t n) {
    Layer layer = {name, uint16_t(n), uint16_t(n), std::vector<uint8_t>((n + 7) / 8 * n)};
    for (size_t r = 0; r < n; r++)
        for (size_t c = 0; c < n; c++)
            if (inside(name, c, r, n)) layer.bitmap[r * ((n + 7) / 8) + c / 8] |= 1 << c % 8;
    return layer;
}

static Buffers done(const Program &program, const Call &call, Buffers buffers) {
    call(program, buffers);
    return buffers;
}

// Milliseconds of processor time that this thread has had: other programs on the machine count less than by the clock.
static double milliseconds() {
    timespec time;
    clock_gettime(CLOCK_THREAD_CPUTIME_ID, &time);
    return time.tv_sec * 1e3 + time.tv_nsec * 1e-6;
}

// Milliseconds of a call: those of the calls on all copies of the buffers, one after the other, by their number.
static double once(const Program &program, const Call &call, const Buffers &before, std::vector<Buffers> &copies) {
    for (Buffers &copy : copies) copy = before;
    double start = milliseconds();
    for (Buffers &copy : copies) call(program, copy);
    return (milliseconds() - start) / copies.size();
}

// The shortest time of each program, by turns, for a second or seven times at least; so many copies that a time is 50 microseconds or more. All must
// leave the same buffers.
static std::vector<double> times(const Programs &programs, const char *layer, const char *name, const Buffers &before, const Call &call) {
    Buffers expected = done(plain, call, before);
    std::vector<double> least(programs.size(), 1e99);
    std::vector<Buffers> copies(1);
    for (const Program *program : programs) {
        once(*program, call, before, copies);
        least[0] = std::min(least[0], once(*program, call, before, copies));
        if (copies[0] == expected && expected.number == 0) continue;
        printf("%s, %s: %s and plain differ, or refuse (%u, %u)\n", layer, name, program->name, copies[0].number, expected.number);
        exit(1);
    }
    copies.resize(std::min(200.0, std::ceil(0.05 / least[0])));
    double spent = 0;
    for (int i = 0; i < 7 || (spent < 1000 && i < 400); i++)
        for (size_t k = 0; k < programs.size(); k++) {
            double time = once(*programs[k], call, before, copies);
            least[k] = i == 0 ? time : std::min(least[k], time);
            spent += time * copies.size();
        }
    return least;
}

static void put_stick(std::vector<uint8_t> &roll, char letter, size_t kind, size_t c, size_t r) {
    for (size_t byte : {size_t(letter), kind, c % 256, c / 256, r % 256, r / 256}) roll.push_back(byte);
}

static std::vector<uint8_t> accepted(const Layer &layer, std::vector<uint16_t> table, std::vector<uint8_t> roll) {
    roll.push_back('E');
    return accepted(layer.w, layer.h, layer.bitmap.data(), table.data(), roll, 255);
}

// A slide or a removal of a random vertex of the table, so many times; those that are accepted.
static std::vector<uint8_t> random_roll(const Layer &layer, const std::vector<uint16_t> &table, size_t times) {
    std::vector<uint8_t> roll;
    uint64_t state = 12345;
    auto next = [&] { return (state = state * 6364136223846793005u + 1442695040888963407u) >> 33; };
    for (size_t i = 0; i < times;) {
        size_t kind = next() % 2, c = next() % (layer.w - 1), r = next() % (layer.h - 1);
        size_t number = kind ? size_t(layer.h) * (layer.w - 1) + r * layer.w + c : r * (layer.w - 1) + c;
        if (table[number] == 0) continue;
        bool slides = next() % 2;
        put_stick(roll, slides ? 'S' : 'X', kind, c, r);
        if (slides) roll.push_back(64 + next() % 128);
        i++;
    }
    return accepted(layer, table, roll);
}

// A vertex of the planner's list.
struct Vertex {
    double x, y;
    bool upright() const { return x == std::floor(x); }
    void put(std::vector<uint8_t> &roll, char letter) const { put_stick(roll, letter, upright(), x, y); }
};

// Vertices that have another one next to them so many columns away or more; with 0, all.
static std::vector<Vertex> far_apart(const Layer &layer, const Buffers &simplified, double columns) {
    Buffers list = simplified;
    list.bytes.assign(2 * layer.entries(), 0), list.floats.assign(2 * layer.entries(), 0);
    list = done(plain, Calls{layer}.plan(), list);
    std::vector<Vertex> found;
    size_t point = 0;
    for (size_t i = 0; i < list.figures[1]; i++) {
        if (list.bytes[i] == 'Z') continue;
        Vertex here = {list.floats[2 * point], list.floats[2 * point + 1]};
        bool far = list.bytes[i] == 'l' && std::abs(here.x - list.floats[2 * point - 2]) >= columns;
        if (far) found.push_back({list.floats[2 * point - 2], list.floats[2 * point - 1]});
        if (far || columns == 0) found.push_back(here);
        point++;
    }
    return found;
}

// Offsets on which runs fail at T 0 late: three times over, of each run that passes the last vertex between its ends is moved.
static Buffers late(const Layer &layer, const Buffers &traced) {
    Calls calls{layer};
    Buffers table = traced;
    for (int round = 0; round < 3; round++) {
        Buffers written = done(plain, calls.simplify(0), table);
        written.bytes.assign(6 + 4 * layer.entries(), 0);
        written = done(plain, calls.write_sheet(), written);
        std::vector<uint8_t> &sheet = written.bytes;
        sheet.resize(written.figures[1]);
        for (size_t i = 5; i + 1 < sheet.size(); i += sheet[i] == 'C' ? 6 : 2)
            if (sheet[i] == 'R') {
                sheet[i] = 'K';
                if (sheet[i + 2] != 'R') sheet[i + 1] = 140;
            }
        table = done(plain, calls.read_sheet(sheet), table);
    }
    return table;
}

static const char *const LATE = "simplify late";

// Calls row(name, buffers before, call) for every call on a layer.
template <class Row> void each_row(const Layer &layer, size_t edits, Row row) {
    Calls calls{layer};
    Buffers start;
    start.table.assign(layer.entries(), 7);
    row("counts", start, calls.counts());
    row("trace", start, calls.trace());
    Buffers traced = done(plain, calls.trace(), start);
    row("smooth 100", traced, calls.smooth(100));
    Buffers smoothed = done(plain, calls.smooth(100), traced);
    row("simplify 0", smoothed, calls.simplify(0));
    row("simplify 64", smoothed, calls.simplify(64));
    row("simplify 255", smoothed, calls.simplify(255));
    row(LATE, late(layer, traced), calls.simplify(0));
    Buffers simplified = done(plain, calls.simplify(64), smoothed);
    std::vector<uint8_t> roll = random_roll(layer, simplified.table, edits);
    row("roll", simplified, calls.roll(roll, 255));
    Buffers output = simplified;
    output.bytes.assign(6 + 4 * layer.entries(), 1);
    row("write sheet", output, calls.write_sheet());
    output = done(plain, calls.write_sheet(), output);
    std::vector<uint8_t> sheet(output.bytes.begin(), output.bytes.begin() + output.figures[1]);
    row("read sheet", start, calls.read_sheet(sheet));
    output.floats.assign(2 * layer.entries(), 1);
    row("plan", output, calls.plan());
    Buffers measured = simplified;
    measured.areas.assign(layer.entries() / 4, 1), measured.sums.assign(layer.entries(), 1);
    row("areas", measured, calls.areas());
}

// Simplify alone, on runs that fail late.
template <class Row> void each_late(const Layer &layer, Row row) {
    Calls calls{layer};
    Buffers start;
    start.table.assign(layer.entries(), 7);
    row(LATE, late(layer, done(plain, calls.trace(), start)), calls.simplify(0));
}

// Ten thousand slides of vertices beside gaps of nine tenths of the width or more; a diagonal one has two removed vertices a column.
template <class Row> void each_slide(const Layer &layer, Row row) {
    Calls calls{layer};
    Buffers table;
    table.table.assign(layer.entries(), 7);
    table = done(plain, calls.simplify(255), done(plain, calls.trace(), table));
    std::vector<uint8_t> removals, slides;
    for (const Vertex &vertex : far_apart(layer, table, 0)) vertex.put(removals, 'X');
    removals = accepted(layer, table.table, removals);
    table = done(plain, calls.roll(removals, 255), table);
    std::vector<Vertex> ends = far_apart(layer, table, layer.w * 0.9);
    for (size_t i = 0; i < 10000; i++) ends[i % ends.size()].put(slides, 'S'), slides.push_back(120 + i * 7 % 16);
    std::vector<uint8_t> good = accepted(layer, table.table, slides);
    if (good.size() != slides.size() + 1) fprintf(stderr, "slides: %zu of 10000 are accepted\n", good.size() / 7);
    row("slides", table, calls.roll(good, 255));
}

static Buffers counts_of(const Layer &layer) {
    Buffers start;
    start.table.assign(layer.entries(), 0);
    return done(plain, Calls{layer}.counts(), start);
}

// The largest and the median ratio to the fast program.
static void print_ratios(const char *name, std::vector<double> ratios) {
    std::sort(ratios.begin(), ratios.end());
    size_t n = ratios.size();
    printf("%-14s largest %6.2f, median %6.2f\n", name, ratios[n - 1], (ratios[(n - 1) / 2] + ratios[n / 2]) / 2);
}

static void table() {
    const Programs programs = {&puzhenim, &plain, &fast};
    std::map<std::string, std::vector<double>> ratios;
    std::vector<std::string> names;
    auto row_of = [&](const Layer &layer) {
        return [&](const char *name, const Buffers &before, const Call &call) {
            std::vector<double> t = times(programs, layer.name, name, before, call);
            printf("%-13s %-14s %10.4f %10.4f %10.4f %8.2f %8.2f\n", layer.name, name, t[0], t[1], t[2], t[0] / t[1], t[0] / t[2]);
            fflush(stdout);
            if (ratios[name].empty()) names.push_back(name);
            ratios[name].push_back(t[0] / t[2]);
        };
    };
    printf("%-13s %-14s %10s %10s %10s %8s %8s\n", "layer", "call", "Puzhenim", "plain", "fast", "to plain", "to fast");
    std::vector<Layer> layers;
    for (const char *name : {"passages", "block", "noise", "checkerboard", "serpentine", "bars", "diagonals"}) layers.push_back(make(name, 1024));
    layers.push_back(make("passages 64", 64));
    for (const Layer &layer : layers) {
        std::string name = layer.name;
        if (name == "bars") each_late(layer, row_of(layer));
        else if (name == "diagonals") each_slide(layer, row_of(layer));
        else each_row(layer, layer.w == 64 ? 1000 : 100000, row_of(layer));
    }
    printf("\n%-13s %10s %10s\n", "layer", "sticks", "contours");
    for (const Layer &layer : layers) {
        Buffers counted = counts_of(layer);
        printf("%-13s %10d %10d\n", layer.name, int(counted.figures[2]), int(counted.figures[3]));
    }
    printf("\nPuzhenim to fast\n");
    std::vector<double> all;
    for (const std::string &name : names) {
        print_ratios(name.c_str(), ratios[name]);
        all.insert(all.end(), ratios[name].begin(), ratios[name].end());
    }
    print_ratios("all", all);
}

// A row for each call, a column for each side: nanoseconds for each vertex, of Counts and Trace for each entry, of the library and the fast program.
static void growth() {
    std::vector<std::string> names;
    std::map<std::string, std::string> lines;
    printf("%-14s", "passages");
    for (size_t side : {64, 128, 256, 512, 1024}) {
        Layer layer = make("passages", side);
        double sticks = counts_of(layer).figures[2];
        each_row(layer, layer.entries() / 20, [&](const std::string &name, const Buffers &before, const Call &call) {
            std::vector<double> t = times({&puzhenim, &fast}, layer.name, name.c_str(), before, call);
            double scale = 1e6 / (name == "counts" || name == "trace" ? layer.entries() : sticks);
            char cell[32];
            snprintf(cell, sizeof cell, " %8.2f %7.2f", t[0] * scale, t[1] * scale);
            if (lines[name].empty()) names.push_back(name);
            lines[name] += cell;
        });
        printf(" %8zu %7s", side, "fast");
        fflush(stdout);
    }
    printf("\n");
    for (const std::string &name : names) printf("%-14s%s\n", name.c_str(), lines[name].c_str());
}

int main(int count, char **words) {
    std::string mode = count > 1 ? words[1] : "";
    if (mode == "--check") check();
    else if (mode == "--growth") growth();
    else if (mode == "") table();
    else return fputs("usage: bench [--check | --growth]\n", stderr), 2;
}
