// The layers that are measured, by name: whether a sample of a square one with n samples a side is inside. Those on the border never are.
#pragma once
#include <cstddef>
#include <cstdint>
#include <cstring>

inline uint64_t mixed(uint64_t x) {
    x = (x ^ x >> 31) * 0x9E3779B97F4A7C15;
    x = (x ^ x >> 29) * 0xBF58476D1CE4E5B9;
    return x ^ x >> 32;
}

// A solid block with some hundred round bores of five sizes and a ring-shaped channel, made for 1024 samples a side.
inline bool in_block(int c, int r) {
    if (c < 12 || c > 1011 || r < 12 || r > 1011) return false;
    int dx = c - 512, dy = r - 512, around = dx * dx + dy * dy;
    if (around >= 300 * 300 && around < 316 * 316) return false;
    int x = c % 56 - 28, y = r % 56 - 28, radius = 3 + (c / 56 * 7 + r / 56 * 3) % 5 * 2;
    return x * x + y * y > radius * radius || (around >= 275 * 275 && around < 341 * 341);
}

inline bool inside(const char *name, size_t c, size_t r, size_t n) {
    auto is = [&](const char *other) { return !strncmp(name, other, strlen(other)); };
    if (c == 0 || r == 0 || c + 1 == n || r + 1 == n) return false;
    if (is("passages")) return r % 5 > 1 || c < 4 || c > n - 5 || (c + 16 * (r / 5)) % 256 < 3;
    if (is("block")) return in_block(c, r);
    if (is("bars")) return c % 4 < 2;
    if (is("checkerboard")) return (c + r) % 2 == 0;
    if (is("diagonals")) return (c + n - r) % 64 < 32;
    if (is("serpentine")) return r % 2 == 1 || (r / 2 % 2 == 0 ? c == 1 : c == n - 2);
    if (is("upright")) return c % 2 == 1 || (c / 2 % 2 == 0 ? r == 1 : r == n - 2);
    return mixed(r << 32 | c) & 1;
}
