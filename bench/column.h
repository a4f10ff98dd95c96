// One column of a table, ready to take images of sets of states.
#pragma once
#include "monitors.h"

namespace monitors {

inline uint64_t rotated(uint64_t x, unsigned distance) { return x << (distance & 63) | x >> (-distance & 63); }

// An image is the union of what a table for each part of the states has; a part is so many states, and its table has the image of
// each set of them. Of larger parts fewer looks are made, but the tables of all columns fill a larger cache.
template <size_t part_states>
struct column_in_parts {
    static constexpr size_t part_images = size_t(1) << part_states;
    static constexpr size_t parts_of(size_t states) { return (states + part_states - 1) / part_states; }
    using tables_of_column = uint64_t[parts_of(most_states)][part_images];

    // The states that stay; and two masks whose states move on by their distance, modulo 64.
    uint64_t stays = 0, near_mask = 0, far_mask = 0;
    unsigned near = 0, far = 0;
    bool rotates = true;  // whether the three hold all states that the column allows
    unsigned uses = 0;
    uint64_t allowed = 0;
    uint8_t to[64];
    uint64_t (*tables)[part_images] = nullptr;  // where they are made

    column_in_parts() {}
    column_in_parts(const uint8_t *rows, size_t states, size_t width, size_t at) {
        for (unsigned s = 0; s < states; ++s) {
            uint8_t t = rows[s * width + at];
            to[s] = t;
            if (t == not_allowed) continue;
            uint64_t bit = 1ull << s;
            unsigned distance = (t - s) & 63;
            allowed |= bit;
            if (distance == 0) {
                stays |= bit;
                continue;
            }
            if (near_mask == 0) near = distance;
            if (distance == near) {
                near_mask |= bit;
                continue;
            }
            if (far_mask == 0) far = distance;
            if (distance == far)
                far_mask |= bit;
            else
                rotates = false;
        }
    }

    void make_tables(tables_of_column &room, size_t states) {
        for (size_t part = 0; part < parts_of(states); ++part) {
            uint64_t *table = room[part];
            table[0] = 0;
            for (size_t i = 0; i < part_states; ++i) {
                size_t s = part_states * part + i, half = size_t(1) << i;
                uint64_t bit = s < states && (allowed >> s & 1) ? 1ull << to[s] : 0;
                for (size_t k = 0; k < half; ++k) table[half + k] = table[k] | bit;
            }
        }
        tables = room;
    }

    // Images of a set: where every allowed state is in one of the three masks; through tables that are made, of states below `states`;
    // and one state at a time.
    uint64_t image_by_rotation(uint64_t set) const {
        return (set & stays) | rotated(set & near_mask, near) | rotated(set & far_mask, far);
    }

    template <size_t states>
    uint64_t image_by_tables(uint64_t set) const {
        uint64_t image = 0;
        for (size_t part = 0; part < parts_of(states); ++part) image |= tables[part][set >> (part_states * part) & (part_images - 1)];
        return image;
    }

    uint64_t image_by_states(uint64_t set) const {
        uint64_t image = 0;
        for (set &= allowed; set; set &= set - 1) image |= 1ull << to[__builtin_ctzll(set)];
        return image;
    }
};

// So many uses of a column are made one state at a time before its tables are worth making.
constexpr unsigned uses_before_tables = 8;

}  // namespace monitors
