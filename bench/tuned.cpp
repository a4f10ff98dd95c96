// As fast as we could make it, in portable C++.
//
// WHOLE RUN. What makes it fast is what it keeps. Let j be the inputs that came after the one last taken (or since the start, while
// none is): each of them is lost or waits, so j = waiting + run. Which of them are lost already does not bear on the state, and a loss
// can always be put off while no more than B wait. So the configurations (state, waiting, run) with the same waiting + run have the
// same states, and the set of up to 264 words is told by at most B + c of them: F[j], for j below B + c. A configuration
// (s, waiting, run) is plausible exactly when s is in F[waiting + run], waiting is at most B and at most the inputs seen, and run is
// below c.
//
//   an arrival   makes F[j] into F[j + 1], by moving the base of the window; F[0] is the image of F[1] to F[c] under the new input:
//                the set was closed, so nothing else is new;
//   an output    is the image of every F[j] under the output's column, and then takes from the longest line to the shortest:
//                F[w - 1] gains the image of F[w] to F[w + c - 1] under the input at the head of a line of w;
//   the summary  needs the union of all F[j] and the least and the greatest j whose F[j] is not empty.
//
// An image is a mask and two masked rotations where the column moves no states but by two distances, as every column of the standard box
// does; otherwise looks into tables of images, which are made where a column is used often enough.
//
// FEED. A session may come from elsewhere and need not be closed, so the 264 words are worked on where they lie: every clause of
// "sound" is tested without branches, and the sweep is the full one.
#include <cstring>

#include "checks.h"
#include "column.h"

using namespace monitors;

namespace {

// Many columns are looked into at each output, so their tables are small.
using column = column_in_parts<4>;

// Room for the tables of every column. It is kept from run to run: to get it anew costs more than to fill it.
thread_local column::tables_of_column table_room[2 * most_symbols];

// `most` is how many states there may be, and 0 where every column rotates.
template <size_t most>
inline uint64_t image(const column &c, uint64_t set) {
    if constexpr (most == 0)
        return c.image_by_rotation(set);
    else
        return c.tables ? c.image_by_tables<most>(set) : c.image_by_states(set);
}

// The union of F[j], .. F[j + wide - 1], of which the caller makes the parts as j goes down: two and four at a time.
template <int wide>
struct unions {
    // Past the greatest j that is looked at there is nothing.
    static constexpr size_t room = most_waiting + 3 * most_losses;
    uint64_t two[room], four[room];

    void begin(size_t above) {
        for (size_t i = 0; i < 8; ++i) two[above + i] = four[above + i] = 0;
    }
    inline uint64_t put(const uint64_t *f, size_t j) {
        if constexpr (wide == 0) return 0;
        if constexpr (wide == 1) return f[j];
        two[j] = f[j] | f[j + 1];
        if constexpr (wide == 2) return two[j];
        if constexpr (wide == 3) return two[j] | two[j + 1];
        four[j] = two[j] | two[j + 2];
        return four[j] | four[j + wide - 4];
    }
};

constexpr size_t most_diagonals = most_waiting + most_losses;

// The base of F and of the line moves down through so many places, and goes back to their end when it has come to their start.
constexpr size_t window_room = 512;

void put_empty_lines(uint8_t *out, size_t from, size_t to) {
    for (size_t k = from; k < to; ++k) put_empty_line(out + 12 * k);
}

// All events of a trace that passed its tests; the answer is the flag. `losses` is c.
template <int losses, size_t most>
uint64_t follow(column *columns, [[maybe_unused]] size_t states, size_t inputs, size_t waiting, const uint8_t *trace, size_t trace_len,
                uint8_t *out) {
    uint64_t sets[window_room] = {};
    const column *heads[window_room] = {};
    constexpr size_t end = window_room - most_diagonals - 1;
    size_t base = end;
    uint64_t *f = sets + base;         // f[j] is F[j]; it is 0 from j = B + c on
    const column **line = heads + base;  // line[w] is the input at the head of a line of w + 1
    unions<losses - 1> above;

    const size_t diagonals = waiting + losses;
    const uint64_t within_bounds = (1ull << diagonals) - 1;
    size_t held = 0;     // the inputs held: B, or all seen if fewer
    uint64_t all = 1;    // the union of all F[j]
    uint64_t alive = 1;  // bit j: F[j] is not empty
    f[0] = 1;

    auto used = [&](size_t at) -> const column * {
        column &c = columns[at];
        if constexpr (most != 0)
            if (!c.tables && ++c.uses == uses_before_tables) c.make_tables(table_room[at], states);
        return &c;
    };

    for (size_t k = 0; k < trace_len; ++k) {
        uint8_t event = trace[k];
        if (is_output(event)) {
            const column &sent = *used(inputs + (event - first_output));
            size_t j = greatest(alive) + 1;
            above.begin(j);
            uint64_t rest = 0;   // F[j + 1] to F[j + c - 1], where j is the next to be done
            uint64_t whole = 0;  // F[j + 1] to F[j + c]: the states in which j + 1 may wait
            all = alive = 0;
            auto put = [&](uint64_t now) {
                f[j] = now;
                all |= now;
                alive = alive << 1 | uint64_t(now != 0);
                whole = now | rest;
                rest = above.put(f, j);
            };
            while (j > held) --j, put(image<most>(sent, f[j]));
            while (j > 0) --j, put(image<most>(sent, f[j]) | image<most>(*line[j], whole));
        } else {
            if (base == 0) {
                base = end;
                std::memcpy(sets + base, f, (most_diagonals + 1) * sizeof *f);
                std::memcpy(heads + base, line, (most_diagonals + 1) * sizeof *line);
                f = sets + base, line = heads + base;
            }
            --base, --f, --line;
            line[0] = used(event);
            held += held < waiting;
            uint64_t newest = 0;
            for (int r = 0; r < losses; ++r) newest |= f[1 + r];
            f[0] = newest = image<most>(*line[0], newest);
            alive = (alive << 1 & within_bounds) | uint64_t(newest != 0);
            all |= newest;
            if (f[diagonals] != 0) {
                f[diagonals] = 0;
                all = 0;
                for (size_t j = 0; j < most_diagonals; ++j) all |= f[j];
            }
        }
        if (alive == 0) {
            put_empty_lines(out, k, trace_len);
            return k + 1;
        }
        // More inputs since the last take are more that may wait and more that may be lost, each within its bounds.
        unsigned fewest = least(alive), longest = greatest(alive);
        put_line(out + 12 * k, all, fewest < losses ? 0 : fewest - (losses - 1), longest < held ? longest : unsigned(held),
                 fewest < held ? 0 : fewest - unsigned(held), longest < losses ? longest : losses - 1);
    }
    return 0;
}

template <int losses>
uint64_t follow_columns(column *columns, size_t states, size_t inputs, size_t outputs, size_t waiting, const uint8_t *trace,
                        size_t trace_len, uint8_t *out) {
    bool rotates = true;
    for (size_t i = 0; i < inputs + outputs; ++i) rotates &= columns[i].rotates;
    if (rotates) return follow<losses, 0>(columns, states, inputs, waiting, trace, trace_len, out);
    if (states <= 8) return follow<losses, 8>(columns, states, inputs, waiting, trace, trace_len, out);
    if (states <= 16) return follow<losses, 16>(columns, states, inputs, waiting, trace, trace_len, out);
    if (states <= 32) return follow<losses, 32>(columns, states, inputs, waiting, trace, trace_len, out);
    return follow<losses, 64>(columns, states, inputs, waiting, trace, trace_len, out);
}

}  // namespace

bool tuned_run(const uint8_t *rows, size_t rows_len, size_t states, size_t inputs, size_t outputs, size_t waiting, size_t losses,
               const uint8_t *trace, size_t trace_len, uint8_t *out, size_t out_len, uint64_t *told, size_t told_len) {
    if (told_len < run_results) return false;
    if (!run_passes(rows, rows_len, states, inputs, outputs, waiting, losses, trace, trace_len, out_len, told)) return true;
    column columns[2 * most_symbols];
    for (size_t i = 0; i < inputs + outputs; ++i) columns[i] = column(rows, states, inputs + outputs, i);
    using follower = uint64_t(column *, size_t, size_t, size_t, size_t, const uint8_t *, size_t, uint8_t *);
    static follower *const by_losses[most_losses] = {follow_columns<1>, follow_columns<2>, follow_columns<3>, follow_columns<4>,
                                                     follow_columns<5>, follow_columns<6>, follow_columns<7>, follow_columns<8>};
    uint64_t flag = by_losses[losses - 1](columns, states, inputs, outputs, waiting, trace, trace_len, out);
    told[0] = told[1] = told[2] = 0, told[3] = flag;
    return true;
}

// FEED

namespace {

// Whether the session is sound, and what is found on the way: the union of its set.
struct soundness {
    bool sound;
    uint64_t all;
};

soundness examine(const uint64_t *words, const uint8_t *bytes) {
    const uint8_t *counts = bytes + counts_at, *held = bytes + held_at;
    size_t states = counts[0], inputs = counts[1], outputs = counts[2], waiting = counts[3], losses = counts[4];
    if (!within(states, most_states) || !within(inputs, most_symbols) || !within(outputs, most_symbols) ||
        !within(waiting, most_waiting) || !within(losses, most_losses))
        return {false, 0};
    uint64_t events = words[events_at], arrived = words[arrived_at], flag = words[flag_at];
    if (arrived > events || events > most_events) return {false, 0};

    size_t entries = states * (inputs + outputs);
    uint8_t bad = leads_out(bytes, entries, uint8_t(states));
    for (size_t i = entries; i < row_room; ++i) bad |= bytes[i];

    size_t line = arrived < waiting ? arrived : waiting;
    for (size_t i = 0; i < held_room; ++i) bad |= uint8_t(i < line ? held[i] >= inputs : held[i] != 0);

    // What no word of a waiting count within the bounds may have: a state past the table's, and any state in a run of c or more.
    uint64_t outside[runs], all = 0, wrong = 0;
    for (size_t r = 0; r < runs; ++r) outside[r] = r < losses ? (states == 64 ? 0 : ~0ull << states) : ~0ull;
    for (size_t w = 0; w <= line; ++w)
        for (size_t r = 0; r < runs; ++r) all |= words[runs * w + r], wrong |= words[runs * w + r] & outside[r];
    for (size_t i = runs * (line + 1); i < set_words; ++i) wrong |= words[i];

    bool flag_fits = flag == 0 ? all != 0 : all == 0 && flag - 1 < events;
    return {bad == 0 && wrong == 0 && flag_fits, all};
}

inline uint64_t image_of(const uint8_t *rows, size_t width, size_t at, uint64_t set) {
    uint64_t image = 0;
    for (; set; set &= set - 1) {
        uint8_t t = rows[least(set) * width + at];
        image |= uint64_t(t != not_allowed) << (t & 63);
    }
    return image;
}

inline uint64_t union_of(const uint64_t *level) {
    uint64_t all = 0;
    for (size_t r = 0; r < runs; ++r) all |= level[r];
    return all;
}

// Any number of takes and losses, from the longest line to the shortest; the answer is the union of the set.
uint64_t sweep(uint64_t *set, const uint8_t *rows, size_t width, const uint8_t *held, size_t top, size_t losses) {
    uint64_t within_bounds[runs];
    for (size_t r = 0; r < runs; ++r) within_bounds[r] = r < losses ? ~0ull : 0;
    uint64_t above = union_of(set + runs * top), all = above;
    for (size_t w = top; w-- > 0;) {
        uint64_t *level = set + runs * w;
        if (above != 0) {
            level[0] |= image_of(rows, width, held[top - w - 1], above);
            for (size_t r = 1; r < runs; ++r) level[r] |= level[runs + r - 1] & within_bounds[r];
        }
        above = union_of(level);
        all |= above;
    }
    return all;
}

// Every word of the first `levels` becomes its image under the column. `all` is their union.
void send(uint64_t *set, const uint8_t *rows, size_t width, size_t at, size_t levels, uint64_t all) {
    // The states that allow the output, by how far it moves them.
    uint64_t movers[64], distances = 0;
    uint8_t to[64];
    uint64_t allowed = 0;
    for (uint64_t left = all; left; left &= left - 1) {
        unsigned s = least(left);
        uint8_t t = rows[s * width + at];
        if (t == not_allowed) continue;
        unsigned distance = (t - s) & 63;
        if (!(distances >> distance & 1)) movers[distance] = 0;
        distances |= 1ull << distance;
        movers[distance] |= 1ull << s;
        allowed |= 1ull << s;
        to[s] = t;
    }
    if (__builtin_popcountll(distances) <= 6) {
        for (size_t w = 0; w < levels; ++w) {
            uint64_t after[runs] = {}, *level = set + runs * w;
            for (uint64_t left = distances; left; left &= left - 1) {
                unsigned distance = least(left);
                for (size_t r = 0; r < runs; ++r) after[r] |= rotated(level[r] & movers[distance], distance);
            }
            std::memcpy(level, after, sizeof after);
        }
        return;
    }
    // Many states in many directions: images of four states at a time.
    uint64_t tables[16][16];
    for (size_t part = 0; part < 16; ++part) {
        tables[part][0] = 0;
        for (size_t i = 0; i < 4; ++i) {
            size_t s = 4 * part + i, half = size_t(1) << i;
            uint64_t bit = (allowed >> s & 1) ? 1ull << to[s] : 0;
            for (size_t k = 0; k < half; ++k) tables[part][half + k] = tables[part][k] | bit;
        }
    }
    // In a closed set a word is that of one more waiting and a run of one less, so its image is at hand: from the longest line to the
    // shortest, the level above is kept as it was and as it is. In any other set the words differ, and an image is taken.
    uint64_t above[runs] = {}, above_after[runs] = {};
    for (size_t w = levels; w-- > 0;) {
        uint64_t after[runs], *level = set + runs * w;
        for (size_t r = 0; r < runs; ++r) {
            uint64_t image = 0;
            if (r > 0 && level[r] == above[r - 1])
                image = above_after[r - 1];
            else if (level[r] & allowed)
                for (size_t part = 0; part < 16; ++part) image |= tables[part][level[r] >> (4 * part) & 15];
            after[r] = image;
        }
        std::memcpy(above, level, sizeof above);
        std::memcpy(above_after, after, sizeof after);
        std::memcpy(level, after, sizeof after);
    }
}

}  // namespace

bool tuned_feed(uint64_t *words, size_t words_len, uint8_t *bytes, size_t bytes_len, uint8_t byte, uint64_t *told, size_t told_len) {
    if (words_len < session_words || bytes_len < session_bytes || told_len < test_results) return false;
    auto tell = [&](uint64_t number, uint64_t place) {
        told[0] = number, told[1] = place, told[2] = 0;
        return true;
    };
    auto [sound, all] = examine(words, bytes);
    if (!sound) return tell(8, 0);
    uint64_t events = words[events_at], arrived = words[arrived_at];
    if (events >= most_events) return tell(9, events + 1);
    const uint8_t *counts = bytes + counts_at;
    size_t inputs = counts[1], outputs = counts[2], waiting = counts[3], losses = counts[4], width = inputs + outputs;
    if (!valid_event(byte, inputs, outputs)) return tell(7, events);

    uint8_t *held = bytes + held_at;
    size_t line = arrived < waiting ? arrived : waiting;
    if (is_output(byte)) {
        if (all != 0) {
            send(words, bytes, width, inputs + (byte - first_output), line + 1, all);
            all = sweep(words, bytes, width, held, line, losses);
        }
    } else {
        if (line == waiting)
            std::memmove(held, held + 1, waiting - 1);
        else
            ++line;
        held[line - 1] = byte;
        if (all != 0) {
            std::memmove(words + runs, words, runs * line * sizeof *words);
            std::memset(words, 0, runs * sizeof *words);
            all = sweep(words, bytes, width, held, line, losses);
        }
        words[arrived_at] = arrived + 1;
    }
    words[events_at] = events + 1;
    if (all == 0 && words[flag_at] == 0) words[flag_at] = events + 1;
    return tell(0, 0);
}
