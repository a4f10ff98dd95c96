// A whole run over the set as the document has it, a word for each waiting count and run, with what is usually done to make that fast:
// waiting counts behind a moved base, so that an arrival moves nothing and closes only the newest input; a union of states and a mask
// of non-empty runs kept with each waiting count; images of unions, not of words; outputs only by the states that allow them, or
// through tables of images where many are live. It stands between naive.cpp and tuned.cpp, which keeps fewer words: the
// difference to it is what the proved code can gain without a new idea.
#include <cstring>

#include "checks.h"
#include "column.h"

using namespace monitors;

namespace {

// At an output 264 images are taken of one column, so its tables are large.
using column = column_in_parts<8>;

// Room for the tables of every column. It is kept from run to run: to get it anew costs more than to fill it.
thread_local column::tables_of_column table_room[2 * most_symbols];

constexpr size_t most_levels = most_waiting + 1;
constexpr size_t window_levels = 256;

// All that may be while w wait.
struct level {
    uint64_t words[runs];
    uint64_t all;       // their union
    uint64_t nonempty;  // bit r: words[r] is not empty
};

inline uint64_t image(const column &c, uint64_t set) {
    return c.tables && __builtin_popcountll(set) > 8 ? c.image_by_tables<most_states>(set) : c.image_by_states(set);
}

inline void sum(level &x) {
    x.all = x.nonempty = 0;
    for (size_t r = 0; r < runs; ++r) x.all |= x.words[r], x.nonempty |= uint64_t(x.words[r] != 0) << r;
}

inline void send(level &x, const column &c) {
    uint64_t live = x.all & c.allowed;
    uint64_t after[runs] = {};
    if (c.tables && __builtin_popcountll(live) > 8) {
        for (size_t r = 0; r < runs; ++r) after[r] = c.image_by_tables<most_states>(x.words[r]);
    } else {
        for (; live; live &= live - 1) {
            unsigned s = least(live), t = c.to[s];
            for (size_t r = 0; r < runs; ++r) after[r] |= (x.words[r] >> s & 1) << t;
        }
    }
    std::memcpy(x.words, after, sizeof after);
}

// What is taken and lost from the level above.
inline void lower(level &x, const level &above, const column &c, const uint64_t *within_bounds) {
    x.words[0] |= image(c, above.all);
    for (size_t r = 1; r < runs; ++r) x.words[r] |= above.words[r - 1] & within_bounds[r];
}

uint64_t follow(column *columns, size_t states, size_t inputs, size_t waiting, size_t losses, const uint8_t *trace, size_t trace_len,
                uint8_t *out) {
    static thread_local level levels[window_levels];
    const column *heads[window_levels];
    constexpr size_t end = window_levels - most_levels;
    std::memset(levels, 0, sizeof levels);
    size_t base = end;
    level *at = levels + base;           // at[w]: w wait
    const column **line = heads + base;  // line[w] is the input at the head of a line of w + 1
    uint64_t within_bounds[runs];
    for (size_t r = 0; r < runs; ++r) within_bounds[r] = r < losses ? ~0ull : 0;
    size_t held = 0;
    at[0].words[0] = at[0].all = at[0].nonempty = 1;

    auto used = [&](size_t i) -> const column * {
        column &c = columns[i];
        if (!c.tables && ++c.uses == uses_before_tables && __builtin_popcountll(c.allowed) > 8) c.make_tables(table_room[i], states);
        return &c;
    };

    for (size_t k = 0; k < trace_len; ++k) {
        uint8_t event = trace[k];
        if (is_output(event)) {
            const column &sent = *used(inputs + (event - first_output));
            for (size_t w = held + 1; w-- > 0;) {
                bool gains = w < held && at[w + 1].all != 0;
                if (at[w].all == 0 && !gains) continue;
                send(at[w], sent);
                if (gains) lower(at[w], at[w + 1], *line[w], within_bounds);
                sum(at[w]);
            }
        } else {
            if (base == 0) {
                base = end;
                std::memcpy(levels + base, at, most_levels * sizeof *at);
                std::memcpy(heads + base, line, most_waiting * sizeof *line);
                at = levels + base, line = heads + base;
            }
            --base, --at, --line;
            line[0] = used(event);
            held += held < waiting;
            std::memset(at[0].words, 0, sizeof at[0].words);
            lower(at[0], at[1], *line[0], within_bounds);
            sum(at[0]);
        }
        uint64_t all = 0, waits = 0, lost = 0;
        for (size_t w = 0; w <= held; ++w) all |= at[w].all, lost |= at[w].nonempty, waits |= uint64_t(at[w].all != 0) << w;
        if (all == 0) {
            for (size_t later = k; later < trace_len; ++later) put_empty_line(out + 12 * later);
            return k + 1;
        }
        put_line(out + 12 * k, all, least(waits), greatest(waits), least(lost), greatest(lost));
    }
    return 0;
}

}  // namespace

bool cells_run(const uint8_t *rows, size_t rows_len, size_t states, size_t inputs, size_t outputs, size_t waiting, size_t losses,
               const uint8_t *trace, size_t trace_len, uint8_t *out, size_t out_len, uint64_t *told, size_t told_len) {
    if (told_len < run_results) return false;
    if (!run_passes(rows, rows_len, states, inputs, outputs, waiting, losses, trace, trace_len, out_len, told)) return true;
    column columns[2 * most_symbols];
    for (size_t i = 0; i < inputs + outputs; ++i) columns[i] = column(rows, states, inputs + outputs, i);
    uint64_t flag = follow(columns, states, inputs, waiting, losses, trace, trace_len, out);
    told[0] = told[1] = told[2] = 0, told[3] = flag;
    return true;
}
