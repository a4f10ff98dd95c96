// Tables and traces to measure with. All randomness is from one generator with a fixed start, so that every run has the same work.
#pragma once
#include <deque>
#include <random>
#include <string>
#include <vector>

#include "monitors.h"

namespace monitors {

struct table {
    size_t states, inputs, outputs;
    std::vector<uint8_t> rows;

    size_t width() const { return inputs + outputs; }
    uint8_t next(size_t state, size_t column) const { return rows[state * width() + column]; }
};

struct bounds {
    size_t waiting, losses;
};

struct workload {
    std::string name;
    table box;
    bounds limits;
    std::vector<uint8_t> trace;
};

using generator = std::mt19937_64;

inline size_t below(generator &random, size_t n) { return random() % n; }

// State e + 16 p: e is the next poll number expected, p the polls taken and not yet reported. With nothing unreported the poll before the
// one expected has the box send its report again.
inline table standard_box() {
    table box = {64, 16, 16, std::vector<uint8_t>(64 * 32, not_allowed)};
    for (size_t p = 0; p < 4; ++p)
        for (size_t e = 0; e < 16; ++e) {
            uint8_t *row = &box.rows[(e + 16 * p) * 32];
            for (size_t a = 0; a < 16; ++a) {
                if (a != e)
                    row[a] = uint8_t(e + 16 * p);
                else if (p < 3)
                    row[a] = uint8_t((e + 1) % 16 + 16 * (p + 1));
            }
            if (p == 0) row[(e + 15) % 16] = uint8_t(e + 16);
            if (p > 0) row[16 + (e + 16 - p) % 16] = uint8_t(e + 16 * (p - 1));
        }
    return box;
}

// Document 01's table T.
inline table small_box() { return {2, 1, 2, {1, 255, 255, 255, 0, 0}}; }

// Each entry is allowed with a chance of `allowed` in 8.
inline table random_box(generator &random, size_t states, size_t inputs, size_t outputs, size_t allowed) {
    table box = {states, inputs, outputs, std::vector<uint8_t>(states * (inputs + outputs))};
    for (uint8_t &entry : box.rows) entry = below(random, 8) < allowed ? uint8_t(below(random, states)) : not_allowed;
    return box;
}

// The trace that a random admissible run shows, of so many events, or fewer where the run comes to a place from which nothing leads
// on. The hub counts its polls in order, and asks another now and then; a quarter of the inputs at the head of the line are lost
// where that is allowed.
inline std::vector<uint8_t> walk(generator &random, const table &box, bounds limits, size_t events) {
    std::vector<uint8_t> trace;
    std::deque<uint8_t> line;
    size_t state = 0, run = 0, poll = 0;
    for (size_t idle = 0; trace.size() < events && idle < 1000;) {
        ++idle;
        switch (below(random, 3)) {
            case 0: {
                if (line.size() == limits.waiting) break;
                size_t a = below(random, 8) == 0 ? below(random, box.inputs) : poll++ % box.inputs;
                line.push_back(uint8_t(a));
                trace.push_back(uint8_t(a));
                idle = 0;
                break;
            }
            case 1: {
                if (line.empty()) break;
                uint8_t to = box.next(state, line.front());
                bool may_lose = run + 1 < limits.losses;
                if (may_lose && (to == not_allowed || below(random, 4) == 0)) {
                    ++run;
                } else if (to != not_allowed) {
                    state = to;
                    run = 0;
                } else {
                    break;
                }
                line.pop_front();
                break;
            }
            default: {
                size_t first = below(random, box.outputs);
                for (size_t i = 0; i < box.outputs; ++i) {
                    size_t b = (first + i) % box.outputs;
                    uint8_t to = box.next(state, box.inputs + b);
                    if (to == not_allowed) continue;
                    state = to;
                    trace.push_back(uint8_t(first_output + b));
                    idle = 0;
                    break;
                }
            }
        }
    }
    return trace;
}

// Valid events of any kind: nothing keeps the set alive.
inline std::vector<uint8_t> any_events(generator &random, const table &box, size_t events) {
    std::vector<uint8_t> trace(events);
    for (uint8_t &event : trace) {
        size_t symbol = below(random, box.width());
        event = uint8_t(symbol < box.inputs ? symbol : first_output + symbol - box.inputs);
    }
    return trace;
}

inline workload walked(generator &random, std::string name, table box, bounds limits, size_t events) {
    std::vector<uint8_t> trace = walk(random, box, limits, events);
    return {std::move(name), std::move(box), limits, std::move(trace)};
}

}  // namespace monitors
