// What one writes first: the plausible set as a std::set of configurations.
#include <array>
#include <deque>
#include <set>
#include <vector>

#include "checks.h"

using namespace monitors;

namespace {

// State, waiting, run.
using configuration = std::array<uint8_t, 3>;

struct box {
    const uint8_t *rows;
    size_t width, inputs, waiting, losses;
    std::deque<uint8_t> held = {};  // the newest inputs, oldest first, B at most
    std::set<configuration> set = {{0, 0, 0}};

    uint8_t next(uint8_t state, size_t column) const { return rows[state * width + column]; }

    // Any number of takes and losses.
    void close() {
        std::vector<configuration> left(set.begin(), set.end());
        auto reach = [&](configuration reached) {
            if (set.insert(reached).second) left.push_back(reached);
        };
        while (!left.empty()) {
            auto [state, wait, run] = left.back();
            left.pop_back();
            if (wait == 0) continue;
            uint8_t to = next(state, held[held.size() - wait]);
            if (to != not_allowed) reach({to, uint8_t(wait - 1), 0});
            if (run + 1u < losses) reach({state, uint8_t(wait - 1), uint8_t(run + 1)});
        }
    }

    void arrive(uint8_t input) {
        held.push_back(input);
        if (held.size() > waiting) held.pop_front();
        std::set<configuration> after;
        for (auto [state, wait, run] : set)
            if (wait < waiting) after.insert({state, uint8_t(wait + 1), run});
        set = after;
        close();
    }

    void send(uint8_t output) {
        std::set<configuration> after;
        for (auto [state, wait, run] : set) {
            uint8_t to = next(state, inputs + output);
            if (to != not_allowed) after.insert({to, wait, run});
        }
        set = after;
        close();
    }

    void put(uint8_t *line) const {
        uint64_t states = 0, waits = 0, lost = 0;
        for (auto [state, wait, run] : set) states |= 1ull << state, waits |= 1ull << wait, lost |= 1ull << run;
        if (set.empty())
            put_empty_line(line);
        else
            put_line(line, states, least(waits), greatest(waits), least(lost), greatest(lost));
    }
};

}  // namespace

bool naive_run(const uint8_t *rows, size_t rows_len, size_t states, size_t inputs, size_t outputs, size_t waiting, size_t losses,
               const uint8_t *trace, size_t trace_len, uint8_t *out, size_t out_len, uint64_t *told, size_t told_len) {
    if (told_len < run_results) return false;
    if (!run_passes(rows, rows_len, states, inputs, outputs, waiting, losses, trace, trace_len, out_len, told)) return true;
    box monitored = {rows, inputs + outputs, inputs, waiting, losses};
    uint64_t flag = 0;
    for (size_t k = 0; k < trace_len; ++k) {
        if (is_output(trace[k]))
            monitored.send(trace[k] - first_output);
        else
            monitored.arrive(trace[k]);
        monitored.put(out + 12 * k);
        if (monitored.set.empty() && flag == 0) flag = k + 1;
    }
    told[0] = told[1] = told[2] = 0, told[3] = flag;
    return true;
}
