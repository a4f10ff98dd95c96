// The tests that document 01 asks of a whole run, in its order: 2, 3, 1, 4, 5, 6, 9, 7, 10. The monitors written here share them, so
// that each does the whole job of the proved one. They are written for speed: a fault is looked for without branches first, and its
// place only where there is one.
#pragma once
#include "monitors.h"

namespace monitors {

inline bool refuse(uint64_t *told, uint64_t number, uint64_t place, uint64_t second = 0) {
    told[0] = number, told[1] = place, told[2] = second, told[3] = 0;
    return false;
}

inline bool within(size_t n, size_t most) { return 1 <= n && n <= most; }

// Whether an entry of the first `count` is neither 255 nor below `states`: one more than 255 is 0 in a byte.
inline bool leads_out(const uint8_t *entries, size_t count, uint8_t states) {
    uint8_t bad = 0;
    for (size_t i = 0; i < count; ++i) bad |= uint8_t(entries[i] + 1) > states;
    return bad != 0;
}

inline bool is_output(uint8_t byte) { return byte >= first_output; }

inline bool valid_event(uint8_t byte, size_t inputs, size_t outputs) {
    return (byte < inputs) | (uint8_t(byte - first_output) < outputs);
}

// True where nothing is to be refused; otherwise the refusal is told.
inline bool run_passes(const uint8_t *rows, size_t rows_len, size_t states, size_t inputs, size_t outputs, size_t waiting,
                       size_t losses, const uint8_t *trace, size_t trace_len, size_t out_len, uint64_t *told) {
    if (!within(states, most_states)) return refuse(told, 2, states);
    if (!within(inputs, most_symbols)) return refuse(told, 3, inputs);
    if (!within(outputs, most_symbols)) return refuse(told, 3, outputs);
    size_t width = inputs + outputs;
    if (rows_len != states * width) return refuse(told, 1, rows_len);
    if (leads_out(rows, rows_len, uint8_t(states))) {
        size_t i = 0;
        while (rows[i] < states || rows[i] == not_allowed) ++i;
        return refuse(told, 4, i / width, i % width);
    }
    if (!within(waiting, most_waiting)) return refuse(told, 5, waiting);
    if (!within(losses, most_losses)) return refuse(told, 6, losses);
    if (trace_len > most_events) return refuse(told, 9, trace_len);
    uint8_t bad = 0;
    for (size_t i = 0; i < trace_len; ++i) bad |= uint8_t(!valid_event(trace[i], uint8_t(inputs), uint8_t(outputs)));
    if (bad) {
        size_t i = 0;
        while (valid_event(trace[i], inputs, outputs)) ++i;
        return refuse(told, 7, i);
    }
    if (out_len < 12 * trace_len) return refuse(told, 10, 12 * trace_len);
    return true;
}

// The twelve bytes of an event. Both machines that this is for have the least byte first.
inline void put_line(uint8_t *line, uint64_t states, unsigned least_waiting, unsigned most_waiting, unsigned least_run,
                     unsigned most_run) {
    uint32_t four = least_waiting | most_waiting << 8 | least_run << 16 | most_run << 24;
    __builtin_memcpy(line, &states, 8);
    __builtin_memcpy(line + 8, &four, 4);
}

inline void put_empty_line(uint8_t *line) { put_line(line, 0, 255, 255, 255, 255); }

inline unsigned least(uint64_t set) { return unsigned(__builtin_ctzll(set)); }
inline unsigned greatest(uint64_t set) { return 63 - unsigned(__builtin_clzll(set)); }

}  // namespace monitors
