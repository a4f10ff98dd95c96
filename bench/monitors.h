// The functions that are measured: the proved library's, and those written here. All have one signature, so that one driver calls
// them on the same memory.
#pragma once
#include <cstddef>
#include <cstdint>

namespace monitors {

// What a run or a feed leaves in its words of results: a refusal's number and two places, and for a run the flag, 0 for none and
// place + 1 otherwise.
constexpr size_t test_results = 3, run_results = 4;

// A session in lent memory. Words 0 to 263 are the set, 264 the events, 265 the inputs among them, 266 the flag as above. Bytes 0 to
// 2047 are the rows, 2048 to 2079 the held inputs, then states, inputs, outputs, B and c.
constexpr size_t session_words = 267, session_bytes = 2085;
constexpr size_t set_words = 264, events_at = 264, arrived_at = 265, flag_at = 266;
constexpr size_t row_room = 2048, held_at = 2048, held_room = 32, counts_at = 2080;

constexpr size_t most_states = 64, most_symbols = 16, most_waiting = 32, most_losses = 8, most_events = 1048576;
constexpr size_t runs = 8;  // words of one waiting count in a session's set
constexpr uint8_t not_allowed = 255;
constexpr uint8_t first_output = 128;

using run_function = bool(const uint8_t *rows, size_t rows_len, size_t states, size_t inputs, size_t outputs, size_t waiting,
                          size_t losses, const uint8_t *trace, size_t trace_len, uint8_t *out, size_t out_len, uint64_t *told,
                          size_t told_len);
using feed_function = bool(uint64_t *words, size_t words_len, uint8_t *bytes, size_t bytes_len, uint8_t byte, uint64_t *told,
                           size_t told_len);
using open_function = bool(const uint8_t *rows, size_t rows_len, size_t states, size_t inputs, size_t outputs, size_t waiting,
                           size_t losses, uint64_t *words, size_t words_len, uint8_t *bytes, size_t bytes_len, uint64_t *told,
                           size_t told_len);

}  // namespace monitors

extern "C" {
monitors::open_function rillmoth_open;
monitors::run_function rillmoth_run, naive_run, cells_run, tuned_run, tuned_run_other;
monitors::feed_function rillmoth_feed, tuned_feed, tuned_feed_other;
}
