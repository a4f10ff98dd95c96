// What the doors cost: the proved functions called as the library calls them itself, through the C door, and through the Rust door
// (bench/door), on the same workloads in one process. Prints a markdown table. Exit status 1 where they do not agree.
//
// The functions within the library have no names to link to. bench/run makes a second copy of its modules, in which those that are called
// here have one; they are called as the modules themselves call them: the answer's address first, a slice as its address and count, a session
// by its address.
#include <time.h>

#include <algorithm>
#include <cstdio>
#include <cstdlib>
#include <cstring>

#include "workloads.h"

using namespace monitors;

extern "C" {
void inner_session_in(void *session, const uint64_t *words, size_t words_count, const uint8_t *bytes, size_t bytes_count);
void inner_advance(void *test, void *session, uint8_t event);

// A box's rules, as the library has them and as the Rust door is handed them.
struct door_box {
    const uint8_t *rows;
    size_t rows_count, states, inputs, outputs, waiting, losses;
};
void inner_run(void *ran, const door_box *rules, const uint8_t *trace, size_t trace_count, uint8_t *out, size_t out_count);
bool door_feeds(const door_box *box, const uint8_t *trace, size_t count, uint64_t *words);
bool door_runs(const door_box *box, const uint8_t *trace, size_t count, uint8_t *out, size_t room, size_t times);
}

namespace {

// In the module a session is so many bytes, and a test, which a feed answers, so many.
constexpr size_t session_size = 4232, test_size = 32;

constexpr size_t rounds = 15;

// The time that this thread was given, so that what else the machine does counts less.
double now() {
    timespec t;
    clock_gettime(CLOCK_THREAD_CPUTIME_ID, &t);
    return double(t.tv_sec) * 1e9 + double(t.tv_nsec);
}

[[noreturn]] void stop(const char *why) {
    std::fprintf(stderr, "doors: %s\n", why);
    std::exit(1);
}

struct memory {
    uint64_t words[session_words];
    uint8_t bytes[session_bytes];
};

memory opened(const workload &w) {
    memory m;
    uint64_t told[test_results];
    if (!rillmoth_open(w.box.rows.data(), w.box.rows.size(), w.box.states, w.box.inputs, w.box.outputs, w.limits.waiting, w.limits.losses,
                       m.words, session_words, m.bytes, session_bytes, told, test_results) ||
        told[0] != 0)
        stop("an opening is refused");
    return m;
}

// Each loop feeds the first events of the trace to a session of its own, and leaves the set that it ends with.
using feed_loop = void(const workload &w, size_t events, uint64_t *set);

void feeds_within(const workload &w, size_t events, uint64_t *set) {
    memory m = opened(w);
    alignas(16) static uint8_t session[session_size], test[test_size];
    inner_session_in(session, m.words, session_words, m.bytes, session_bytes);
    for (size_t k = 0; k < events; ++k) inner_advance(test, session, w.trace[k]);
    // The set stands somewhere in a session: where is found by the one that was fed through the door (see `agree`).
    std::memcpy(set, session, session_size);
}

void feeds_through_c(const workload &w, size_t events, uint64_t *set) {
    memory m = opened(w);
    uint64_t told[test_results];
    for (size_t k = 0; k < events; ++k)
        if (!rillmoth_feed(m.words, session_words, m.bytes, session_bytes, w.trace[k], told, test_results) || told[0] != 0)
            stop("a feed is refused");
    std::memcpy(set, m.words, sizeof m.words);
}

door_box box_of(const workload &w) {
    return {w.box.rows.data(), w.box.rows.size(), w.box.states, w.box.inputs, w.box.outputs, w.limits.waiting, w.limits.losses};
}

void feeds_through_rust(const workload &w, size_t events, uint64_t *set) {
    door_box box = box_of(w);
    if (!door_feeds(&box, w.trace.data(), events, set)) stop("a feed is refused");
}

// Each loop runs over the first events of the trace, as often as this.
using run_loop = void(const workload &w, size_t events, std::vector<uint8_t> &out, size_t times);

void runs_within(const workload &w, size_t events, std::vector<uint8_t> &out, size_t times) {
    alignas(16) uint8_t ran[256];
    door_box box = box_of(w);
    for (size_t k = 0; k < times; ++k) inner_run(ran, &box, w.trace.data(), events, out.data(), out.size());
}

void runs_through_c(const workload &w, size_t events, std::vector<uint8_t> &out, size_t times) {
    uint64_t told[run_results];
    for (size_t k = 0; k < times; ++k)
        if (!rillmoth_run(w.box.rows.data(), w.box.rows.size(), w.box.states, w.box.inputs, w.box.outputs, w.limits.waiting,
                          w.limits.losses, w.trace.data(), events, out.data(), out.size(), told, run_results) ||
            told[0] != 0)
            stop("a run is refused");
}

void runs_through_rust(const workload &w, size_t events, std::vector<uint8_t> &out, size_t times) {
    door_box box = box_of(w);
    if (!door_runs(&box, w.trace.data(), events, out.data(), out.size(), times)) stop("a run is refused");
}

constexpr size_t ways = 3;
feed_loop *const feed_ways[ways] = {feeds_within, feeds_through_c, feeds_through_rust};
run_loop *const run_ways[ways] = {runs_within, runs_through_c, runs_through_rust};

// All ways come to the same set, and write the same bytes.
void agree(const workload &w, size_t events) {
    static uint64_t within[session_size / 8], c[session_words], rust[session_words];
    feeds_within(w, events, within);
    feeds_through_c(w, events, c);
    feeds_through_rust(w, events, rust);
    if (std::memcmp(c, rust, sizeof c)) stop("the doors do not come to the same session");
    bool there = false;
    for (size_t at = 0; at + set_words <= session_size / 8; ++at) there |= !std::memcmp(within + at, c, set_words * sizeof *c);
    if (!there) stop("the library and its doors do not come to the same set");
    std::vector<uint8_t> out[ways];
    for (size_t i = 0; i < ways; ++i) {
        out[i].assign(12 * events, 0xAA);
        run_ways[i](w, events, out[i], 1);
        if (out[i] != out[0]) stop("runs do not write the same bytes");
    }
}

double median(std::vector<double> v) {
    std::sort(v.begin(), v.end());
    return v[v.size() / 2];
}

// Medians of rounds in which each way has its turn.
template <typename measure> void print_row(const char *what, const workload &w, measure one_round) {
    std::vector<double> took[ways];
    for (size_t round = 0; round < rounds; ++round)
        for (size_t i = 0; i < ways; ++i) took[i].push_back(one_round(i));
    double within = median(took[0]), c = median(took[1]), rust = median(took[2]);
    std::printf("| %s, %s | %.0f | %.0f | %.0f | %+.0f | %+.0f |\n", what, w.name.c_str(), within, c, rust, c - within, rust - c);
    std::fflush(stdout);
}

}  // namespace

int main() {
    generator random(20260101);
    std::vector<workload> all;
    all.push_back(walked(random, "standard box, B 32, c 8", standard_box(), {32, 8}, 5000));
    all.push_back(walked(random, "table T, B 2, c 1", small_box(), {2, 1}, 5000));
    for (const workload &w : all)
        for (size_t events : {size_t(1), size_t(100), w.trace.size()}) agree(w, events);

    std::printf("| ns a call | within the library | C door | Rust door | C door over the library | Rust door over the C door |\n");
    std::printf("|---|---|---|---|---|---|\n");
    for (const workload &w : all)
        print_row("a feed", w, [&](size_t i) {
            static uint64_t set[session_size / 8];
            double before = now();
            feed_ways[i](w, w.trace.size(), set);
            return (now() - before) / double(w.trace.size());
        });
    for (size_t events : {size_t(1), size_t(1000)})
        for (const workload &w : all) {
            std::vector<uint8_t> out(12 * events);
            size_t times = 20000 / events + 100;
            print_row(events == 1 ? "a run of 1 event" : "a run of 1,000 events", w, [&](size_t i) {
                double before = now();
                run_ways[i](w, events, out, times);
                return (now() - before) / double(times);
            });
        }
}
