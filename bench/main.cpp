// Measures the proved library beside the C++ written here, in one process and on the same inputs, after it has compared what they
// write byte for byte. Prints markdown tables.
//
//   bench             the comparison, and nanoseconds an event and a feed
//   bench --quick     the same with fewer rounds and without naive, while one changes something
//   bench --growth    the comparison, and what grows with the events, B, c and the states
//   bench --one WHO WORKLOAD [EVENTS]   one run or feed loop only, for a profiler: WHO is ours, tuned, cells, our-feed or tuned-feed
//
// Exit status 1 where something differs.
#include <time.h>

#include <algorithm>
#include <cstdio>
#include <cstdlib>
#include <cstring>

#include "workloads.h"

using namespace monitors;

namespace {

size_t rounds = 9;
constexpr uint8_t untouched = 0xAA;

// The time that this thread was given, so that what else the machine does counts less.
double now() {
    timespec t;
    clock_gettime(CLOCK_THREAD_CPUTIME_ID, &t);
    return double(t.tv_sec) * 1e9 + double(t.tv_nsec);
}

double median(std::vector<double> v) {
    std::sort(v.begin(), v.end());
    return v[v.size() / 2];
}

// ---- what they write

// The memory that a run leaves.
struct results {
    std::vector<uint8_t> out;
    std::vector<uint64_t> told;
    bool operator==(const results &other) const { return out == other.out && told == other.told; }
};

// A run with any counts, bounds and lengths whatever, so that refusals can be tried.
struct request {
    std::vector<uint8_t> rows;
    size_t states, inputs, outputs, waiting, losses;
    std::vector<uint8_t> trace;
    size_t room;
};

request request_of(const workload &w, size_t events) {
    events = std::min(events, w.trace.size());
    std::vector<uint8_t> trace(w.trace.begin(), w.trace.begin() + long(events));
    return {w.box.rows, w.box.states, w.box.inputs, w.box.outputs, w.limits.waiting, w.limits.losses, trace, 12 * events};
}

void call(run_function *run, const request &q, results &r) {
    // An address is never null, also where nothing is there.
    static const uint8_t nothing = 0;
    static uint8_t no_room;
    const uint8_t *rows = q.rows.empty() ? &nothing : q.rows.data(), *trace = q.trace.empty() ? &nothing : q.trace.data();
    uint8_t *out = r.out.empty() ? &no_room : r.out.data();
    if (!run(rows, q.rows.size(), q.states, q.inputs, q.outputs, q.waiting, q.losses, trace, q.trace.size(), out, r.out.size(),
             r.told.data(), r.told.size())) {
        std::fprintf(stderr, "a run answered false\n");
        std::exit(1);
    }
}

results fresh_results(const request &q) { return {std::vector<uint8_t>(q.room, untouched), std::vector<uint64_t>(run_results, 7)}; }

results results_of(run_function *run, const request &q) {
    results r = fresh_results(q);
    call(run, q, r);
    return r;
}

struct session {
    uint64_t words[session_words];
    uint8_t bytes[session_bytes];
    uint64_t told[test_results];
    bool operator==(const session &other) const {
        return !std::memcmp(words, other.words, sizeof words) && !std::memcmp(bytes, other.bytes, sizeof bytes) &&
               !std::memcmp(told, other.told, sizeof told);
    }
};

session opened(const workload &w) {
    session s = {};
    rillmoth_open(w.box.rows.data(), w.box.rows.size(), w.box.states, w.box.inputs, w.box.outputs, w.limits.waiting, w.limits.losses,
                  s.words, session_words, s.bytes, session_bytes, s.told, test_results);
    return s;
}

void call(feed_function *feed, session &s, uint8_t event) {
    if (!feed(s.words, session_words, s.bytes, session_bytes, event, s.told, test_results)) {
        std::fprintf(stderr, "a feed answered false\n");
        std::exit(1);
    }
}

size_t compared = 0, different = 0;

void compare(bool same, const char *what, const std::string &where) {
    ++compared;
    if (same) return;
    if (++different <= 10) std::fprintf(stderr, "different: %s, %s\n", what, where.c_str());
}

void compare_runs(const request &q, const std::string &where, bool with_naive) {
    results ours = results_of(rillmoth_run, q);
    compare(ours == results_of(tuned_run, q), "run, tuned", where);
    compare(ours == results_of(tuned_run_other, q), "run, tuned by the other compiler", where);
    compare(ours == results_of(cells_run, q), "run, cells", where);
    if (with_naive) compare(ours == results_of(naive_run, q), "run, naive", where);
}

// All are fed the same events; one that is refused leaves the session to the next.
void compare_feeds(session s, const std::vector<uint8_t> &events, const std::string &where) {
    session tuned = s, other = s;
    for (uint8_t event : events) {
        call(rillmoth_feed, s, event);
        call(tuned_feed, tuned, event);
        call(tuned_feed_other, other, event);
        compare(s == tuned, "feed, tuned", where);
        compare(s == other, "feed, tuned by the other compiler", where);
    }
}

// One thing made wrong, or perhaps only different.
void disturb(generator &random, request &q) {
    switch (below(random, 10)) {
        case 0: q.states = below(random, 67); break;
        case 1: q.inputs = below(random, 19); break;
        case 2: q.outputs = below(random, 19); break;
        case 3: q.rows.resize(below(random, 80)); break;
        case 4:
            if (!q.rows.empty()) q.rows[below(random, q.rows.size())] = uint8_t(random());
            break;
        case 5: q.waiting = below(random, 36); break;
        case 6: q.losses = below(random, 11); break;
        case 7:
            if (!q.trace.empty()) q.trace[below(random, q.trace.size())] = uint8_t(random());
            break;
        case 8: q.room = below(random, q.room + 1); break;
        default: q.trace.resize(most_events + 1), q.room = 12 * q.trace.size();
    }
}

void disturb(generator &random, session &s) {
    switch (below(random, 8)) {
        case 0: s.words[below(random, session_words)] ^= 1ull << below(random, 64); break;
        case 1: s.words[below(random, set_words)] = random() & random(); break;
        case 2: s.bytes[below(random, session_bytes)] = uint8_t(random()); break;
        case 3: s.bytes[counts_at + below(random, 5)] = uint8_t(below(random, 66)); break;
        case 4: s.words[events_at] = most_events - below(random, 3); break;
        case 5: s.words[flag_at] = below(random, 40); break;
        case 6: s.bytes[held_at + below(random, held_room)] = uint8_t(below(random, 18)); break;
        default: {
            // Sound and, as a rule, not closed: some configurations are left out.
            uint64_t kept = random();
            for (size_t i = 0; i < set_words; ++i) s.words[i] &= kept;
        }
    }
}

void compare_small_cases(generator &random) {
    for (size_t i = 0; i < 600; ++i) {
        size_t states = 1 + below(random, i % 3 == 0 ? 64 : 6);
        table box = random_box(random, states, 1 + below(random, i % 2 ? 4 : 16), 1 + below(random, i % 2 ? 4 : 16), 2 + below(random, 7));
        if (i % 10 == 9) box = standard_box();
        bounds limits = {1 + below(random, i % 4 ? 6 : 32), 1 + below(random, 8)};
        size_t events = below(random, 120);
        std::vector<uint8_t> trace = walk(random, box, limits, events);
        // Ends with events that nothing keeps alive, so that most are flagged in the end.
        for (uint8_t event : any_events(random, box, below(random, 30))) trace.push_back(event);
        workload w = {"small case " + std::to_string(i), box, limits, trace};
        request q = request_of(w, trace.size());
        q.room += below(random, 3);
        compare_runs(q, w.name, states <= 16);

        session s = opened(w);
        compare_feeds(s, trace, w.name);
        // From somewhere in the middle, with something changed.
        size_t most = below(random, trace.size() + 1);
        for (size_t k = 0; k < most; ++k) call(tuned_feed, s, trace[k]);
        for (size_t k = below(random, 3); k-- > 0;) disturb(random, s);
        trace.push_back(uint8_t(random()));
        compare_feeds(s, trace, w.name + ", disturbed");

        for (size_t k = below(random, 3); k-- > 0;) disturb(random, q);
        compare_runs(q, w.name + ", disturbed", false);
    }
}

// ---- what they cost

// The prefix of a trace on which one round takes about this long; the same for all that are measured beside each other.
size_t fitting(run_function *run, const workload &w, double nanoseconds) {
    size_t events = std::min<size_t>(w.trace.size(), 32);
    for (;;) {
        request q = request_of(w, events);
        results r = fresh_results(q);
        double before = now();
        call(run, q, r);
        double took = now() - before;
        if (events == w.trace.size() || took > nanoseconds / 4) {
            double fits = double(events) * nanoseconds / std::max(took, 1.0);
            return std::min(w.trace.size(), std::max<size_t>(16, size_t(fits)));
        }
        events = std::min(w.trace.size(), 4 * events);
    }
}

// Of the two compilers' code for `tuned`, the faster counts.
constexpr size_t ours_at = 0, tuned_at = 1, other_at = 2, cells_at = 3;

std::vector<double> better(std::vector<double> t) {
    t[tuned_at] = std::min(t[tuned_at], t[other_at]);
    return t;
}

// Nanoseconds an event: medians of rounds in which each has its turn.
std::vector<double> time_runs(const std::vector<run_function *> &runs, const workload &w, size_t events, size_t times) {
    request q = request_of(w, events);
    results r = fresh_results(q);
    std::vector<std::vector<double>> took(runs.size());
    // What is over soon is done several times in a round: the clock is coarse.
    std::vector<size_t> repeats;
    for (run_function *run : runs) {
        double before = now();
        call(run, q, r);
        repeats.push_back(1 + size_t(5e6 / std::max(now() - before, 1.0)));
    }
    for (size_t round = 0; round < times; ++round)
        for (size_t i = 0; i < runs.size(); ++i) {
            double before = now();
            for (size_t k = 0; k < repeats[i]; ++k) call(runs[i], q, r);
            took[i].push_back((now() - before) / double(repeats[i] * q.trace.size()));
        }
    std::vector<double> medians;
    for (auto &t : took) medians.push_back(median(t));
    return medians;
}

std::vector<double> time_all(const workload &w, size_t events, size_t times) {
    return better(time_runs({rillmoth_run, tuned_run, tuned_run_other, cells_run}, w, events, times));
}

std::vector<double> time_feeds(const std::vector<feed_function *> &feeds, const workload &w, size_t events, size_t times) {
    events = std::min(events, w.trace.size());
    std::vector<std::vector<double>> took(feeds.size());
    for (size_t round = 0; round < times; ++round)
        for (size_t i = 0; i < feeds.size(); ++i) {
            session s = opened(w);
            double before = now();
            for (size_t k = 0; k < events; ++k) call(feeds[i], s, w.trace[k]);
            took[i].push_back((now() - before) / double(events));
        }
    std::vector<double> medians;
    for (auto &t : took) medians.push_back(median(t));
    return medians;
}

// Three figures at most, and commas between thousands.
std::string figure(double x) {
    char text[64];
    if (x < 10)
        std::snprintf(text, sizeof text, "%.2f", x);
    else if (x < 100)
        std::snprintf(text, sizeof text, "%.1f", x);
    else
        std::snprintf(text, sizeof text, "%.0f", x);
    std::string s = text;
    size_t whole = s.find('.') == std::string::npos ? s.size() : s.find('.');
    for (size_t i = whole; i > 3; i -= 3) s.insert(i - 3, ",");
    return s;
}

// How large the plausible set is on the way, for a reader of the tables: configurations, on the mean, of a session fed this trace.
double mean_configurations(const workload &w, size_t events) {
    session s = opened(w);
    double sum = 0;
    events = std::min(events, w.trace.size());
    for (size_t k = 0; k < events; ++k) {
        call(tuned_feed, s, w.trace[k]);
        for (size_t i = 0; i < set_words; ++i) sum += __builtin_popcountll(s.words[i]);
    }
    return sum / double(events);
}

std::vector<workload> workloads() {
    generator random(20260101);
    std::vector<workload> all;
    all.push_back(walked(random, "standard box, B 32, c 8", standard_box(), {32, 8}, 100000));
    all.push_back(walked(random, "standard box, B 4, c 2", standard_box(), {4, 2}, 200000));
    all.push_back(walked(random, "dense table of 64 states, B 32, c 8", random_box(random, 64, 16, 16, 7), {32, 8}, 100000));
    all.push_back(walked(random, "table T, B 2, c 1", small_box(), {2, 1}, 400000));
    workload early = walked(random, "standard box, B 32, c 8, flagged early", standard_box(), {32, 8}, 100000);
    // A report that no box could send there, so that the flag falls at it.
    early.trace[20] = first_output + 9;
    all.push_back(early);
    return all;
}

void print_workloads(const std::vector<workload> &all) {
    std::printf("\n| workload | events | inputs among them | configurations, mean | flagged at |\n|---|---|---|---|---|\n");
    for (const workload &w : all) {
        size_t inputs = 0;
        for (uint8_t event : w.trace) inputs += event < first_output;
        uint64_t flag = results_of(rillmoth_run, request_of(w, w.trace.size())).told[3];
        std::printf("| %s | %s | %s | %s | %s |\n", w.name.c_str(), figure(double(w.trace.size())).c_str(), figure(double(inputs)).c_str(),
                    figure(mean_configurations(w, 5000)).c_str(), flag == 0 ? "-" : std::to_string(flag - 1).c_str());
    }
}

void print_runs(const std::vector<workload> &all, bool quick) {
    std::printf("\n| whole run, ns an event | naive | cells | tuned | ours | ours / tuned | ours / cells | naive / ours |\n");
    std::printf("|---|---|---|---|---|---|---|---|\n");
    for (const workload &w : all) {
        std::vector<double> t = time_all(w, fitting(rillmoth_run, w, 1e8), rounds);
        // So slow that it has fewer events, and the proved run beside it the same.
        std::vector<double> slow = {0, 1};
        if (!quick) slow = time_runs({naive_run, rillmoth_run}, w, fitting(naive_run, w, 2e8), 3);
        auto unless_quick = [&](double x) { return quick ? std::string("-") : figure(x); };
        std::printf("| %s | %s | %s | %s | %s | %s | %s | %s |\n", w.name.c_str(), unless_quick(slow[0]).c_str(), figure(t[cells_at]).c_str(),
                    figure(t[tuned_at]).c_str(), figure(t[ours_at]).c_str(), figure(t[ours_at] / t[tuned_at]).c_str(),
                    figure(t[ours_at] / t[cells_at]).c_str(),
                    unless_quick(slow[0] / slow[1]).c_str());
        std::fflush(stdout);
    }
}

void print_feeds(const std::vector<workload> &all) {
    std::printf("\n| ns a feed | tuned | ours | ours / tuned |\n|---|---|---|---|\n");
    for (const workload &w : all) {
        std::vector<double> t = better(time_feeds({rillmoth_feed, tuned_feed, tuned_feed_other}, w, 5000, rounds));
        std::printf("| %s | %s | %s | %s |\n", w.name.c_str(), figure(t[tuned_at]).c_str(), figure(t[ours_at]).c_str(),
                    figure(t[ours_at] / t[tuned_at]).c_str());
        std::fflush(stdout);
    }
}

// ---- growth

void growth_row(const std::string &name, const workload &w, size_t events) {
    std::vector<double> t = time_all(w, events, 5);
    size_t outputs = 0, all = std::min(events, w.trace.size());
    for (size_t k = 0; k < all; ++k) outputs += w.trace[k] >= first_output;
    std::printf("| %s | %zu %% | %s | %s | %s | %s |\n", name.c_str(), (100 * outputs + all / 2) / all, figure(t[cells_at]).c_str(),
                figure(t[tuned_at]).c_str(), figure(t[ours_at]).c_str(), figure(t[ours_at] / t[tuned_at]).c_str());
    std::fflush(stdout);
}

void growth_head(const char *what) {
    std::printf("\n| %s | outputs | cells | tuned | ours | ours / tuned |\n|---|---|---|---|---|---|\n", what);
}

void print_growth() {
    generator random(20260102);
    constexpr size_t events = 20000;
    growth_head("events (standard box, B 32, c 8), ns an event");
    workload longest = walked(random, "", standard_box(), {32, 8}, 1000000);
    for (size_t n = 1000; n <= 1000000; n *= 10) growth_row(figure(double(n)), longest, n);

    growth_head("B (standard box, c 8), ns an event");
    for (size_t most : {1, 2, 4, 8, 16, 32}) growth_row(std::to_string(most), walked(random, "", standard_box(), {most, 8}, events), events);
    growth_head("B (dense table of 64 states, c 8), ns an event");
    table dense = random_box(random, 64, 16, 16, 7);
    for (size_t most : {1, 2, 4, 8, 16, 32}) growth_row(std::to_string(most), walked(random, "", dense, {most, 8}, events), events);

    growth_head("c (standard box, B 32), ns an event");
    for (size_t c = 1; c <= 8; ++c) growth_row(std::to_string(c), walked(random, "", standard_box(), {32, c}, events), events);
    growth_head("c (dense table of 64 states, B 32), ns an event");
    for (size_t c = 1; c <= 8; ++c) growth_row(std::to_string(c), walked(random, "", dense, {32, c}, events), events);

    growth_head("states (dense table, B 32, c 8), ns an event");
    for (size_t states : {2, 4, 8, 16, 32, 64})
        growth_row(std::to_string(states), walked(random, "", random_box(random, states, 16, 16, 7), {32, 8}, events), events);
}

// ---- one, for a profiler

// Over and over for two seconds, so that making the workloads hardly shows.
int one(const std::string &who, size_t which, size_t events) {
    std::vector<workload> all = workloads();
    if (which >= all.size()) return 2;
    const workload &w = all[which];
    run_function *run = who == "ours" ? rillmoth_run : who == "tuned" ? tuned_run : who == "cells" ? cells_run : nullptr;
    feed_function *feed = who == "our-feed" ? rillmoth_feed : who == "tuned-feed" ? tuned_feed : nullptr;
    if (!run && !feed) return 2;
    request q = request_of(w, events);
    results r = fresh_results(q);
    for (double end = now() + 2e9; now() < end;) {
        if (run) {
            call(run, q, r);
        } else {
            session s = opened(w);
            for (uint8_t event : q.trace) call(feed, s, event);
        }
    }
    return 0;
}

}  // namespace

int main(int count, char **words) {
    if (count >= 4 && !std::strcmp(words[1], "--one"))
        return one(words[2], std::strtoul(words[3], nullptr, 10), count > 4 ? std::strtoul(words[4], nullptr, 10) : most_events);
    bool growth = count > 1 && !std::strcmp(words[1], "--growth"), quick = count > 1 && !std::strcmp(words[1], "--quick");
    if (quick) rounds = 3;

    std::vector<workload> all = workloads();
    generator random(20260103);
    compare_small_cases(random);
    for (const workload &w : all) {
        compare_runs(request_of(w, w.trace.size()), w.name, false);
        compare_runs(request_of(w, 100), w.name, true);
        compare_feeds(opened(w), std::vector<uint8_t>(w.trace.begin(), w.trace.begin() + 2000), w.name);
    }
    std::printf("Compared byte for byte: %zu runs and feeds, %zu different.\n", compared, different);
    if (different != 0) return 1;

    if (growth) {
        print_growth();
        return 0;
    }
    print_workloads(all);
    print_runs(all, quick);
    print_feeds(all);
    return 0;
}
