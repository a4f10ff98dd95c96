/* Lends every function of the library memory that is one element too short, and memory that is exactly long enough, by the constants of
 * include/rillmoth.h: the first is answered with false and nothing is written, the second with true. Memory without elements may lie at
 * null. Beyond what a function writes, and where it is refused, memory keeps its values. The last line is 'N passed, M failed'. */
#include <stdio.h>
#include <stdlib.h>
#include <string.h>

#include "rillmoth.h"

enum { UNTOUCHED = 0xAA, MOST = 8192, FILE_BYTES = 3 * 512 /* of the file that is written here */ };

static int passed, failed;

static void check(bool holds, const char *what) {
    if (holds) {
        passed++;
        return;
    }
    printf("lent: %s\n", what);
    failed++;
}

/* Memory from the heap, as long as it is said to be and no longer, so that valgrind sees the first byte beyond. */
struct memory {
    uint64_t *words, *results;
    uint8_t *bytes, *out;
    size_t words_count, bytes_count, results_count, out_count;
};

static void *untouched(size_t count) {
    void *at = malloc(count ? count : 1);
    if (!at) exit(2);
    return memset(at, UNTOUCHED, count);
}

static struct memory lend(size_t words, size_t bytes, size_t results, size_t out) {
    struct memory m = {untouched(8 * words), untouched(8 * results), untouched(bytes), untouched(out), words, bytes, results, out};
    return m;
}

static bool all_untouched(const void *at, size_t count) {
    const uint8_t *byte = at;
    while (count > 0 && *byte == UNTOUCHED) byte++, count--;
    return count == 0;
}

static bool left_alone(const struct memory *m) {
    return all_untouched(m->words, 8 * m->words_count) && all_untouched(m->results, 8 * m->results_count) &&
           all_untouched(m->bytes, m->bytes_count) && all_untouched(m->out, m->out_count);
}

static void give_back(struct memory *m) {
    free(m->words), free(m->results), free(m->bytes), free(m->out);
}

/* Table T: a poll, a report, a blank. */
static const uint8_t rows[] = {1, RILLMOTH_NOT_ALLOWED, RILLMOTH_NOT_ALLOWED, RILLMOTH_NOT_ALLOWED, 0, 0};
static const uint8_t trace[] = {0, RILLMOTH_OUTPUT, 0};
static const uint8_t other[] = {0, RILLMOTH_OUTPUT, 0, RILLMOTH_OUTPUT + 1, RILLMOTH_OUTPUT};
static const uint8_t capture[] = {0xd4, 0xc3, 0xb2, 0xa1, 2, 0, 4, 0, 0, 0, 0, 0, 0, 0, 0, 0, 0, 0, 4, 0, 147, 0, 0, 0, /* one record */
                                  0,    0,    0,    0,    0, 0, 0, 0, 1, 0, 0, 0, 1, 0, 0, 0, 5};
static uint8_t file[MOST];
static size_t file_count;

static bool open_in(struct memory *m) {
    return rillmoth_open(rows, sizeof rows, 2, 1, 2, 2, 1, m->words, m->words_count, m->bytes, m->bytes_count, m->results,
                         m->results_count);
}

static bool feed_in(struct memory *m) {
    return rillmoth_feed(m->words, m->words_count, m->bytes, m->bytes_count, 0, m->results, m->results_count);
}

static bool run_in(struct memory *m) {
    return rillmoth_run(rows, sizeof rows, 2, 1, 2, 2, 1, trace, sizeof trace, m->out, m->out_count, m->results, m->results_count);
}

static bool read_in(struct memory *m) {
    return rillmoth_read(file, file_count, m->bytes, m->bytes_count, m->out, m->out_count, m->results, m->results_count);
}

static bool write_in(struct memory *m) {
    return rillmoth_write(RILLMOTH_SOURCE_ROWS, rows, sizeof rows, 2, 1, 2, 2, 1, trace, sizeof trace, m->out, m->out_count, m->results,
                          m->results_count);
}

static bool import_in(struct memory *m) {
    return rillmoth_import(capture, sizeof capture, m->out, m->out_count, m->results, m->results_count);
}

static bool hand_in(struct memory *m) {
    return rillmoth_hand(capture, sizeof capture, 0, m->results, m->results_count);
}

static bool standard_in(struct memory *m) { return rillmoth_standard(m->out, m->out_count); }

static bool rebind_in(struct memory *m) {
    return rillmoth_rebind(file, file_count, 3, 1, m->out, m->out_count, m->results, m->results_count);
}

static bool retrace_in(struct memory *m) {
    return rillmoth_retrace(file, file_count, other, sizeof other, m->out, m->out_count, m->results, m->results_count);
}

static bool mend_in(struct memory *m) {
    return rillmoth_mend(file, file_count, m->out, m->out_count, m->results, m->results_count);
}

static bool list_in(struct memory *m, const uint8_t *at, size_t count, size_t length) {
    return rillmoth_listing(at, count, length, m->out, m->out_count, m->results, m->results_count);
}

static bool listing_in(struct memory *m) { return list_in(m, file, file_count, file_count); }

/* Each function, with what it needs; 0 where it needs none. */
static const struct {
    const char *name;
    bool (*call)(struct memory *);
    size_t words, bytes, results, out;
    bool out_decides; /* a short `out` is answered with false, and not with a refusal */
} functions[] = {
    {"rillmoth_open", open_in, RILLMOTH_SESSION_WORDS, RILLMOTH_SESSION_BYTES, RILLMOTH_OPEN_RESULTS, 0, false},
    {"rillmoth_feed", feed_in, RILLMOTH_SESSION_WORDS, RILLMOTH_SESSION_BYTES, RILLMOTH_FEED_RESULTS, 0, false},
    {"rillmoth_run", run_in, 0, 0, RILLMOTH_RUN_RESULTS, sizeof trace * RILLMOTH_LINE_BYTES, false},
    {"rillmoth_read", read_in, 0, sizeof rows, RILLMOTH_READ_RESULTS, sizeof trace, false},
    {"rillmoth_write", write_in, 0, 0, RILLMOTH_WRITE_RESULTS, FILE_BYTES, false},
    {"rillmoth_import", import_in, 0, 0, RILLMOTH_IMPORT_RESULTS, 1, false},
    {"rillmoth_hand", hand_in, 0, 0, RILLMOTH_HAND_RESULTS, 0, false},
    {"rillmoth_standard", standard_in, 0, 0, 0, RILLMOTH_MOST_ROW_BYTES, true},
    {"rillmoth_rebind", rebind_in, 0, 0, RILLMOTH_WRITE_RESULTS, FILE_BYTES, false},
    {"rillmoth_retrace", retrace_in, 0, 0, RILLMOTH_WRITE_RESULTS, FILE_BYTES, false},
    {"rillmoth_mend", mend_in, 0, 0, RILLMOTH_WRITE_RESULTS, FILE_BYTES, false},
    {"rillmoth_listing", listing_in, 0, 0, RILLMOTH_LISTING_RESULTS, RILLMOTH_LISTING_BYTES, true},
};

/* One call with memory of these lengths, which is to be answered so. */
static void try_one(size_t i, size_t words, size_t bytes, size_t results, size_t out, bool answer, const char *what) {
    struct memory m = lend(words, bytes, results, out);
    char text[128];
    bool answered = functions[i].call(&m);
    snprintf(text, sizeof text, "%s, %s: another answer", functions[i].name, what);
    check(answered == answer, text);
    if (!answer) {
        snprintf(text, sizeof text, "%s, %s: something was written", functions[i].name, what);
        check(left_alone(&m), text);
    }
    give_back(&m);
}

/* A slice without elements, at null and at an address that is there. */
struct slice {
    void *at;
    size_t count;
};

static bool open_of(const struct slice *s) {
    return rillmoth_open(s[0].at, s[0].count, 2, 1, 2, 2, 1, s[1].at, s[1].count, s[2].at, s[2].count, s[3].at, s[3].count);
}

static bool feed_of(const struct slice *s) { return rillmoth_feed(s[0].at, s[0].count, s[1].at, s[1].count, 0, s[2].at, s[2].count); }

static bool run_of(const struct slice *s) {
    return rillmoth_run(s[0].at, s[0].count, 2, 1, 2, 2, 1, s[1].at, s[1].count, s[2].at, s[2].count, s[3].at, s[3].count);
}

static bool read_of(const struct slice *s) {
    return rillmoth_read(s[0].at, s[0].count, s[1].at, s[1].count, s[2].at, s[2].count, s[3].at, s[3].count);
}

static bool write_of(const struct slice *s) {
    return rillmoth_write(RILLMOTH_SOURCE_ROWS, s[0].at, s[0].count, 2, 1, 2, 2, 1, s[1].at, s[1].count, s[2].at, s[2].count, s[3].at,
                          s[3].count);
}

/* With the standard box a file has no rows, and so a good one can be written of nothing but its counts. */
static bool write_standard_of(const struct slice *s) {
    return rillmoth_write(RILLMOTH_SOURCE_STANDARD, s[0].at, s[0].count, 64, 16, 16, 2, 1, s[1].at, s[1].count, s[2].at, s[2].count,
                          s[3].at, s[3].count);
}

static bool import_of(const struct slice *s) {
    return rillmoth_import(s[0].at, s[0].count, s[1].at, s[1].count, s[2].at, s[2].count);
}

static bool hand_of(const struct slice *s) { return rillmoth_hand(s[0].at, s[0].count, 0, s[1].at, s[1].count); }

static bool standard_of(const struct slice *s) { return rillmoth_standard(s[0].at, s[0].count); }

static bool rebind_of(const struct slice *s) {
    return rillmoth_rebind(s[0].at, s[0].count, 3, 1, s[1].at, s[1].count, s[2].at, s[2].count);
}

static bool retrace_of(const struct slice *s) {
    return rillmoth_retrace(s[0].at, s[0].count, s[1].at, s[1].count, s[2].at, s[2].count, s[3].at, s[3].count);
}

static bool mend_of(const struct slice *s) { return rillmoth_mend(s[0].at, s[0].count, s[1].at, s[1].count, s[2].at, s[2].count); }

static bool listing_of(const struct slice *s) {
    return rillmoth_listing(s[0].at, s[0].count, s[0].count, s[1].at, s[1].count, s[2].at, s[2].count);
}

enum { MOST_SLICES = 4 };

/* Each function, and of each of its slices what lies there before, untouched memory where nothing is named; how many elements, how long
 * they are, and whether the answer is false where there are none. */
static const struct {
    const char *name;
    bool (*call)(const struct slice *);
    struct {
        const void *before;
        size_t count, size;
        bool decides;
    } of[MOST_SLICES];
} doors[] = {
    {"rillmoth_open",
     open_of,
     {{rows, sizeof rows, 1, false},
      {NULL, RILLMOTH_SESSION_WORDS, 8, true},
      {NULL, RILLMOTH_SESSION_BYTES, 1, true},
      {NULL, RILLMOTH_OPEN_RESULTS, 8, true}}},
    {"rillmoth_feed",
     feed_of,
     {{NULL, RILLMOTH_SESSION_WORDS, 8, true}, {NULL, RILLMOTH_SESSION_BYTES, 1, true}, {NULL, RILLMOTH_FEED_RESULTS, 8, true}}},
    {"rillmoth_run",
     run_of,
     {{rows, sizeof rows, 1, false},
      {trace, sizeof trace, 1, false},
      {NULL, sizeof trace * RILLMOTH_LINE_BYTES, 1, false},
      {NULL, RILLMOTH_RUN_RESULTS, 8, true}}},
    {"rillmoth_read",
     read_of,
     {{file, FILE_BYTES, 1, false}, {NULL, sizeof rows, 1, false}, {NULL, sizeof trace, 1, false}, {NULL, RILLMOTH_READ_RESULTS, 8, true}}},
    {"rillmoth_write",
     write_of,
     {{rows, sizeof rows, 1, false},
      {trace, sizeof trace, 1, false},
      {NULL, FILE_BYTES, 1, false},
      {NULL, RILLMOTH_WRITE_RESULTS, 8, true}}},
    {"rillmoth_write of the standard box",
     write_standard_of,
     {{rows, sizeof rows, 1, false},
      {trace, sizeof trace, 1, false},
      {NULL, FILE_BYTES, 1, false},
      {NULL, RILLMOTH_WRITE_RESULTS, 8, true}}},
    {"rillmoth_import",
     import_of,
     {{capture, sizeof capture, 1, false}, {NULL, 1, 1, false}, {NULL, RILLMOTH_IMPORT_RESULTS, 8, true}}},
    {"rillmoth_hand", hand_of, {{capture, sizeof capture, 1, false}, {NULL, RILLMOTH_HAND_RESULTS, 8, true}}},
    {"rillmoth_standard", standard_of, {{NULL, RILLMOTH_MOST_ROW_BYTES, 1, true}}},
    {"rillmoth_rebind",
     rebind_of,
     {{file, FILE_BYTES, 1, false}, {NULL, FILE_BYTES, 1, false}, {NULL, RILLMOTH_WRITE_RESULTS, 8, true}}},
    {"rillmoth_retrace",
     retrace_of,
     {{file, FILE_BYTES, 1, false},
      {other, sizeof other, 1, false},
      {NULL, FILE_BYTES, 1, false},
      {NULL, RILLMOTH_WRITE_RESULTS, 8, true}}},
    {"rillmoth_mend",
     mend_of,
     {{file, FILE_BYTES, 1, false}, {NULL, FILE_BYTES, 1, false}, {NULL, RILLMOTH_WRITE_RESULTS, 8, true}}},
    {"rillmoth_listing",
     listing_of,
     {{file, FILE_BYTES, 1, false}, {NULL, RILLMOTH_LISTING_BYTES, 1, true}, {NULL, RILLMOTH_LISTING_RESULTS, 8, true}}},
};

/* One function with these of its slices empty, a bit each: at null it answers and leaves what it does at another address, and it answers
 * false exactly where one of them decides. */
static void try_empty(size_t i, unsigned empty) {
    static uint64_t nothing;
    struct slice there[MOST_SLICES] = {{NULL, 0}}, null[MOST_SLICES] = {{NULL, 0}};
    bool answer = true, same = true;
    char text[128];
    for (size_t k = 0; k < MOST_SLICES; k++) {
        size_t length = doors[i].of[k].count * doors[i].of[k].size;
        if (empty >> k & 1) {
            there[k].at = &nothing;
            answer = answer && !doors[i].of[k].decides;
            continue;
        }
        there[k].count = null[k].count = doors[i].of[k].count;
        there[k].at = untouched(length), null[k].at = untouched(length);
        if (doors[i].of[k].before) memcpy(there[k].at, doors[i].of[k].before, length), memcpy(null[k].at, doors[i].of[k].before, length);
    }
    snprintf(text, sizeof text, "%s, empty slices %x: another answer", doors[i].name, empty);
    check(doors[i].call(there) == answer, text);
    snprintf(text, sizeof text, "%s, empty slices %x at null: another answer", doors[i].name, empty);
    check(doors[i].call(null) == answer, text);
    for (size_t k = 0; k < MOST_SLICES; k++) {
        if (empty >> k & 1) continue;
        same = same && !memcmp(there[k].at, null[k].at, doors[i].of[k].count * doors[i].of[k].size);
        free(there[k].at), free(null[k].at);
    }
    snprintf(text, sizeof text, "%s, empty slices %x at null: something else was written", doors[i].name, empty);
    check(same && nothing == 0, text);
}

/* The version, as a number and as text. */
static void version(void) {
    char text[32];
    snprintf(text, sizeof text, "%d.%d.%d", RILLMOTH_VERSION / 10000, RILLMOTH_VERSION / 100 % 100, RILLMOTH_VERSION % 100);
    check(!strcmp(text, RILLMOTH_VERSION_TEXT), "the header has two versions");
    check(rillmoth_version() == RILLMOTH_VERSION, "the library has another version than the header");
}

/* A call that makes a file was answered so, and left this many bytes of `out`; results and bytes beyond are as they were. */
static void made(bool answer, const struct memory *m, uint64_t number, uint64_t place, size_t written, const char *name) {
    char text[128];
    snprintf(text, sizeof text, "%s: false, or something else told", name);
    check(answer && m->results[RILLMOTH_NUMBER] == number && m->results[RILLMOTH_PLACE] == place && m->results[RILLMOTH_SECOND] == 0 &&
              m->results[RILLMOTH_WRITE_LENGTH] == written,
          text);
    snprintf(text, sizeof text, "%s: memory beyond is written to", name);
    check(all_untouched(m->results + RILLMOTH_WRITE_RESULTS, 8 * (m->results_count - RILLMOTH_WRITE_RESULTS)) &&
              all_untouched(m->out + written, m->out_count - written),
          text);
}

/* Files made from others. A bound that is changed by hand and mended gives what rebinding does, also where there was none before. */
static void remade(void) {
    enum { WAITING_AT = 9, CHECK_AT = 510 };
    struct memory m = lend(0, 0, RILLMOTH_RESULTS, FILE_BYTES + 7), n = lend(0, 0, RILLMOTH_RESULTS, FILE_BYTES + 7);
    uint8_t changed[FILE_BYTES];
    made(rebind_in(&m), &m, RILLMOTH_NOT_REFUSED, 0, FILE_BYTES, "rillmoth_rebind");
    memcpy(changed, file, FILE_BYTES);
    changed[WAITING_AT] = 3;
    made(rillmoth_mend(changed, FILE_BYTES, n.out, n.out_count, n.results, n.results_count), &n, RILLMOTH_NOT_REFUSED, 0, FILE_BYTES,
         "rillmoth_mend");
    check(!memcmp(m.out, n.out, FILE_BYTES), "a file mended is not the file rebound");
    check(m.out[WAITING_AT] == 3 && memcmp(m.out + CHECK_AT, file + CHECK_AT, 2), "a file rebound has other bounds, or the old check");
    check(!memcmp(m.out + CHECK_AT + 2, file + CHECK_AT + 2, FILE_BYTES - CHECK_AT - 2), "a file rebound has other blocks");

    changed[WAITING_AT] = 0;
    made(rillmoth_mend(changed, FILE_BYTES, m.out, m.out_count, m.results, m.results_count), &m, RILLMOTH_NOT_REFUSED, 0, FILE_BYTES,
         "rillmoth_mend of a B of 0");
    memcpy(changed, m.out, FILE_BYTES);
    memset(m.out, UNTOUCHED, m.out_count);
    made(rillmoth_retrace(changed, FILE_BYTES, other, sizeof other, m.out, m.out_count, m.results, m.results_count), &m,
         RILLMOTH_BAD_WAITING, 0, 0, "rillmoth_retrace of a B of 0");
    made(rillmoth_rebind(changed, FILE_BYTES, 33, 1, m.out, m.out_count, m.results, m.results_count), &m, RILLMOTH_BAD_WAITING, 33, 0,
         "rillmoth_rebind with a B of 33");
    made(rillmoth_rebind(changed, FILE_BYTES, 3, 1, m.out, m.out_count, m.results, m.results_count), &m, RILLMOTH_NOT_REFUSED, 0,
         FILE_BYTES, "rillmoth_rebind of a B of 0");
    check(!memcmp(m.out, n.out, FILE_BYTES), "a B of 0 is not rebound");

    memset(m.out, UNTOUCHED, m.out_count);
    made(rillmoth_retrace(file, file_count, NULL, 0, m.out, m.out_count, m.results, m.results_count), &m, RILLMOTH_NOT_REFUSED, 0,
         FILE_BYTES - 512, "rillmoth_retrace with no trace");
    check(!memcmp(m.out, file, FILE_BYTES - 512), "a file without its trace is another");
    made(rillmoth_retrace(m.out, FILE_BYTES - 512, trace, sizeof trace, n.out, n.out_count, n.results, n.results_count), &n,
         RILLMOTH_NOT_REFUSED, 0, FILE_BYTES, "rillmoth_retrace of no trace");
    check(!memcmp(n.out, file, FILE_BYTES), "a file with its trace again is another");
    give_back(&m), give_back(&n);
}

/* A listing was answered so, and its text is this one. */
static void listed(bool answer, struct memory *m, uint64_t number, uint64_t place, uint64_t events, uint64_t flag, const char *text) {
    const uint64_t *r = m->results;
    size_t count = strlen(text);
    check(answer && r[RILLMOTH_NUMBER] == number && r[RILLMOTH_PLACE] == place && r[RILLMOTH_SECOND] == 0,
          "a listing tells something else");
    check(r[RILLMOTH_LISTING_TEXT] == count && r[RILLMOTH_LISTING_EVENTS] == events && r[RILLMOTH_LISTING_FLAG] == flag,
          "a listing counts something else");
    check(!memcmp(m->out, text, count), "another text is listed");
    check(all_untouched(r + RILLMOTH_LISTING_RESULTS, 8 * (m->results_count - RILLMOTH_LISTING_RESULTS)) &&
              all_untouched(m->out + count, m->out_count - count),
          "memory beyond a listing is written to");
    memset(m->out, UNTOUCHED, m->out_count), memset(m->results, UNTOUCHED, 8 * m->results_count);
}

static void listings(void) {
    static uint8_t long_file[RILLMOTH_MOST_FILE_BYTES + 1];
    struct memory m = lend(0, 0, RILLMOTH_RESULTS, RILLMOTH_LISTING_BYTES + 9);
    check(RILLMOTH_LISTING_BYTES == (RILLMOTH_MOST_FILE_EVENTS + 2) * 96, "RILLMOTH_LISTING_BYTES is another");
    listed(listing_in(&m), &m, RILLMOTH_NOT_REFUSED, 0, sizeof trace, 0,
           "event symbol states waiting run\n0 i0 0000000000000003 0-1 0-0\n1 o0 0000000000000001 0-0 0-0\n"
           "2 i0 0000000000000003 0-1 0-0\nconsistent\n");

    uint8_t flagged[FILE_BYTES];
    uint64_t results[RILLMOTH_RESULTS];
    check(rillmoth_retrace(file, file_count, other, sizeof other, flagged, sizeof flagged, results, RILLMOTH_RESULTS) &&
              results[RILLMOTH_NUMBER] == RILLMOTH_NOT_REFUSED,
          "another trace is refused");
    listed(list_in(&m, flagged, FILE_BYTES, FILE_BYTES), &m, RILLMOTH_NOT_REFUSED, 0, sizeof other, 5,
           "event symbol states waiting run\n0 i0 0000000000000003 0-1 0-0\n1 o0 0000000000000001 0-0 0-0\n"
           "2 i0 0000000000000003 0-1 0-0\n3 o1 0000000000000001 0-0 0-0\n4 o0 0000000000000000 - -\nflagged 4\n");

    listed(list_in(&m, NULL, 0, 0), &m, RILLMOTH_BAD_LENGTH, 0, 0, 0, "refused 11 0\n");
    listed(list_in(&m, file, 7, 7), &m, RILLMOTH_BAD_LENGTH, 7, 0, 0, "refused 11 7\n");
    listed(list_in(&m, long_file, sizeof long_file, 5000000000), &m, RILLMOTH_BAD_LENGTH, 5000000000, 0, 0, "refused 11 5000000000\n");
    give_back(&m);
}

int main(void) {
    uint64_t results[RILLMOTH_RESULTS];
    (void)rillmoth_write(RILLMOTH_SOURCE_ROWS, rows, sizeof rows, 2, 1, 2, 2, 1, trace, sizeof trace, file, sizeof file, results,
                         RILLMOTH_RESULTS);
    check(results[RILLMOTH_NUMBER] == RILLMOTH_NOT_REFUSED, "a file is refused");
    file_count = results[RILLMOTH_WRITE_LENGTH];

    for (size_t i = 0; i < sizeof functions / sizeof *functions; i++) {
        size_t words = functions[i].words, bytes = functions[i].bytes, count = functions[i].results, out = functions[i].out;
        check(count <= RILLMOTH_RESULTS, "RILLMOTH_RESULTS is too few");
        try_one(i, words, bytes, count, out, true, "exactly long enough");
        if (count > 0) try_one(i, words, bytes, count - 1, out, false, "results too short");
        if (words > 0) try_one(i, words - 1, bytes, count, out, false, "words too short");
        if (words > 0) try_one(i, words, bytes - 1, count, out, false, "bytes too short");
        if (functions[i].out_decides) try_one(i, words, bytes, count, out - 1, false, "rows or text too short");
    }

    check(file_count == FILE_BYTES, "a file has another length");
    for (size_t i = 0; i < sizeof doors / sizeof *doors; i++) {
        unsigned slices = 0;
        while (slices < MOST_SLICES && doors[i].of[slices].count > 0) slices++;
        for (unsigned empty = 0; empty < 1u << slices; empty++) try_empty(i, empty);
    }

    /* A short buffer for bytes is a refusal, which tells the length needed and writes nothing else. */
    static const struct {
        size_t function, needed;
    } rooms[] = {{2, sizeof trace * RILLMOTH_LINE_BYTES}, {3, sizeof trace}, {4, FILE_BYTES}, {5, 1}, {8, FILE_BYTES},
                 {9, FILE_BYTES}, {10, FILE_BYTES}};
    for (size_t i = 0; i < sizeof rooms / sizeof *rooms; i++) {
        struct memory m = lend(0, functions[rooms[i].function].bytes, RILLMOTH_RESULTS, rooms[i].needed - 1);
        check(functions[rooms[i].function].call(&m), "a short buffer is answered with false");
        check(m.results[RILLMOTH_NUMBER] == RILLMOTH_SHORT_BUFFER, "a short buffer is not refused with 10");
        check(m.results[RILLMOTH_PLACE] == rooms[i].needed, "another length is needed");
        check(all_untouched(m.out, m.out_count) && all_untouched(m.bytes, m.bytes_count), "a refusal writes to a buffer");
        give_back(&m);
    }

    /* A refused opening writes its results alone: memory that was never opened is what it was, and a session that lived there goes on. */
    struct memory n = lend(RILLMOTH_SESSION_WORDS, RILLMOTH_SESSION_BYTES, RILLMOTH_RESULTS, 0);
    static const struct {
        size_t states, inputs, waiting, losses;
        uint64_t number, place;
    } refused[] = {{0, 1, 2, 1, RILLMOTH_BAD_STATES, 0},         {2, 17, 2, 1, RILLMOTH_BAD_SYMBOLS, 17},
                   {3, 1, 2, 1, RILLMOTH_BAD_ROWS, sizeof rows}, {2, 1, 0, 1, RILLMOTH_BAD_WAITING, 0},
                   {2, 1, 33, 1, RILLMOTH_BAD_WAITING, 33},      {2, 1, 2, 9, RILLMOTH_BAD_LOSSES, 9}};
    uint64_t words_before[RILLMOTH_SESSION_WORDS];
    uint8_t bytes_before[RILLMOTH_SESSION_BYTES];
    for (int lives = 0; lives < 2; lives++) {
        if (lives) check(open_in(&n) && feed_in(&n) && n.results[RILLMOTH_NUMBER] == RILLMOTH_NOT_REFUSED, "a session is refused");
        memcpy(words_before, n.words, sizeof words_before);
        memcpy(bytes_before, n.bytes, sizeof bytes_before);
        for (size_t i = 0; i < sizeof refused / sizeof *refused; i++) {
            memset(n.results, UNTOUCHED, 8 * n.results_count);
            check(rillmoth_open(rows, sizeof rows, refused[i].states, refused[i].inputs, 2, refused[i].waiting, refused[i].losses, n.words,
                                n.words_count, n.bytes, n.bytes_count, n.results, n.results_count),
                  "a refused opening is answered with false");
            check(n.results[RILLMOTH_NUMBER] == refused[i].number && n.results[RILLMOTH_PLACE] == refused[i].place &&
                      n.results[RILLMOTH_SECOND] == 0,
                  "a refused opening tells something else");
            check(!memcmp(words_before, n.words, sizeof words_before), "a refused opening writes to the words");
            check(!memcmp(bytes_before, n.bytes, sizeof bytes_before), "a refused opening writes to the bytes");
        }
    }
    check(feed_in(&n) && n.results[RILLMOTH_NUMBER] == RILLMOTH_NOT_REFUSED && n.words[RILLMOTH_EVENTS] == 2,
          "a session does not go on after a refused opening");
    give_back(&n);

    /* Number, place and second place come first wherever there are results, and what a function has besides comes after. */
    struct memory o = lend(0, 0, RILLMOTH_RESULTS, 1);
    check(import_in(&o) && o.results[RILLMOTH_SECOND] == 0 && o.results[RILLMOTH_IMPORT_EVENTS] == 1 && o.out[0] == 5,
          "an import tells something else");
    check(hand_in(&o) && o.results[RILLMOTH_SECOND] == 0 && o.results[RILLMOTH_HAND_THERE] == 1 && o.results[RILLMOTH_HAND_EVENT] == 5 &&
              o.results[RILLMOTH_HAND_NEXT] == 1,
          "a reader tells something else");
    check(all_untouched(o.results + RILLMOTH_HAND_RESULTS, 8 * (RILLMOTH_RESULTS - RILLMOTH_HAND_RESULTS)),
          "results beyond are written to");
    give_back(&o);

    /* Longer memory keeps what is beyond. */
    struct memory m = lend(RILLMOTH_SESSION_WORDS + 3, RILLMOTH_SESSION_BYTES + 5, RILLMOTH_RESULTS, 0);
    check(open_in(&m) && feed_in(&m), "longer memory is answered with false");
    check(m.results[RILLMOTH_NUMBER] == RILLMOTH_NOT_REFUSED, "an opened session is refused");
    check(m.words[RILLMOTH_EVENTS] == 1 && m.words[RILLMOTH_ARRIVED] == 1 && m.words[RILLMOTH_FLAG] == 0, "other counts");
    check(m.words[RILLMOTH_SET] == 2 && m.words[RILLMOTH_SET_RUNS] == 1, "another set");
    check(m.bytes[RILLMOTH_STATES] == 2 && m.bytes[RILLMOTH_INPUTS] == 1 && m.bytes[RILLMOTH_OUTPUTS] == 2, "other counts of the table");
    check(m.bytes[RILLMOTH_WAITING] == 2 && m.bytes[RILLMOTH_LOSSES] == 1, "other bounds");
    check(!memcmp(m.bytes + RILLMOTH_ROWS, rows, sizeof rows) && m.bytes[RILLMOTH_HELD] == 0, "other rows");
    check(all_untouched(m.words + RILLMOTH_SESSION_WORDS, 8 * 3), "words beyond a session are written to");
    check(all_untouched(m.bytes + RILLMOTH_SESSION_BYTES, 5), "bytes beyond a session are written to");
    check(all_untouched(m.results + RILLMOTH_OPEN_RESULTS, 8 * (RILLMOTH_RESULTS - RILLMOTH_OPEN_RESULTS)),
          "results beyond are written to");
    give_back(&m);

    version();
    remade();
    listings();

    printf("%d passed, %d failed\n", passed, failed);
    return failed != 0;
}
