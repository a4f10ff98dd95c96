// Serves requests for the functions of the library, so that a program in another language can try them: requests on standard input,
// answers on standard output, until the input ends.
//
// All numbers are 8 bytes, unsigned, least byte first. A request is its number and then:
//   1 open   states inputs outputs waiting losses rows_len, rows, and what lies in the session's memory: 267 words, 2,085 bytes
//            answer: 3 results, 267 words, 2,085 bytes
//   2 feed   267 words, 2,085 bytes, event
//            answer: 3 results, 267 words, 2,085 bytes
//   3 run    states inputs outputs waiting losses rows_len, rows, trace_len, trace, out_len
//            answer: 4 results, out_len bytes
//   4 read   file_len, file, row_room, event_room
//            answer: 11 results, row_room bytes, event_room bytes
//   5 list   file_len, file
//            answer: text_len, text, outcome
//   6 import capture_len, capture, event_room
//            answer: 4 results, event_room bytes
//   7 hand   capture_len, capture, place
//            answer: 6 results
//   8 write  source states inputs outputs waiting losses rows_len, rows, trace_len, trace, out_len
//            answer: 4 results, out_len bytes
//   9 again  file_len, file, out_len: the file is read, and where it is good, what was read is written
//            answer: 4 results, out_len bytes; where the file is refused the first 3 are the reader's, and the last is 0
//  10 standard out_len
//            answer: 1 or 0, as the function answers true or false, out_len bytes
//  11 rebind file_len, file, waiting losses out_len results_len
//  12 retrace file_len, file, trace_len, trace, out_len results_len
//  13 mend   file_len, file, out_len results_len
//  14 listing file_len, file, length text_len results_len
//            answer of these: 1 or 0, as the function answers true or false, results_len words, and how many bytes there are of out, or of
//            the text, up to the last that is not as it was before, and these bytes
// Other memory that a function is to write to holds the byte 0xAA throughout before, so that what was left alone can be told.
//
// Input that ends inside a request ends the program with status 1; a request that is none of these, a length above 64 MiB, memory that
// is refused, or an answer of false to a request before 10, with status 2. Memory of no length is lent at a null address.
//
// The C library is declared here and not by its headers, so that the kit's compiler needs nothing else to build this.

typedef unsigned char u8;
typedef unsigned long long u64;
typedef unsigned long size_t;

long read(int fd, void *to, size_t count);
long write(int fd, const void *from, size_t count);
long lseek(int fd, long offset, int from);
int close(int fd);
int memfd_create(const char *name, unsigned flags);
void *malloc(size_t count);
void free(void *memory);
void *memcpy(void *to, const void *from, size_t count);
void *memset(void *to, int byte, size_t count);
int memcmp(const void *one, const void *other, size_t count);
_Noreturn void _exit(int status);

// A slice is passed as its address and its count of elements.
_Bool rillmoth_open(const u8 *rows, size_t rows_len, size_t states, size_t inputs, size_t outputs, size_t waiting, size_t losses,
                    u64 *words, size_t words_len, u8 *bytes, size_t bytes_len, u64 *told, size_t told_len);
_Bool rillmoth_feed(u64 *words, size_t words_len, u8 *bytes, size_t bytes_len, u8 byte, u64 *told, size_t told_len);
_Bool rillmoth_run(const u8 *rows, size_t rows_len, size_t states, size_t inputs, size_t outputs, size_t waiting, size_t losses,
                   const u8 *trace, size_t trace_len, u8 *out, size_t out_len, u64 *told, size_t told_len);
_Bool rillmoth_read(const u8 *file, size_t file_len, u8 *rows, size_t rows_len, u8 *events, size_t events_len, u64 *told,
                    size_t told_len);
_Bool rillmoth_import(const u8 *capture, size_t capture_len, u8 *events, size_t events_len, u64 *told, size_t told_len);
_Bool rillmoth_hand(const u8 *capture, size_t capture_len, size_t place, u64 *told, size_t told_len);
_Bool rillmoth_write(size_t source, const u8 *rows, size_t rows_len, size_t states, size_t inputs, size_t outputs, size_t waiting,
                     size_t losses, const u8 *trace, size_t trace_len, u8 *out, size_t out_len, u64 *told, size_t told_len);
_Bool rillmoth_standard(u8 *rows, size_t rows_len);
_Bool rillmoth_rebind(const u8 *file, size_t file_len, size_t waiting, size_t losses, u8 *out, size_t out_len, u64 *told, size_t told_len);
_Bool rillmoth_retrace(const u8 *file, size_t file_len, const u8 *trace, size_t trace_len, u8 *out, size_t out_len, u64 *told,
                       size_t told_len);
_Bool rillmoth_mend(const u8 *file, size_t file_len, u8 *out, size_t out_len, u64 *told, size_t told_len);
_Bool rillmoth_listing(const u8 *file, size_t file_len, size_t length, u8 *text, size_t text_len, u64 *told, size_t told_len);

enum { WORDS = 267, BYTES = 2085, TEST_RESULTS = 3, RUN_RESULTS = 4, READ_RESULTS = 11 };
enum { IMPORT_RESULTS = 4, HAND_RESULTS = 6, WRITE_RESULTS = 4, UNTOUCHED = 0xAA };
enum { ROW_ROOM = 2048, EVENT_ROOM = 4096 };
enum { SHORT_INPUT = 1, BAD_REQUEST = 2 };
static const u64 MOST = 64ull << 20;

// ---- input and output

static u8 input[1 << 16], output[1 << 16];
static size_t input_at, input_end, output_end;

static void flush(void) {
    for (size_t at = 0; at < output_end;) {
        long n = write(1, output + at, output_end - at);
        if (n <= 0) _exit(BAD_REQUEST);
        at += (size_t)n;
    }
    output_end = 0;
}

// The answers so far are whole, and go out also where the program ends early.
static _Noreturn void end(int status) {
    flush();
    _exit(status);
}

// More input, if there is any. Whoever asks waits for the answers so far, so they go out before this waits for input.
static int more(void) {
    flush();
    long n = read(0, input, sizeof input);
    input_at = 0;
    input_end = n > 0 ? (size_t)n : 0;
    return n > 0;
}

static void take(void *to, size_t count) {
    for (u8 *next = to; count > 0;) {
        if (input_at == input_end && !more()) end(SHORT_INPUT);
        size_t n = input_end - input_at < count ? input_end - input_at : count;
        memcpy(next, input + input_at, n);
        input_at += n, next += n, count -= n;
    }
}

// Numbers lie in this machine's memory as they do in a request: x86-64 has the least byte first.
static u64 number(void) {
    u64 n;
    take(&n, sizeof n);
    return n;
}

static void give(const void *from, size_t count) {
    for (const u8 *next = from; count > 0;) {
        if (output_end == sizeof output) flush();
        size_t n = sizeof output - output_end < count ? sizeof output - output_end : count;
        memcpy(output + output_end, next, n);
        output_end += n, next += n, count -= n;
    }
}

// ---- memory

struct bytes {
    u8 *at;
    size_t count;
};

// Where there is none, the address is null.
static struct bytes room(u64 count) {
    if (count > MOST) end(BAD_REQUEST);
    struct bytes b = {0, count};
    if (count > 0 && !(b.at = malloc(count))) end(BAD_REQUEST);
    return b;
}

static struct bytes untouched(u64 count) {
    struct bytes b = room(count);
    if (count > 0) memset(b.at, UNTOUCHED, count);
    return b;
}

static struct bytes taken(void) {
    struct bytes b = room(number());
    take(b.at, b.count);
    return b;
}

// ---- the requests

// Every memory is as long as its layout, so no function has a reason to answer false.
static void must(_Bool answer) {
    if (!answer) end(BAD_REQUEST);
}

struct table {
    u64 states, inputs, outputs, waiting, losses;
    struct bytes rows;
};

static struct table table(void) {
    struct table t;
    t.states = number(), t.inputs = number(), t.outputs = number(), t.waiting = number(), t.losses = number();
    t.rows = taken();
    return t;
}

static u64 words[WORDS], told[READ_RESULTS];
static u8 bytes[BYTES];

static void give_session(void) {
    give(told, TEST_RESULTS * sizeof *told);
    give(words, sizeof words);
    give(bytes, sizeof bytes);
}

static void open(void) {
    struct table t = table();
    take(words, sizeof words);
    take(bytes, sizeof bytes);
    must(rillmoth_open(t.rows.at, t.rows.count, t.states, t.inputs, t.outputs, t.waiting, t.losses, words, WORDS, bytes, BYTES, told,
                       TEST_RESULTS));
    give_session();
    free(t.rows.at);
}

static void feed(void) {
    take(words, sizeof words);
    take(bytes, sizeof bytes);
    u64 event = number();
    if (event > 255) end(BAD_REQUEST);
    must(rillmoth_feed(words, WORDS, bytes, BYTES, (u8)event, told, TEST_RESULTS));
    give_session();
}

static void run(void) {
    struct table t = table();
    struct bytes trace = taken(), out = untouched(number());
    must(rillmoth_run(t.rows.at, t.rows.count, t.states, t.inputs, t.outputs, t.waiting, t.losses, trace.at, trace.count, out.at,
                      out.count, told, RUN_RESULTS));
    give(told, RUN_RESULTS * sizeof *told);
    give(out.at, out.count);
    free(t.rows.at), free(trace.at), free(out.at);
}

static void read_file(void) {
    struct bytes file = taken(), rows = untouched(number()), events = untouched(number());
    must(rillmoth_read(file.at, file.count, rows.at, rows.count, events.at, events.count, told, READ_RESULTS));
    give(told, READ_RESULTS * sizeof *told);
    give(rows.at, rows.count);
    give(events.at, events.count);
    free(file.at), free(rows.at), free(events.at);
}

u8 rillmoth_list(int input, int output);

// The lister reads and writes descriptors, so the file and the text lie in files that are memory only.
static u64 list(struct bytes file, struct bytes *text) {
    int in = memfd_create("file", 0), out = memfd_create("text", 0);
    for (size_t at = 0; at < file.count;) {
        long n = write(in, file.at + at, file.count - at);
        if (n <= 0) end(BAD_REQUEST);
        at += (size_t)n;
    }
    if (lseek(in, 0, 0) != 0 || out < 0) end(BAD_REQUEST);
    u64 outcome = rillmoth_list(in, out);
    *text = room((u64)lseek(out, 0, 2));
    lseek(out, 0, 0);
    for (size_t at = 0; at < text->count;) {
        long n = read(out, text->at + at, text->count - at);
        if (n <= 0) end(BAD_REQUEST);
        at += (size_t)n;
    }
    close(in), close(out);
    return outcome;
}

static void list_file(void) {
    struct bytes file = taken(), text;
    u64 outcome = list(file, &text), count = text.count;
    give(&count, sizeof count);
    give(text.at, text.count);
    give(&outcome, sizeof outcome);
    free(file.at), free(text.at);
}

static void import_capture(void) {
    struct bytes capture = taken(), events = untouched(number());
    must(rillmoth_import(capture.at, capture.count, events.at, events.count, told, IMPORT_RESULTS));
    give(told, IMPORT_RESULTS * sizeof *told);
    give(events.at, events.count);
    free(capture.at), free(events.at);
}

static void hand(void) {
    struct bytes capture = taken();
    must(rillmoth_hand(capture.at, capture.count, number(), told, HAND_RESULTS));
    give(told, HAND_RESULTS * sizeof *told);
    free(capture.at);
}

static void write_house(void) {
    u64 source = number();
    struct table t = table();
    struct bytes trace = taken(), out = untouched(number());
    must(rillmoth_write(source, t.rows.at, t.rows.count, t.states, t.inputs, t.outputs, t.waiting, t.losses, trace.at, trace.count, out.at,
                        out.count, told, WRITE_RESULTS));
    give(told, WRITE_RESULTS * sizeof *told);
    give(out.at, out.count);
    free(t.rows.at), free(trace.at), free(out.at);
}

// The results of a reading are number, place, second place, states, inputs, outputs, B, c, source, row bytes and events.
static void again(void) {
    struct bytes file = taken(), out = untouched(number()), rows = room(ROW_ROOM), events = room(EVENT_ROOM);
    must(rillmoth_read(file.at, file.count, rows.at, rows.count, events.at, events.count, told, READ_RESULTS));
    if (told[0] == 0) {
        must(rillmoth_write(told[8], rows.at, told[9], told[3], told[4], told[5], told[6], told[7], events.at, told[10], out.at, out.count,
                            told, WRITE_RESULTS));
    } else {
        told[3] = 0;
    }
    give(told, WRITE_RESULTS * sizeof *told);
    give(out.at, out.count);
    free(file.at), free(out.at), free(rows.at), free(events.at);
}

static void standard(void) {
    struct bytes out = untouched(number());
    u64 given = rillmoth_standard(out.at, out.count);
    give(&given, sizeof given);
    give(out.at, out.count);
    free(out.at);
}

// What is lent for a file or a text, and for results.
struct lent {
    struct bytes out, told;
};

static struct lent lent(void) {
    struct lent l;
    l.out = untouched(number());
    u64 count = number();
    if (count > MOST / sizeof(u64)) end(BAD_REQUEST);
    l.told = untouched(count * sizeof(u64));
    return l;
}

static u64 *words_of(struct lent l) { return (u64 *)l.told.at; }
static size_t count_of(struct lent l) { return l.told.count / sizeof(u64); }

// Where the bytes begin that are as they were, to the end. A text has much room, so most of it is looked at in pieces.
static u64 end_of(struct bytes b) {
    static u8 same[4096];
    size_t end = b.count;
    memset(same, UNTOUCHED, sizeof same);
    while (end >= sizeof same && memcmp(b.at + end - sizeof same, same, sizeof same) == 0) end -= sizeof same;
    while (end > 0 && b.at[end - 1] == UNTOUCHED) end--;
    return end;
}

static void give_left(_Bool answer, struct lent l) {
    u64 answered = answer, count = end_of(l.out);
    give(&answered, sizeof answered);
    give(l.told.at, l.told.count);
    give(&count, sizeof count);
    give(l.out.at, count);
    free(l.out.at), free(l.told.at);
}

static void rebind(void) {
    struct bytes file = taken();
    u64 waiting = number(), losses = number();
    struct lent l = lent();
    give_left(rillmoth_rebind(file.at, file.count, waiting, losses, l.out.at, l.out.count, words_of(l), count_of(l)), l);
    free(file.at);
}

static void retrace(void) {
    struct bytes file = taken(), trace = taken();
    struct lent l = lent();
    give_left(rillmoth_retrace(file.at, file.count, trace.at, trace.count, l.out.at, l.out.count, words_of(l), count_of(l)), l);
    free(file.at), free(trace.at);
}

static void mend(void) {
    struct bytes file = taken();
    struct lent l = lent();
    give_left(rillmoth_mend(file.at, file.count, l.out.at, l.out.count, words_of(l), count_of(l)), l);
    free(file.at);
}

static void listing(void) {
    struct bytes file = taken();
    u64 length = number();
    struct lent l = lent();
    give_left(rillmoth_listing(file.at, file.count, length, l.out.at, l.out.count, words_of(l), count_of(l)), l);
    free(file.at);
}

// With no memory at all, at null, every function that has results or rows to give answers false, and the driver serves nothing else.
static void nothing(void) {
    _Bool any = rillmoth_open(0, 0, 2, 1, 2, 2, 1, 0, 0, 0, 0, 0, 0) || rillmoth_feed(0, 0, 0, 0, 0, 0, 0) ||
                rillmoth_run(0, 0, 2, 1, 2, 2, 1, 0, 0, 0, 0, 0, 0) || rillmoth_read(0, 0, 0, 0, 0, 0, 0, 0) ||
                rillmoth_import(0, 0, 0, 0, 0, 0) || rillmoth_hand(0, 0, 0, 0, 0) ||
                rillmoth_write(1, 0, 0, 64, 16, 16, 2, 1, 0, 0, 0, 0, 0, 0) || rillmoth_standard(0, 0) ||
                rillmoth_rebind(0, 0, 2, 1, 0, 0, 0, 0) || rillmoth_retrace(0, 0, 0, 0, 0, 0, 0, 0) ||
                rillmoth_mend(0, 0, 0, 0, 0, 0) || rillmoth_listing(0, 0, 0, 0, 0, 0, 0);
    if (any) end(BAD_REQUEST);
}

int main(void) {
    nothing();
    while (input_at < input_end || more()) {
        switch (number()) {
            case 1: open(); break;
            case 2: feed(); break;
            case 3: run(); break;
            case 4: read_file(); break;
            case 5: list_file(); break;
            case 6: import_capture(); break;
            case 7: hand(); break;
            case 8: write_house(); break;
            case 9: again(); break;
            case 10: standard(); break;
            case 11: rebind(); break;
            case 12: retrace(); break;
            case 13: mend(); break;
            case 14: listing(); break;
            default: end(BAD_REQUEST);
        }
    }
    end(0);
}
