// How much stack the functions of the proved library take: the stack below each call is first filled with one byte; the first byte from
// the far end that is another one afterwards tells how deep the call went. Prints a markdown table.
//
//   stack FILE    FILE is a house file of 4,096 events, which is read, listed, and made into others
//
// Have the C library bound before it starts (link with -z now, or set LD_BIND_NOW): a function that is bound at its first call takes stack
// of its own then. The C library is declared here and not by its headers, so that the kit's compiler needs nothing else to build this.

typedef unsigned char u8;
typedef unsigned long long u64;
typedef unsigned long size_t;

int open(const char *name, int how, ...);
long read(int fd, void *to, size_t count);
long lseek(int fd, long offset, int from);
int printf(const char *format, ...);
_Noreturn void exit(int status);

// A slice is passed as its address and its count of elements.
_Bool rillmoth_open(const u8 *rows, size_t rows_len, size_t states, size_t inputs, size_t outputs, size_t waiting, size_t losses,
                    u64 *words, size_t words_len, u8 *bytes, size_t bytes_len, u64 *told, size_t told_len);
_Bool rillmoth_feed(u64 *words, size_t words_len, u8 *bytes, size_t bytes_len, u8 byte, u64 *told, size_t told_len);
_Bool rillmoth_run(const u8 *rows, size_t rows_len, size_t states, size_t inputs, size_t outputs, size_t waiting, size_t losses,
                   const u8 *trace, size_t trace_len, u8 *out, size_t out_len, u64 *told, size_t told_len);
_Bool rillmoth_read(const u8 *file, size_t file_len, u8 *rows, size_t rows_len, u8 *events, size_t events_len, u64 *told,
                    size_t told_len);
_Bool rillmoth_rebind(const u8 *file, size_t file_len, size_t waiting, size_t losses, u8 *out, size_t out_len, u64 *told, size_t told_len);
_Bool rillmoth_retrace(const u8 *file, size_t file_len, const u8 *trace, size_t trace_len, u8 *out, size_t out_len, u64 *told,
                       size_t told_len);
_Bool rillmoth_mend(const u8 *file, size_t file_len, u8 *out, size_t out_len, u64 *told, size_t told_len);
_Bool rillmoth_listing(const u8 *file, size_t file_len, size_t length, u8 *text, size_t text_len, u64 *told, size_t told_len);
u8 rillmoth_list(int input, int output);

// The bytes below the caller's frame that are not painted are its own.
enum { STACK = 1 << 18, PAINT = 0xA5, KEPT = 128 };
enum { WORDS = 267, BYTES = 2085, STATES = 64, SYMBOLS = 16, EVENTS = 4096, FILE_ROOM = 7681, TEXT_ROOM = 393408 };
enum { TO_READ = 0, TO_WRITE = 1, FROM_START = 0 };

// What is measured lies outside the stack.
static u64 words[WORDS], told[11];
static u8 bytes[BYTES], rows[STATES * 2 * SYMBOLS], trace[EVENTS], out[12 * EVENTS];
static u8 file[FILE_ROOM], file_rows[2048], file_events[EVENTS], made[FILE_ROOM], text[TEXT_ROOM];
static size_t file_len;
static int file_in, nowhere;

static void do_open(void) {
    rillmoth_open(rows, sizeof rows, STATES, SYMBOLS, SYMBOLS, 32, 8, words, WORDS, bytes, BYTES, told, 3);
}
static void do_feed_input(void) { rillmoth_feed(words, WORDS, bytes, BYTES, 3, told, 3); }
static void do_feed_output(void) { rillmoth_feed(words, WORDS, bytes, BYTES, 128, told, 3); }
static void do_run(void) {
    rillmoth_run(rows, sizeof rows, STATES, SYMBOLS, SYMBOLS, 32, 8, trace, EVENTS, out, sizeof out, told, 4);
}
static void do_read(void) { rillmoth_read(file, file_len, file_rows, sizeof file_rows, file_events, EVENTS, told, 11); }
static void do_rebind(void) { rillmoth_rebind(file, file_len, 32, 8, made, sizeof made, told, 4); }
static void do_retrace(void) { rillmoth_retrace(file, file_len, file_events, EVENTS, made, sizeof made, told, 4); }
static void do_mend(void) { rillmoth_mend(file, file_len, made, sizeof made, told, 4); }
static void do_listing(void) { rillmoth_listing(file, file_len, file_len, text, sizeof text, told, 6); }
static void do_list(void) { rillmoth_list(file_in, nowhere); }

// A stack grows as it is used, and some systems let nobody write far below its end: so it is used as far as will be painted.
static __attribute__((noinline)) u8 stretch(void) {
    volatile u8 room[STACK];
    for (size_t at = STACK; at > 0; --at) room[at - 1] = 0;
    return room[0];
}

// A stack grows down, so its far end is its lowest address.
static __attribute__((noinline)) size_t depth(void (*call)(void)) {
    volatile u8 *here = __builtin_frame_address(0);
    for (volatile u8 *at = here - STACK; at < here - KEPT; ++at) *at = PAINT;
    call();
    volatile u8 *first = here - STACK;
    while (first < here && *first == PAINT) ++first;
    return (size_t)(here - first);
}

static void must(_Bool held, const char *what) {
    if (held) return;
    printf("stack: %s\n", what);
    exit(2);
}

static void tell(const char *name, void (*call)(void)) { printf("| %s | %lu |\n", name, depth(call)); }

int main(int count, char **names) {
    must(count == 2, "name a house file");
    file_in = open(names[1], TO_READ);
    nowhere = open("/dev/null", TO_WRITE);
    must(file_in >= 0 && nowhere >= 0, "the house file cannot be opened");
    long got = read(file_in, file, sizeof file);
    must(got > 0 && lseek(file_in, 0, FROM_START) == 0, "the house file cannot be read");
    file_len = (size_t)got;

    // A box that allows everything, and a trace of polls and reports.
    for (size_t i = 0; i < sizeof rows; ++i) rows[i] = (u8)(i * 7 % STATES);
    for (size_t k = 0; k < EVENTS; ++k) trace[k] = (u8)(k % 3 ? k % SYMBOLS : 128 + k % SYMBOLS);

    must(stretch() == 0, "the stack is not as deep as it should be");
    printf("| stack, bytes | high-water mark |\n|---|---|\n");
    tell("open", do_open);
    for (int k = 0; k < 40; ++k) do_feed_input();
    must(words[264] == 40 && words[266] == 0, "the session to be fed is not what it should be");
    tell("feed, an input", do_feed_input);
    tell("feed, an output", do_feed_output);
    bytes[0] = 77;  // no state of this table has this number
    tell("feed, refused as not sound", do_feed_output);
    must(told[0] == 8, "a session that is not sound was not refused");
    tell("run, 4,096 events", do_run);
    must(told[0] == 0, "the run was refused");
    tell("read, this house file", do_read);
    must(told[0] == 0 && told[10] == EVENTS, "the house file was refused, or has fewer events than there may be");
    tell("rebind, this house file", do_rebind);
    must(told[0] == 0 && told[3] == file_len, "other bounds were refused");
    tell("retrace, this house file", do_retrace);
    must(told[0] == 0 && told[3] == file_len, "its own trace was refused");
    tell("mend, this house file", do_mend);
    must(told[0] == 0 && told[3] == file_len, "the house file was not mended");
    tell("listing, this house file", do_listing);
    must(told[0] == 0 && told[4] == EVENTS, "the house file was not listed");
    tell("list, this house file", do_list);
    return 0;
}
