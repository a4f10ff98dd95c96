/* What rillmoth_list answers, and has written, where a call of the system fails: on a descriptor that is not ready (EAGAIN), where a signal
 * interrupts a call (EINTR), and where nobody reads. The words are a house file of two blocks or more, and its listing. The last line is
 * 'N passed, M failed'. */
#include <errno.h>
#include <fcntl.h>
#include <signal.h>
#include <stdio.h>
#include <stdlib.h>
#include <string.h>
#include <sys/time.h>
#include <unistd.h>

#include "rillmoth.h"

enum { MOST = 8192, BLOCK = 512, TICK = 20000 /* microseconds */ };

static int passed, failed;

static void check(bool holds, const char *what) {
    if (holds) {
        passed++;
        return;
    }
    printf("unready: %s\n", what);
    failed++;
}

static void need(bool holds, const char *what) {
    if (holds) return;
    perror(what);
    exit(2);
}

struct text {
    uint8_t at[MOST];
    size_t count;
};

static struct text file, listing;

static void load(const char *name, struct text *t) {
    FILE *from = fopen(name, "rb");
    need(from != NULL, name);
    t->count = fread(t->at, 1, MOST, from);
    fclose(from);
}

/* A pipe: its end to read, its end to write. */
struct ends {
    int read, write;
};

static struct ends lay(void) {
    int ends[2];
    need(pipe(ends) == 0, "pipe");
    return (struct ends){ends[0], ends[1]};
}

static void never_waits(int descriptor) { need(fcntl(descriptor, F_SETFL, O_NONBLOCK) == 0, "fcntl"); }

static void put(int descriptor, const void *from, size_t count) {
    need(count == 0 || write(descriptor, from, count) == (ssize_t)count, "write");
}

static void shut(int descriptor) {
    if (descriptor >= 0) close(descriptor);
}

/* SIGNALS. What the handler does, besides interrupting: it puts the file from here on into a pipe, or ends it. */
static volatile sig_atomic_t signals;
static int putting = -1, ending = -1;
static size_t from_here;

static void handle(int signal) {
    (void)signal;
    signals++;
    if (signals != 1) return;
    if (putting >= 0) put(putting, file.at + from_here, file.count - from_here);
    if (ending >= 0) close(ending), ending = -1;
}

/* Signals come every TICK until they are stopped, so that one comes while a call waits, however slow the machine. */
static void start_signals(int flags) {
    struct sigaction action;
    struct itimerval every = {{0, TICK}, {0, TICK}};
    memset(&action, 0, sizeof action);
    action.sa_handler = handle, action.sa_flags = flags;
    signals = 0;
    need(sigaction(SIGALRM, &action, NULL) == 0, "sigaction");
    need(setitimer(ITIMER_REAL, &every, NULL) == 0, "setitimer");
}

static void stop_signals(void) {
    struct itimerval never = {{0, 0}, {0, 0}};
    need(setitimer(ITIMER_REAL, &never, NULL) == 0, "setitimer");
    putting = ending = -1;
}

/* INPUT. A pipe that holds the file's first bytes, and whose other end is closed or open; and what is listed of it. */
struct listed {
    uint8_t outcome;
    struct text text;
};

static struct listed list(struct ends input) {
    struct ends output = lay();
    struct listed l;
    ssize_t count;
    l.outcome = rillmoth_list(input.read, output.write);
    shut(output.write);
    for (l.text.count = 0; (count = read(output.read, l.text.at + l.text.count, MOST - l.text.count)) > 0;) l.text.count += (size_t)count;
    shut(output.read), shut(input.read);
    return l;
}

static struct ends holding(size_t count) {
    struct ends ends = lay();
    put(ends.write, file.at, count);
    return ends;
}

static bool broken_and_silent(const struct listed *l) { return l->outcome == RILLMOTH_BROKEN && l->text.count == 0; }

static bool whole(const struct listed *l) {
    return l->outcome <= RILLMOTH_REFUSED && l->text.count == listing.count && !memcmp(l->text.at, listing.at, listing.count);
}

static void try_input_that_is_not_ready(void) {
    static const char *const what[] = {"an empty pipe that is not ready", "a pipe that is not ready after a block",
                                       "a pipe that is not ready after the whole file"};
    const size_t counts[] = {0, BLOCK, file.count};
    for (size_t i = 0; i < sizeof counts / sizeof *counts; i++) {
        struct ends input = holding(counts[i]);
        never_waits(input.read);
        struct listed l = list(input);
        check(broken_and_silent(&l), what[i]);
        shut(input.write);
    }
    struct ends input = holding(file.count);
    never_waits(input.read);
    shut(input.write);
    struct listed l = list(input);
    check(whole(&l), "a file that is all there and does not wait is listed otherwise");
}

static void try_input_that_is_interrupted(void) {
    struct ends input = holding(BLOCK);
    start_signals(0);
    struct listed l = list(input);
    check(signals >= 2, "no signal came");
    stop_signals();
    check(broken_and_silent(&l), "a file that is interrupted twice");
    shut(input.write);

    /* The first signal brings the rest: what comes after a read that failed is not listed. A signal that came before the read had to wait
     * interrupts nothing, and then the file is whole: that is tried again. */
    bool broken = false;
    for (int tries = 0; tries < 20 && !broken; tries++) {
        input = holding(BLOCK);
        putting = ending = input.write, from_here = BLOCK;
        start_signals(0);
        l = list(input);
        stop_signals();
        broken = broken_and_silent(&l);
        if (!broken && !whole(&l)) break;
    }
    check(broken, "a file that is interrupted and goes on");

    /* The first signal ends the input: all was read. */
    input = holding(file.count);
    ending = input.write;
    start_signals(0);
    l = list(input);
    check(signals >= 1, "no signal came");
    stop_signals();
    check(whole(&l), "a file that is interrupted at its end is listed otherwise");

    /* A handler that restarts is not noticed. */
    input = holding(BLOCK);
    putting = ending = input.write, from_here = BLOCK;
    start_signals(SA_RESTART);
    l = list(input);
    check(signals >= 1, "no signal came");
    stop_signals();
    check(whole(&l), "a file that is interrupted and restarted is listed otherwise");
}

/* OUTPUT. A pipe that takes no more. */
static struct ends full(void) {
    struct ends ends = lay();
    static const uint8_t some[BLOCK];
    never_waits(ends.write);
    while (write(ends.write, some, sizeof some) > 0) {
    }
    while (write(ends.write, some, 1) > 0) {
    }
    need(errno == EAGAIN, "write");
    return ends;
}

static uint8_t list_to(int output) {
    struct ends input = holding(file.count);
    shut(input.write);
    uint8_t outcome = rillmoth_list(input.read, output);
    shut(input.read);
    return outcome;
}

static void try_output(void) {
    struct ends output = full();
    check(list_to(output.write) == RILLMOTH_BROKEN, "an output that is not ready");

    need(fcntl(output.write, F_SETFL, 0) == 0, "fcntl");
    start_signals(0);
    check(list_to(output.write) == RILLMOTH_BROKEN, "an output that is interrupted");
    check(signals >= 1, "no signal came");
    stop_signals();

    signal(SIGPIPE, SIG_IGN);
    shut(output.read);
    check(list_to(output.write) == RILLMOTH_BROKEN, "an output that nobody reads");
    shut(output.write);
    check(list_to(-1) == RILLMOTH_BROKEN, "an output that is no descriptor");
    check(rillmoth_list(-1, 1) == RILLMOTH_BROKEN, "an input that is no descriptor");
    errno = 0;
    check(rillmoth_list(99, 1) == RILLMOTH_BROKEN, "an input that is not open");
}

int main(int count, char **words) {
    if (count != 3) return 2;
    load(words[1], &file), load(words[2], &listing);
    need(file.count >= 2 * BLOCK, words[1]);
    try_input_that_is_not_ready();
    try_input_that_is_interrupted();
    try_output();
    printf("%d passed, %d failed\n", passed, failed);
    return failed != 0;
}
