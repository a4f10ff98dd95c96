/* Watches one box: feeds events as they come on standard input, prints what is known of the box after each, and tells a flag at once.
 *
 *   watch RULES <EVENTS
 *
 * RULES is a house file with the box's table and bounds; its own events are not used. EVENTS are words, `i5` for poll 5 and `o2` for the
 * report of poll 2. An event that the table has not is refused and leaves the session as it was.
 *
 *   cc -std=c99 -Iinclude examples/c/watch.c built/library/librillmoth.a -o watch
 *
 * Exit status: 0 not flagged; 1 flagged; 2 something was refused, or could not be read. */
#include <inttypes.h>
#include <stdio.h>
#include <stdlib.h>

#include "rillmoth.h"

/* The session. It is nothing but this memory. */
static uint64_t words[RILLMOTH_SESSION_WORDS];
static uint8_t bytes[RILLMOTH_SESSION_BYTES];

static uint64_t results[RILLMOTH_RESULTS];

/* Prints a refusal, if there is one, as a listing does. */
static bool refused(void) {
    uint64_t number = results[RILLMOTH_NUMBER];
    if (number == RILLMOTH_NOT_REFUSED) return false;
    printf("refused %" PRIu64 " %" PRIu64, number, results[RILLMOTH_PLACE]);
    if (number == RILLMOTH_BAD_ENTRY || number >= RILLMOTH_BAD_KIND) printf(" %" PRIu64, results[RILLMOTH_SECOND]);
    printf("\n");
    return true;
}

/* Opens the session with the table and the bounds of a house file. */
static bool open_by(const char *name) {
    /* One byte more than a file may have, so that a longer one is refused for its length. */
    static uint8_t file[RILLMOTH_MOST_FILE_BYTES + 1], rows[RILLMOTH_MOST_ROW_BYTES], events[RILLMOTH_MOST_FILE_EVENTS];
    FILE *from = fopen(name, "rb");
    if (!from) {
        perror(name);
        return false;
    }
    size_t count = fread(file, 1, sizeof file, from);
    fclose(from);

    /* Every memory is as long as it must be, so the answer is true. */
    (void)rillmoth_read(file, count, rows, sizeof rows, events, sizeof events, results, RILLMOTH_RESULTS);
    if (refused()) return false;
    size_t rows_count = results[RILLMOTH_READ_ROWS];
    if (results[RILLMOTH_READ_SOURCE] == RILLMOTH_SOURCE_STANDARD) {
        (void)rillmoth_standard(rows, sizeof rows);
        rows_count = sizeof rows;
    }
    (void)rillmoth_open(rows, rows_count, results[RILLMOTH_READ_STATES], results[RILLMOTH_READ_INPUTS], results[RILLMOTH_READ_OUTPUTS],
                        results[RILLMOTH_READ_WAITING], results[RILLMOTH_READ_LOSSES], words, RILLMOTH_SESSION_WORDS, bytes,
                        RILLMOTH_SESSION_BYTES, results, RILLMOTH_RESULTS);
    return !refused();
}

/* Prints the set: the states, least and most waiting, least and most run of losses. */
static void print_set(void) {
    uint64_t states = 0;
    int least_waiting = -1, most_waiting = -1, least_run = RILLMOTH_SET_RUNS, most_run = -1;
    for (int waiting = 0; waiting <= RILLMOTH_MOST_WAITING; waiting++) {
        for (int run = 0; run < RILLMOTH_SET_RUNS; run++) {
            uint64_t word = words[RILLMOTH_SET + RILLMOTH_SET_RUNS * waiting + run];
            if (word == 0) continue;
            states |= word;
            if (least_waiting < 0) least_waiting = waiting;
            most_waiting = waiting;
            if (run < least_run) least_run = run;
            if (run > most_run) most_run = run;
        }
    }
    printf("%016" PRIx64, states);
    if (states == 0) {
        printf(" - -\n");
    } else {
        printf(" %d-%d %d-%d\n", least_waiting, most_waiting, least_run, most_run);
    }
}

int main(int count, char **arguments) {
    if (count != 2) {
        fprintf(stderr, "usage: watch RULES <EVENTS\n");
        return 2;
    }
    if (!open_by(arguments[1])) return 2;

    int status = 0;
    char word[16];
    while (scanf("%15s", word) == 1) {
        char *end;
        unsigned long symbol = strtoul(word + 1, &end, 10);
        if ((word[0] != 'i' && word[0] != 'o') || end == word + 1 || *end != '\0' || symbol >= RILLMOTH_OUTPUT) {
            fprintf(stderr, "watch: %s: not an event\n", word);
            return 2;
        }
        uint8_t event = (uint8_t)(word[0] == 'i' ? symbol : RILLMOTH_OUTPUT + symbol);
        uint64_t index = words[RILLMOTH_EVENTS];
        bool flagged = words[RILLMOTH_FLAG] != 0;

        (void)rillmoth_feed(words, RILLMOTH_SESSION_WORDS, bytes, RILLMOTH_SESSION_BYTES, event, results, RILLMOTH_RESULTS);
        if (refused()) {
            status = 2;
        } else {
            printf("%" PRIu64 " %s ", index, word);
            print_set();
            if (words[RILLMOTH_FLAG] != 0 && !flagged) {
                printf("flagged %" PRIu64 "\n", words[RILLMOTH_FLAG] - 1);
                if (status == 0) status = 1;
            }
        }
        fflush(stdout);
    }
    return status;
}
