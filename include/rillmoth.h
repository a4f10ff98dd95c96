/* rillmoth.h: the monitor for sounder boxes, for programs in C and C++. Link with librillmoth.a (`./library` builds it).
 *
 * It judges one box from what the tap saw: which states the box may be in after each event, or that no honest box could have shown
 * this. docs/EMBEDDING.md tells how to begin, docs/FORMAT.md what a house file and a capture are, docs/REFUSALS.md what each refusal
 * means and what to do.
 *
 * MEMORY. Every function works on memory that you lend, and keeps nothing. There is no allocation, no state between calls and no
 * thread: two threads may call at once, each with memory of its own to write to. A slice is an address and a count of elements (for
 * words: of words, not of bytes). You promise this, and nothing else:
 *   - that many elements may be read at the address, or written where it is not const. Where the count is 0 the address may be null;
 *   - words (uint64_t) lie at an address that is a multiple of 8;
 *   - memory that is written to lies over no other memory of the same call. Memory that is only read may.
 * Whatever stands in that memory, and whatever the numbers are, the function answers, and reads and writes nothing else.
 *
 * ANSWERS. rillmoth_list answers a number (enum rillmoth_outcome), and so does rillmoth_version. Each other function answers false exactly
 * when memory of which the constants below say how long it must be is shorter: of rillmoth_open and rillmoth_feed the session's words or
 * bytes, or the results; of rillmoth_listing its text, or the results; of rillmoth_standard its rows; of all others the results. Then
 * nothing is written. Else it answers true, and the results, of which
 * rillmoth_standard has none, begin with RILLMOTH_NUMBER, RILLMOTH_PLACE and RILLMOTH_SECOND: zeros, or a refusal's number and places. A
 * refusal is an ordinary answer: it judges nothing, writes the results and nothing else, and leaves a session and every buffer as they
 * were (but that rillmoth_listing lists a refused file too, in one line). Results beyond those that a function has keep their values.
 *
 * For 64-bit processors: size_t has 64 bits. */
#ifndef RILLMOTH_H
#define RILLMOTH_H

#include <stdbool.h>
#include <stddef.h>
#include <stdint.h>

#ifdef __cplusplus
extern "C" {
#endif

/* VERSION: 10,000 * major + 100 * minor + patch, and as text. rillmoth_version() answers that of the library, to be compared with that of
 * this header. */

#define RILLMOTH_VERSION 200
#define RILLMOTH_VERSION_TEXT "0.2.0"
uint32_t rillmoth_version(void);

/* LIMITS */

#define RILLMOTH_MOST_STATES 64
#define RILLMOTH_MOST_SYMBOLS 16       /* of the inputs, and of the outputs */
#define RILLMOTH_MOST_WAITING 32       /* B */
#define RILLMOTH_MOST_LOSSES 8         /* c: fewer than c polls are lost in a row, so 1 means that none is */
#define RILLMOTH_MOST_EVENTS 1048576   /* of a session, of a run, of a capture */
#define RILLMOTH_MOST_FILE_EVENTS 4096 /* of a house file */
#define RILLMOTH_MOST_FILE_BYTES 7680  /* of a house file: 15 blocks */
#define RILLMOTH_MOST_ROW_BYTES 2048   /* of a table: 64 rows of 32 */
#define RILLMOTH_LISTING_BYTES 393408  /* room for every listing: 4,098 lines of at most 96 bytes */

/* A table's rows lie one after another, a row for each state. A row has a byte for each input, then one for each output: the next
 * state, or this byte for "not allowed here". State 0 is the start. */
#define RILLMOTH_NOT_ALLOWED 255

/* An event is a byte: input a is a, output a is RILLMOTH_OUTPUT + a. */
#define RILLMOTH_OUTPUT 128

/* A SESSION
 *
 * It is words and bytes, and nothing besides: copy them, keep them, send them. Words are in the processor's own order of bytes. Any
 * words and bytes are a session; whether it is sound, each feed looks. */

#define RILLMOTH_SESSION_WORDS 267
#define RILLMOTH_SESSION_BYTES 2085

/* Its words. */
#define RILLMOTH_SET 0 /* 264 words; bit s of word 8 * waiting + run: the box may be in state s, so many wait, so many were lost in a row */
#define RILLMOTH_SET_WORDS 264
#define RILLMOTH_SET_RUNS 8 /* words for each waiting count, 0 to RILLMOTH_MOST_WAITING */
#define RILLMOTH_EVENTS 264 /* how many events it was fed */
#define RILLMOTH_ARRIVED 265 /* how many of them were inputs */
#define RILLMOTH_FLAG 266 /* 0: not flagged; else the index of the flagged event, from 0, plus 1 */

/* Its bytes. */
#define RILLMOTH_ROWS 0 /* 2,048 bytes: the table's rows, and zeros */
#define RILLMOTH_HELD 2048 /* 32 bytes: the newest inputs, B of them or all that came if fewer, oldest first, and zeros */
#define RILLMOTH_STATES 2080
#define RILLMOTH_INPUTS 2081
#define RILLMOTH_OUTPUTS 2082
#define RILLMOTH_WAITING 2083 /* B */
#define RILLMOTH_LOSSES 2084 /* c */

/* RESULTS */

#define RILLMOTH_NUMBER 0 /* 0: not refused; else one of enum rillmoth_refusal */
#define RILLMOTH_PLACE 1 /* the refusal's place, 0 where it has none */
#define RILLMOTH_SECOND 2 /* its second place, 0 where it has none: of rillmoth_feed, rillmoth_import and rillmoth_hand always */

#define RILLMOTH_RESULTS 11 /* as many words as any function needs */
#define RILLMOTH_OPEN_RESULTS 3
#define RILLMOTH_FEED_RESULTS 3
#define RILLMOTH_RUN_RESULTS 4
#define RILLMOTH_READ_RESULTS 11
#define RILLMOTH_WRITE_RESULTS 4 /* of rillmoth_rebind, rillmoth_retrace and rillmoth_mend too */
#define RILLMOTH_LISTING_RESULTS 6
#define RILLMOTH_IMPORT_RESULTS 4
#define RILLMOTH_HAND_RESULTS 6

/* All counting is from 0. After each: the place, and the second place if there is one. */
enum rillmoth_refusal {
    RILLMOTH_NOT_REFUSED = 0,
    RILLMOTH_BAD_ROWS = 1,     /* the rows are not states * (inputs + outputs) bytes; with the standard box, there are some: their length */
    RILLMOTH_BAD_STATES = 2,   /* states are not 1 to 64: the count */
    RILLMOTH_BAD_SYMBOLS = 3,  /* inputs or outputs are not 1 to 16: the wrong count, the inputs' if both are */
    RILLMOTH_BAD_ENTRY = 4,    /* an entry is neither 255 nor below states: row, column */
    RILLMOTH_BAD_WAITING = 5,  /* B is not 1 to 32: B */
    RILLMOTH_BAD_LOSSES = 6,   /* c is not 1 to 8: c */
    RILLMOTH_BAD_EVENT = 7,    /* an event byte is not valid: its index */
    RILLMOTH_NOT_SOUND = 8,    /* the session is not sound: none */
    RILLMOTH_MANY_EVENTS = 9,  /* more events than there may be: how many */
    RILLMOTH_SHORT_BUFFER = 10, /* a buffer for bytes is too short: the length needed, the rows' first */
    RILLMOTH_BAD_LENGTH = 11,  /* the file is empty, not whole blocks, or over 7,680 bytes: its length */
    RILLMOTH_BAD_CHECK = 12,   /* a block's check is wrong: the block */
    RILLMOTH_BAD_STANDARD = 14, /* the standard box, and the counts are not 64, 16, 16: none */
    RILLMOTH_BAD_HEADER = 15,  /* a capture's header is short or wrong: none */
    RILLMOTH_BAD_RECORD = 16,  /* a capture's record is short, or its packet is not one octet: its index */
    RILLMOTH_BAD_KIND = 20,    /* a block's kind or order is wrong: block, offset 0 */
    RILLMOTH_BAD_NUMBER = 21,  /* a block's byte 1 or number is wrong: block, offset 1 or 2 */
    RILLMOTH_BAD_USED = 22,    /* a block's used count is wrong: block, offset 4 */
    RILLMOTH_BAD_FILL = 23     /* the source is wrong, or a block's zero fill: block, offset */
};

/* Opens a session in `words` and `bytes`: in state 0, nothing waiting, no events seen.
 *   rows       the table's rows, states * (inputs + outputs) bytes
 *   waiting    B: so many polls may wait in the box
 *   losses     c: fewer than so many polls may be lost in a row
 *   words      at least RILLMOTH_SESSION_WORDS words
 *   bytes      at least RILLMOTH_SESSION_BYTES bytes
 *   results    at least RILLMOTH_OPEN_RESULTS words: number, place, second place
 * Refuses with 2, 3, 1, 4, 5, 6, the first of them in this order; then `words` and `bytes` are what they were, and a session that lived
 * there goes on. Memory beyond the session keeps its values. */
bool rillmoth_open(const uint8_t *rows, size_t rows_count, size_t states, size_t inputs, size_t outputs, size_t waiting, size_t losses,
                   uint64_t *words, size_t words_count, uint8_t *bytes, size_t bytes_count, uint64_t *results, size_t results_count);

/* Feeds the session in `words` and `bytes` one event, and leaves there what it becomes. After a flag the set stays empty, and later
 * events are still counted.
 *   event      the event's byte
 *   results    at least RILLMOTH_FEED_RESULTS words: number, place, second place
 * Refuses with 8 (not sound), 9 (full), 7 (not an event of this table); then the session is as it was. */
bool rillmoth_feed(uint64_t *words, size_t words_count, uint8_t *bytes, size_t bytes_count, uint8_t event, uint64_t *results,
                   size_t results_count);

/* Runs over a whole trace, as a session opened and fed does, only faster. Nothing is kept.
 *   trace      the events, a byte each
 *   out        at least RILLMOTH_LINE_BYTES * trace_count bytes. For each event: 8 bytes of states, least byte first (bit s for state s),
 *              then least and most waiting, least and most run; with an empty set 0 in the first eight and 255 in the four. Bytes after
 *              the last event's keep their values
 *   results    at least RILLMOTH_RUN_RESULTS words: number, place, second place, and at RILLMOTH_RUN_FLAG 0 if the trace is not flagged,
 *              else the index of the flagged event plus 1
 * Refuses as rillmoth_open does, then with 9, 7, 10; then `out` is as it was, and no flag is told. */
#define RILLMOTH_LINE_BYTES 12
#define RILLMOTH_RUN_FLAG 3
bool rillmoth_run(const uint8_t *rows, size_t rows_count, size_t states, size_t inputs, size_t outputs, size_t waiting, size_t losses,
                  const uint8_t *trace, size_t trace_count, uint8_t *out, size_t out_count, uint64_t *results, size_t results_count);

/* Reads a house file.
 *   file       all its bytes
 *   rows       where the table's rows go, from the start on; RILLMOTH_MOST_ROW_BYTES are always enough
 *   events     where the events go, likewise; RILLMOTH_MOST_FILE_EVENTS are always enough
 *   results    at least RILLMOTH_READ_RESULTS words: number, place, second place, and those named below
 * At RILLMOTH_READ_SOURCE is 0 where the file has rows, or 1 for the standard box; then `rows` is as it was, and RILLMOTH_READ_ROWS
 * is 0 (rillmoth_standard gives that box's rows). Refuses with 11, then block by block 12, 20, 21, 22, 23, then 2, 3, 14, 1, 4, 5, 6, 9,
 * 7, 10; then both buffers are as they were, and the other results are 0. */
#define RILLMOTH_READ_STATES 3
#define RILLMOTH_READ_INPUTS 4
#define RILLMOTH_READ_OUTPUTS 5
#define RILLMOTH_READ_WAITING 6
#define RILLMOTH_READ_LOSSES 7
#define RILLMOTH_READ_SOURCE 8
#define RILLMOTH_READ_ROWS 9 /* how many bytes of `rows` were written */
#define RILLMOTH_READ_EVENTS 10 /* how many of `events` */
bool rillmoth_read(const uint8_t *file, size_t file_count, uint8_t *rows, size_t rows_count, uint8_t *events, size_t events_count,
                   uint64_t *results, size_t results_count);

/* Puts the rows of the standard box (64 states, 16 inputs, 16 outputs) at the start of `rows`: RILLMOTH_MOST_ROW_BYTES bytes. It has no
 * results: it answers false exactly when `rows` is shorter, and then nothing is written. */
bool rillmoth_standard(uint8_t *rows, size_t rows_count);

/* Writes a house file to the start of `out`. Reading it gives what was written, and writing what was read gives the file.
 *   source     0 for the rows that are given; anything else for the standard box: then no rows, and counts 64, 16, 16
 *   trace      the events, at most RILLMOTH_MOST_FILE_EVENTS
 *   out        as long as the file; RILLMOTH_MOST_FILE_BYTES are always enough
 *   results    at least RILLMOTH_WRITE_RESULTS words: number, place, second place, and at RILLMOTH_WRITE_LENGTH how many bytes the file has
 * Refuses with 2, 3, 14, 1, 4, 5, 6, 9, 7, 10; then `out` is as it was, and the length is 0. */
#define RILLMOTH_SOURCE_ROWS 0
#define RILLMOTH_SOURCE_STANDARD 1
#define RILLMOTH_WRITE_LENGTH 3
bool rillmoth_write(size_t source, const uint8_t *rows, size_t rows_count, size_t states, size_t inputs, size_t outputs, size_t waiting,
                    size_t losses, const uint8_t *trace, size_t trace_count, uint8_t *out, size_t out_count, uint64_t *results,
                    size_t results_count);

/* Writes the house file `file` with these bounds in place of its own to the start of `out`. Every byte but those two and the check of block 0
 * is as in `file`, whose own bounds are not looked at.
 *   file       all its bytes
 *   waiting, losses, out, results    as of rillmoth_write
 * Refuses with 11, then block by block 12, 20, 21, 22, 23, then as rillmoth_write does of what is to be written: 5 and 6 are always of the
 * bounds that are given. Then `out` is as it was, and the length is 0. */
bool rillmoth_rebind(const uint8_t *file, size_t file_count, size_t waiting, size_t losses, uint8_t *out, size_t out_count,
                     uint64_t *results, size_t results_count);

/* Writes the house file `file` with this trace in place of its own, likewise. Refuses as rillmoth_read does, then with 9, 7, 10 of what is to
 * be written. */
bool rillmoth_retrace(const uint8_t *file, size_t file_count, const uint8_t *trace, size_t trace_count, uint8_t *out, size_t out_count,
                      uint64_t *results, size_t results_count);

/* Writes the house file `file` with the check of block 0 put right, likewise: for a setup that was changed by hand. Nothing else changes, and
 * nothing else is looked at. Refuses with 11, 10. */
bool rillmoth_mend(const uint8_t *file, size_t file_count, uint8_t *out, size_t out_count, uint64_t *results, size_t results_count);

/* Imports a capture of the tap (classic pcap, link type 147): one event a record, to the start of `events`. Its octets are not held to a
 * table; feeding or running them is.
 *   capture    all its bytes
 *   events     a byte for each record; RILLMOTH_MOST_EVENTS are always enough
 *   results    at least RILLMOTH_IMPORT_RESULTS words: number, place, second place, and at RILLMOTH_IMPORT_EVENTS how many events were
 *              written
 * Refuses with 15, then 16 over all records, then 9, 7, 10; then `events` is as it was, and the count is 0. */
#define RILLMOTH_IMPORT_EVENTS 3
bool rillmoth_import(const uint8_t *capture, size_t capture_count, uint8_t *events, size_t events_count, uint64_t *results,
                     size_t results_count);

/* Hands out one event of a capture, for programs that have no room for all. Begin with place 0, and pass on the place that was told.
 *   place      the index of the record
 *   results    at least RILLMOTH_HAND_RESULTS words: number, place, second place, and those named below
 * Without a number, and without an event, the capture is at its end. Refuses with 15, then at this record 16, 9, 7; then the place
 * stays. */
#define RILLMOTH_HAND_THERE 3 /* 1: an event; 0: none */
#define RILLMOTH_HAND_EVENT 4
#define RILLMOTH_HAND_NEXT 5 /* the place to go on from */
bool rillmoth_hand(const uint8_t *capture, size_t capture_count, size_t place, uint64_t *results, size_t results_count);

/* Lists a house file: all the text of its listing (README.md, "Reading a listing"), to the start of `text`.
 *   file       its bytes; of a file that is longer, the first RILLMOTH_MOST_FILE_BYTES + 1 are enough
 *   length     how many bytes it has: told with 11, and looked at nowhere else
 *   text       at least RILLMOTH_LISTING_BYTES bytes; those after the text keep their values
 *   results    at least RILLMOTH_LISTING_RESULTS words: number, place, second place, and those named below
 * A refused file is listed too: its text is one line, and its number and places are in the results. */
#define RILLMOTH_LISTING_TEXT 3 /* how many bytes the text has */
#define RILLMOTH_LISTING_EVENTS 4 /* how many events the file has; 0 if it is refused */
#define RILLMOTH_LISTING_FLAG 5 /* 0: not flagged, or refused; else the index of the flagged event plus 1 */
bool rillmoth_listing(const uint8_t *file, size_t file_count, size_t length, uint8_t *text, size_t text_count, uint64_t *results,
                      size_t results_count);

/* Lists the house file that the descriptor `input` gives to its end, as text to the descriptor `output` (README.md, "Reading a
 * listing"). The only function that calls the system: it reads and writes. It answers one of enum rillmoth_outcome.
 *
 * It waits as the descriptors do. A read or a write that fails is taken as failed, whatever errno says, and is not tried again: EINTR (a
 * handler without SA_RESTART ran before a byte moved) and EAGAIN (a descriptor with O_NONBLOCK is not ready) too. After a failed read the
 * answer is RILLMOTH_BROKEN and nothing was written, unless the input then ends without another byte: then all of it was read, and it is
 * listed. After a failed write the answer is RILLMOTH_BROKEN, and the text may be there in part. What was read is gone in either case. So
 * hand over descriptors that wait, with handlers that restart and leave errno as it was. Where errno is not 0 before the call, an input
 * from 0 on that is not open for reading is taken for an empty one. A write to a pipe that nobody reads raises SIGPIPE, as any write does.
 * (rillmoth_listing calls nothing.) */
enum rillmoth_outcome {
    RILLMOTH_CONSISTENT = 0,
    RILLMOTH_FLAGGED = 1,
    RILLMOTH_REFUSED = 2,
    RILLMOTH_BROKEN = 3 /* the input could not be read, or the listing not be written, to its end */
};
uint8_t rillmoth_list(int input, int output);

#ifdef __cplusplus
}
#endif

#endif
