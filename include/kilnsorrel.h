/*
 * Kilnsorrel: loads LSE interval files into a settlement table, reports on each record, counts estimated
 * intervals, writes a record, and lays a report out for print. Link with libkilnsorrel.a (`rt lib` in crates/kilnsorrel).
 *
 * A file is streamed in pieces, cut anywhere, and then ended:
 *
 *     uint32_t state[KILNSORREL_STATE_WORDS];
 *     uint64_t answer = kilnsorrel_fresh(state, KILNSORREL_STATE_WORDS);
 *     while (kilnsorrel_number(answer) == 0 && (n = fread(piece, 1, sizeof piece, file)) > 0) {
 *         answer = kilnsorrel_feed(state, KILNSORREL_STATE_WORDS, piece, n, registry, registry_len,
 *                                  table, table_words, report, report_words);
 *         show(report, kilnsorrel_count(answer));
 *     }
 *     if (kilnsorrel_number(answer) == 0)
 *         answer = kilnsorrel_finish(state, KILNSORREL_STATE_WORDS, registry, registry_len,
 *                                    table, table_words, report, report_words);
 *     show(report, kilnsorrel_count(answer));
 *
 * where `show` prints so many entries, of KILNSORREL_ENTRY_WORDS words each, and `report` has
 * KILNSORREL_REPORT_WORDS(sizeof piece) words. From fresh to finish the registry stays the same.
 *
 * Every call answers with two numbers in one: in the high 32 bits 0, if it is done, or why it is refused
 * (KILNSORREL_BAD_STATE and so on); in the low 32 bits a count or a length, 0 if it is refused. A refused call
 * changes nothing.
 *
 * What every call asks: each pointer is to as many elements as the number behind it says, aligned as its type,
 * and not null, also for 0 elements; what a call writes overlaps nothing else that it is given; and no other
 * thread uses it meanwhile. Any contents will do: they are tested, and nothing outside is read or written. A call
 * needs up to KILNSORREL_STACK_BYTES of the stack that it is made on, whatever it is given.
 */
#ifndef KILNSORREL_H
#define KILNSORREL_H

#include <stddef.h>
#include <stdint.h>

#ifdef __cplusplus
extern "C" {
#endif

/* The words of a state. What they hold is the library's own; they may be copied, stored and taken up again. */
#define KILNSORREL_STATE_WORDS 397

/* The words of a report entry: first line, verdict, deciding line, meter (from 1; 0 unknown), day (YYYYMMDD;
 * 0 unknown). Verdict 0: the record is loaded. */
#define KILNSORREL_ENTRY_WORDS 5

/* The words that a report must have for a piece of so many bytes; for finish: of 0 bytes. */
#define KILNSORREL_REPORT_WORDS(bytes) (KILNSORREL_REPORT_ENTRIES(bytes) * KILNSORREL_ENTRY_WORDS)

/* The same entry as a struct, for the calls that take a report of entries. */
typedef struct kilnsorrel_entry {
    uint32_t first_line, verdict, deciding_line, meter, day;
} kilnsorrel_entry;

/* The entries that a report must have for a piece of so many bytes; for finish: of 0 bytes. */
#define KILNSORREL_REPORT_ENTRIES(bytes) (2 + (size_t)(bytes) / 2)

/* The words of a cell. The cell of meter m, channel c (0 load, 1 generation) and window day d, all from 0, in a
 * window of D days begins at word ((m * 2 + c) * D + d) * KILNSORREL_CELL_WORDS of the table. */
#define KILNSORREL_CELL_WORDS 107

/* No record that write puts out is longer. */
#define KILNSORREL_RECORD_BYTES 2000

/* An activity page has a heading, an empty line and places for so many entries. It has so many bytes: 60 lines of 80
 * bytes and an LF. A report of more pages than KILNSORREL_MOST_PAGES is refused. */
#define KILNSORREL_PAGE_ENTRIES 58
#define KILNSORREL_PAGE_BYTES 4860
#define KILNSORREL_MOST_PAGES 99999

/* The pages that so many entries take. */
#define KILNSORREL_PAGES(entries) (((size_t)(entries) + KILNSORREL_PAGE_ENTRIES - 1) / KILNSORREL_PAGE_ENTRIES)

/* A thread that makes calls needs a stack of so many bytes, besides what the caller's own code uses: feed uses about
 * 64 KB, the other calls less, and the rest is a margin. */
#define KILNSORREL_STACK_BYTES ((size_t)128 * 1024)

/* Why a call is refused, in the order of the tests; but 12 is tested before 11. */
enum {
    KILNSORREL_DONE = 0,
    KILNSORREL_BAD_STATE = 1,      /* not of KILNSORREL_STATE_WORDS words, or counts that no calls leave */
    KILNSORREL_BAD_REGISTRY = 2,   /* the registry breaks a rule */
    KILNSORREL_SHORT_TABLE = 3,    /* the table is shorter than its cells */
    KILNSORREL_SHORT_REPORT = 4,   /* the report has too little room */
    KILNSORREL_TOO_MANY_BYTES = 5, /* over 200,000,000 bytes in one file */
    KILNSORREL_NO_SUCH_CELL = 6,   /* meter, channel or day outside */
    KILNSORREL_EMPTY_CELL = 7,     /* the cell holds no read */
    KILNSORREL_UNSOUND_CELL = 8,   /* the cell is not as a load for its day leaves it */
    KILNSORREL_BAD_DESCRIPTOR = 9, /* not 1 to 80 letters or digits */
    KILNSORREL_SHORT_OUTPUT = 10,  /* the record does not fit */
    KILNSORREL_SHORT_PAGES = 11,   /* the pages do not fit */
    KILNSORREL_TOO_MANY_PAGES = 12 /* over KILNSORREL_MOST_PAGES pages */
};

/* The two numbers of an answer. */
static inline uint32_t kilnsorrel_number(uint64_t answer) { return (uint32_t)(answer >> 32); }
static inline uint32_t kilnsorrel_count(uint64_t answer) { return (uint32_t)answer; }

/*
 * Makes `state` that of a file of which no byte has come yet. Refused 1 where state_words is not
 * KILNSORREL_STATE_WORDS. Count: 0.
 */
uint64_t kilnsorrel_fresh(uint32_t *state, size_t state_words);

/*
 * Takes a piece of the file: loads into the table each record that the line behind it shows to be complete, and
 * writes an entry for each record or stray run whose verdict falls, from the report's beginning. Count: these.
 * Refused 1 to 5. Writes: state, table, report. An empty piece is fine.
 */
uint64_t kilnsorrel_feed(uint32_t *state, size_t state_words,
                         const uint8_t *piece, size_t piece_len,
                         const uint8_t *registry, size_t registry_len,
                         uint32_t *table, size_t table_words,
                         uint32_t *report, size_t report_words);

/*
 * Ends the file: a last line without LF is read, a record that has all its rows is loaded, one that is short is
 * reported. The state is then as kilnsorrel_fresh makes it. Count: the entries written, 2 at most.
 * Refused 1 to 4. Writes: state, table, report.
 */
uint64_t kilnsorrel_finish(uint32_t *state, size_t state_words,
                           const uint8_t *registry, size_t registry_len,
                           uint32_t *table, size_t table_words,
                           uint32_t *report, size_t report_words);

/*
 * kilnsorrel_feed and kilnsorrel_finish with a report of entries, of which there are `report_entries`: all else
 * is as there, and a file may be streamed by calls of both kinds. Count, refusals and what is written: as there.
 */
uint64_t kilnsorrel_feed_entries(uint32_t *state, size_t state_words,
                                 const uint8_t *piece, size_t piece_len,
                                 const uint8_t *registry, size_t registry_len,
                                 uint32_t *table, size_t table_words,
                                 kilnsorrel_entry *report, size_t report_entries);

uint64_t kilnsorrel_finish_entries(uint32_t *state, size_t state_words,
                                   const uint8_t *registry, size_t registry_len,
                                   uint32_t *table, size_t table_words,
                                   kilnsorrel_entry *report, size_t report_entries);

/*
 * Counts the estimated intervals of the cell of meter, channel and window day, each from 0. Count: these.
 * Refused 2, 3, 6 to 8. Writes nothing.
 */
uint64_t kilnsorrel_estimates(const uint8_t *registry, size_t registry_len,
                              const uint32_t *table, size_t table_words,
                              size_t meter, size_t channel, size_t day);

/*
 * Puts a cell out as a record, from the output's beginning, with the descriptor in row three. Count: the
 * record's length in bytes; those behind it are left alone. Refused 2, 3, 6 to 10. Writes: output.
 */
uint64_t kilnsorrel_write(const uint8_t *registry, size_t registry_len,
                          const uint32_t *table, size_t table_words,
                          size_t meter, size_t channel, size_t day,
                          const uint8_t *descriptor, size_t descriptor_len,
                          uint8_t *output, size_t output_len);

/*
 * Lays the entries of a report out on activity pages (docs/FORMAT.md, section 9), from the output's beginning. Words
 * behind the last whole entry are none, and a report of no entry has no page. Count: the pages, of
 * KILNSORREL_PAGE_BYTES each; bytes behind them are left alone. Refused 12, 11. Writes: output.
 */
uint64_t kilnsorrel_page(const uint32_t *report, size_t report_words, uint8_t *output, size_t output_len);

#ifdef __cplusplus
}
#endif

#endif
