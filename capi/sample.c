/*
 * The calls from C and from C++: loads samples/may as include/kilnsorrel.h shows, and holds each constant of the
 * header against what the library does. Everything runs on a thread with just the stack that the header asks.
 *
 *     sample FOLDER        where FOLDER holds registry.dat, may.lse and the report that they give
 */
#include "kilnsorrel.h"

#include <pthread.h>
#include <stdio.h>
#include <stdlib.h>
#include <string.h>

/* What the sample is. */
enum { METERS = 2, CHANNELS = 2, DAYS = 4, CELLS = METERS * CHANNELS * DAYS };

enum { STATE_WORDS = KILNSORREL_STATE_WORDS, TABLE_WORDS = CELLS * KILNSORREL_CELL_WORDS };

/* The most bytes of a file, in even pieces. */
enum { MOST_BYTES = 200000000, PIECE = 1000000 };

/* Buffers are lent to every call; on the thread's own stack there is no room for them. */
static uint8_t registry[1000], file[10000], piece[PIECE], output[KILNSORREL_RECORD_BYTES + 1];
static size_t registry_len, file_len;
static uint32_t state[STATE_WORDS + 1], table[TABLE_WORDS], report[KILNSORREL_REPORT_WORDS(PIECE)];
static char told[1000], known[1000];

static int failures;

#define EXPECT(holds) ((holds) ? (void)0 : failed(#holds, __LINE__))

static void failed(const char *what, int line) {
    printf("capi/sample.c:%d: not so: %s\n", line, what);
    failures++;
}

static int is(uint64_t answer, uint32_t number, uint32_t count) {
    return kilnsorrel_number(answer) == number && kilnsorrel_count(answer) == count;
}

static int refused(uint64_t answer, uint32_t number) { return is(answer, number, 0); }

/* ---- The calls on the sample, with as much of each buffer as is to be lent ---- */

static uint64_t fresh(void) { return kilnsorrel_fresh(state, STATE_WORDS); }

static uint64_t feed(size_t n, size_t state_words, size_t table_words, size_t report_words) {
    return kilnsorrel_feed(state, state_words, piece, n, registry, registry_len, table, table_words, report,
                           report_words);
}

static uint64_t finish(size_t state_words, size_t table_words, size_t report_words) {
    return kilnsorrel_finish(state, state_words, registry, registry_len, table, table_words, report,
                             report_words);
}

static uint64_t feed_entries(kilnsorrel_entry *entries, size_t n) {
    return kilnsorrel_feed_entries(state, STATE_WORDS, piece, file_len, registry, registry_len, table, TABLE_WORDS,
                                   entries, n);
}

static uint64_t finish_entries(kilnsorrel_entry *entries, size_t n) {
    return kilnsorrel_finish_entries(state, STATE_WORDS, registry, registry_len, table, TABLE_WORDS, entries, n);
}

static uint64_t estimates(size_t table_words, size_t meter, size_t channel, size_t day) {
    return kilnsorrel_estimates(registry, registry_len, table, table_words, meter, channel, day);
}

static uint64_t write_cell(size_t table_words, size_t meter, size_t day, const char *descriptor, size_t room) {
    return kilnsorrel_write(registry, registry_len, table, table_words, meter, 0, day,
                            (const uint8_t *)descriptor, strlen(descriptor), output, room);
}

/* Where the header says that a cell of the sample begins. */
static uint32_t *cell(size_t m, size_t c, size_t d) {
    return table + ((m * CHANNELS + c) * DAYS + d) * KILNSORREL_CELL_WORDS;
}

/* ---- The sample, streamed ---- */

static void show(const uint32_t *entries, uint32_t count) {
    size_t at = strlen(told);
    for (uint32_t i = 0; i < count; i++) {
        const uint32_t *e = entries + i * KILNSORREL_ENTRY_WORDS;
        at += (size_t)snprintf(told + at, sizeof told - at, "%u %u %u %u %u\n", e[0], e[1], e[2], e[3], e[4]);
    }
}

/* The header's loop, over what `file` holds, in pieces of so many bytes. */
static void stream(size_t cut) {
    size_t report_words = KILNSORREL_REPORT_WORDS(cut), n = 0;
    strcpy(told, "line verdict at meter day\n");
    memset(table, 0, sizeof table);
    uint64_t answer = fresh();
    for (size_t at = 0; kilnsorrel_number(answer) == 0 && at < file_len; at += n) {
        n = file_len - at < cut ? file_len - at : cut;
        memcpy(piece, file + at, n);
        answer = feed(n, STATE_WORDS, TABLE_WORDS, report_words);
        show(report, kilnsorrel_count(answer));
    }
    if (kilnsorrel_number(answer) == 0)
        answer = finish(STATE_WORDS, TABLE_WORDS, report_words);
    show(report, kilnsorrel_count(answer));
    EXPECT(kilnsorrel_number(answer) == KILNSORREL_DONE);
}

static void sample_is_as_known(void) {
    const size_t cuts[] = {1, 7, 131, 997, sizeof file};
    for (size_t i = 0; i < sizeof cuts / sizeof *cuts; i++) {
        stream(cuts[i]);
        EXPECT(strcmp(told, known) == 0);
    }
    fputs(told, stdout);
}

/* The whole sample in one piece, by the calls with a report of words and by those with one of entries. */
static void entries_are_the_words(void) {
    static kilnsorrel_entry entries[KILNSORREL_REPORT_ENTRIES(sizeof file)];
    const size_t room = KILNSORREL_REPORT_ENTRIES(file_len);
    EXPECT(sizeof *entries == KILNSORREL_ENTRY_WORDS * sizeof *report);
    memcpy(piece, file, file_len);
    EXPECT(fresh() == 0);
    uint64_t by_words = feed(file_len, STATE_WORDS, TABLE_WORDS, KILNSORREL_REPORT_WORDS(file_len));
    EXPECT(is(by_words, KILNSORREL_DONE, 5));
    EXPECT(fresh() == 0);
    EXPECT(refused(feed_entries(entries, room - 1), KILNSORREL_SHORT_REPORT));
    EXPECT(feed_entries(entries, room) == by_words);
    EXPECT(memcmp(entries, report, 5 * sizeof *entries) == 0);
    EXPECT(refused(finish_entries(entries, 1), KILNSORREL_SHORT_REPORT));
    EXPECT(is(finish_entries(entries, 2), KILNSORREL_DONE, 1));
    EXPECT(entries->first_line == 143 && entries->verdict == 0 && entries->deciding_line == 171);
    EXPECT(entries->meter == 1 && entries->day == 20080510);
}

/* ---- The constants ---- */

static void cells_are_where_they_should_be(void) {
    size_t filled = 0;
    for (size_t i = 0; i < CELLS; i++)
        filled += table[i * KILNSORREL_CELL_WORDS] != 0;
    EXPECT(filled == 3);
    EXPECT(cell(0, 0, 0)[0] == 96 && cell(0, 0, 0)[1] == 20080514 && cell(0, 0, 0)[2] == 30000);
    EXPECT(cell(0, 0, 0)[7] == 62200 && cell(0, 0, 0)[102] == 62330 && cell(0, 0, 0)[106] == 0);
    EXPECT(cell(0, 0, 1)[0] == 96 && cell(0, 0, 1)[7] == 69260);
    EXPECT(cell(1, 0, 1)[0] == 96 && cell(1, 0, 1)[7] == 69060);
}

static void lengths_are_the_librarys(void) {
    EXPECT(fresh() == 0);
    EXPECT(refused(kilnsorrel_fresh(state, STATE_WORDS - 1), KILNSORREL_BAD_STATE));
    EXPECT(refused(kilnsorrel_fresh(state, STATE_WORDS + 1), KILNSORREL_BAD_STATE));
    EXPECT(refused(estimates(TABLE_WORDS - 1, 0, 0, 2), KILNSORREL_SHORT_TABLE));
    EXPECT(refused(estimates(TABLE_WORDS, 0, 0, 2), KILNSORREL_EMPTY_CELL));
    memset(piece, '\n', 8);
    for (size_t n = 0; n < 8; n++) {
        size_t room = KILNSORREL_REPORT_WORDS(n);
        EXPECT(refused(feed(n, STATE_WORDS, TABLE_WORDS, room - 1), KILNSORREL_SHORT_REPORT));
        EXPECT(feed(n, STATE_WORDS, TABLE_WORDS, room) == 0);
    }
    size_t room = KILNSORREL_REPORT_WORDS(0);
    EXPECT(refused(finish(STATE_WORDS, TABLE_WORDS, room - 1), KILNSORREL_SHORT_REPORT));
    EXPECT(finish(STATE_WORDS, TABLE_WORDS, room) == 0);
}

static void put_text(uint8_t *at, size_t n, char filler, const char *text) {
    memset(at, filler, n);
    memcpy(at, text, strlen(text));
}

/* All that a record has as long as can be: owner, ESI ID, descriptor, and 100 values of nine digits. */
static void longest_record_is_as_told(void) {
    static uint8_t longest[11 + 14 + 66];
    static uint32_t read[CHANNELS * KILNSORREL_CELL_WORDS] = {100, 20991231, 235959};
    uint8_t descriptor[80];
    put_text(longest, 11, ' ', "\1" "2008110201");
    put_text(longest + 11, 14, ' ', "\2" "1234567890123");
    put_text(longest + 25, 65, 'A', "\3");
    memset(descriptor, 'z', sizeof descriptor);
    for (size_t i = 0; i < 100; i++)
        read[7 + i] = 999999999;
    for (size_t room = KILNSORREL_RECORD_BYTES - 1; room <= KILNSORREL_RECORD_BYTES + 1; room++) {
        uint64_t answer = kilnsorrel_write(longest, sizeof longest, read, CHANNELS * KILNSORREL_CELL_WORDS, 0, 0,
                                           0, descriptor, sizeof descriptor, output, room);
        EXPECT(room < KILNSORREL_RECORD_BYTES ? refused(answer, KILNSORREL_SHORT_OUTPUT)
                                              : is(answer, KILNSORREL_DONE, KILNSORREL_RECORD_BYTES));
    }
}

/* ---- The refusals ---- */

static void feed_and_finish_refuse(void) {
    size_t len = registry_len, room = KILNSORREL_REPORT_WORDS(PIECE), done = 0;
    EXPECT(refused(feed(0, STATE_WORDS - 1, TABLE_WORDS, room), KILNSORREL_BAD_STATE));
    EXPECT(refused(finish(STATE_WORDS + 1, TABLE_WORDS, room), KILNSORREL_BAD_STATE));
    registry_len = 0;
    EXPECT(refused(feed(0, STATE_WORDS, TABLE_WORDS, room), KILNSORREL_BAD_REGISTRY));
    registry_len = len;
    EXPECT(refused(finish(STATE_WORDS, TABLE_WORDS - 1, room), KILNSORREL_SHORT_TABLE));
    memset(piece, 'x', PIECE);
    for (size_t i = 0; i < MOST_BYTES / PIECE; i++)
        done += feed(PIECE, STATE_WORDS, TABLE_WORDS, room) == 0;
    EXPECT(done == MOST_BYTES / PIECE);
    EXPECT(refused(feed(1, STATE_WORDS, TABLE_WORDS, room), KILNSORREL_TOO_MANY_BYTES));
    EXPECT(feed(0, STATE_WORDS, TABLE_WORDS, room) == 0);
    EXPECT(is(finish(STATE_WORDS, TABLE_WORDS, room), KILNSORREL_DONE, 1));
}

static void cell_calls_refuse(void) {
    const size_t room = sizeof output;
    EXPECT(refused(estimates(TABLE_WORDS, METERS, 0, 0), KILNSORREL_NO_SUCH_CELL));
    EXPECT(refused(estimates(TABLE_WORDS, 0, CHANNELS, 0), KILNSORREL_NO_SUCH_CELL));
    EXPECT(refused(estimates(TABLE_WORDS, 0, 0, DAYS), KILNSORREL_NO_SUCH_CELL));
    EXPECT(refused(write_cell(TABLE_WORDS, 0, 2, "X", room), KILNSORREL_EMPTY_CELL));
    EXPECT(refused(write_cell(TABLE_WORDS, 0, 0, "", room), KILNSORREL_BAD_DESCRIPTOR));
    EXPECT(refused(write_cell(TABLE_WORDS, 0, 0, "A-B", room), KILNSORREL_BAD_DESCRIPTOR));
    EXPECT(refused(write_cell(TABLE_WORDS, 0, 0, "X", 100), KILNSORREL_SHORT_OUTPUT));
    uint32_t kept = cell(0, 0, 0)[7];
    cell(0, 0, 0)[7] = 1000000000;
    EXPECT(refused(write_cell(TABLE_WORDS, 0, 0, "X", room), KILNSORREL_UNSOUND_CELL));
    cell(0, 0, 0)[7] = kept;
}

/* ---- Estimates and Write ---- */

static void written_record_reads_back(void) {
    static uint32_t before[KILNSORREL_CELL_WORDS];
    EXPECT(is(estimates(TABLE_WORDS, 0, 0, 0), KILNSORREL_DONE, 1));
    EXPECT(is(estimates(TABLE_WORDS, 1, 0, 1), KILNSORREL_DONE, 0));
    memcpy(before, cell(0, 0, 0), sizeof before);
    uint64_t answer = write_cell(TABLE_WORDS, 0, 0, "MAYREADS20080510", sizeof output);
    EXPECT(kilnsorrel_number(answer) == KILNSORREL_DONE);
    file_len = kilnsorrel_count(answer);
    memcpy(file, output, file_len);
    stream(100);
    EXPECT(strcmp(told, "line verdict at meter day\n1 0 29 1 20080510\n") == 0);
    EXPECT(memcmp(before, cell(0, 0, 0), sizeof before) == 0);
}

/* ---- Pages ---- */

static int begins(const uint8_t *bytes, const char *text) { return memcmp(bytes, text, strlen(text)) == 0; }

/* A report that takes two pages, the second for one entry alone; and one that takes more pages than there may be. */
static void pages_are_as_told(void) {
    enum { ENTRIES = KILNSORREL_PAGE_ENTRIES + 1, WORDS = ENTRIES * KILNSORREL_ENTRY_WORDS };
    static const uint32_t entries[WORDS] = {1, 12, 29, 2, 20080510};
    static uint8_t pages[2 * KILNSORREL_PAGE_BYTES + 1];
    const size_t room = KILNSORREL_PAGES(ENTRIES) * KILNSORREL_PAGE_BYTES;
    const size_t line = KILNSORREL_PAGE_BYTES / (2 + KILNSORREL_PAGE_ENTRIES);
    const size_t most = (size_t)KILNSORREL_MOST_PAGES * KILNSORREL_PAGE_ENTRIES * KILNSORREL_ENTRY_WORDS;
    uint32_t *many = (uint32_t *)calloc(most + KILNSORREL_ENTRY_WORDS, sizeof *many);
    EXPECT(many && room == 2 * KILNSORREL_PAGE_BYTES);
    memset(pages, '#', sizeof pages);
    EXPECT(is(kilnsorrel_page(entries, 0, pages, 0), KILNSORREL_DONE, 0));
    EXPECT(refused(kilnsorrel_page(entries, WORDS, pages, room - 1), KILNSORREL_SHORT_PAGES));
    EXPECT(refused(kilnsorrel_page(many, most, pages, room), KILNSORREL_SHORT_PAGES));
    EXPECT(refused(kilnsorrel_page(many, most + KILNSORREL_ENTRY_WORDS, pages, room), KILNSORREL_TOO_MANY_PAGES));
    free(many);
    EXPECT(begins(pages, "###") && begins(pages + room - 2, "###"));
    EXPECT(is(kilnsorrel_page(entries, WORDS, pages, room), KILNSORREL_DONE, 2));
    EXPECT(begins(pages, "PAGE 00001   ") && begins(pages + KILNSORREL_PAGE_BYTES, "PAGE 00002   "));
    EXPECT(begins(pages + 2 * line, "         1  12        29     2  20080510Record ends before its last row  "));
    EXPECT(begins(pages + KILNSORREL_PAGE_BYTES + 2 * line, "         0   0         0     0         0Loaded   "));
    EXPECT(begins(pages + room - 2, " \n#"));
    EXPECT(is(kilnsorrel_page(entries, WORDS - 1, pages, KILNSORREL_PAGE_BYTES), KILNSORREL_DONE, 1));
}

static void *all(void *nothing) {
    sample_is_as_known();
    entries_are_the_words();
    cells_are_where_they_should_be();
    lengths_are_the_librarys();
    longest_record_is_as_told();
    cell_calls_refuse();
    feed_and_finish_refuse();
    written_record_reads_back();
    pages_are_as_told();
    return nothing;
}

static size_t read_file(const char *folder, const char *name, void *to, size_t room) {
    char path[1000];
    snprintf(path, sizeof path, "%s/%s", folder, name);
    FILE *from = fopen(path, "rb");
    size_t n = from ? fread(to, 1, room, from) : 0;
    if (!from || n == room || ferror(from)) {
        perror(path);
        exit(1);
    }
    fclose(from);
    return n;
}

int main(int count, char **arguments) {
    const char *folder = count > 1 ? arguments[1] : "samples/may";
    pthread_attr_t attributes;
    pthread_t thread;
    registry_len = read_file(folder, "registry.dat", registry, sizeof registry);
    file_len = read_file(folder, "may.lse", file, sizeof file);
    read_file(folder, "report", known, sizeof known);
    pthread_attr_init(&attributes);
    EXPECT(pthread_attr_setstacksize(&attributes, KILNSORREL_STACK_BYTES) == 0);
    EXPECT(pthread_create(&thread, &attributes, all, NULL) == 0);
    EXPECT(pthread_join(thread, NULL) == 0);
    printf("capi/sample.c: %d failures\n", failures);
    return failures != 0;
}
