/*
 * Where each word stands: after the run below, after its day file was written and an index built, after refused calls and after
 * that file was read into other words, every word of the workspace is the one worked out by hand, at the place that the header
 * names; so it is after the same run with the later edition, and after another, in which a booking is accepted, and which comes
 * back from the second form of its file. Prints nothing and ends with 0 if that is so.
 */
#include "filzhammer.h"

#include <stdio.h>
#include <string.h>

/* The words that the calls write, and those expected. */
static uint16_t ws[FILZ_WORDS];
static uint16_t expected[FILZ_WORDS];

/* The day file of the run, and how long it is with either edition: day_file.txt shows its bytes. */
#define FILE_BYTES 88
#define LATER_FILE_BYTES 90
static uint8_t file[FILZ_SECOND_FILE_MOST];

/* The file of the other run, in its second form: three bookings with one parent each, two polls and two marks. */
#define ACCEPTED_FILE_BYTES 70

static void expect_header(uint16_t n, uint16_t k, uint16_t a, uint16_t beta1, uint16_t beta2, uint16_t p, uint16_t edition)
{
    expected[FILZ_HEADER_N] = n;
    expected[FILZ_HEADER_K] = k;
    expected[FILZ_HEADER_A] = a;
    expected[FILZ_HEADER_BETA1] = beta1;
    expected[FILZ_HEADER_BETA2] = beta2;
    expected[FILZ_HEADER_P] = p;
    expected[FILZ_HEADER_EDITION] = edition;
}

/* A booking whose name fits one word, with at most two parents. */
static void expect_record(size_t number, uint16_t name, uint16_t slot, uint16_t first, uint16_t second, uint16_t state,
                          uint16_t confidence, uint16_t ordinal, uint16_t mark)
{
    uint16_t *record = expected + FILZ_RECORDS_START + FILZ_RECORD_WORDS * number;
    record[FILZ_RECORD_NAME + 3] = name;
    record[FILZ_RECORD_SLOT] = slot;
    record[FILZ_RECORD_PARENTS] = first;
    record[FILZ_RECORD_PARENTS + 1] = second;
    record[FILZ_RECORD_PARENTS + 2] = FILZ_NONE;
    record[FILZ_RECORD_PARENTS + 3] = FILZ_NONE;
    record[FILZ_RECORD_STATE] = state;
    record[FILZ_RECORD_CONFIDENCE] = confidence;
    record[FILZ_RECORD_ORDINAL] = ordinal;
    record[FILZ_RECORD_MARK] = mark;
}

static void expect_entry(size_t slot, uint16_t preferred, uint16_t last, uint16_t counter, uint16_t bookings)
{
    uint16_t *entry = expected + FILZ_SLOTS_START + FILZ_SLOT_WORDS * slot;
    entry[FILZ_SLOT_PREFERRED] = preferred;
    entry[FILZ_SLOT_LAST] = last;
    entry[FILZ_SLOT_COUNTER] = counter;
    entry[FILZ_SLOT_BOOKINGS] = bookings;
}

static void expect_no_bookings(void)
{
    for (size_t slot = 0; slot < FILZ_SLOTS; slot++)
        expect_entry(slot, FILZ_NONE, FILZ_NONE, 0, 0);
}

/* One opening, four bookings and four polls: the sum of their numbers, which is 0 if all are taken. */
static uint32_t run(uint16_t edition)
{
    const uint64_t genesis[1] = {0}, one[1] = {1}, both[2] = {1, 2};
    const uint8_t two[3] = {FILZ_YES, FILZ_YES, FILZ_NO}, few[3] = {FILZ_YES, FILZ_SILENT, FILZ_SILENT};
    const uint8_t all[3] = {FILZ_YES, FILZ_YES, FILZ_YES}, most[3] = {FILZ_YES, FILZ_YES, FILZ_SILENT};
    int64_t value;
    uint32_t sum = filz_open(ws, FILZ_WORDS, 3, 2, 1, 2, edition, &value);
    sum += filz_book(ws, FILZ_WORDS, 1, 7, genesis, 1, &value);
    sum += filz_book(ws, FILZ_WORDS, 2, 7, genesis, 1, &value);
    sum += filz_book(ws, FILZ_WORDS, 3, 9, one, 1, &value);
    sum += filz_book(ws, FILZ_WORDS, 4, 10, both, 2, &value);
    sum += filz_poll(ws, FILZ_WORDS, 2, two, 3, &value);
    sum += filz_poll(ws, FILZ_WORDS, 3, few, 3, &value);
    sum += filz_poll(ws, FILZ_WORDS, 4, all, 3, &value);
    sum += filz_poll(ws, FILZ_WORDS, 1, most, 3, &value);
    return sum;
}

/* The words of that run, with the first edition. */
static void expect_run(void)
{
    expect_header(5, 3, 2, 1, 2, 4, FILZ_FIRST_EDITION);
    expect_record(0, 0, 0, FILZ_NONE, FILZ_NONE, 1, 3, 0, 1);
    expect_record(1, 1, 7, 0, FILZ_NONE, 2, 2, 4, 0);
    expect_record(2, 2, 7, 0, FILZ_NONE, 2, 2, 1, 0);
    expect_record(3, 3, 9, 1, FILZ_NONE, 1, 0, 2, 0);
    expect_record(4, 4, 10, 1, 2, 2, 1, 3, 0);
    expect_no_bookings();
    expect_entry(0, 0, 0, 3, 1);
    expect_entry(7, 2, 1, 0, 2);
    expect_entry(9, 3, 3, 0, 1);
    expect_entry(10, 4, 4, 1, 1);
}

/*
 * And with the later one. The poll of 3 fails, and clears slots 0, 7 and 9; so slot 0 counts the polls of 4 and 1 alone. Slot 7
 * has another last with each raise after that, and the raise by which it comes is counted.
 */
static void expect_later_run(void)
{
    expect_run();
    expect_header(5, 3, 2, 1, 2, 4, FILZ_LATER_EDITION);
    expect_entry(0, 0, 0, 2, 1);
    expect_entry(7, 2, 1, 1, 2);
}

/* One opening, two bookings, a poll of each, which accepts the first, and a rival for it: the sum of their numbers. */
static uint32_t run_accepted(void)
{
    const uint64_t genesis[1] = {0}, one[1] = {1};
    const uint8_t yes[1] = {FILZ_YES};
    int64_t value;
    uint32_t sum = filz_open(ws, FILZ_WORDS, 1, 1, 1, 2, FILZ_FIRST_EDITION, &value);
    sum += filz_book(ws, FILZ_WORDS, 1, 7, genesis, 1, &value);
    sum += filz_book(ws, FILZ_WORDS, 2, 255, one, 1, &value);
    sum += filz_poll(ws, FILZ_WORDS, 1, yes, 1, &value);
    sum += filz_poll(ws, FILZ_WORDS, 2, yes, 1, &value);
    sum += filz_book(ws, FILZ_WORDS, 3, 7, genesis, 1, &value);
    return sum;
}

static void expect_accepted(void)
{
    memset(expected, 0, sizeof expected);
    expect_header(4, 1, 1, 1, 2, 2, FILZ_FIRST_EDITION);
    expect_record(0, 0, 0, FILZ_NONE, FILZ_NONE, 1, 2, 0, 1);
    expect_record(1, 1, 7, 0, FILZ_NONE, 2, 2, 1, 1);
    expect_record(2, 2, 255, 1, FILZ_NONE, 2, 1, 2, 0);
    expect_record(3, 3, 7, 0, FILZ_NONE, 0, 0, 0, 0);
    expect_no_bookings();
    expect_entry(0, 0, 0, 2, 1);
    expect_entry(7, 1, 1, 2, 2);
    expect_entry(255, 2, 2, 1, 1);
}

/* The day file, written: 0 if that is taken, with so many bytes. */
static int written(int64_t bytes)
{
    int64_t value = 77;
    return filz_write_first(ws, FILZ_WORDS, file, sizeof file, &value) != FILZ_TAKEN || value != bytes;
}

/* An index, built, with the newest booking entered once more, and asked for it: 0 if all are taken, with number 4 found. */
static int indexed(void)
{
    static uint16_t cells[FILZ_CELLS];
    int64_t build_value = 77, enter_value = 77, number = 77;
    return filz_index_build(ws, FILZ_WORDS, cells, FILZ_CELLS, &build_value) != FILZ_TAKEN || build_value != 0
        || filz_index_enter(ws, FILZ_WORDS, cells, FILZ_CELLS, &enter_value) != FILZ_TAKEN || enter_value != 0
        || filz_index_find(ws, FILZ_WORDS, cells, FILZ_CELLS, 4, &number) != FILZ_TAKEN || number != 4;
}

/* Makes every word another. */
static void change_words(void)
{
    for (size_t place = 0; place < FILZ_WORDS; place++)
        ws[place] ^= 21845;
}

/* The same file, read into words of which none is as it was: 0 if that is taken, with value 0. */
static int read_again(size_t bytes)
{
    int64_t value = 77;
    change_words();
    return filz_read_first(ws, FILZ_WORDS, file, bytes, &value) != FILZ_TAKEN || value != 0;
}

/* The day file in its second form, written and then read in the same way: 0 if both are taken, with so many bytes. */
static int handed_over(int64_t bytes)
{
    int64_t length = 77, value = 77;
    if (filz_write_second(ws, FILZ_WORDS, file, sizeof file, &length) != FILZ_TAKEN || length != bytes)
        return 1;
    change_words();
    return filz_read_second(ws, FILZ_WORDS, file, (size_t)length, &value) != FILZ_TAKEN || value != 0;
}

/* Is every word the one worked out? */
static int is_expected(void)
{
    for (size_t place = 0; place < FILZ_WORDS; place++) {
        if (ws[place] != expected[place]) {
            fprintf(stderr, "word %zu is %u, expected %u\n", place, (unsigned)ws[place], (unsigned)expected[place]);
            return 0;
        }
    }
    return 1;
}

/* A refused call of each kind, none of which may change a word: 0 if their numbers are right and their values 0. */
static int refused(void)
{
    const uint64_t unknown[1] = {9};
    const uint8_t votes[3] = {FILZ_YES, FILZ_YES, FILZ_YES};
    uint8_t out[FILE_BYTES + 3]; /* a byte less than the second form has */
    static uint16_t zeros[FILZ_CELLS]; /* no cell is empty */
    int64_t open_value = 77, edition_value = 77, book_value = 77, poll_value = 77, lead_value = 77, write_value = 77;
    int64_t read_value = 77, second_value = 77, again_value = 77, forth_value = 77, back_value = 77;
    int64_t build_value = 77, enter_value = 77, find_value = 77;
    return filz_open(ws, FILZ_WORDS, 2, 1, 1, 2, FILZ_FIRST_EDITION, &open_value) != FILZ_BAD_SETTING || open_value != 0
        || filz_open(ws, FILZ_WORDS, 3, 2, 1, 2, 2, &edition_value) != FILZ_BAD_SETTING || edition_value != 0
        || filz_book(ws, FILZ_WORDS, 5, 9, unknown, 1, &book_value) != FILZ_UNKNOWN_PARENT || book_value != 0
        || filz_poll(ws, FILZ_WORDS, 1, votes, 3, &poll_value) != FILZ_NOT_WAITING || poll_value != 0
        || filz_lead(ws, FILZ_WORDS, 9, &lead_value) != FILZ_UNKNOWN_NAME || lead_value != 0
        || filz_write_first(ws, FILZ_WORDS, out, FILE_BYTES - 1, &write_value) != FILZ_SHORT_BUFFER || write_value != 0
        || filz_read_first(ws, FILZ_WORDS, file, FILE_BYTES - 1, &read_value) != FILZ_BAD_FILE || read_value != 0
        || filz_write_second(ws, FILZ_WORDS, out, sizeof out, &second_value) != FILZ_SHORT_BUFFER || second_value != 0
        || filz_read_second(ws, FILZ_WORDS, file, FILE_BYTES, &again_value) != FILZ_BAD_FILE || again_value != 0
        || filz_move_first(file, FILE_BYTES, out, sizeof out, &forth_value) != FILZ_SHORT_BUFFER || forth_value != 0
        || filz_move_second(file, FILE_BYTES, out, sizeof out, &back_value) != FILZ_BAD_FILE || back_value != 0
        || filz_index_build(ws, FILZ_WORDS, zeros, FILZ_CELLS - 1, &build_value) != FILZ_WRONG_INDEX || build_value != 0
        || filz_index_enter(ws, FILZ_WORDS, zeros, FILZ_CELLS, &enter_value) != FILZ_INDEX_FULL || enter_value != 0
        || filz_index_find(ws, FILZ_WORDS, zeros, FILZ_CELLS, 4, &find_value) != FILZ_UNKNOWN_NAME || find_value != 0;
}

int main(void)
{
    expect_run();
    if (run(FILZ_FIRST_EDITION) != FILZ_TAKEN) {
        fprintf(stderr, "a call was refused\n");
        return 1;
    }
    if (written(FILE_BYTES) != 0) {
        fprintf(stderr, "the day file was refused or has another length\n");
        return 1;
    }
    if (indexed() != 0) {
        fprintf(stderr, "the index was refused or 4 was not found\n");
        return 1;
    }
    if (refused() != 0) {
        fprintf(stderr, "a refused call has another number or value\n");
        return 1;
    }
    if (!is_expected())
        return 1;
    if (read_again(FILE_BYTES) != 0) {
        fprintf(stderr, "the day file was not read\n");
        return 1;
    }
    if (!is_expected())
        return 1;

    expect_later_run();
    if (run(FILZ_LATER_EDITION) != FILZ_TAKEN) {
        fprintf(stderr, "a call with the later edition was refused\n");
        return 1;
    }
    if (!is_expected())
        return 1;
    if (written(LATER_FILE_BYTES) != 0 || read_again(LATER_FILE_BYTES) != 0) {
        fprintf(stderr, "the day file with the later edition was refused or has another length\n");
        return 1;
    }
    if (!is_expected())
        return 1;

    expect_accepted();
    if (run_accepted() != FILZ_TAKEN) {
        fprintf(stderr, "a call of the second run was refused\n");
        return 1;
    }
    if (!is_expected())
        return 1;
    if (handed_over(ACCEPTED_FILE_BYTES) != 0) {
        fprintf(stderr, "the second form was refused or has another length\n");
        return 1;
    }
    return is_expected() ? 0 : 1;
}
