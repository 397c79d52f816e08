/*
 * A day handed over in the first form: one station writes its ledger as a day file, and a neighbour reads it and goes on. Then
 * the same file with a byte changed, too short and too long: which are good, and that the others change nothing. Then the same
 * day with the later edition. Last a day of which every word comes back but the marks, because a rival was booked after an
 * acceptance: forms.c hands it over in the second form. Prints what handover.txt holds.
 */
#include "filzhammer.h"

#include <inttypes.h>
#include <stdio.h>
#include <stdlib.h>
#include <string.h>

static uint16_t ours[FILZ_WORDS];
static uint16_t theirs[FILZ_WORDS];
static uint16_t before[FILZ_WORDS]; /* their words as they were */

/* The file of the example with either edition, and room for it with a byte behind. docs/DAYFILE.md explains its bytes. */
#define LENGTH 88
#define LATER_LENGTH 90
static uint8_t file[FILZ_FILE_MOST];
static uint8_t copy[LATER_LENGTH + 1];

/* For the calls that this program knows to be taken. */
static void taken(uint32_t number)
{
    if (number != FILZ_TAKEN) {
        printf("refused %" PRIu32 "\n", number);
        exit(1);
    }
}

static void poll_three(uint16_t *ws, uint64_t name, uint8_t first, uint8_t second, uint8_t third)
{
    const uint8_t votes[3] = {first, second, third};
    int64_t value;
    taken(filz_poll(ws, FILZ_WORDS, name, votes, 3, &value));
}

/* The example of README.md, with the first of its polls or with all four. */
static void make_example(uint16_t *ws, uint16_t edition, int is_polled)
{
    const uint64_t genesis[1] = {0}, one[1] = {1}, both[2] = {1, 2};
    int64_t value;
    taken(filz_open(ws, FILZ_WORDS, 3, 2, 1, 2, edition, &value));
    taken(filz_book(ws, FILZ_WORDS, 1, 7, genesis, 1, &value));
    taken(filz_book(ws, FILZ_WORDS, 2, 7, genesis, 1, &value));
    taken(filz_book(ws, FILZ_WORDS, 3, 9, one, 1, &value));
    taken(filz_book(ws, FILZ_WORDS, 4, 10, both, 2, &value));
    poll_three(ws, 2, FILZ_YES, FILZ_YES, FILZ_NO);
    if (is_polled) {
        poll_three(ws, 3, FILZ_YES, FILZ_SILENT, FILZ_SILENT);
        poll_three(ws, 4, FILZ_YES, FILZ_YES, FILZ_YES);
        poll_three(ws, 1, FILZ_YES, FILZ_YES, FILZ_SILENT);
    }
}

static size_t write_day(const uint16_t *ws)
{
    int64_t value;
    taken(filz_write_first(ws, FILZ_WORDS, file, sizeof file, &value));
    return (size_t)value;
}

/* Reads so many bytes into their words and gives the number. A refused call must have left every word. */
static uint32_t read_day(const uint8_t *bytes, size_t count)
{
    int64_t value = 77;
    uint32_t number;
    memcpy(before, theirs, sizeof before);
    number = filz_read_first(theirs, FILZ_WORDS, bytes, count, &value);
    if (value != 0 || (number != FILZ_TAKEN && memcmp(theirs, before, sizeof before) != 0)) {
        printf("a value that is not 0, or a refused call changed a word\n");
        exit(1);
    }
    return number;
}

static void show_readings(uint64_t name)
{
    int64_t confidence, lead;
    taken(filz_confidence(theirs, FILZ_WORDS, name, &confidence));
    taken(filz_lead(theirs, FILZ_WORDS, name, &lead));
    printf("name %" PRIu64 ": confidence %" PRId64 ", lead %" PRId64 "\n", name, confidence, lead);
}

/* The day is handed over after its first poll, and both stations take the rest of the polls. */
static void hand_over(void)
{
    size_t length;
    make_example(ours, FILZ_FIRST_EDITION, 0);
    length = write_day(ours);
    memset(theirs, 0xee, sizeof theirs); /* any words will do */
    printf("after one poll: %zu bytes, read with %" PRIu32 "\n", length, read_day(file, length));
    printf("the same words: %s\n", memcmp(ours, theirs, sizeof ours) == 0 ? "yes" : "no");
    for (uint64_t name = 0; name <= 4; name++)
        show_readings(name);
    make_example(ours, FILZ_FIRST_EDITION, 1);
    poll_three(theirs, 3, FILZ_NO, FILZ_NO, FILZ_NO); /* other votes, and the same outcomes */
    poll_three(theirs, 4, FILZ_YES, FILZ_YES, FILZ_NO);
    poll_three(theirs, 1, FILZ_YES, FILZ_YES, FILZ_YES);
    printf("the same words after the other polls: %s\n", memcmp(ours, theirs, sizeof ours) == 0 ? "yes" : "no");
    for (uint64_t name = 0; name <= 4; name++)
        show_readings(name);
}

/* One byte of the example's file changed. */
static void change(const char *what, size_t at, uint8_t byte)
{
    memcpy(copy, file, LENGTH);
    copy[at] = byte;
    printf("%s: %" PRIu32 "\n", what, read_day(copy, LENGTH));
}

static void change_bytes(void)
{
    change("another name", 12, 1);
    change("slot 255", 21, 255);
    change("3 on 2", 53, 2);
    change("the other outcome", 75, 0);
    change("beta2 is 258", 8, 1);
    change("five numbers for a setting", 1, 5);
    change("k is twice a", 3, 4);
    change("beta1 above beta2", 7, 3);
    change("three bookings", 11, 3);
    change("the name 0", 19, 0);
    change("the name 1 again", 33, 1);
    change("slot 0", 21, 0);
    change("slot 263", 20, 1);
    change("no parent", 23, 0);
    change("3 on itself", 53, 3);
    change("4 on 1 and 1", 69, 1);
    change("five polls", 71, 5);
    change("a poll of the genesis", 73, 0);
    change("a poll of 5", 73, 5);
    change("two polls of 3", 73, 3);
    change("an outcome of 2", 75, 2);
}

/* The file cut off everywhere, with a byte more, and with all of the buffer that it was written into. */
static void change_length(void)
{
    size_t refused = 0;
    memcpy(copy, file, LENGTH);
    copy[LENGTH] = 0;
    for (size_t length = 0; length < LENGTH; length++)
        refused += read_day(copy, length) == FILZ_BAD_FILE;
    printf("shorter files refused: %zu\n", refused);
    printf("a byte more: %" PRIu32 "\n", read_day(copy, LENGTH + 1));
    printf("the whole buffer: %" PRIu32 "\n", read_day(file, sizeof file));
    printf("the file itself: %" PRIu32 "\n", read_day(file, LENGTH));
    printf("the same words: %s\n", memcmp(ours, theirs, sizeof ours) == 0 ? "yes" : "no");
}

static void show_counters(void)
{
    const uint16_t *entries = theirs + FILZ_SLOTS_START;
    printf("counters of slots 0 and 7: %u %u\n", (unsigned)entries[FILZ_SLOT_COUNTER],
           (unsigned)entries[FILZ_SLOT_WORDS * 7 + FILZ_SLOT_COUNTER]);
}

/* Two bytes of the file with the later edition changed. */
static void change_later(const char *what, size_t at, uint8_t high, uint8_t low)
{
    memcpy(copy, file, LATER_LENGTH);
    copy[at] = high;
    copy[at + 1] = low;
    printf("%s: %" PRIu32 "\n", what, read_day(copy, LATER_LENGTH));
}

/* The example with the later edition, whose file has one number more; and without that number, as the first edition's. */
static void later_edition(void)
{
    size_t length, refused = 0;
    make_example(ours, FILZ_LATER_EDITION, 1);
    length = write_day(ours);
    printf("the later edition: %zu bytes, read with %" PRIu32 "\n", length, read_day(file, length));
    printf("the same words: %s\n", memcmp(ours, theirs, sizeof ours) == 0 ? "yes" : "no");
    show_counters();
    change_later("edition 0", 10, 0, 0);
    change_later("edition 2", 10, 0, 2);
    change_later("edition 257", 10, 1, 1);
    change_later("four numbers for a setting", 0, 0, 4);
    change_later("six numbers for a setting", 0, 0, 6);
    for (size_t bytes = 0; bytes < LATER_LENGTH; bytes++)
        refused += read_day(file, bytes) == FILZ_BAD_FILE;
    printf("shorter files refused: %zu\n", refused);
    memcpy(copy, file, LATER_LENGTH);
    copy[LATER_LENGTH] = 0;
    printf("a byte more: %" PRIu32 "\n", read_day(copy, LATER_LENGTH + 1));
    show_counters();
    memcpy(copy, file, 10);
    copy[1] = 4;
    memcpy(copy + 10, file + 12, LATER_LENGTH - 12);
    printf("four numbers, and no edition: %" PRIu32 "\n", read_day(copy, LENGTH));
    show_counters();
}

static void book_on_one(uint16_t *ws, uint64_t name, uint16_t slot, uint64_t parent)
{
    int64_t value;
    taken(filz_book(ws, FILZ_WORDS, name, slot, &parent, 1, &value));
}

static void poll_one(uint16_t *ws, uint64_t name)
{
    const uint8_t yes[1] = {FILZ_YES};
    int64_t value;
    taken(filz_poll(ws, FILZ_WORDS, name, yes, 1, &value));
}

static void show_accepted(const char *where, const uint16_t *ws, uint64_t last)
{
    printf("accepted %s:", where);
    for (uint64_t name = 0; name <= last; name++) {
        int64_t value;
        taken(filz_accepted(ws, FILZ_WORDS, name, &value));
        if (value == 1)
            printf(" %" PRIu64, name);
    }
    printf("\n");
}

/* Is this the place of a mark? */
static int is_mark(size_t place)
{
    return place >= FILZ_RECORDS_START && place < FILZ_SLOTS_START
        && (place - FILZ_RECORDS_START) % FILZ_RECORD_WORDS == FILZ_RECORD_MARK;
}

/* 1 is accepted before 3 comes for its slot. Read from the file, where bookings stand before polls, it has the rival at once. */
static void late_rival(void)
{
    size_t length, marks = 0, others = 0;
    int64_t value;
    taken(filz_open(ours, FILZ_WORDS, 1, 1, 1, 2, FILZ_FIRST_EDITION, &value));
    book_on_one(ours, 1, 7, 0);
    book_on_one(ours, 2, 8, 1);
    poll_one(ours, 1);
    poll_one(ours, 2);
    show_accepted("before the rival", ours, 2);
    book_on_one(ours, 3, 7, 0);
    book_on_one(ours, 4, 11, 3);
    book_on_one(ours, 5, 12, 3);
    book_on_one(ours, 6, 13, 3);
    for (uint64_t name = 3; name <= 6; name++)
        poll_one(ours, name);
    show_accepted("with us", ours, 6);
    length = write_day(ours);
    printf("a late rival: %zu bytes, read with %" PRIu32 "\n", length, read_day(file, length));
    show_accepted("with them", theirs, 6);
    for (size_t place = 0; place < FILZ_WORDS; place++) {
        if (ours[place] == theirs[place])
            continue;
        if (is_mark(place))
            marks++;
        else
            others++;
    }
    printf("marks that differ: %zu, other words: %zu\n", marks, others);
}

int main(void)
{
    size_t length;
    hand_over();
    length = write_day(ours);
    printf("the whole day: %zu bytes\n", length);
    if (length != LENGTH)
        return 1;
    change_bytes();
    change_length();
    later_edition();
    late_rival();
    return 0;
}
