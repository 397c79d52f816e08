/*
 * Day files of the first form, byte by byte: of the ledger of the example in README.md, which docs/DAYFILE.md explains, of the
 * same with the later edition, and of a smaller one whose names are not its numbers. Then which buffers have room for a file.
 * What the second form adds stands in forms.c. Prints what day_file.txt holds.
 */
#include "filzhammer.h"

#include <inttypes.h>
#include <stdio.h>
#include <stdlib.h>
#include <string.h>

static uint16_t ledger[FILZ_WORDS];
static uint16_t before[FILZ_WORDS]; /* the ledger as it was: writing changes no word */

/* Room for every file, and a byte more, to see that it stays. */
static uint8_t file[FILZ_FILE_MOST + 1];

#define OTHER 0xee /* what stands in the bytes before a call */

/* ---- the ledgers */

/* For the calls that this program knows to be taken. */
static void taken(uint32_t number)
{
    if (number != FILZ_TAKEN) {
        printf("refused %" PRIu32 "\n", number);
        exit(1);
    }
}

static void open_ledger(uint16_t k, uint16_t a, uint16_t beta1, uint16_t beta2, uint16_t edition)
{
    int64_t value;
    taken(filz_open(ledger, FILZ_WORDS, k, a, beta1, beta2, edition, &value));
}

static void book(uint64_t name, uint16_t slot, const uint64_t *parents, size_t count)
{
    int64_t value;
    taken(filz_book(ledger, FILZ_WORDS, name, slot, parents, count, &value));
}

static void poll_three(uint64_t name, uint8_t first, uint8_t second, uint8_t third)
{
    const uint8_t votes[3] = {first, second, third};
    int64_t value;
    taken(filz_poll(ledger, FILZ_WORDS, name, votes, 3, &value));
}

/* The example of README.md. Numbers and names are the same. */
static void make_example(uint16_t edition)
{
    const uint64_t genesis[1] = {0}, one[1] = {1}, both[2] = {1, 2};
    open_ledger(3, 2, 1, 2, edition);
    book(1, 7, genesis, 1);
    book(2, 7, genesis, 1);
    book(3, 9, one, 1);
    book(4, 10, both, 2);
    poll_three(2, FILZ_YES, FILZ_YES, FILZ_NO);
    poll_three(3, FILZ_YES, FILZ_SILENT, FILZ_SILENT);
    poll_three(4, FILZ_YES, FILZ_YES, FILZ_YES);
    poll_three(1, FILZ_YES, FILZ_YES, FILZ_SILENT);
}

/* Two bookings, of which the second has name 1, and the first waits for its poll. */
static void make_named(void)
{
    const uint64_t genesis[1] = {0}, both[2] = {UINT64_C(0x0102030405060708), 0};
    open_ledger(3, 2, 11, 300, FILZ_FIRST_EDITION);
    book(both[0], 255, genesis, 1);
    book(1, 8, both, 2);
    poll_three(1, FILZ_YES, FILZ_NO, FILZ_SILENT);
}

/* As many bookings, parents and polls as a ledger can have. Of the four names those that are parents stand first. */
static void make_longest(uint16_t edition)
{
    open_ledger(3, 2, 1, 2, edition);
    for (uint64_t name = 1; name < FILZ_BOOKINGS; name++) {
        const uint64_t parents[FILZ_PARENTS] = {name - 1, name - 2, name - 3, name - 4};
        book(name, 7, parents, name < FILZ_PARENTS ? (size_t)name : FILZ_PARENTS);
    }
    for (uint64_t name = 1; name < FILZ_BOOKINGS; name++)
        poll_three(name, FILZ_YES, FILZ_YES, FILZ_YES);
}

/* ---- writing */

/* Writes the file into so many bytes and gives its length, 0 if it is refused. Nothing but the file may have changed. */
static size_t write_into(size_t bytes)
{
    int64_t value = 77;
    size_t length;
    uint32_t number;
    memset(file, OTHER, sizeof file);
    memcpy(before, ledger, sizeof before);
    number = filz_write_first(ledger, FILZ_WORDS, file, bytes, &value);
    printf("%zu bytes lent: number %" PRIu32 ", value %" PRId64 "\n", bytes, number, value);
    length = number == FILZ_TAKEN ? (size_t)value : 0;
    for (size_t place = length; place < sizeof file; place++) {
        if (file[place] != OTHER) {
            printf("byte %zu changed\n", place);
            exit(1);
        }
    }
    if (memcmp(ledger, before, sizeof before) != 0) {
        printf("a word changed\n");
        exit(1);
    }
    return length;
}

/* ---- reading what was written */

static size_t at;  /* where the next part starts */
static size_t end; /* where the file ends */

/* The next number or name, of so many bytes. Prints where it starts and its bytes; what it means is printed after that. */
static uint64_t next(size_t bytes)
{
    uint64_t number = 0;
    if (end - at < bytes) {
        printf("the file ends too early\n");
        exit(1);
    }
    printf("%2zu ", at);
    for (size_t place = 0; place < bytes; place++) {
        printf(" %02x", (unsigned)file[at]);
        number = number << 8 | file[at++];
    }
    printf("%*s", (int)(3 * (8 - bytes) + 2), "");
    return number;
}

static void show_setting(void)
{
    const char *const names[5] = {"k", "a", "beta1", "beta2", "the edition"};
    const uint64_t count = next(2);
    printf("the setting has %" PRIu64 " numbers\n", count);
    for (uint64_t place = 0; place < count; place++) {
        const uint64_t number = next(2);
        printf("%s is %" PRIu64 "\n", place < 5 ? names[place] : "unknown", number);
    }
}

static void show_bookings(void)
{
    const uint64_t count = next(2);
    printf("bookings: %" PRIu64 "\n", count);
    for (uint64_t number = 1; number <= count; number++) {
        uint64_t part = next(8), parents;
        printf("number %" PRIu64 " has the name 0x%" PRIx64 "\n", number, part);
        part = next(2);
        printf("slot %" PRIu64 "\n", part);
        parents = next(2);
        printf("parents: %" PRIu64 "\n", parents);
        for (uint64_t place = 0; place < parents; place++) {
            part = next(2);
            printf("on number %" PRIu64 "\n", part);
        }
    }
}

static void show_polls(void)
{
    const uint64_t count = next(2);
    printf("polls: %" PRIu64 "\n", count);
    for (uint64_t ordinal = 1; ordinal <= count; ordinal++) {
        uint64_t part = next(2);
        printf("poll %" PRIu64 " was of number %" PRIu64 "\n", ordinal, part);
        part = next(2);
        printf("%s\n", part == 1 ? "it succeeded" : "it did not succeed");
    }
}

static void show_file(const char *title)
{
    printf("%s\n", title);
    at = 0;
    end = write_into(FILZ_FILE_MOST);
    show_setting();
    show_bookings();
    show_polls();
    printf("%2zu  the end\n", at);
    if (at != end) {
        printf("the file is longer\n");
        exit(1);
    }
}

int main(void)
{
    make_example(FILZ_FIRST_EDITION);
    show_file("the ledger of the example");
    write_into(0);
    write_into(87);
    write_into(88);
    write_into(89);

    make_example(FILZ_LATER_EDITION);
    show_file("the same with the later edition");
    write_into(89);
    write_into(90);

    make_named();
    show_file("names that are not numbers");

    open_ledger(3, 2, 1, 2, FILZ_FIRST_EDITION);
    printf("the genesis alone\n");
    write_into(FILZ_FILE_LEAST - 1);
    write_into(FILZ_FILE_LEAST);
    open_ledger(3, 2, 1, 2, FILZ_LATER_EDITION);
    printf("the genesis alone, with the later edition\n");
    write_into(FILZ_FILE_LEAST + 1);
    write_into(FILZ_FILE_LEAST + 2);

    make_longest(FILZ_FIRST_EDITION);
    printf("as much as a ledger holds\n");
    write_into(FILZ_FILE_MOST - 3);
    write_into(FILZ_FILE_MOST - 2);
    write_into(FILZ_FILE_MOST - 1);
    make_longest(FILZ_LATER_EDITION);
    printf("as much, with the later edition\n");
    write_into(FILZ_FILE_MOST - 1);
    write_into(FILZ_FILE_MOST);
    write_into(FILZ_FILE_MOST + 1);
    return 0;
}
