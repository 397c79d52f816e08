/*
 * What each call answers when one word of a ledger was hit, and that nothing else happens: the number and the value name the
 * lowest row that breaks a rule. docs/DAMAGE.md explains the hits. Prints what damage.txt holds.
 */
#include "filzhammer.h"

#include <inttypes.h>
#include <stdio.h>
#include <stdlib.h>
#include <string.h>

/* A good ledger, the same with a word hit, and a copy of that for each call. */
static uint16_t good[FILZ_WORDS];
static uint16_t hit[FILZ_WORDS];
static uint16_t lent[FILZ_WORDS];

/* A day file to be read: the genesis alone. */
static const uint8_t shortest[FILZ_FILE_LEAST] = {0, 4, 0, 3, 0, 2, 0, 1, 0, 2, 0, 0, 0, 0};

/* Five bookings, of which 2 and 4 won their polls, 3 lost it and 1 waits for its own. */
static uint32_t make_ledger(void)
{
    const uint64_t genesis[1] = {0}, one[1] = {1}, both[2] = {1, 2};
    const uint8_t two[3] = {FILZ_YES, FILZ_YES, FILZ_NO}, few[3] = {FILZ_YES, FILZ_SILENT, FILZ_SILENT};
    const uint8_t all[3] = {FILZ_YES, FILZ_YES, FILZ_YES};
    int64_t value;
    uint32_t sum = filz_open(good, FILZ_WORDS, 3, 2, 1, 2, FILZ_FIRST_EDITION, &value);
    sum += filz_book(good, FILZ_WORDS, 1, 7, genesis, 1, &value);
    sum += filz_book(good, FILZ_WORDS, 2, 7, genesis, 1, &value);
    sum += filz_book(good, FILZ_WORDS, 3, 9, one, 1, &value);
    sum += filz_book(good, FILZ_WORDS, 4, 10, both, 2, &value);
    sum += filz_poll(good, FILZ_WORDS, 2, two, 3, &value);
    sum += filz_poll(good, FILZ_WORDS, 3, few, 3, &value);
    sum += filz_poll(good, FILZ_WORDS, 4, all, 3, &value);
    return sum;
}

/* 1 was accepted, and then 3 came for its slot. */
static uint32_t make_late_rival(void)
{
    const uint64_t genesis[1] = {0}, one[1] = {1};
    const uint8_t all[3] = {FILZ_YES, FILZ_YES, FILZ_YES};
    int64_t value;
    uint32_t sum = filz_open(good, FILZ_WORDS, 3, 2, 1, 2, FILZ_FIRST_EDITION, &value);
    sum += filz_book(good, FILZ_WORDS, 1, 7, genesis, 1, &value);
    sum += filz_book(good, FILZ_WORDS, 2, 8, one, 1, &value);
    sum += filz_poll(good, FILZ_WORDS, 1, all, 3, &value);
    sum += filz_poll(good, FILZ_WORDS, 2, all, 3, &value);
    sum += filz_book(good, FILZ_WORDS, 3, 7, genesis, 1, &value);
    return sum;
}

/* 511 bookings on the genesis, none of them polled: there is room for no more. */
static uint32_t fill_ledger(void)
{
    const uint64_t genesis[1] = {0};
    int64_t value;
    uint32_t sum = filz_open(good, FILZ_WORDS, 3, 2, 1, 2, FILZ_FIRST_EDITION, &value);
    for (uint64_t name = 1; name < FILZ_BOOKINGS; name++)
        sum += filz_book(good, FILZ_WORDS, name, 7, genesis, 1, &value);
    return sum;
}

/* Prints a call's number and value, and what comes after them. A refused call must have left its words alone. */
static void answered(uint32_t number, int64_t value, const char *after)
{
    if (number != FILZ_TAKEN && memcmp(lent, hit, sizeof lent) != 0) {
        printf("a refused call changed a word\n");
        exit(1);
    }
    printf(" %" PRIu32 " %" PRId64 "%s", number, value, after);
    memcpy(lent, hit, sizeof lent);
}

typedef uint32_t reading(const uint16_t *ws, size_t words, uint64_t name, int64_t *value);

static void read_one(reading *ask, const char *after)
{
    int64_t value = 77;
    uint32_t number = ask(lent, FILZ_WORDS, 1, &value);
    answered(number, value, after);
}

/*
 * The day file, in a buffer with room for every file. A refused call must have left its bytes alone too, and must be refused
 * alike in a buffer that is too short for any file.
 */
static void write_one(const char *after)
{
    static uint8_t file[FILZ_FILE_MOST], before[FILZ_FILE_MOST];
    int64_t value = 77, short_value = 77;
    memset(before, 77, sizeof before);
    memcpy(file, before, sizeof file);
    uint32_t number = filz_write_first(lent, FILZ_WORDS, file, sizeof file, &value);
    if (number != FILZ_TAKEN) {
        uint32_t short_number = filz_write_first(lent, FILZ_WORDS, file, FILZ_FILE_LEAST - 1, &short_value);
        if (memcmp(file, before, sizeof file) != 0 || short_number != number || short_value != value) {
            printf("a refused call changed a byte, or a short buffer was told before damage\n");
            exit(1);
        }
    }
    answered(number, value, after);
}

/* An index, built, with the newest booking entered, and asked for 1. A refused call must have left its cells alone too. */
static void index_one(const char *after)
{
    static uint16_t cells[FILZ_CELLS], before[FILZ_CELLS];
    int64_t value = 77;
    memset(before, 77, sizeof before);
    memcpy(cells, before, sizeof cells);
    uint32_t number = filz_index_build(lent, FILZ_WORDS, cells, FILZ_CELLS, &value);
    answered(number, value, ",");
    value = 77;
    number = filz_index_enter(lent, FILZ_WORDS, cells, FILZ_CELLS, &value);
    answered(number, value, ",");
    value = 77;
    number = filz_index_find(lent, FILZ_WORDS, cells, FILZ_CELLS, 1, &value);
    if (number != FILZ_TAKEN && memcmp(cells, before, sizeof cells) != 0) {
        printf("a refused call changed a cell\n");
        exit(1);
    }
    answered(number, value, after);
}

/*
 * Every call but open and the reading of a file, each on its own copy: booking 5 on 1, polling 1, the five readings of 1, writing
 * the day file, and the three calls with an index.
 */
static void answers(void)
{
    const uint64_t one[1] = {1};
    const uint8_t votes[3] = {FILZ_YES, FILZ_YES, FILZ_YES};
    int64_t value = 77;
    memcpy(lent, hit, sizeof lent);
    uint32_t number = filz_book(lent, FILZ_WORDS, 5, 11, one, 1, &value);
    answered(number, value, ",");
    value = 77;
    number = filz_poll(lent, FILZ_WORDS, 1, votes, 3, &value);
    answered(number, value, ",");
    read_one(filz_query, ",");
    read_one(filz_accepted, ",");
    read_one(filz_lead, ",");
    read_one(filz_confidence, ",");
    read_one(filz_size, ",");
    write_one(",");
    index_one("\n");
}

static void hit_word(size_t place, uint16_t word)
{
    memcpy(hit, good, sizeof hit);
    hit[place] = word;
    printf("word %zu from %u to %u:", place, (unsigned)good[place], (unsigned)word);
    answers();
}

/* Where a word of a record or of a slot entry stands. */
static size_t in_record(size_t number, size_t word)
{
    return FILZ_RECORDS_START + FILZ_RECORD_WORDS * number + word;
}

static size_t in_slot(size_t slot, size_t word)
{
    return FILZ_SLOTS_START + FILZ_SLOT_WORDS * slot + word;
}

int main(void)
{
    int64_t value;
    if (make_ledger() != FILZ_TAKEN) {
        printf("the ledger could not be made\n");
        return 1;
    }
    printf("number and value of book, poll, query, accepted, lead, confidence, size, write_first, index_build, index_enter, index_find\n");
    memcpy(hit, good, sizeof hit);
    printf("no word hit:");
    answers();

    hit_word(FILZ_HEADER_P, 7);                         /* at most n - 1, which is 4 */
    hit_word(FILZ_HEADER_P, 4);                         /* a fourth poll, whose ordinal nobody holds */
    hit_word(FILZ_HEADER_EDITION, 2);                   /* there are two editions, 0 and 1 */
    hit_word(FILZ_HEADER_WORDS - 1, 1);                 /* the header's last word is 0 */
    hit_word(in_record(0, FILZ_RECORD_MARK), 0);        /* the genesis is accepted */
    hit_word(in_record(1, FILZ_RECORD_NAME + 3), 3);    /* a name that 3 has too */
    hit_word(in_record(2, FILZ_RECORD_MARK), 2);        /* a mark is 0 or 1 */
    hit_word(in_record(3, FILZ_RECORD_SLOT), 265);      /* no slot */
    hit_word(in_record(3, FILZ_RECORD_SLOT), 1);        /* a slot whose entry says that it has no booking */
    hit_word(in_record(4, FILZ_RECORD_STATE), 1);       /* one chit is left, and the genesis has confidence 2 */
    hit_word(in_record(5, FILZ_RECORD_CONFIDENCE), 16); /* past the bookings */
    hit_word(in_slot(7, FILZ_SLOT_COUNTER), 4);         /* above the number of chits */
    hit_word(in_slot(7, FILZ_SLOT_COUNTER), 2);         /* which is 2, so this breaks no rule */
    printf("not earned, ");
    hit_word(in_record(1, FILZ_RECORD_MARK), 1); /* the only mark in slot 7, so this breaks none either */
    printf("another edition, ");
    hit_word(FILZ_HEADER_EDITION, FILZ_LATER_EDITION); /* nor does this: the file has two bytes more */

    if (make_late_rival() != FILZ_TAKEN) {
        printf("the ledger could not be made\n");
        return 1;
    }
    memcpy(hit, good, sizeof hit);
    printf("late rival, no word hit:");
    answers();
    printf("late rival, ");
    hit_word(in_record(3, FILZ_RECORD_MARK), 1); /* two marks in slot 7: the higher is named */
    printf("late rival, ");
    hit_word(in_record(1, FILZ_RECORD_MARK), 0); /* a slot without a mark breaks no rule */

    if (fill_ledger() != FILZ_TAKEN) {
        printf("the ledger could not be filled\n");
        return 1;
    }
    printf("full ledger, ");
    hit_word(FILZ_HEADER_P, 1); /* a poll whose ordinal nobody holds: number n is no record's */

    /* Reading a day file doesn't look at the words, and neither does opening. */
    memcpy(lent, hit, sizeof lent);
    printf("read_first: %" PRIu32 "\n", filz_read_first(lent, FILZ_WORDS, shortest, sizeof shortest, &value));
    printf("size of the genesis then: %" PRIu32, filz_size(lent, FILZ_WORDS, 0, &value));
    printf(" %" PRId64 "\n", value);
    memcpy(lent, hit, sizeof lent);
    printf("open: %" PRIu32 "\n", filz_open(lent, FILZ_WORDS, 3, 2, 1, 2, FILZ_FIRST_EDITION, &value));
    printf("size of the genesis then: %" PRIu32, filz_size(lent, FILZ_WORDS, 0, &value));
    printf(" %" PRId64 "\n", value);
    return 0;
}
