/*
 * Three small ledgers, from opening to acceptance: five bookings of which two compete for slot 7, then one booking that is
 * accepted, and stays so when a rival comes, and last how the later edition counts. Prints what example.txt holds.
 */
#include "filzhammer.h"

#include <inttypes.h>
#include <stdio.h>
#include <stdlib.h>

/* The lent words. They may hold anything before the first opening. */
static uint16_t ledger[FILZ_WORDS];

/* For the calls that this program knows to be taken. */
static void taken(uint32_t number)
{
    if (number != FILZ_TAKEN) {
        printf("refused %" PRIu32 "\n", number);
        exit(1);
    }
}

static void show_number(const char *what, uint32_t number)
{
    printf("%s: %" PRIu32 "\n", what, number);
}

static void open_ledger(uint16_t k, uint16_t a, uint16_t beta1, uint16_t beta2, uint16_t edition)
{
    int64_t value;
    taken(filz_open(ledger, FILZ_WORDS, k, a, beta1, beta2, edition, &value));
}

static void book_on_one(uint64_t name, uint16_t slot, uint64_t parent)
{
    int64_t value;
    taken(filz_book(ledger, FILZ_WORDS, name, slot, &parent, 1, &value));
}

static void poll_three(uint64_t name, uint8_t first, uint8_t second, uint8_t third)
{
    const uint8_t votes[3] = {first, second, third};
    int64_t value;
    taken(filz_poll(ledger, FILZ_WORDS, name, votes, 3, &value));
}

static void poll_one(uint64_t name, uint8_t vote)
{
    int64_t value;
    taken(filz_poll(ledger, FILZ_WORDS, name, &vote, 1, &value));
}

typedef uint32_t reading(const uint16_t *ws, size_t words, uint64_t name, int64_t *value);

static int64_t read_one(reading *ask, uint64_t name)
{
    int64_t value;
    taken(ask(ledger, FILZ_WORDS, name, &value));
    return value;
}

/* All five readings of the names from 0 to `last`. */
static void show(const char *title, uint64_t last)
{
    printf("%s\nname query accepted lead confidence size\n", title);
    for (uint64_t name = 0; name <= last; name++) {
        printf("%" PRIu64, name);
        printf(" %" PRId64, read_one(filz_query, name));
        printf(" %" PRId64, read_one(filz_accepted, name));
        printf(" %" PRId64, read_one(filz_lead, name));
        printf(" %" PRId64, read_one(filz_confidence, name));
        printf(" %" PRId64 "\n", read_one(filz_size, name));
    }
}

/* The counter of a slot stands among the lent words. */
static unsigned counter(size_t slot)
{
    return ledger[FILZ_SLOTS_START + FILZ_SLOT_WORDS * slot + FILZ_SLOT_COUNTER];
}

static void show_counters(void)
{
    printf("counters of slots 0, 7, 8 and 9: %u %u %u %u\n", counter(0), counter(7), counter(8), counter(9));
}

int main(void)
{
    const uint64_t rivals[2] = {1, 2};
    const uint8_t three_yes[3] = {FILZ_YES, FILZ_YES, FILZ_YES};
    int64_t value;

    /* Three votes in a poll, of which two must be yes. */
    show_number("query before any opening", filz_query(ledger, FILZ_WORDS, 0, &value));
    open_ledger(3, 2, 1, 2, FILZ_FIRST_EDITION);
    book_on_one(1, 7, 0);
    book_on_one(2, 7, 0); /* competes with 1 for slot 7 */
    book_on_one(3, 9, 1);
    taken(filz_book(ledger, FILZ_WORDS, 4, 10, rivals, 2, &value));
    show("booked", 4);

    poll_three(2, FILZ_YES, FILZ_YES, FILZ_NO);
    show("2 won its poll", 4);

    poll_three(3, FILZ_YES, FILZ_SILENT, FILZ_SILENT);
    poll_three(4, FILZ_YES, FILZ_YES, FILZ_YES);
    poll_three(1, FILZ_YES, FILZ_YES, FILZ_SILENT);
    show("3 lost, 4 and 1 won", 4);

    show_number("book 1 again", filz_book(ledger, FILZ_WORDS, 1, 11, rivals, 2, &value));
    show_number("poll 1 again", filz_poll(ledger, FILZ_WORDS, 1, three_yes, 3, &value));
    show_number("lead of 5", filz_lead(ledger, FILZ_WORDS, 5, &value));

    /* One vote in a poll. A booking alone in its slot is accepted when its counter is above 1. */
    open_ledger(1, 1, 1, 2, FILZ_FIRST_EDITION);
    book_on_one(1, 7, 0);
    book_on_one(2, 8, 1);
    poll_one(1, FILZ_YES);
    show("opened anew, 1 won", 2);
    poll_one(2, FILZ_YES);
    show("2 won, which rests on 1", 2);

    /* An acceptance stays, whoever comes for the slot and wins a poll. */
    book_on_one(3, 7, 0);
    show("3 came for the slot of 1", 3);
    poll_one(3, FILZ_YES);
    show("3 won its poll", 3);

    /* The later edition: a counter of 1 is enough for beta1, and a failed poll clears those of the slots in its ancestry. */
    open_ledger(1, 1, 1, 2, FILZ_LATER_EDITION);
    book_on_one(1, 7, 0);
    book_on_one(2, 8, 1);
    book_on_one(3, 9, 2);
    poll_one(1, FILZ_YES);
    show("the later edition, 1 won", 3);
    show_counters();
    poll_one(3, FILZ_YES);
    show("3 won, which rests on 2 and 1", 3);
    show_counters();
    poll_one(2, FILZ_NO);
    show("2 lost", 3);
    show_counters();
    show_number("open with edition 2", filz_open(ledger, FILZ_WORDS, 1, 1, 1, 2, 2, &value));
    show_counters();
    return 0;
}
