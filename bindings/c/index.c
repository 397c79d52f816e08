/*
 * An index beside a ledger: built, kept by entering each booking, and asked. Then which refusals come, and in which order; and
 * what is found by an index that is stale, of another ledger, damaged, or without an empty cell. docs/INDEX.md explains the cells.
 * Prints what index.txt holds.
 */
#include "filzhammer.h"

#include <inttypes.h>
#include <stdio.h>
#include <stdlib.h>
#include <string.h>

/* The words and cells, one more of each than a call may be lent, and both as they were before a call. */
static uint16_t ledger[FILZ_WORDS + 1], ledger_before[FILZ_WORDS + 1];
static uint16_t cells[FILZ_CELLS + 1], cells_before[FILZ_CELLS + 1];

/* How many of them are lent. */
static size_t words = FILZ_WORDS, room = FILZ_CELLS;

/* ---- the ledgers */

/* The eight letters "chongo w" as a name. The published hash of these bytes is dd77ed30. */
#define CHONGO_W UINT64_C(0x63686f6e676f2077)

/* The names of the example, as numbers 1 to 6. */
static const uint64_t example[] = {1, 1390, 552, 1803, CHONGO_W, 39};
#define COUNT (sizeof example / sizeof example[0])

static void stop(const char *why)
{
    printf("%s\n", why);
    exit(1);
}

static void open_ledger(void)
{
    int64_t value;
    if (filz_open(ledger, FILZ_WORDS, 3, 2, 1, 2, FILZ_FIRST_EDITION, &value) != FILZ_TAKEN)
        stop("the ledger was not opened");
}

static void book(uint64_t name)
{
    const uint64_t genesis[1] = {0};
    int64_t value;
    if (filz_book(ledger, FILZ_WORDS, name, 7, genesis, 1, &value) != FILZ_TAKEN)
        stop("a name was not booked");
}

/* ---- the calls */

static void note(void)
{
    memcpy(ledger_before, ledger, sizeof ledger);
    memcpy(cells_before, cells, sizeof cells);
}

/* Prints number and value. No word may have changed, and no cell but the first so many. */
static void answered(uint32_t number, int64_t value, size_t changing)
{
    printf(": %" PRIu32 " %" PRId64 "\n", number, value);
    if (memcmp(ledger, ledger_before, sizeof ledger) != 0)
        stop("a word changed");
    if (memcmp(cells + changing, cells_before + changing, sizeof cells - changing * sizeof cells[0]) != 0)
        stop("a cell changed");
}

typedef uint32_t writing(const uint16_t *ws, size_t words, uint16_t *index, size_t cells, int64_t *value);

static void write_cells(const char *what, writing *call)
{
    int64_t value = 77;
    uint32_t number;
    note();
    number = call(ledger, words, cells, room, &value);
    printf("%s", what);
    answered(number, value, number == FILZ_TAKEN ? FILZ_CELLS : 0);
}

static void build(void)
{
    write_cells("build", filz_index_build);
}

static void enter(void)
{
    write_cells("enter", filz_index_enter);
}

static void find(uint64_t name)
{
    int64_t value = 77;
    uint32_t number;
    note();
    number = filz_index_find(ledger, words, cells, room, name, &value);
    printf("find %" PRIu64, name);
    answered(number, value, 0);
}

/* The cells that are not empty. */
static void show_cells(void)
{
    printf("cells:");
    for (size_t cell = 0; cell < FILZ_CELLS; cell++) {
        if (cells[cell] != FILZ_NONE)
            printf(" %zu=%u", cell, (unsigned)cells[cell]);
    }
    printf("\n");
}

static void make_built(uint16_t *index)
{
    int64_t value;
    if (filz_index_build(ledger, FILZ_WORDS, index, FILZ_CELLS, &value) != FILZ_TAKEN)
        stop("the index was not built");
}

static void show_if_built(void)
{
    static uint16_t built[FILZ_CELLS];
    make_built(built);
    printf("the built index: %s\n", memcmp(built, cells, sizeof built) == 0 ? "yes" : "no");
}

static void make_example(void)
{
    open_ledger();
    for (size_t place = 0; place < COUNT; place++)
        book(example[place]);
    make_built(cells);
}

/* ---- what is shown */

/* From the opening on, with an index that held something else. */
static void grow(void)
{
    printf("opened, and built over other numbers\n");
    memset(cells, 1, sizeof cells);
    open_ledger();
    build();
    show_cells();
    find(0);
    find(1);
    printf("each booking is entered\n");
    book(example[0]);
    find(1);
    enter();
    find(1);
    show_cells();
    for (size_t place = 1; place < COUNT; place++) {
        book(example[place]);
        enter();
        show_cells();
    }
    show_if_built();
}

static void look_up(void)
{
    printf("every booked name is found, and no other\n");
    find(0);
    for (size_t place = 0; place < COUNT; place++)
        find(example[place]);
    find(2);                       /* its home is empty */
    find(1391);                    /* its home has the genesis, and the next cell is empty */
    find(2282);                    /* its home is 1023: 3, 4 and 6 are met, round the end, and then an empty cell */
    find(UINT64_C(0x53f0001));     /* the home of 1, and its lowest two bytes */
    find(UINT64_C(0x56f00000001)); /* the home of 1, and its lowest four bytes */
    find(UINT64_C(0x55f000000000001));
}

/* A poll, a refused booking and writing a day file change nothing that an index depends on; reading one may, and opening does. */
static void other_calls(void)
{
    static uint8_t file[FILZ_FILE_MOST];
    const uint8_t yes[3] = {FILZ_YES, FILZ_YES, FILZ_YES};
    const uint64_t genesis[1] = {0};
    int64_t value, length = 0;
    printf("other calls\n");
    if (filz_poll(ledger, FILZ_WORDS, 39, yes, 3, &value) != FILZ_TAKEN
        || filz_book(ledger, FILZ_WORDS, 39, 8, genesis, 1, &value) != FILZ_NAME_TAKEN
        || filz_write_first(ledger, FILZ_WORDS, file, sizeof file, &length) != FILZ_TAKEN)
        stop("a call did something else");
    show_if_built();
    open_ledger();
    show_if_built();
    find(0);
    find(1);  /* 978 and 979 hold numbers that are no longer booked, and are passed over */
    find(39); /* so do 0 and 1 */
    build();
    show_cells();
    if (filz_read_first(ledger, FILZ_WORDS, file, (size_t)length, &value) != FILZ_TAKEN)
        stop("the day file was not read");
    find(39);
    build();
    find(39);
    show_cells();
}

static void enter_again(void)
{
    printf("entered again\n");
    make_example();
    enter();
    show_cells();
    show_if_built();
    find(39);
    find(188); /* its home is 1: twice 6, which is 39, and then an empty cell */
}

/* What each of the three calls answers. */
static void ask_all(const char *why)
{
    printf("%s\n", why);
    build();
    enter();
    find(2);
}

static void refusals(void)
{
    printf("each refusal before the next\n");
    make_example();
    memset(cells, 0, sizeof cells); /* no cell is empty, and 2 is not booked */
    ledger[FILZ_SLOTS_START + FILZ_SLOT_WORDS * 7 + FILZ_SLOT_COUNTER] = 1;
    ledger[FILZ_RECORDS_START + FILZ_RECORD_WORDS * 3 + FILZ_RECORD_SLOT] = 256;
    ledger[FILZ_HEADER_P] = 7;
    room = FILZ_CELLS - 1;
    words = FILZ_WORDS - 1;
    ask_all("a word too few");
    words = FILZ_WORDS + 1;
    ask_all("a word too many");
    words = FILZ_WORDS;
    ask_all("a cell too few");
    room = FILZ_CELLS + 1;
    ask_all("a cell too many");
    room = 0;
    ask_all("no cells");
    room = FILZ_CELLS;
    ask_all("p is 7, above n - 1");
    ledger[FILZ_HEADER_P] = 0;
    ask_all("the slot of record 3 is 256");
    ledger[FILZ_RECORDS_START + FILZ_RECORD_WORDS * 3 + FILZ_RECORD_SLOT] = 7;
    ask_all("the counter of slot 7 is 1, and there are no chits");
    ledger[FILZ_SLOTS_START + FILZ_SLOT_WORDS * 7 + FILZ_SLOT_COUNTER] = 0;
    printf("nothing is damaged, and every cell holds 0\n");
    enter();
    find(2);
    find(0);
    build();
    find(39);
}

/* All cells but one hold n, which is no booking's number. */
static void last_cell(void)
{
    printf("one empty cell\n");
    make_example();
    for (size_t cell = 0; cell < FILZ_CELLS; cell++)
        cells[cell] = 7;
    cells[FILZ_CELLS - 1] = FILZ_NONE;
    find(39); /* from 0 on, the empty cell is the last that is tried */
    enter();
    printf("cell 1023 holds %u\n", (unsigned)cells[FILZ_CELLS - 1]);
    enter();
    find(39);
    find(1803); /* 1023 holds 39's number */
    cells[977] = 1;
    find(1); /* from 978 on, 977 is the last */
}

static void others_cells(void)
{
    printf("numbers from n on are passed over\n");
    make_example();
    cells[357] = 7;
    cells[358] = FILZ_BOOKINGS;
    cells[359] = FILZ_NONE - 1;
    cells[360] = 0;
    find(0);
    printf("a cell emptied\n");
    make_example();
    cells[978] = FILZ_NONE;
    find(1);
    find(1390); /* it stands behind, in 979 */
    find(552);
    printf("another number in a cell\n");
    cells[978] = 2;
    find(1);
    find(1390); /* found before its place */
    printf("by the index of another ledger\n");
    make_example();
    open_ledger();
    book(39);
    book(1);
    find(0);
    find(39);   /* 0 and 1 hold 4 and 6, and there are three bookings */
    find(1);    /* 978 holds 1, which is 39; 979 holds 2 */
    find(1390); /* so here, and 980 is empty */
    show_if_built();
}

/* As many bookings as a ledger has, each entered. */
static void fill(void)
{
    size_t found = 0, unknown = 0;
    int64_t value;
    printf("a full ledger\n");
    open_ledger();
    make_built(cells);
    for (uint64_t number = 1; number < FILZ_BOOKINGS; number++) {
        book(1000 * number);
        if (filz_index_enter(ledger, FILZ_WORDS, cells, FILZ_CELLS, &value) != FILZ_TAKEN || value != 0)
            stop("a number was not entered");
    }
    show_if_built();
    for (uint64_t number = 0; number < FILZ_BOOKINGS; number++) {
        found += filz_index_find(ledger, FILZ_WORDS, cells, FILZ_CELLS, 1000 * number, &value) == FILZ_TAKEN
            && value == (int64_t)number;
        unknown += filz_index_find(ledger, FILZ_WORDS, cells, FILZ_CELLS, 1000 * number + 1, &value) == FILZ_UNKNOWN_NAME
            && value == 0;
    }
    printf("found %zu, unknown %zu\n", found, unknown);
}

int main(void)
{
    grow();
    look_up();
    other_calls();
    enter_again();
    refusals();
    last_cell();
    others_cells();
    fill();
    return 0;
}
