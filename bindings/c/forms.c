/*
 * The two forms of a day file: a day on which a rival comes late, written in both, who is accepted where each is read, and each
 * moved to the other. Then fourth sections, good and bad, and which buffers have room. The same day with the later edition, and
 * the shortest and the longest file of the second form. docs/DAYFILE.md explains the day. Prints what forms.txt holds.
 */
#include "filzhammer.h"

#include <inttypes.h>
#include <stdio.h>
#include <stdlib.h>
#include <string.h>

static uint16_t ours[FILZ_WORDS];
static uint16_t theirs[FILZ_WORDS];
static uint16_t before[FILZ_WORDS]; /* their words as they were */

/* The file in each form, one that a move made, and one that it is moved back to; with a byte more, to see that it stays. */
#define ROOM (FILZ_SECOND_FILE_MOST + 1)
static uint8_t first[ROOM], second[ROOM], moved[ROOM], back[ROOM];

#define OTHER 0xee /* what stands in the bytes before a call */

/* The day's lengths in both forms. */
#define FIRST 122
#define SECOND 128

typedef uint32_t writing(const uint16_t *ws, size_t words, uint8_t *out, size_t bytes, int64_t *value);
typedef uint32_t reading(uint16_t *ws, size_t words, const uint8_t *file, size_t bytes, int64_t *value);
typedef uint32_t moving(const uint8_t *file, size_t bytes, uint8_t *out, size_t room, int64_t *value);

static void stop(const char *why)
{
    printf("%s\n", why);
    exit(1);
}

/* ---- the ledgers */

/* For the calls that this program knows to be taken. */
static void taken(uint32_t number)
{
    if (number != FILZ_TAKEN)
        stop("a call was refused");
}

static void open_ledger(uint16_t edition)
{
    int64_t value;
    taken(filz_open(ours, FILZ_WORDS, 1, 1, 1, 2, edition, &value));
}

static void book(uint64_t name, uint16_t slot, uint64_t parent)
{
    int64_t value;
    taken(filz_book(ours, FILZ_WORDS, name, slot, &parent, 1, &value));
}

static void poll_yes(uint64_t name)
{
    const uint8_t yes[1] = {FILZ_YES};
    int64_t value;
    taken(filz_poll(ours, FILZ_WORDS, name, yes, 1, &value));
}

/* 1 and 2 win their polls; then 3 comes for the slot of 1, and wins with what rests on it. */
static void make_day(uint16_t edition)
{
    open_ledger(edition);
    book(1, 7, 0);
    book(2, 8, 1);
    poll_yes(1);
    poll_yes(2);
    book(3, 7, 0);
    book(4, 11, 3);
    book(5, 12, 3);
    book(6, 13, 3);
    for (uint64_t name = 3; name <= 6; name++)
        poll_yes(name);
}

/* As many bookings, parents and polls as there can be. The first 255 are accepted, one in each slot, before a rival comes. */
static void make_longest(void)
{
    open_ledger(FILZ_LATER_EDITION);
    for (uint64_t name = 1; name < FILZ_BOOKINGS; name++) {
        const uint64_t parents[FILZ_PARENTS] = {name - 1, name - 2, name - 3, name - 4};
        const uint16_t slot = (uint16_t)((name - 1) % (FILZ_SLOTS - 1) + 1);
        int64_t value;
        taken(filz_book(ours, FILZ_WORDS, name, slot, parents, name < FILZ_PARENTS ? (size_t)name : FILZ_PARENTS, &value));
        if (name < FILZ_SLOTS)
            poll_yes(name);
    }
    for (uint64_t name = FILZ_SLOTS; name < FILZ_BOOKINGS; name++)
        poll_yes(name);
}

static void show_accepted(const char *where, const uint16_t *ws)
{
    printf("accepted %s:", where);
    for (uint64_t name = 0; name <= 6; name++) {
        int64_t value;
        taken(filz_accepted(ws, FILZ_WORDS, name, &value));
        if (value == 1)
            printf(" %" PRIu64, name);
    }
    printf("\n");
}

/* ---- the calls */

/* Says what a call that writes a file gave, and that it left every byte past the file, all of them if it was refused. */
static size_t told(const char *what, size_t bytes, uint32_t number, int64_t value, const uint8_t *out)
{
    const size_t length = number == FILZ_TAKEN ? (size_t)value : 0;
    printf("%s, %zu bytes lent: number %" PRIu32 ", value %" PRId64 "\n", what, bytes, number, value);
    for (size_t place = length; place < ROOM; place++)
        if (out[place] != OTHER)
            stop("a byte past the file changed");
    return length;
}

static size_t write_day(const char *what, writing *call, uint8_t *out, size_t bytes)
{
    int64_t value = 77;
    uint32_t number;
    memset(out, OTHER, ROOM);
    number = call(ours, FILZ_WORDS, out, bytes, &value);
    return told(what, bytes, number, value, out);
}

static size_t move_day(const char *what, moving *call, const uint8_t *file, size_t bytes, uint8_t *out, size_t room)
{
    int64_t value = 77;
    uint32_t number;
    memset(out, OTHER, ROOM);
    number = call(file, bytes, out, room, &value);
    return told(what, room, number, value, out);
}

/* The number of a move, which leaves the buffer if it is refused. */
static uint32_t move_number(moving *call, const uint8_t *file, size_t bytes)
{
    int64_t value = 77;
    uint32_t number;
    memset(back, OTHER, sizeof back);
    number = call(file, bytes, back, sizeof back, &value);
    if (number != FILZ_TAKEN && (value != 0 || back[0] != OTHER || memcmp(back, back + 1, sizeof back - 1) != 0))
        stop("a refused move has a value that is not 0, or changed a byte");
    return number;
}

/* The number of a reading, which leaves their words if it is refused. */
static uint32_t read_day(reading *call, const uint8_t *file, size_t bytes)
{
    int64_t value = 77;
    uint32_t number;
    memcpy(before, theirs, sizeof before);
    number = call(theirs, FILZ_WORDS, file, bytes, &value);
    if (value != 0 || (number != FILZ_TAKEN && memcmp(theirs, before, sizeof before) != 0))
        stop("a reading has a value that is not 0, or was refused and changed a word");
    return number;
}

static const char *yes_or_no(int is_so)
{
    return is_so ? "yes" : "no";
}

/* ---- the day */

static uint64_t number_at(const uint8_t *file, size_t at)
{
    return (uint64_t)file[at] << 8 | file[at + 1];
}

/* The fourth section, which starts there and ends the file: where each number stands, its bytes, and what it means. */
static void show_marks(const uint8_t *file, size_t at, size_t length)
{
    printf("%zu  %02x %02x  marked: %" PRIu64 "\n", at, (unsigned)file[at], (unsigned)file[at + 1], number_at(file, at));
    for (at += 2; at + 2 <= length; at += 2)
        printf("%zu  %02x %02x  number %" PRIu64 "\n", at, (unsigned)file[at], (unsigned)file[at + 1], number_at(file, at));
    printf("%zu  the end\n", at);
}

static void both_forms(void)
{
    make_day(FILZ_FIRST_EDITION);
    show_accepted("where the files are written", ours);
    if (write_day("the first form", filz_write_first, first, FILZ_FILE_MOST) != FIRST)
        stop("it has another length");
    if (write_day("the second form", filz_write_second, second, FILZ_SECOND_FILE_MOST) != SECOND)
        stop("it has another length");
    printf("it begins with the first: %s\n", yes_or_no(memcmp(first, second, FIRST) == 0));
    show_marks(second, FIRST, SECOND);

    memset(theirs, 0xee, sizeof theirs); /* any words will do */
    printf("the first form is read with %" PRIu32 "\n", read_day(filz_read_first, first, FIRST));
    show_accepted("there", theirs);
    printf("the same words: %s\n", yes_or_no(memcmp(ours, theirs, sizeof ours) == 0));
    printf("the second form is read with %" PRIu32 "\n", read_day(filz_read_second, second, SECOND));
    show_accepted("there", theirs);
    printf("the same words: %s\n", yes_or_no(memcmp(ours, theirs, sizeof ours) == 0));
    printf("each read as the other: %" PRIu32, read_day(filz_read_second, first, FIRST));
    printf(" and %" PRIu32 "\n", read_day(filz_read_first, second, SECOND));
}

static void both_moves(void)
{
    move_day("the second form moved back", filz_move_second, second, SECOND, back, ROOM);
    if (move_day("the first form moved", filz_move_first, first, FIRST, moved, ROOM) != SECOND)
        stop("it has another length");
    show_marks(moved, FIRST, SECOND);
    move_day("and back", filz_move_second, moved, SECOND, back, ROOM);
    printf("the same bytes: %s\n", yes_or_no(memcmp(first, back, FIRST) == 0));
    printf("each moved as the other: %" PRIu32, move_number(filz_move_second, first, FIRST));
    printf(" and %" PRIu32 "\n", move_number(filz_move_first, second, SECOND));
}

/* ---- other fourth sections */

/* The day with a fourth section of this count and these numbers: how it is read, and how it is moved back. */
static void try_marks(const char *what, uint16_t count, const uint16_t *numbers, size_t length)
{
    uint8_t file[FIRST + 2 + 2 * 8];
    size_t end = FIRST + 2;
    memcpy(file, first, FIRST);
    file[FIRST] = (uint8_t)(count >> 8);
    file[FIRST + 1] = (uint8_t)count;
    for (size_t place = 0; place < length; place++) {
        file[end++] = (uint8_t)(numbers[place] >> 8);
        file[end++] = (uint8_t)numbers[place];
    }
    printf("%s: read with %" PRIu32, what, read_day(filz_read_second, file, end));
    printf(", moved back with %" PRIu32 "\n", move_number(filz_move_second, file, end));
}

static void other_marks(void)
{
    const uint16_t genesis[1] = {0}, other[2] = {0, 3}, more[3] = {0, 3, 4}, last[2] = {0, 6}, slots[6] = {0, 1, 2, 4, 5, 6};
    const uint16_t one[1] = {1}, twice[2] = {0, 0}, falling[3] = {0, 2, 1}, again[3] = {0, 1, 1}, behind[2] = {1, 0};
    const uint16_t beyond[2] = {0, 7}, high[2] = {0, 257}, rivals[3] = {0, 1, 3}, none[1] = {65535};
    try_marks("the genesis alone", 1, genesis, 1);
    try_marks("0 and 3", 2, other, 2);
    try_marks("0, 3 and 4", 3, more, 3);
    try_marks("0 and 6, which no poll gave", 2, last, 2);
    show_accepted("after reading it", theirs);
    try_marks("one of each slot", 6, slots, 6);
    show_accepted("after reading it", theirs);
    try_marks("nobody", 0, genesis, 0);
    try_marks("1 alone", 1, one, 1);
    try_marks("1 before 0", 2, behind, 2);
    try_marks("0 and 0", 2, twice, 2);
    try_marks("0, 1 and 1", 3, again, 3);
    try_marks("0, 2 and 1", 3, falling, 3);
    try_marks("0 and 7, with seven bookings", 2, beyond, 2);
    try_marks("0 and 257", 2, high, 2);
    try_marks("65535", 1, none, 1);
    try_marks("0, 1 and 3, which are rivals", 3, rivals, 3);
    try_marks("two said, and one there", 2, genesis, 1);
    try_marks("one said, and two there", 1, other, 2);
    try_marks("none said, and one there", 0, genesis, 1);
    try_marks("258 said, and two there", 258, other, 2);
    show_accepted("still", theirs);
}

/* The file of the second form cut off everywhere, and with a byte more. */
static void other_lengths(void)
{
    uint8_t copy[SECOND + 1];
    size_t read = 0, moves = 0;
    for (size_t length = 0; length < SECOND; length++) {
        read += read_day(filz_read_second, second, length) == FILZ_BAD_FILE;
        moves += move_number(filz_move_second, second, length) == FILZ_BAD_FILE;
    }
    printf("shorter files refused: %zu read, %zu moved back\n", read, moves);
    memcpy(copy, second, SECOND);
    copy[SECOND] = 0;
    printf("a byte more: read with %" PRIu32, read_day(filz_read_second, copy, SECOND + 1));
    printf(", moved back with %" PRIu32 "\n", move_number(filz_move_second, copy, SECOND + 1));
}

/* ---- room */

static void rooms(void)
{
    write_day("the second form", filz_write_second, back, 0);
    write_day("the second form", filz_write_second, back, SECOND - 1);
    write_day("the second form", filz_write_second, back, SECOND);
    write_day("the second form", filz_write_second, back, SECOND + 1);
    move_day("the first form moved", filz_move_first, first, FIRST, back, 0);
    move_day("the first form moved", filz_move_first, first, FIRST, back, SECOND - 1);
    move_day("the first form moved", filz_move_first, first, FIRST, back, SECOND);
    move_day("what was moved, moved back", filz_move_second, moved, SECOND, back, 0);
    move_day("what was moved, moved back", filz_move_second, moved, SECOND, back, FIRST - 1);
    move_day("what was moved, moved back", filz_move_second, moved, SECOND, back, FIRST);
    move_day("other marks", filz_move_second, second, SECOND, back, 0);
    move_day("half a file", filz_move_second, second, SECOND / 2, back, 0);
    move_day("half a file", filz_move_first, first, FIRST / 2, back, 0);
}

/* ---- other ledgers */

/* Writes both forms, moves the second back and the first forth, and says if that gives the other form's bytes. */
static void there_and_back(size_t first_bytes, size_t second_bytes)
{
    size_t length;
    write_day("the first form", filz_write_first, first, first_bytes);
    write_day("the second form", filz_write_second, second, second_bytes - 1);
    write_day("the second form", filz_write_second, second, second_bytes);
    move_day("moved back", filz_move_second, second, second_bytes, back, first_bytes - 1);
    length = move_day("moved back", filz_move_second, second, second_bytes, back, first_bytes);
    printf("the first form: %s\n", yes_or_no(length == first_bytes && memcmp(first, back, length) == 0));
    move_day("moved", filz_move_first, first, first_bytes, moved, second_bytes - 1);
    length = move_day("moved", filz_move_first, first, first_bytes, moved, second_bytes);
    printf("the second form: %s\n", yes_or_no(length == second_bytes && memcmp(second, moved, length) == 0));
    printf("read with %" PRIu32, read_day(filz_read_second, second, second_bytes));
    printf(", the same words: %s\n", yes_or_no(memcmp(ours, theirs, sizeof ours) == 0));
}

int main(void)
{
    both_forms();
    both_moves();
    other_marks();
    other_lengths();
    rooms();

    printf("the day with the later edition\n");
    make_day(FILZ_LATER_EDITION);
    show_accepted("where the files are written", ours);
    there_and_back(FIRST + 2, SECOND + 4);

    printf("the genesis alone\n");
    open_ledger(FILZ_FIRST_EDITION);
    there_and_back(FILZ_FILE_LEAST, FILZ_SECOND_FILE_LEAST);
    printf("the genesis alone, with the later edition\n");
    open_ledger(FILZ_LATER_EDITION);
    there_and_back(FILZ_FILE_LEAST + 2, FILZ_SECOND_FILE_LEAST + 2);

    printf("as much as a ledger holds, with the later edition\n");
    make_longest();
    there_and_back(FILZ_FILE_MOST, FILZ_SECOND_FILE_MOST);
    return 0;
}
