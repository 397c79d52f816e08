/*
 * Nothing lent: where a count is 0 its pointer may be NULL. Each call is then refused as with any other pointer, has value
 * 0 and changes no word, no byte and no cell. Prints nothing and ends with 0 if that is so.
 */
#include "filzhammer.h"

#include <stdio.h>
#include <string.h>

static uint16_t ws[FILZ_WORDS];
static uint16_t before[FILZ_WORDS];
static int64_t value;

/* How many calls did something else. */
static int wrong;

/* A call in this line of the program gave a number, which has to be the other one, with value 0 and the words as they were. */
static void expect(int line, uint32_t found, enum filz_number number)
{
    if (found != (uint32_t)number || value != 0 || memcmp(ws, before, sizeof ws) != 0) {
        fprintf(stderr, "line %d: number %u, value %lld\n", line, (unsigned)found, (long long)value);
        wrong++;
    }
    value = 77;
}

int main(void)
{
    const uint64_t genesis[1] = {0};
    const uint8_t yes[1] = {FILZ_YES};
    uint16_t none[1] = {0};
    uint8_t out[1] = {77};
    const uint8_t file[1] = {0};
    const uint8_t first[FILZ_FILE_LEAST] = {0, 4, 0, 1, 0, 1, 0, 1, 0, 2, 0, 0, 0, 0}; /* of the genesis alone */
    const uint8_t second[FILZ_SECOND_FILE_LEAST] = {0, 4, 0, 1, 0, 1, 0, 1, 0, 2, 0, 0, 0, 0, 0, 1, 0, 0};
    uint16_t cell[1] = {77};
    if (filz_open(ws, FILZ_WORDS, 1, 1, 1, 2, FILZ_FIRST_EDITION, &value) != FILZ_TAKEN
        || filz_book(ws, FILZ_WORDS, 1, 7, genesis, 1, &value) != FILZ_TAKEN) {
        fprintf(stderr, "the ledger could not be made\n");
        return 1;
    }
    memcpy(before, ws, sizeof ws);
    value = 77;

    /* no words */
    expect(__LINE__, filz_open(NULL, 0, 1, 1, 1, 2, FILZ_FIRST_EDITION, &value), FILZ_WRONG_LENGTH);
    expect(__LINE__, filz_book(NULL, 0, 2, 7, genesis, 1, &value), FILZ_WRONG_LENGTH);
    expect(__LINE__, filz_poll(NULL, 0, 1, yes, 1, &value), FILZ_WRONG_LENGTH);
    expect(__LINE__, filz_query(NULL, 0, 1, &value), FILZ_WRONG_LENGTH);
    expect(__LINE__, filz_accepted(NULL, 0, 1, &value), FILZ_WRONG_LENGTH);
    expect(__LINE__, filz_lead(NULL, 0, 1, &value), FILZ_WRONG_LENGTH);
    expect(__LINE__, filz_confidence(NULL, 0, 1, &value), FILZ_WRONG_LENGTH);
    expect(__LINE__, filz_size(NULL, 0, 1, &value), FILZ_WRONG_LENGTH);
    expect(__LINE__, filz_write_first(NULL, 0, out, 1, &value), FILZ_WRONG_LENGTH);
    expect(__LINE__, filz_read_first(NULL, 0, file, 1, &value), FILZ_WRONG_LENGTH);
    expect(__LINE__, filz_write_second(NULL, 0, out, 1, &value), FILZ_WRONG_LENGTH);
    expect(__LINE__, filz_read_second(NULL, 0, file, 1, &value), FILZ_WRONG_LENGTH);
    expect(__LINE__, filz_index_build(NULL, 0, cell, 1, &value), FILZ_WRONG_LENGTH);
    expect(__LINE__, filz_index_enter(NULL, 0, cell, 1, &value), FILZ_WRONG_LENGTH);
    expect(__LINE__, filz_index_find(NULL, 0, cell, 1, 1, &value), FILZ_WRONG_LENGTH);

    /* neither words nor parents nor votes nor bytes nor cells */
    expect(__LINE__, filz_book(NULL, 0, 2, 7, NULL, 0, &value), FILZ_WRONG_LENGTH);
    expect(__LINE__, filz_poll(NULL, 0, 1, NULL, 0, &value), FILZ_WRONG_LENGTH);
    expect(__LINE__, filz_write_first(NULL, 0, NULL, 0, &value), FILZ_WRONG_LENGTH);
    expect(__LINE__, filz_read_first(NULL, 0, NULL, 0, &value), FILZ_WRONG_LENGTH);
    expect(__LINE__, filz_write_second(NULL, 0, NULL, 0, &value), FILZ_WRONG_LENGTH);
    expect(__LINE__, filz_read_second(NULL, 0, NULL, 0, &value), FILZ_WRONG_LENGTH);
    expect(__LINE__, filz_move_first(NULL, 0, NULL, 0, &value), FILZ_BAD_FILE);
    expect(__LINE__, filz_move_second(NULL, 0, NULL, 0, &value), FILZ_BAD_FILE);
    expect(__LINE__, filz_index_build(NULL, 0, NULL, 0, &value), FILZ_WRONG_LENGTH);
    expect(__LINE__, filz_index_enter(NULL, 0, NULL, 0, &value), FILZ_WRONG_LENGTH);
    expect(__LINE__, filz_index_find(NULL, 0, NULL, 0, 1, &value), FILZ_WRONG_LENGTH);

    /* no parents, no votes, no bytes, no cells; and the same with a pointer */
    expect(__LINE__, filz_book(ws, FILZ_WORDS, 2, 7, NULL, 0, &value), FILZ_BAD_PARENTS);
    expect(__LINE__, filz_book(ws, FILZ_WORDS, 2, 7, genesis, 0, &value), FILZ_BAD_PARENTS);
    expect(__LINE__, filz_poll(ws, FILZ_WORDS, 1, NULL, 0, &value), FILZ_WRONG_VOTES);
    expect(__LINE__, filz_poll(ws, FILZ_WORDS, 1, yes, 0, &value), FILZ_WRONG_VOTES);
    expect(__LINE__, filz_write_first(ws, FILZ_WORDS, NULL, 0, &value), FILZ_SHORT_BUFFER);
    expect(__LINE__, filz_write_first(ws, FILZ_WORDS, out, 0, &value), FILZ_SHORT_BUFFER);
    expect(__LINE__, filz_read_first(ws, FILZ_WORDS, NULL, 0, &value), FILZ_BAD_FILE);
    expect(__LINE__, filz_read_first(ws, FILZ_WORDS, file, 0, &value), FILZ_BAD_FILE);
    expect(__LINE__, filz_write_second(ws, FILZ_WORDS, NULL, 0, &value), FILZ_SHORT_BUFFER);
    expect(__LINE__, filz_write_second(ws, FILZ_WORDS, out, 0, &value), FILZ_SHORT_BUFFER);
    expect(__LINE__, filz_read_second(ws, FILZ_WORDS, NULL, 0, &value), FILZ_BAD_FILE);
    expect(__LINE__, filz_read_second(ws, FILZ_WORDS, file, 0, &value), FILZ_BAD_FILE);
    expect(__LINE__, filz_move_first(NULL, 0, out, 1, &value), FILZ_BAD_FILE);
    expect(__LINE__, filz_move_first(file, 0, out, 1, &value), FILZ_BAD_FILE);
    expect(__LINE__, filz_move_first(first, sizeof first, NULL, 0, &value), FILZ_SHORT_BUFFER);
    expect(__LINE__, filz_move_first(first, sizeof first, out, 0, &value), FILZ_SHORT_BUFFER);
    expect(__LINE__, filz_move_second(NULL, 0, out, 1, &value), FILZ_BAD_FILE);
    expect(__LINE__, filz_move_second(file, 0, out, 1, &value), FILZ_BAD_FILE);
    expect(__LINE__, filz_move_second(second, sizeof second, NULL, 0, &value), FILZ_SHORT_BUFFER);
    expect(__LINE__, filz_move_second(second, sizeof second, out, 0, &value), FILZ_SHORT_BUFFER);
    expect(__LINE__, filz_index_build(ws, FILZ_WORDS, NULL, 0, &value), FILZ_WRONG_INDEX);
    expect(__LINE__, filz_index_build(ws, FILZ_WORDS, cell, 0, &value), FILZ_WRONG_INDEX);
    expect(__LINE__, filz_index_enter(ws, FILZ_WORDS, NULL, 0, &value), FILZ_WRONG_INDEX);
    expect(__LINE__, filz_index_enter(ws, FILZ_WORDS, cell, 0, &value), FILZ_WRONG_INDEX);
    expect(__LINE__, filz_index_find(ws, FILZ_WORDS, NULL, 0, 1, &value), FILZ_WRONG_INDEX);
    expect(__LINE__, filz_index_find(ws, FILZ_WORDS, cell, 0, 1, &value), FILZ_WRONG_INDEX);
    expect(__LINE__, filz_open(none, 0, 1, 1, 1, 2, FILZ_FIRST_EDITION, &value), FILZ_WRONG_LENGTH);
    expect(__LINE__, filz_write_first(none, 0, out, 0, &value), FILZ_WRONG_LENGTH);
    expect(__LINE__, filz_read_first(none, 0, file, 0, &value), FILZ_WRONG_LENGTH);
    expect(__LINE__, filz_write_second(none, 0, out, 0, &value), FILZ_WRONG_LENGTH);
    expect(__LINE__, filz_read_second(none, 0, file, 0, &value), FILZ_WRONG_LENGTH);

    /* an earlier refusal comes first */
    expect(__LINE__, filz_book(ws, FILZ_WORDS, 1, 7, NULL, 0, &value), FILZ_NAME_TAKEN);
    expect(__LINE__, filz_book(ws, FILZ_WORDS, 2, 0, NULL, 0, &value), FILZ_BAD_SLOT);
    expect(__LINE__, filz_poll(ws, FILZ_WORDS, 9, NULL, 0, &value), FILZ_UNKNOWN_NAME);
    expect(__LINE__, filz_poll(ws, FILZ_WORDS, 0, NULL, 0, &value), FILZ_NOT_WAITING);
    expect(__LINE__, filz_move_first(file, 1, NULL, 0, &value), FILZ_BAD_FILE);
    expect(__LINE__, filz_move_second(file, 1, NULL, 0, &value), FILZ_BAD_FILE);
    if (out[0] != 77 || cell[0] != 77) {
        fprintf(stderr, "a byte or a cell changed\n");
        wrong++;
    }
    return wrong != 0;
}
