/*
 * Makes calls of the C face for whoever asks through a pipe: for a caller that cannot link the library.
 *
 * A request is a struct asked, the words, the parents or the votes, the bytes of a file, those of a buffer for one, and the
 * cells of an index; the answer is a struct told, and the words, those bytes and those cells as the call left them. Both
 * sides have the lowest byte first. Ends with the input.
 */
#include "filzhammer.h"

#include <stdio.h>
#include <stdlib.h>

/* The calls, in the order of Call::KINDS. */
enum kind {
    OPEN,
    BOOK,
    POLL,
    QUERY,
    ACCEPTED,
    LEAD,
    CONFIDENCE,
    SIZE,
    WRITE_FIRST,
    READ_FIRST,
    WRITE_SECOND,
    READ_SECOND,
    MOVE_FIRST,
    MOVE_SECOND,
    INDEX_BUILD,
    INDEX_ENTER,
    INDEX_FIND
};

struct asked {
    uint64_t kind;
    uint64_t words;
    uint64_t name;
    uint64_t count;      /* of parents or votes */
    uint64_t length;     /* bytes of the file */
    uint64_t room;       /* and of the buffer for one */
    uint64_t cells;      /* of the index */
    uint16_t numbers[8]; /* the slot, or the setting with its edition; the others are 0 */
};

struct told {
    uint64_t number;
    uint64_t is_intact; /* nothing beside the lent words, bytes and cells was written */
    int64_t value;
};

/* Bytes on each side of what is lent, which no call may write. */
#define GUARD 512

/* Memory to lend. */
struct lent {
    uint8_t *memory;
    uint8_t *bytes; /* what is lent, between two guards */
    size_t count;
};

/* Differs from byte to byte. */
static uint8_t guard_byte(size_t at)
{
    return (uint8_t)(0xa5u ^ (at * 183u));
}

static void put_guard(uint8_t *bytes)
{
    for (size_t at = 0; at < GUARD; at++)
        bytes[at] = guard_byte(at);
}

static int is_guard(const uint8_t *bytes)
{
    for (size_t at = 0; at < GUARD; at++)
        if (bytes[at] != guard_byte(at))
            return 0;
    return 1;
}

static void give_up(const char *why)
{
    fprintf(stderr, "relay: %s\n", why);
    exit(1);
}

static void *memory_of(size_t bytes)
{
    void *memory = malloc(bytes + 1); /* never null, even for no bytes */
    if (memory == NULL)
        give_up("no memory");
    return memory;
}

static void read_all(void *bytes, size_t count)
{
    if (fread(bytes, 1, count, stdin) != count)
        give_up("a request is cut off");
}

static void write_all(const void *bytes, size_t count)
{
    if (fwrite(bytes, 1, count, stdout) != count)
        give_up("nobody takes the answer");
}

/* Lends so many bytes of the request, from a place that is odd or even. */
static struct lent lend(size_t count, size_t odd)
{
    struct lent lent = {NULL, NULL, count};
    lent.memory = (uint8_t *)memory_of(odd + GUARD + count + GUARD);
    lent.bytes = lent.memory + odd + GUARD;
    put_guard(lent.bytes - GUARD);
    put_guard(lent.bytes + count);
    read_all(lent.bytes, count);
    return lent;
}

/* What is lent from an even place, as words. */
static uint16_t *words_of(const struct lent *lent)
{
    return (uint16_t *)(void *)lent->bytes;
}

static int is_intact(const struct lent *lent)
{
    return is_guard(lent->bytes - GUARD) && is_guard(lent->bytes + lent->count);
}

static uint32_t call(const struct asked *asked, uint16_t *ws, const void *list, const uint8_t *file, uint8_t *out,
                     uint16_t *index, int64_t *value)
{
    const size_t words = asked->words, length = asked->length, room = asked->room;
    const uint64_t name = asked->name;
    const uint16_t *n = asked->numbers;
    switch (asked->kind) {
    case OPEN:
        return filz_open(ws, words, n[0], n[1], n[2], n[3], n[4], value);
    case BOOK:
        return filz_book(ws, words, name, n[0], (const uint64_t *)list, asked->count, value);
    case POLL:
        return filz_poll(ws, words, name, (const uint8_t *)list, asked->count, value);
    case QUERY:
        return filz_query(ws, words, name, value);
    case ACCEPTED:
        return filz_accepted(ws, words, name, value);
    case LEAD:
        return filz_lead(ws, words, name, value);
    case CONFIDENCE:
        return filz_confidence(ws, words, name, value);
    case SIZE:
        return filz_size(ws, words, name, value);
    case WRITE_FIRST:
        return filz_write_first(ws, words, out, room, value);
    case READ_FIRST:
        return filz_read_first(ws, words, file, length, value);
    case WRITE_SECOND:
        return filz_write_second(ws, words, out, room, value);
    case READ_SECOND:
        return filz_read_second(ws, words, file, length, value);
    case MOVE_FIRST:
        return filz_move_first(file, length, out, room, value);
    case MOVE_SECOND:
        return filz_move_second(file, length, out, room, value);
    case INDEX_BUILD:
        return filz_index_build(ws, words, index, asked->cells, value);
    case INDEX_ENTER:
        return filz_index_enter(ws, words, index, asked->cells, value);
    case INDEX_FIND:
        return filz_index_find(ws, words, index, asked->cells, name, value);
    }
    give_up("no such call");
    return 0;
}

static void serve(const struct asked *asked)
{
    const size_t listed = asked->count * (asked->kind == BOOK ? sizeof(uint64_t) : 1);
    struct lent words = lend(asked->words * sizeof(uint16_t), 0);
    void *list = memory_of(listed);
    struct lent file, out, index;
    struct told told = {0, 0, 0x5a5a5a5a}; /* so that a value that is not written shows */
    read_all(list, listed);
    file = lend(asked->length, 1);
    out = lend(asked->room, 1);
    index = lend(asked->cells * sizeof(uint16_t), 0);
    told.number = call(asked, words_of(&words), list, file.bytes, out.bytes, words_of(&index), &told.value);
    told.is_intact = is_intact(&words) && is_intact(&file) && is_intact(&out) && is_intact(&index);
    write_all(&told, sizeof told);
    write_all(words.bytes, words.count);
    write_all(file.bytes, file.count);
    write_all(out.bytes, out.count);
    write_all(index.bytes, index.count);
    if (fflush(stdout) != 0)
        give_up("nobody takes the answer");
    free(index.memory);
    free(out.memory);
    free(file.memory);
    free(list);
    free(words.memory);
}

int main(void)
{
    struct asked asked;
    size_t got;
    while ((got = fread(&asked, 1, sizeof asked, stdin)) == sizeof asked)
        serve(&asked);
    if (got != 0)
        give_up("a request is cut off");
    return 0;
}
