/*
 * Filzhammer: a ledger of bookings that compete for slots by vote.
 *
 * A caller lends the words; the library keeps nothing of its own, allocates nothing and reads no clock, so any number of
 * ledgers may live side by side. Every call takes any contents and any numbers: it answers, or refuses and changes no word,
 * no byte and no cell that it was lent.
 *
 * Each call returns 0 when it is taken and writes its value through the last pointer: the five readings have what they tell,
 * writing a day file, and moving one to its other form, have the length of the file written, and a lookup by an index has the
 * booking's number. Open, book, poll and reading a day file, which alone change the workspace, have value 0, and so have building
 * an index and entering a number in it. A refused call returns the number of its refusal and leaves every word of the workspace,
 * every byte of the buffer for a file and every cell of the index as it was. It writes value 0, or, with FILZ_DAMAGED_RECORD and
 * FILZ_DAMAGED_SLOT, the lowest row that breaks a rule.
 *
 * The two moves, filz_move_first and filz_move_second, hold a workspace of their own on the stack and take up to 16,832 bytes of
 * it. Every other call takes less than 2 KiB.
 *
 * What the caller owes, since no C function can test it:
 *  - every pointer to words, parents, votes, bytes or cells leads to as many elements as the count beside it says, and is aligned
 *    as its type asks. Where the count is 0 nothing is read or written through it, and it may be NULL;
 *  - `value` leads to one int64_t and is not NULL, and what it leads to does not overlap the workspace, the parents, the votes,
 *    the buffer for a file, the file or the index; nor does any of the others overlap the workspace, nor the buffer of a move its
 *    file;
 *  - while open, book or poll runs, or a day file is read, no other thread uses the same workspace. The five readings may run at
 *    the same time as one another, as the writing of day files, each into a buffer that no other thread uses, and as the calls
 *    with an index. While one is built, or a number is entered in it, no other thread uses that index; lookups may share it. A
 *    move uses no workspace of a caller: it may run beside any call, as long as no other thread writes its file or uses its
 *    buffer.
 */
#ifndef FILZHAMMER_H
#define FILZHAMMER_H

#include <stddef.h>
#include <stdint.h>

#ifdef __cplusplus
extern "C" {
#endif

/*
 * The workspace: FILZ_WORDS words of 16 bits.
 *
 *      0            header: n, k, a, beta1, beta2, p, edition, 0
 *      8 + 13 * b   the record of booking b, for b from 0 to 511
 *   6664 +  4 * s   the entry of slot s, for s from 0 to 255
 *   7688            the end
 *
 * Bookings are numbered from 0 in the order in which they came. Number 0 is the genesis: name 0, slot 0, no parents.
 */
#define FILZ_WORDS 7688
#define FILZ_BOOKINGS 512 /* with the genesis */
#define FILZ_SLOTS 256    /* slot 0 is the genesis's alone */
#define FILZ_PARENTS 4    /* a booking has one to four */
#define FILZ_VOTES 64     /* the greatest k */
#define FILZ_BETA 510     /* the greatest beta2 */

#define FILZ_HEADER_WORDS 8
#define FILZ_RECORD_WORDS 13
#define FILZ_SLOT_WORDS 4
#define FILZ_RECORDS_START 8
#define FILZ_SLOTS_START 6664

/* Instead of a number: an unused place for a parent; preferred and last of a slot that has no booking; an empty cell. */
#define FILZ_NONE 65535

/* Words of the header. */
#define FILZ_HEADER_N 0 /* bookings, with the genesis */
#define FILZ_HEADER_K 1
#define FILZ_HEADER_A 2
#define FILZ_HEADER_BETA1 3
#define FILZ_HEADER_BETA2 4
#define FILZ_HEADER_P 5       /* polls taken */
#define FILZ_HEADER_EDITION 6 /* of the rules: FILZ_FIRST_EDITION or FILZ_LATER_EDITION */

/* Words of a record. */
#define FILZ_RECORD_NAME 0    /* four words, the highest part first */
#define FILZ_RECORD_SLOT 4
#define FILZ_RECORD_PARENTS 5 /* four words, numbers in the order given, then FILZ_NONE */
#define FILZ_RECORD_STATE 9   /* 0 waiting for its poll, 1 polled without a chit, 2 has a chit */
#define FILZ_RECORD_CONFIDENCE 10
#define FILZ_RECORD_ORDINAL 11 /* which poll was its own, from 1; 0 while it waits, and for the genesis */
#define FILZ_RECORD_MARK 12    /* 1 if it is accepted, 0 if it is not; the genesis has 1 */

/* Words of a slot entry. */
#define FILZ_SLOT_PREFERRED 0 /* the number of the booking that this station stands for */
#define FILZ_SLOT_LAST 1      /* the number of the booking that a successful poll raised last; before any did, the slot's first */
#define FILZ_SLOT_COUNTER 2   /* how often it was raised since it became last; each edition counts in its own way, see below */
#define FILZ_SLOT_BOOKINGS 3  /* how many bookings the slot has */

/* Votes. Every byte from 2 to 254 is refused. */
#define FILZ_SILENT 0
#define FILZ_YES 1
#define FILZ_NO 255 /* the signed byte -1 */

/*
 * The editions of the rules. The edition is part of a ledger's setting: it is given at opening, stays until the next opening or
 * reading of a day file, and goes along in the file. They differ in three places, and in nothing else:
 *
 *                                                     FILZ_FIRST_EDITION   FILZ_LATER_EDITION
 *   a counter, where another booking becomes last     becomes 0            becomes 1
 *   a counter that is enough for an acceptance        is above its beta    is at least its beta
 *   a counter of a slot in a failed poll's ancestry   stays                becomes 0
 *
 * The slots in the ancestry are that of the booking itself and those of everything reached through parents, slot 0 among them,
 * whoever is last there; preferred and last stay. Confidence and preference are the same in both editions. Stations whose
 * ledgers are to agree take the same one.
 */
#define FILZ_FIRST_EDITION 0
#define FILZ_LATER_EDITION 1

/* The setting of the paper that the rules come from; it goes with either edition. */
#define FILZ_PAPER_K 10
#define FILZ_PAPER_A 8
#define FILZ_PAPER_BETA1 11
#define FILZ_PAPER_BETA2 150

/*
 * The day file: today's ledger as bytes, to hand over. It has two forms: the first has three sections, and the second a fourth
 * behind the same three. Each section stands after its count. A number takes two bytes and a name eight, the highest byte first;
 * a parent, the booking of a poll, and a marked booking are given by their numbers.
 *
 *      0   4, then k, a, beta1, beta2; or, with the later edition, 5, then these four and the edition, 1
 *   next   n - 1, then for each booking from number 1 on: its name, its slot, how many parents it has, and those parents
 *   next   p, then for each poll in the order in which they were taken: its booking, and 1 if it succeeded or 0
 *   next   in the second form alone: how many bookings are marked, then these bookings, rising, from the genesis on
 *
 * The first form has 14 bytes, 2 more with the later edition, 12 for each booking but the genesis, 2 for each parent and 4 for
 * each poll. Bookings 1, 2 and 3 have at most as many parents as there are lower numbers. The second form has 2 bytes more, and 2
 * for each marked booking: one at least, the genesis, and at most one of each slot.
 *
 * Who is accepted is not in the first form, and may come out otherwise where it is read: an acceptance can be lost, and can even
 * go to a rival that came later. The second form keeps it, and is the one to hand over; the first is for programs that know no
 * other. No file is good in both forms. docs/DAYFILE.md explains both byte by byte.
 */
#define FILZ_FILE_LEAST 14          /* first form: the file of the genesis alone, with the first edition */
#define FILZ_FILE_MOST 12268        /* first form: 512 bookings, all parents and polls that can be, with the later edition */
#define FILZ_SECOND_FILE_LEAST 18   /* second form: the genesis alone, with the first edition */
#define FILZ_SECOND_FILE_MOST 12782 /* second form: the most, and a mark in each slot; room for every file of either form */

/*
 * The index: FILZ_CELLS lent words of 16 bits beside a ledger, its cells, by which a booking is found by its name. A cell holds
 * the number of a booking, or FILZ_NONE if it is empty.
 *
 * A name's home is the 32-bit FNV-1a hash of its eight bytes, the highest first, modulo FILZ_CELLS. The hash starts from
 * 2166136261; each byte goes in by exclusive or, and then the hash is multiplied by 16777619 modulo 2^32. Probing starts in the
 * home and goes up by one, from the last cell round to cell 0, until it ends or every cell was tried.
 *
 * No other call reads or changes an index, and nothing says to which ledger one belongs. Polls, readings, writing and moving day
 * files, and refused calls leave the built index right. After a taken booking enter it; after a taken opening, and after a day
 * file was read, build the index anew. docs/INDEX.md shows the cells of an example.
 */
#define FILZ_CELLS 1024

/*
 * What a call returns. Where several refusals apply, each call names the first of its own list below; so a damaged header
 * hides damaged records, and a damaged record hides damaged slot entries.
 *
 * The value of a refusal is 0, except for two. Theirs is the lowest row that breaks a rule:
 *  - with FILZ_DAMAGED_RECORD the number of a record, 0 to 512. Of the records below n that share a name, or an ordinal above
 *    0, or that are marked in one slot, all but the lowest break a rule. A mark is 0 or 1, and the genesis's is 1. From n on a
 *    record breaks a rule unless all its 13 words are zero. An ordinal from 1 to p that no record holds is charged to number n;
 *    512, which no record has, can only be that, a missing ordinal of a full ledger;
 *  - with FILZ_DAMAGED_SLOT a slot, 0 to 255.
 * That row doesn't fit the others. The word that was hit may stand elsewhere: a state hit from 2 to 1 is one chit less, no
 * confidence may exceed the number of chits, and the genesis, which gained one by each, is named. See docs/DAMAGE.md.
 */
enum filz_number {
    FILZ_TAKEN = 0,
    FILZ_WRONG_LENGTH = 1,    /* the workspace isn't FILZ_WORDS long */
    FILZ_DAMAGED_HEADER = 2,  /* n, the setting, p or the last header word breaks a rule: never opened, or damaged since */
    FILZ_BAD_SETTING = 3,     /* it breaks 1 <= k <= 64, a <= k < 2 * a, 1 <= beta1 <= beta2 <= 510 or edition <= 1 */
    FILZ_NAME_TAKEN = 4,      /* a booking has this name already; name 0 is the genesis's */
    FILZ_BAD_SLOT = 5,        /* the slot is 0 or above 255 */
    FILZ_BAD_PARENTS = 6,     /* no parents, or more than four */
    FILZ_UNKNOWN_PARENT = 7,  /* no booking has the name of one of the parents */
    FILZ_PARENT_TWICE = 8,    /* two parents are the same */
    FILZ_FULL = 9,            /* 512 bookings are there already */
    FILZ_UNKNOWN_NAME = 10,   /* no booking has this name; or none is found by the index */
    FILZ_NOT_WAITING = 11,    /* the booking was polled before; the genesis counts as polled */
    FILZ_WRONG_VOTES = 12,    /* the number of votes isn't the ledger's k */
    FILZ_BAD_VOTE = 13,       /* a vote is neither FILZ_YES, FILZ_NO nor FILZ_SILENT */
    FILZ_DAMAGED_RECORD = 14, /* the header is right and a record breaks a rule; its number is the value */
    FILZ_DAMAGED_SLOT = 15,   /* header and records are right and a slot entry breaks a rule; its slot is the value */
    FILZ_SHORT_BUFFER = 16,   /* the buffer is shorter than the file; FILZ_SECOND_FILE_MOST bytes are enough for any */
    FILZ_BAD_FILE = 17,       /* the file is not good in the form that the call names; a byte missing, or one more, is enough */
    FILZ_WRONG_INDEX = 18,    /* the index hasn't FILZ_CELLS cells */
    FILZ_OTHER_MARKS = 19,    /* the first form of the file would be read with other marks: others would be accepted */
    FILZ_INDEX_FULL = 27      /* no cell of the index is empty */
};

/*
 * Makes the words a ledger that has only the genesis, whatever they were before.
 *
 * k is how many votes a poll has and a how many of them must be yes; beta1 and beta2 are what a slot's counter is compared
 * with for an acceptance: see filz_accepted. `edition` is FILZ_FIRST_EDITION or FILZ_LATER_EDITION.
 *
 * Refuses, in this order: FILZ_WRONG_LENGTH, FILZ_BAD_SETTING.
 */
uint32_t filz_open(uint16_t *ws, size_t words, uint16_t k, uint16_t a, uint16_t beta1, uint16_t beta2, uint16_t edition,
                   int64_t *value);

/*
 * Books `name` for `slot` on parents booked earlier, which are given by their names. It waits for its poll, with
 * confidence 0. In an empty slot it is preferred at once; in another the slot only has one booking more. Nobody is accepted
 * by a booking, and nobody loses an acceptance by one.
 *
 * Refuses, in this order: FILZ_WRONG_LENGTH, FILZ_DAMAGED_HEADER, FILZ_DAMAGED_RECORD, FILZ_DAMAGED_SLOT,
 * FILZ_NAME_TAKEN, FILZ_BAD_SLOT, FILZ_BAD_PARENTS, FILZ_UNKNOWN_PARENT, FILZ_PARENT_TWICE, FILZ_FULL.
 */
uint32_t filz_book(uint16_t *ws, size_t words, uint64_t name, uint16_t slot, const uint64_t *parents, size_t count,
                   int64_t *value);

/*
 * Enters the completed poll of a waiting booking, one byte for each of the k stations asked. It succeeds if at least a of
 * them are yes; no and silence count alike. Then every member of its ancestry, itself too, gains one confidence, and those
 * strictly ahead of their slot's preferred booking take its place. A failed poll only notes the booking as polled, and with the
 * later edition makes the counter of every slot in that ancestry 0. After either, all bookings that then meet the rule of
 * acceptance are marked: see filz_accepted. A booking is polled once.
 *
 * Refuses, in this order: FILZ_WRONG_LENGTH, FILZ_DAMAGED_HEADER, FILZ_DAMAGED_RECORD, FILZ_DAMAGED_SLOT,
 * FILZ_UNKNOWN_NAME, FILZ_NOT_WAITING, FILZ_WRONG_VOTES, FILZ_BAD_VOTE.
 */
uint32_t filz_poll(uint16_t *ws, size_t words, uint64_t name, const uint8_t *votes, size_t count, int64_t *value);

/*
 * The readings, which change nothing. A booking's ancestry is itself and everything reached through parents.
 *
 * Each refuses, in this order: FILZ_WRONG_LENGTH, FILZ_DAMAGED_HEADER, FILZ_DAMAGED_RECORD, FILZ_DAMAGED_SLOT,
 * FILZ_UNKNOWN_NAME.
 */

/* 1 if every member of the ancestry is preferred in its slot, else 0: how this station votes when it is asked. */
uint32_t filz_query(const uint16_t *ws, size_t words, uint64_t name, int64_t *value);

/*
 * 1 if the booking is accepted, else 0: its mark, FILZ_RECORD_MARK. The genesis is marked at opening, and reading a day file of the
 * second form marks those that it names. After each poll that is
 * taken, one that fails too, every booking is looked at in the order of the numbers, and is marked if no other of its slot is
 * marked, and either
 *  - it is alone in its slot, all its parents are marked and the slot's counter is above beta1; or
 *  - it is both preferred and last in its slot and the counter is above beta2.
 * With the later edition a counter of at least beta1, or of at least beta2, is enough.
 * A parent that is marked in the same turn counts. So an accepted booking stays accepted, whatever rivals come and win, until
 * the words are opened anew or a day file is read into them; and of the bookings of one slot at most one is accepted.
 */
uint32_t filz_accepted(const uint16_t *ws, size_t words, uint64_t name, int64_t *value);

/* How far it is ahead of its best rival: its confidence, less the greatest of the slot's others (or less 0), -511 to 511. */
uint32_t filz_lead(const uint16_t *ws, size_t words, uint64_t name, int64_t *value);

/*
 * Its confidence, 0 to 511: how many successful polls were of a booking that has it in its ancestry, since the opening, or in
 * the day file that was read and since then.
 */
uint32_t filz_confidence(const uint16_t *ws, size_t words, uint64_t name, int64_t *value);

/* How many members its ancestry has, 1 to 512. */
uint32_t filz_size(const uint16_t *ws, size_t words, uint64_t name, int64_t *value);

/*
 * Writes the ledger's day file, in its first form, to the front of a buffer. The value is the file's length, FILZ_FILE_LEAST
 * to FILZ_FILE_MOST. Bytes past the file stay as they were, and so does every word; a refused call leaves every byte. The file
 * carries no mark; filz_write_second writes one that does.
 *
 * `out` leads to `bytes` bytes, and may be NULL if there are none. It overlaps neither the workspace nor the value.
 *
 * Refuses, in this order: FILZ_WRONG_LENGTH, FILZ_DAMAGED_HEADER, FILZ_DAMAGED_RECORD, FILZ_DAMAGED_SLOT,
 * FILZ_SHORT_BUFFER.
 */
uint32_t filz_write_first(const uint16_t *ws, size_t words, uint8_t *out, size_t bytes, int64_t *value);

/*
 * Reads a day file, in its first form, and makes the words the ledger that it tells of, whatever they were before: the one
 * that an opening with its setting, its bookings in their order and then its polls with their outcomes make. The value is 0.
 * Writing in this form after that gives the same bytes. A refused call leaves every word, and no call changes the file.
 *
 * The marks too are those of these calls, with every booking made before the first poll. Where the station that wrote the file
 * had polls between its bookings, others may be accepted here: one that was accepted there may not be, and a rival that came
 * after it may be in its stead. Its setting, bookings and polls come back in any case.
 *
 * `file` leads to `bytes` bytes, all of them the file's. It overlaps neither the workspace nor the value.
 *
 * A file is good if the writer could have written it after calls that were taken:
 *  - it begins with 4 and a good setting of the first edition, see FILZ_BAD_SETTING, or with 5 and one of the later: 5 with
 *    edition 0 is bad;
 *  - it has at most 511 bookings. Each has a name that is not 0 and that no earlier one has, a slot from 1 to 255, and one to
 *    four parents, each a lower number than its own and none of them twice;
 *  - each poll is of a booking other than the genesis, none is of one that was polled before, and its outcome is 0 or 1;
 *  - no byte is missing, and none follows.
 *
 * Refuses, in this order: FILZ_WRONG_LENGTH, FILZ_BAD_FILE.
 */
uint32_t filz_read_first(uint16_t *ws, size_t words, const uint8_t *file, size_t bytes, int64_t *value);

/*
 * Writes the ledger's day file in its second form: what filz_write_first writes, and behind it the marks as they stand. All else
 * is as there. The value is the file's length, FILZ_SECOND_FILE_LEAST to FILZ_SECOND_FILE_MOST.
 *
 * Refuses, in this order: FILZ_WRONG_LENGTH, FILZ_DAMAGED_HEADER, FILZ_DAMAGED_RECORD, FILZ_DAMAGED_SLOT,
 * FILZ_SHORT_BUFFER.
 */
uint32_t filz_write_second(const uint16_t *ws, size_t words, uint8_t *out, size_t bytes, int64_t *value);

/*
 * Reads a day file in its second form: makes the words what filz_read_first makes them from the first three sections, but with
 * the marks of the fourth. So of a ledger its setting, bookings, polls and marks come back. The value is 0. Writing in the second
 * form after that gives the same bytes. A refused call leaves every word, and no call changes the file.
 *
 * `file` leads to `bytes` bytes, as in filz_read_first.
 *
 * A file is good if
 *  - its first three sections are a good file of the first form;
 *  - a fourth follows, which begins with the genesis: its numbers rise, each of them is a booking's, and no slot has two of them;
 *  - no byte is missing, and none follows.
 * The marks are taken as the sender tells them, whatever the votes were.
 *
 * Refuses, in this order: FILZ_WRONG_LENGTH, FILZ_BAD_FILE.
 */
uint32_t filz_read_second(uint16_t *ws, size_t words, const uint8_t *file, size_t bytes, int64_t *value);

/*
 * The moves: each makes a file of one form into a file of the other, without a ledger. A move is named by the form of the file
 * that it is given. The file that it makes stands at the front of `out`, and the value is its length. Bytes past it stay as they
 * were; a refused call leaves every byte of `out`, and no call changes `file`.
 *
 * `file` leads to `bytes` bytes, all of them the file's, and `out` to `room` bytes. Either may be NULL if there are none. They
 * overlap neither each other nor the value.
 */

/*
 * From the first form to the second: adds the marks that filz_read_first gives. They need not be those of the ledger that wrote
 * the file: a mark that the first form has lost does not come back.
 *
 * Refuses, in this order: FILZ_BAD_FILE, FILZ_SHORT_BUFFER.
 */
uint32_t filz_move_first(const uint8_t *file, size_t bytes, uint8_t *out, size_t room, int64_t *value);

/*
 * From the second form to the first: drops the fourth section, if filz_read_first gives the same marks without it; else it refuses
 * FILZ_OTHER_MARKS, however large the buffer is. What filz_move_first made of a file is moved back to that file's own bytes.
 *
 * Refuses, in this order: FILZ_BAD_FILE, FILZ_OTHER_MARKS, FILZ_SHORT_BUFFER.
 */
uint32_t filz_move_second(const uint8_t *file, size_t bytes, uint8_t *out, size_t room, int64_t *value);

/*
 * Builds the index of the ledger, whatever its cells held before: all of them become empty, and the numbers 0 to n - 1 are
 * entered in rising order. The value is 0. No word changes, and a refused call leaves every cell.
 *
 * `index` leads to `cells` cells, here and below, and may be NULL if there are none. It overlaps neither the workspace nor the
 * value.
 *
 * Refuses, in this order: FILZ_WRONG_LENGTH, FILZ_WRONG_INDEX, FILZ_DAMAGED_HEADER, FILZ_DAMAGED_RECORD, FILZ_DAMAGED_SLOT.
 */
uint32_t filz_index_build(const uint16_t *ws, size_t words, uint16_t *index, size_t cells, int64_t *value);

/*
 * Enters the newest booking, number n - 1: the first empty cell from its name's home on gets the number. After a taken booking
 * that makes the built index of what was the built index before it. The value is 0. No word and no other cell changes, and a
 * refused call leaves every cell.
 *
 * Which numbers the cells hold already is not looked at: entering twice writes the number twice.
 *
 * Refuses, in this order: FILZ_WRONG_LENGTH, FILZ_WRONG_INDEX, FILZ_DAMAGED_HEADER, FILZ_DAMAGED_RECORD, FILZ_DAMAGED_SLOT,
 * FILZ_INDEX_FULL.
 */
uint32_t filz_index_enter(const uint16_t *ws, size_t words, uint16_t *index, size_t cells, int64_t *value);

/*
 * Finds a booking by its name. The value is its number, 0 to n - 1. Probing from the name's home ends at a cell with a number
 * below n whose booking has the name, which is then found, and at an empty cell. It passes over every other: those with another
 * booking's number, and those with a number from n on. No word and no cell changes.
 *
 * By the built index every booked name is found. By another index, one that is stale, of another ledger or damaged, a booked
 * name may be refused as unknown; but a number that is found is always that of the booking with the name.
 *
 * Refuses, in this order: FILZ_WRONG_LENGTH, FILZ_WRONG_INDEX, FILZ_DAMAGED_HEADER, FILZ_DAMAGED_RECORD, FILZ_DAMAGED_SLOT,
 * FILZ_UNKNOWN_NAME.
 */
uint32_t filz_index_find(const uint16_t *ws, size_t words, const uint16_t *index, size_t cells, uint64_t name, int64_t *value);

#ifdef __cplusplus
}
#endif

#endif
