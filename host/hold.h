/* Each call made to both ledgers, on what each was lent for itself, and every lent cell compared afterwards. At the first
   difference the program says where it is and ends with status 1. */
#ifndef HOLD_H
#define HOLD_H

#include "both.h"

enum { LIST_ROOM = GS_MOST_TOKENS + 64, BOOK_ROOM = GS_BOOK_WORDS + 64, BYTES_ROOM = GS_BOOK_BYTES + 64 };
enum { MOST_RECORDS = 600, TAPE_ROOM = 8 * MOST_RECORDS + 64, SMALL_ROOM = 64 };
enum { INDEX_ROOM = GS_INDEX_ENTRIES + 64, MOST_NUMBERS = 100, NUMBERS_ROOM = MOST_NUMBERS + 64 };

/* All that can be lent, in one piece: a cell written outside of what was lent is within it too, and is seen. */
struct lent {
    uint32_t before[SMALL_ROOM];
    uint32_t tokens[LIST_ROOM];
    uint32_t book[BOOK_ROOM];
    uint32_t opened[BOOK_ROOM];
    uint32_t fields[SMALL_ROOM];
    uint32_t numbers[NUMBERS_ROOM];
    uint32_t places[NUMBERS_ROOM];
    uint16_t index[INDEX_ROOM];
    uint8_t tape[TAPE_ROOM];
    uint8_t verdicts[TAPE_ROOM];
    uint8_t seconds[TAPE_ROOM];
    uint8_t bytes[BYTES_ROOM];
    uint8_t part[SMALL_ROOM];
    uint32_t after[SMALL_ROOM];
};

/* Cases write what they lend to LENT[HAND] and share it before the first call. */
extern struct lent LENT[2];
void share(void);

/* The counts that go with what is lent. */
struct counts {
    size_t tokens, book, opened, tape, verdicts, seconds, bytes, fields, part, index, numbers, places;
};

/* Where the test stands, for the report; a step of -1 says that the call isn't one of a tape's steps. */
extern struct standing {
    uint64_t seed;
    size_t number;
    long step;
    enum form form;
} STANDING;

/* Report what differs, at which place if it has several, and end with status 1: between the ledgers, or between two
   things that both of them say and that should be the same. */
#define NO_PLACE SIZE_MAX
void differs(const char *call, const char *what, size_t place, size_t hand, size_t proved) __attribute__((noreturn));
void disagrees(const char *things, const char *what, size_t place, size_t first, size_t second) __attribute__((noreturn));

uint8_t both_empty(struct counts c);
uint8_t both_sound(enum form form, struct counts c);
uint8_t both_open(struct counts c);

/* Steps, runs and what is asked of the index are asked of the quick ledger by hand too. */
uint16_t both_step(enum form form, struct counts c, struct entry e);
uint8_t both_run(enum form form, struct counts c);
uint8_t both_index_build(struct counts c);
uint8_t both_index_check(struct counts c);
uint8_t both_index_places(struct counts c);
uint8_t both_open_indexed(struct counts c);

uint8_t both_to_bytes(struct counts c);
uint8_t both_from_bytes(struct counts c);
uint8_t both_read(struct counts c, size_t at);
size_t both_read_next(struct counts c, size_t at);
uint8_t both_write(struct counts c, struct entry e);

#endif
