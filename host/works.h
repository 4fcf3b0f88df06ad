/* The pieces of work that host/bench and host/stack measure: each is a book and a tape, whose every step is granted. */
#ifndef WORKS_H
#define WORKS_H

#include "both.h"

enum { MOST_RECORDS = 4096, LOOK_UPS = 4096 };

/* The work that was laid last: its list with the index, the book to start from and its tape, and room for what a run answers.
   The numbers to be looked up are the list's tokens, one after the other and then from the first again. */
extern struct laid {
    uint32_t tokens[GS_MOST_TOKENS], start[GS_BOOK_WORDS], numbers[LOOK_UPS];
    uint16_t index[GS_INDEX_ENTRIES];
    size_t listed, records;
    uint8_t tape[8 * MOST_RECORDS], verdicts[MOST_RECORDS], seconds[MOST_RECORDS];
} LAID;

/* Lays a tape of one kind of step, by its number 1 to 11, or one of these: a tape of many kinds, a full book and a day's, both without a
   record on the tape, clears, of either kind, of lines with as many sales as there can be, or books over 16 and 512 tokens,
   all of them sold by twos, without a record either. */
enum { MIXED = 0, FULL = 12, DAY, LONG_LINES, LONG_LIVING, SOLD_16, SOLD_512 };
void lay(size_t what, enum form form);

/* A run over the tape's first records, on a book over the list. Inline, so that a counter of instructions meets no call more. */
static inline uint8_t run_laid(const struct ledger *ledger, enum form form, uint32_t *book, size_t count)
{
    return ledger->run[form](LAID.tokens, LAID.listed, book, GS_BOOK_WORDS, LAID.tape, 8 * count, LAID.verdicts, count,
                             LAID.seconds, count);
}

/* Whether the run that answered so has granted every step of the tape. */
int all_granted(uint8_t answer);

/* Says why, and ends with status 1. */
void fail(const char *why) __attribute__((noreturn));

#endif
