/* Does one piece of work by one of the three ledgers, for host/bench to count or to time.

       bench                               a line for each piece of work: its number, its form, whether the quick ledger
                                           has a way of its own to do it (1 or 0), and what it is
       bench WORK FORM LEDGER REPEATS      does it so often; prints how many steps or look-ups it has (or 1 where it has
                                           neither), and the nanoseconds of all repeats

   What counts is measured() less bare(), which is a run over no record, or a look-up of no number: the test for soundness
   that every run begins with, or that of the index. Each repeat starts from the same book, and every step is
   granted. */
#include <stdio.h>
#include <stdlib.h>
#include <string.h>
#include <time.h>

#include "works.h"

enum call { RUN, SOUND, OPENED, INDEX_OPENED, TO_BYTES, FROM_BYTES, BUILT, CHECKED, LOOKED_UP };

static uint32_t book[GS_BOOK_WORDS], opened[GS_BOOK_WORDS], places[LOOK_UPS];
static uint16_t built[GS_INDEX_ENTRIES];
static uint8_t bytes[GS_BOOK_BYTES];

static const struct {
    const char *title;
    enum call call;
    size_t what;
} WORKS[] = {
    {"a mixed tape, a step", RUN, MIXED},
    {"join customer", RUN, 1},
    {"join bench", RUN, 2},
    {"open line", RUN, 3},
    {"update", RUN, 4},
    {"stock", RUN, 5},
    {"sell", RUN, 6},
    {"bench authenticates", RUN, 7},
    {"desk authenticates", RUN, 8},
    {"clear", RUN, 9},
    {"clear what lives", RUN, 11},
    {"top up", RUN, 10},
    {"is a full book sound", SOUND, FULL},
    {"is a day's book sound", SOUND, DAY},
    {"a book over 16 tokens opened", OPENED, SOLD_16},
    {"a book over 512 tokens opened", OPENED, SOLD_512},
    {"a full book opened", OPENED, FULL},
    {"a book over 16 tokens opened with the index", INDEX_OPENED, SOLD_16},
    {"a book over 512 tokens opened with the index", INDEX_OPENED, SOLD_512},
    {"a full book opened with the index", INDEX_OPENED, FULL},
    {"a book to bytes", TO_BYTES, DAY},
    {"a book from bytes", FROM_BYTES, DAY},
    {"an index built, 16 tokens", BUILT, SOLD_16},
    {"an index built, 512 tokens", BUILT, SOLD_512},
    {"an index built, 4,096 tokens", BUILT, FULL},
    {"an index checked, 16 tokens", CHECKED, SOLD_16},
    {"an index checked, 512 tokens", CHECKED, SOLD_512},
    {"an index checked, 4,096 tokens", CHECKED, FULL},
    {"a token looked up, 16 tokens", LOOKED_UP, SOLD_16},
    {"a token looked up, 512 tokens", LOOKED_UP, SOLD_512},
    {"a token looked up, 4,096 tokens", LOOKED_UP, FULL},
};
enum { HOW_MANY = sizeof WORKS / sizeof WORKS[0] };

static inline uint8_t look_up(const struct ledger *ledger, size_t count)
{
    return ledger->index_places(LAID.tokens, LAID.listed, LAID.index, GS_INDEX_ENTRIES, LAID.numbers, count, places, count);
}

/* Functions of their own, for a counter that counts in them and in what they call. */
__attribute__((noinline)) uint8_t measured(const struct ledger *ledger, enum call call, enum form form)
{
    switch (call) {
    case RUN:
        return run_laid(ledger, form, book, LAID.records);
    case SOUND:
        return ledger->sound[form](LAID.tokens, LAID.listed, book, GS_BOOK_WORDS);
    case OPENED:
        return ledger->open(LAID.tokens, LAID.listed, book, GS_BOOK_WORDS, opened, GS_BOOK_WORDS);
    case INDEX_OPENED:
        return ledger->open_indexed(LAID.tokens, LAID.listed, LAID.index, GS_INDEX_ENTRIES, book, GS_BOOK_WORDS, opened,
                                    GS_BOOK_WORDS);
    case TO_BYTES:
        return ledger->to_bytes(book, GS_BOOK_WORDS, bytes, GS_BOOK_BYTES);
    case FROM_BYTES:
        return ledger->from_bytes(bytes, GS_BOOK_BYTES, book, GS_BOOK_WORDS);
    case BUILT:
        return ledger->index_build(LAID.tokens, LAID.listed, built, GS_INDEX_ENTRIES);
    case CHECKED:
        return ledger->index_check(LAID.tokens, LAID.listed, LAID.index, GS_INDEX_ENTRIES);
    default:
        return look_up(ledger, LOOK_UPS);
    }
}

__attribute__((noinline)) uint8_t bare(const struct ledger *ledger, enum call call, enum form form)
{
    return call == RUN ? run_laid(ledger, form, book, 0) : call == LOOKED_UP ? look_up(ledger, 0) : 0;
}

static long long now(void)
{
    struct timespec time;
    clock_gettime(CLOCK_MONOTONIC, &time);
    return time.tv_sec * 1000000000LL + time.tv_nsec;
}

/* By turns, so that a machine that is busy for a while slows what counts and what is taken off. */
static long long repeat(const struct ledger *ledger, enum call call, enum form form, size_t repeats)
{
    long long spent = 0;
    LEDGERS[HAND].to_bytes(LAID.start, GS_BOOK_WORDS, bytes, GS_BOOK_BYTES);
    for (size_t i = 0; i < repeats; i++) {
        memcpy(book, LAID.start, sizeof book);
        spent += now();
        uint8_t answer = bare(ledger, call, form);
        spent -= 2 * now();
        answer |= measured(ledger, call, form);
        spent += now();
        if (!all_granted(answer))
            fail("not granted");
    }
    return spent;
}

/* Opening is for slips; bytes are the same in either form, and an index is of a list. */
static int has_form(enum call call, enum form form)
{
    return call < OPENED || (call < TO_BYTES) == (form == SLIP);
}

/* Steps, and what is done with an index. */
static int has_quick(enum call call)
{
    return call == RUN || call == INDEX_OPENED || call >= BUILT;
}

static const struct ledger *ledger_of(const char *name)
{
    const struct ledger *ledger = LEDGERS;
    while (ledger < LEDGERS + QUICK && strcmp(ledger->name, name) != 0)
        ledger++;
    return ledger;
}

/* How many steps or look-ups the work has, or 1. */
static size_t steps(enum call call)
{
    return call == LOOKED_UP ? LOOK_UPS : LAID.records == 0 ? 1 : LAID.records;
}

int main(int words, char **word)
{
    for (size_t work = 0; words == 1 && work < HOW_MANY; work++)
        for (enum form form = PLAIN; form <= SLIP; form++)
            if (has_form(WORKS[work].call, form))
                printf("%zu %d %d %s%s\n", work, form, has_quick(WORKS[work].call), WORKS[work].title,
                       WORKS[work].call >= TO_BYTES ? "" : form == PLAIN ? ", plain book" : ", slip book");
    if (words < 5)
        return 0;
    size_t work = strtoull(word[1], NULL, 10) % HOW_MANY;
    enum form form = strcmp(word[2], "0") == 0 ? PLAIN : SLIP;
    lay(WORKS[work].what, form);
    long long spent = repeat(ledger_of(word[3]), WORKS[work].call, form, strtoull(word[4], NULL, 10));
    printf("%zu %lld\n", steps(WORKS[work].call), spent);
    return 0;
}
