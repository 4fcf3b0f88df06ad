#include "works.h"

#include <stdio.h>
#include <stdlib.h>

#include "draw.h"

struct laid LAID;

void fail(const char *why)
{
    printf("%s\n", why);
    exit(1);
}

/* ---- tapes ---- */

static void add(size_t kind, size_t bench, size_t customer, size_t amount)
{
    if (LAID.records == MOST_RECORDS)
        fail("the tape is full");
    struct entry entry = {(uint8_t)kind, (uint8_t)bench, (uint8_t)customer, 0, (uint32_t)amount};
    put_entry(LAID.tape + 8 * LAID.records++, entry);
}

/* What lets a bench clear once. */
static void add_handshake(size_t bench)
{
    add(7, bench, 0, 0);
    add(8, bench, 0, 0);
}

/* A step of this kind for everybody that it may concern, some times over. */
static void each(size_t kind, size_t rounds, size_t amount)
{
    int no_bench = kind == 1 || kind == 4 || kind == 10, no_customer = kind == 2 || kind == 5 || kind == 7 || kind == 8;
    for (size_t round = 0; round < rounds; round++)
        for (size_t bench = 0; bench < (no_bench ? 1 : GS_BENCHES); bench++)
            for (size_t customer = 0; customer < (no_customer ? 1 : GS_CUSTOMERS); customer++)
                add(kind, bench, customer, amount);
}

static void everybody_joins(void)
{
    each(1, 1, 10000);
    each(2, 1, 0);
    each(3, 1, 0);
}

/* Work begins with its list; nothing is left on the tape of the one before. */
static void list(size_t n)
{
    LAID.records = 0;
    LAID.listed = n;
    for (size_t i = 0; i < n; i++)
        LAID.tokens[i] = 1000 + (uint32_t)i;
}

int all_granted(uint8_t answer)
{
    for (size_t i = 0; i < LAID.records; i++)
        answer |= LAID.verdicts[i];
    return answer == 0;
}

/* The tape so far is how the book came about; now begins the one to be measured. */
static void settle(enum form form)
{
    LEDGERS[HAND].empty(LAID.start, GS_BOOK_WORDS);
    if (!all_granted(run_laid(&LEDGERS[HAND], form, LAID.start, LAID.records)))
        fail("the book can't come about so");
    LAID.records = 0;
}

/* ---- what the work is about ---- */

/* As many steps of one kind as are granted one after the other, in a full hall. */
static void lay_kind(size_t kind, enum form form)
{
    static const size_t rounds[] = {0, 1, 1, 1, 8, 16, 2, 32, 0, 0, 8}, amounts[] = {0, 10000, 0, 0, 2, 8, 2, 0, 0, 0, 2};
    list(kind <= 3 ? 0 : 1200);
    if (kind >= 3) {
        each(1, 1, 10000);
        each(2, 1, 0);
    }
    if (kind > 3)
        each(3, 1, 0);
    if (kind == 6)
        each(4, 1, 32);
    if (kind == 7)
        each(5, 1, 32);
    settle(form);
    each(kind, rounds[kind], amounts[kind]);
}

/* The desk's authentications, one for each bench, as each needs the bench's own before it. The tills have 3, 7, 11 .. 31
   tokens: on average 17, where the benches' authentications, which empty every till, find 16.5. */
static void lay_desks(enum form form)
{
    list(1200);
    everybody_joins();
    for (size_t bench = 0; bench < GS_BENCHES; bench++)
        add(5, bench, 0, 4 * (bench + 1));
    each(7, 1, 0);
    settle(form);
    each(8, 1, 0);
}

/* The customer whose line a bench clears, 0 to 15 and 7.5 on average: the higher, the further back in the list a slip's
   token is searched for. */
static size_t cleared(size_t bench)
{
    return 2 * bench + bench % 2;
}

/* One clear of this kind for each bench, as each uses up a handshake. */
static void settle_to_clear(size_t kind, enum form form)
{
    for (size_t bench = 0; bench < GS_BENCHES; bench++)
        add_handshake(bench);
    settle(form);
    for (size_t bench = 0; bench < GS_BENCHES; bench++)
        add(kind, bench, cleared(bench), 0);
}

/* Clears. The line has two sales of 2, and the customer's lines at the benches before this one are cleared: the desk's view of
   the customer has 32, 28, 24 .. 4 tokens. Where what lives is cleared the older sale is dead, and the view has 32, 30 .. 18. */
static void lay_clears(size_t kind, enum form form)
{
    list(kind == 9 ? 1200 : 1280);
    everybody_joins();
    each(4, 1, 32);
    each(6, 1, 2);
    if (kind != 9)
        each(4, 1, 0);
    each(6, 1, 2);
    each(5, 1, 32);
    for (size_t last = 0; last < GS_BENCHES; last++)
        for (size_t bench = 0; bench < last; bench++) {
            add_handshake(bench);
            add(kind, bench, cleared(last), 0);
        }
    settle_to_clear(kind, form);
}

/* Clears again, each of a line with 16 sales of 2, all of them live: no line has more. */
static void lay_long_lines(size_t kind, enum form form)
{
    list(1200);
    everybody_joins();
    each(4, 1, 32);
    for (size_t bench = 0; bench < GS_BENCHES; bench++)
        for (size_t sale = 0; sale < 16; sale++)
            add(6, bench, cleared(bench), 2);
    each(5, 1, 32);
    settle_to_clear(kind, form);
}

/* 24 rounds. A round is a stock of every bench with the 8 tokens that it needs, and for every customer an update, sales of
   1, 2 and 3 at two benches, and at each of the two both authentications and a clear: 4,032 records. */
static void lay_mixed(enum form form)
{
    list(GS_MOST_TOKENS);
    everybody_joins();
    settle(form);
    for (size_t round = 0; round < 24; round++) {
        each(5, 1, 8);
        for (size_t customer = 0; customer < GS_CUSTOMERS; customer++) {
            size_t one = (round + customer) % GS_BENCHES, other = (one + 3) % GS_BENCHES;
            add(4, 0, customer, 6);
            add(6, one, customer, 1);
            add(6, other, customer, 2);
            add(6, one, customer, 3);
            add_handshake(one);
            add(9, one, customer, 0);
            add_handshake(other);
            add(9, other, customer, 0);
        }
    }
}

/* 512 listed; 16 customers with 8 tokens and a line of two sales each; 8 stocked benches. */
static void lay_day(enum form form)
{
    list(512);
    everybody_joins();
    each(4, 1, 8);
    each(5, 1, 4);
    for (size_t customer = 0; customer < GS_CUSTOMERS; customer++) {
        add(6, customer % GS_BENCHES, customer, 1);
        add(6, customer % GS_BENCHES, customer, 2);
    }
    settle(form);
}

static void fill(size_t record, size_t from, size_t sales)
{
    uint32_t *words = LAID.start + GS_RECORD_WORDS * record;
    words[GS_COUNT] = 32;
    words[GS_SALES] = (uint32_t)sales;
    for (size_t i = 0; i < 32; i++)
        words[GS_CELLS + i] = LAID.tokens[from + i];
}

/* 4,096 listed and dealt; views, tills and lines hold 32 each, and so the carnets nothing. A line has 16 sales. */
static void lay_full(enum form form)
{
    list(GS_MOST_TOKENS);
    everybody_joins();
    settle(form);
    LAID.start[GS_WORD(GS_DESK, GS_AMOUNT)] = GS_MOST_TOKENS;
    for (size_t record = GS_CUSTOMER_VIEW(0); record < GS_LINE(0, 0); record++)
        fill(record, 32 * (record - GS_CUSTOMER_VIEW(0)), 0);
    for (size_t line = 0; line < GS_BENCHES * GS_CUSTOMERS; line++) {
        fill(GS_LINE(0, line), 32 * line, 16);
        for (size_t i = 1; i < 32 && form == SLIP; i += 2)
            LAID.start[GS_WORD(GS_LINE(0, line), GS_CELLS + i)] = 2;
    }
    if (LEDGERS[HAND].sound[form](LAID.tokens, LAID.listed, LAID.start, GS_BOOK_WORDS) != 0)
        fail("the full book isn't sound");
}

/* n listed, dealt and sold: by twos, so that a line of 32 tokens has 16 sales. */
static void lay_sold(size_t n, enum form form)
{
    list(n);
    everybody_joins();
    for (size_t customer = 0; 32 * customer < n; customer++) {
        size_t count = n < 32 ? n : 32;
        add(4, 0, customer, count);
        for (size_t sale = 0; sale < count / 2; sale++)
            add(6, customer % GS_BENCHES, customer, 2);
    }
    settle(form);
}

static void index_list(void)
{
    if (LEDGERS[HAND].index_build(LAID.tokens, LAID.listed, LAID.index, GS_INDEX_ENTRIES) != 0)
        fail("the list has no index");
    for (size_t i = 0; i < LOOK_UPS && LAID.listed > 0; i++)
        LAID.numbers[i] = LAID.tokens[i % LAID.listed];
}

static void lay_book(size_t what, enum form form)
{
    switch (what) {
    case MIXED:
        lay_mixed(form);
        break;
    case 8:
        lay_desks(form);
        break;
    case 9:
    case 11:
        lay_clears(what, form);
        break;
    case FULL:
        lay_full(form);
        break;
    case DAY:
        lay_day(form);
        break;
    case LONG_LINES:
        lay_long_lines(9, form);
        break;
    case LONG_LIVING:
        lay_long_lines(11, form);
        break;
    case SOLD_16:
        lay_sold(16, form);
        break;
    case SOLD_512:
        lay_sold(512, form);
        break;
    default:
        lay_kind(what, form);
    }
}

void lay(size_t what, enum form form)
{
    lay_book(what, form);
    index_list();
}
