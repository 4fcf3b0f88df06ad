#include "hold.h"

#include <stdio.h>
#include <stdlib.h>
#include <string.h>

struct lent LENT[2];
struct standing STANDING;

void share(void)
{
    LENT[PROVED] = LENT[HAND];
}

/* ---- the report ---- */

static const struct {
    const char *name;
    size_t offset, size, width;
} PARTS[] = {
#define PART(name) {#name, offsetof(struct lent, name), sizeof LENT->name, sizeof LENT->name[0]}
    PART(before), PART(tokens),   PART(book),    PART(opened), PART(fields), PART(numbers), PART(places), PART(index),
    PART(tape),   PART(verdicts), PART(seconds), PART(bytes),  PART(part),   PART(after),
#undef PART
};

static void report(const char *call, const char *what, size_t place)
{
    printf("seed %llu, case %zu, ", (unsigned long long)STANDING.seed, STANDING.number);
    if (STANDING.step >= 0)
        printf("step %ld, ", STANDING.step);
    printf("%s book, %s: %s", STANDING.form == PLAIN ? "plain" : "slip", call, what);
    if (place != NO_PLACE)
        printf(" [%zu]", place);
}

void differs(const char *call, const char *what, size_t place, size_t hand, size_t proved)
{
    report(call, what, place);
    printf(" differs: hand %zu, proved %zu\n", hand, proved);
    exit(1);
}

void disagrees(const char *things, const char *what, size_t place, size_t first, size_t second)
{
    report(things, what, place);
    printf(" differs: first %zu, then %zu\n", first, second);
    exit(1);
}

static size_t cell(const struct lent *b, size_t part, size_t place)
{
    const uint8_t *at = (const uint8_t *)b + PARTS[part].offset + place * PARTS[part].width;
    switch (PARTS[part].width) {
    case 1:
        return *at;
    case 2:
        return *(const uint16_t *)at;
    default:
        return *(const uint32_t *)at;
    }
}

/* Has the first cell in which two differ reported. */
static void report_cell(const char *call, const struct lent *left, const struct lent *right,
                        void (*differ)(const char *, const char *, size_t, size_t, size_t))
{
    for (size_t part = 0; part < sizeof PARTS / sizeof PARTS[0]; part++)
        for (size_t place = 0; place < PARTS[part].size / PARTS[part].width; place++)
            if (cell(left, part, place) != cell(right, part, place))
                differ(call, PARTS[part].name, place, cell(left, part, place), cell(right, part, place));
}

static int same(size_t hand, size_t proved)
{
    return hand == proved && memcmp(&LENT[HAND], &LENT[PROVED], sizeof LENT[0]) == 0;
}

/* The numbers that were answered, by a name for the report, and all that was lent. */
static void hold(const char *call, const char *what, size_t hand, size_t proved)
{
    if (same(hand, proved))
        return;
    if (hand != proved)
        differs(call, what, NO_PLACE, hand, proved);
    report_cell(call, &LENT[HAND], &LENT[PROVED], differs);
}

/* The quick ledger has to answer and leave what the plain one does, on a copy of what that was lent. */
static void hold_quick(const char *call, const struct lent *copy, size_t hand, size_t quick)
{
    if (quick != hand)
        disagrees(call, "answer", NO_PLACE, hand, quick);
    if (memcmp(&LENT[HAND], copy, sizeof *copy) != 0)
        report_cell(call, &LENT[HAND], copy, disagrees);
}

/* ---- the calls ---- */

/* One call to each ledger; l is its table and b what it was lent. */
#define ASK(type, expression)                        \
    type said[2];                                    \
    for (int side = HAND; side <= PROVED; side++) {  \
        const struct ledger *l = &LEDGERS[side];     \
        struct lent *b = &LENT[side];                \
        said[side] = expression;                     \
    }

#define BOTH(name, type, expression)                 \
    ASK(type, expression)                            \
    hold(name, "answer", said[HAND], said[PROVED]);  \
    return said[HAND]

uint8_t both_empty(struct counts c)
{
    BOTH("empty", uint8_t, l->empty(b->book, c.book));
}

uint8_t both_sound(enum form form, struct counts c)
{
    BOTH("sound", uint8_t, l->sound[form](b->tokens, c.tokens, b->book, c.book));
}

static uint16_t step(const struct ledger *l, struct lent *b, enum form form, struct counts c, struct entry e)
{
    return l->step[form](b->tokens, c.tokens, b->book, c.book, e.kind, e.bench, e.customer, e.zero, e.amount);
}

/* Both of its numbers, each by itself, so that the report says which of them differs. */
uint16_t both_step(enum form form, struct counts c, struct entry e)
{
    static struct lent copy;
    copy = LENT[HAND];
    ASK(uint16_t, step(l, b, form, c, e))
    hold("step", "verdict", GS_VERDICT(said[HAND]), GS_VERDICT(said[PROVED]));
    hold("step", "second number", GS_SECOND(said[HAND]), GS_SECOND(said[PROVED]));
    hold_quick("step, plain and quick", &copy, said[HAND], step(&LEDGERS[QUICK], &copy, form, c, e));
    return said[HAND];
}

uint8_t both_open(struct counts c)
{
    BOTH("open", uint8_t, l->open(b->tokens, c.tokens, b->book, c.book, b->opened, c.opened));
}

#define ALL(name, expression)                                            \
    static struct lent copy;                                             \
    copy = LENT[HAND];                                                   \
    ASK(uint8_t, expression)                                             \
    hold(name, "answer", said[HAND], said[PROVED]);                      \
    const struct ledger *l = &LEDGERS[QUICK];                            \
    struct lent *b = &copy;                                              \
    hold_quick(name ", plain and quick", &copy, said[HAND], expression); \
    return said[HAND]

uint8_t both_index_build(struct counts c)
{
    ALL("index_build", l->index_build(b->tokens, c.tokens, b->index, c.index));
}

uint8_t both_index_check(struct counts c)
{
    ALL("index_check", l->index_check(b->tokens, c.tokens, b->index, c.index));
}

uint8_t both_index_places(struct counts c)
{
    ALL("index_places", l->index_places(b->tokens, c.tokens, b->index, c.index, b->numbers, c.numbers, b->places, c.places));
}

uint8_t both_open_indexed(struct counts c)
{
    ALL("open_indexed",
        l->open_indexed(b->tokens, c.tokens, b->index, c.index, b->book, c.book, b->opened, c.opened));
}

uint8_t both_to_bytes(struct counts c)
{
    BOTH("to_bytes", uint8_t, l->to_bytes(b->book, c.book, b->bytes, c.bytes));
}

uint8_t both_from_bytes(struct counts c)
{
    BOTH("from_bytes", uint8_t, l->from_bytes(b->bytes, c.bytes, b->book, c.book));
}

uint8_t both_read(struct counts c, size_t at)
{
    BOTH("read", uint8_t, l->read(b->tape, c.tape, at, b->fields, c.fields));
}

size_t both_read_next(struct counts c, size_t at)
{
    BOTH("read_next", size_t, l->read_next(b->tape, c.tape, at));
}

uint8_t both_write(struct counts c, struct entry e)
{
    BOTH("write", uint8_t, l->write(e.kind, e.bench, e.customer, e.zero, e.amount, b->part, c.part));
}

static uint8_t run(const struct ledger *l, struct lent *b, enum form form, struct counts c)
{
    return l->run[form](b->tokens, c.tokens, b->book, c.book, b->tape, c.tape, b->verdicts, c.verdicts, b->seconds,
                        c.seconds);
}

static uint8_t run_side(int side, enum form form, struct counts c)
{
    return run(&LEDGERS[side], &LENT[side], form, c);
}

/* A run that differs is made again over the first record, the first two and so on, so that the report names the step. */
static void find_step(enum form form, struct counts c, const struct lent *start)
{
    for (size_t count = 1; count <= c.verdicts && 8 * count <= c.tape; count++) {
        struct counts some = c;
        some.tape = 8 * count;
        some.verdicts = some.seconds = count;
        LENT[HAND] = LENT[PROVED] = *start;
        STANDING.step = (long)count - 1;
        uint8_t hand = run_side(HAND, form, some);
        hold("run", "answer", hand, run_side(PROVED, form, some));
    }
    LENT[HAND] = LENT[PROVED] = *start;
    STANDING.step = -1;
}

uint8_t both_run(enum form form, struct counts c)
{
    static struct lent start;
    start = LENT[HAND];
    uint8_t hand = run_side(HAND, form, c), proved = run_side(PROVED, form, c);
    if (same(hand, proved)) {
        hold_quick("run, plain and quick", &start, hand, run(&LEDGERS[QUICK], &start, form, c));
        return hand;
    }
    find_step(form, c, &start);
    hand = run_side(HAND, form, c);
    proved = run_side(PROVED, form, c);
    hold("run", "answer", hand, proved);
    disagrees("run", "what was done twice", NO_PLACE, hand, proved);
}
