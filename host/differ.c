/* Holds the proved library against the ledger written by hand, from a seed.

       differ SEED CASES

   Each case draws a list, an index, a book of either form, a tape and lengths; every call is made to both, and verdicts,
   second numbers, answers and all lent cells are compared. It ends with status 1 at the first difference, or if a number that can
   be answered never was: a test that idles must not pass. */
#include <stdio.h>
#include <stdlib.h>
#include <string.h>

#include "draw.h"
#include "hold.h"

static const struct counts RIGHT = {0, GS_BOOK_WORDS, GS_BOOK_WORDS, 0, 0, 0, GS_BOOK_BYTES, 5, 8, GS_INDEX_ENTRIES, 0, 0};

/* ---- how often each number was answered ---- */

enum { NUMBERS = 18 };
enum tally {
    PLAIN_STEPS, SLIP_STEPS, PLAIN_SOUND, SLIP_SOUND, OPENED, READER, WRITER, STOCKS, HANDSHAKES, CLEARS, TOP_UPS,
    LIVE_CLEARS, PLAIN_PLACES, SLIP_PLACES, WITHIN_SLIPS, PLAIN_DROPPED, SLIP_DROPPED, WHAT_LIVED, IN_PART, ODD_SECONDS,
    BUILT, CHECKED, FOUND, INDEX_OPENED, WAYS, SPOILT,
    TALLIES
};
enum { STOCK = 5, DESK_AUTHENTICATES = 8, CLEAR, TOP_UP, CLEAR_LIVING };

static const struct {
    const char *name;
    uint32_t can; /* a bit for each number that can be answered */
} ANSWERS[TALLIES] = {
    {"plain book", 0x3ffff}, {"slip book", 0x3ffff},   {"plain sound", 3},    {"slip sound", 3},
    {"slips opened", 3},     {"reader", 0x1000d},      {"writer", 0x1000d},   {"stocks", 0x4af},
    {"handshakes", 0x2602f}, {"clears", 0x2806f},      {"top ups", 0xaf},     {"live clears", 0x2006f},
    {"plain places", 7},     {"slip places", 7},       {"within slips", 6},   {"plain drops", 7},
    {"slip drops", 7},       {"what lived", 0xf},      {"in part", 3},        {"odd seconds", 0x10002},
    {"index built", 3},      {"index checked", 3},     {"places found", 3},   {"index opened", 3},
    {"ways", 0x3f},          {"index spoilt", (1 << WAYS_TO_SPOIL) - 1},
};
static const enum tally STEPS[] = {PLAIN_STEPS, SLIP_STEPS}, SOUND[] = {PLAIN_SOUND, SLIP_SOUND};
static const enum tally PLACES[] = {PLAIN_PLACES, SLIP_PLACES}, DROPPED[] = {PLAIN_DROPPED, SLIP_DROPPED};
static size_t tallies[TALLIES][NUMBERS];

static uint8_t tell(enum tally tally, uint8_t answer)
{
    if (answer >= NUMBERS || !(ANSWERS[tally].can >> answer & 1))
        differs(ANSWERS[tally].name, "a number that can't be answered", NO_PLACE, answer, answer);
    tallies[tally][answer]++;
    return answer;
}

/* A second number: the place of a dead token, at most 31, or how many were dropped, at most 32. In the tallies 2 stands for
   every number from there on. */
static void tell_second(enum tally tally, uint8_t second, uint8_t most)
{
    tell(tally, second < 2 ? second : second <= most ? 2 : second);
}

/* The two numbers of a step. Stocks, and in this order the desk's authentications, clears, top ups and clears of what lives,
   are counted by themselves too: other kinds get the same numbers, so the books' tallies wouldn't show it if one of these
   never got what it can get. */
static uint16_t tell_step(enum form form, uint8_t kind, uint16_t answer)
{
    uint8_t verdict = GS_VERDICT(answer), second = GS_SECOND(answer);
    if (kind == STOCK)
        tell(STOCKS, verdict);
    if (kind >= DESK_AUTHENTICATES && kind <= CLEAR_LIVING)
        tell((enum tally)(HANDSHAKES + kind - DESK_AUTHENTICATES), verdict);
    if (tell(STEPS[form], verdict) == 15)
        tell_second(PLACES[form], second, 31);
    else if (kind == CLEAR_LIVING && verdict == 0)
        tell_second(DROPPED[form], second, 32);
    else if (second != 0)
        differs(ANSWERS[STEPS[form]].name, "a second number that says nothing", NO_PLACE, second, second);
    return answer;
}

/* Only a loaded book has a slip that is dead in part, so places past a slip's first token are counted by themselves. */
static void tell_within(const uint32_t *line, uint8_t place)
{
    size_t begins = 0;
    for (size_t slip = 0; slip < line[GS_SALES] && begins < place; slip++)
        begins += line[GS_CELLS + 2 * slip + 1];
    if (begins != place)
        tell_second(WITHIN_SLIPS, place, 31);
}

/* Prints each number with how often it came up; answers whether one never did. */
static int print_tallies(void)
{
    int idle = 0;
    for (int tally = 0; tally < TALLIES; tally++) {
        printf("%-13s", ANSWERS[tally].name);
        for (int number = 0; number < NUMBERS; number++) {
            if (!(ANSWERS[tally].can >> number & 1))
                continue;
            printf("  %d: %zu", number, tallies[tally][number]);
            idle |= tallies[tally][number] == 0;
        }
        printf("\n");
    }
    return idle;
}

/* ---- what a case lends ---- */

/* Whatever stands in lent cells beforehand doesn't matter, so it is drawn too. */
static void lay_junk(void)
{
    uint32_t *words = (uint32_t *)&LENT[HAND];
    for (size_t i = 0; i < sizeof LENT[HAND] / sizeof words[0]; i++)
        words[i] = chance(50) ? 0 : draw_word();
}

static size_t draw_listed(void)
{
    size_t edges[] = {0, 1, GS_MOST_TOKENS, GS_MOST_TOKENS + 1};
    if (chance(1))
        return edges[draw(4)];
    return draw(chance(30) ? 150 : chance(80) ? 500 : 1000);
}

/* The list's first tokens, or all, clash: mostly near the index's end, so that ways go round it. */
static void clash(struct counts c)
{
    size_t first = chance(70) ? GS_INDEX_ENTRIES - 1 - draw(12) : draw(GS_INDEX_ENTRIES);
    draw_clashing(LENT[HAND].tokens, chance(50) ? c.tokens : draw(c.tokens + 1), first, 1 + draw(6) + c.tokens / 50);
}

static void repeat_token(struct counts c)
{
    if (c.tokens >= 2)
        LENT[HAND].tokens[draw(c.tokens)] = LENT[HAND].tokens[draw(c.tokens)];
}

static struct counts with_tape(struct counts c, size_t records)
{
    c.tape = 8 * records;
    c.verdicts = c.seconds = records;
    return c;
}

static size_t draw_wrong(size_t right, size_t room)
{
    size_t wrong[] = {0, 1, right == 0 ? 0 : right - 1, right + 1, draw(room + 1)};
    return wrong[draw(5)];
}

enum { LAST_STOCKS = 34 }; /* of 33 tokens down to none */

/* Draws the tape; answers the counts with its own. Once a list is dealt out most steps are refused, so a tape is mostly
   short where the list is; now and then its last steps are stocks that deal the list out. */
static struct counts lay_tape(struct counts c, int joining)
{
    size_t records = draw(chance(20) ? 4 : chance(15) ? MOST_RECORDS + 1 : 20 + (c.tokens < 500 ? c.tokens : 500) * 3 / 4);
    draw_tape(LENT[HAND].tape, records, joining);
    if (records >= LAST_STOCKS && chance(20))
        draw_stocks(LENT[HAND].tape + 8 * (records - LAST_STOCKS), LAST_STOCKS);
    return with_tape(c, records);
}

/* The hand-written ledger grows the books that are lent. Half of them end with sales that wait: in few lines would there
   be live tokens otherwise. */
static void grow(enum form form, struct counts c)
{
    struct lent *b = &LENT[HAND];
    size_t records = draw(chance(10) ? 5 : 150), sales = chance(50) ? draw(20) : 0;
    LEDGERS[HAND].empty(b->book, GS_BOOK_WORDS);
    draw_tape(b->tape, records, 1);
    draw_sales(b->tape + 8 * records, sales);
    records += sales;
    LEDGERS[HAND].run[form](b->tokens, c.tokens, b->book, GS_BOOK_WORDS, b->tape, 8 * records, b->verdicts, records,
                            b->seconds, records);
    share();
}

static void lend_book(const uint32_t *kept)
{
    memcpy(LENT[HAND].book, kept, sizeof LENT[HAND].book);
    share();
}

static void load_handshake(uint8_t bench, uint32_t handshake)
{
    LENT[HAND].book[GS_WORD(GS_BENCH_VIEW(bench), GS_HANDSHAKE)] = handshake;
    share();
}

/* Makes a sound book one that may never have grown: a change is kept where the book stays sound. */
static void bend(enum form form, struct counts c)
{
    static uint32_t kept[BOOK_ROOM];
    for (size_t changes = draw(40); changes > 0; changes--) {
        memcpy(kept, LENT[HAND].book, sizeof kept);
        bend_book(form, LENT[HAND].tokens, c.tokens, LENT[HAND].book);
        share();
        if (tell(SOUND[form], both_sound(form, c)) != 0)
            lend_book(kept);
    }
}

/* A word or a few changed, again and again from the same book; the last changes stay. */
static void spoil(enum form form, struct counts c)
{
    static uint32_t kept[BOOK_ROOM];
    memcpy(kept, LENT[HAND].book, sizeof kept);
    for (size_t tries = 1 + draw(20); tries > 0; tries--) {
        lend_book(kept);
        for (size_t changes = 1 + draw(chance(80) ? 1 : 4); changes > 0; changes--)
            spoil_book(LENT[HAND].tokens, c.tokens, LENT[HAND].book);
        share();
        tell(SOUND[form], both_sound(form, c));
    }
}

/* ---- what lives ---- */

static int is_in(const uint32_t *view, uint32_t token)
{
    for (size_t cell = 0; cell < view[GS_COUNT]; cell++)
        if (view[GS_CELLS + cell] == token)
            return 1;
    return 0;
}

/* How many of the tokens that a slip of a sound book opens to are in a view. */
static size_t alive(struct counts c, const uint32_t *slip, const uint32_t *view)
{
    const uint32_t *first = LENT[HAND].tokens + place_in(LENT[HAND].tokens, c.tokens, slip[0]);
    size_t found = 0;
    for (size_t i = 0; i < slip[1]; i++)
        found += is_in(view, first[i]);
    return found;
}

/* Whether a line of a sound slip book has a slip that is dead in part. */
static int has_part(struct counts c, const uint32_t *book, size_t bench, size_t customer)
{
    const uint32_t *line = book + GS_WORD(GS_LINE(bench, customer), 0), *slip = line + GS_CELLS;
    for (size_t left = line[GS_SALES]; left > 0; left--, slip += 2) {
        size_t live = alive(c, slip, book + GS_WORD(GS_CUSTOMER_VIEW(customer), 0));
        if (live > 0 && live < slip[1])
            return 1;
    }
    return 0;
}

/* What a granted clear of what lives has done to a book: the line is empty, and each of its tokens was dropped, or went from
   the view and is paid for. Counted are those where nothing waited, all of it lived, some or nothing. */
static void tell_lived(enum form form, struct counts c, const uint32_t *before, struct entry e, size_t dropped)
{
    const uint32_t *book = LENT[HAND].book;
    size_t balance = GS_WORD(GS_BENCH_VIEW(e.bench), GS_AMOUNT), held = GS_WORD(GS_CUSTOMER_VIEW(e.customer), GS_COUNT);
    size_t waiting = GS_WORD(GS_LINE(e.bench, e.customer), GS_COUNT), waited = before[waiting];
    size_t paid = book[balance] - before[balance], struck = before[held] - book[held];
    if (paid != struck)
        disagrees("struck against paid", "tokens", NO_PLACE, struck, paid);
    if (waited != paid + dropped)
        disagrees("what waited against what was paid and dropped", "tokens", NO_PLACE, waited, paid + dropped);
    if (book[waiting] != 0)
        disagrees("what waited against what waits", "tokens", NO_PLACE, waited, book[waiting]);
    tell(WHAT_LIVED, waited == 0 ? 0 : dropped == 0 ? 1 : paid > 0 ? 2 : 3);
    if (form == SLIP)
        tell(IN_PART, (uint8_t)has_part(c, before, e.bench, e.customer));
}

/* ---- the index ---- */

/* A call that should get this number; with a 1 all that was lent is as it was. */
static void expect(enum tally tally, uint8_t (*ask)(struct counts), struct counts c, uint8_t number)
{
    static struct lent start;
    start = LENT[HAND];
    uint8_t answer = tell(tally, ask(c));
    if (answer != number)
        disagrees(ANSWERS[tally].name, "answer", NO_PLACE, number, answer);
    if (answer != 0 && memcmp(&start, &LENT[HAND], sizeof start) != 0)
        disagrees(ANSWERS[tally].name, "what was lent, though refused,", NO_PLACE, 0, answer);
}

/* All that asks for an index is refused with this one. */
static void try_wrong(struct counts c)
{
    expect(CHECKED, both_index_check, c, 1);
    expect(FOUND, both_index_places, c, 1);
    expect(INDEX_OPENED, both_open_indexed, c, 1);
}

/* Counted are tokens by where they are found, at the start of their way, further on or round the end, and then absent numbers
   by where it ends. */
static void tell_way(struct counts c, uint32_t number, size_t place)
{
    size_t start = start_of(number), entry = start;
    while (LENT[HAND].index[entry] != 0 && LENT[HAND].index[entry] != place + 1)
        entry = (entry + 1) % GS_INDEX_ENTRIES;
    tell(WAYS, (uint8_t)((place < c.tokens ? 0 : 3) + (entry == start ? 0 : entry > start ? 1 : 2)));
}

/* Each number's place is the one that a walk along the list finds. */
static void try_places(struct counts c)
{
    c.numbers = c.places = chance(70) ? MOST_NUMBERS : draw(MOST_NUMBERS);
    draw_numbers(LENT[HAND].tokens, c.tokens, LENT[HAND].numbers, c.numbers);
    share();
    expect(FOUND, both_index_places, c, 0);
    for (size_t i = 0; i < c.numbers; i++) {
        size_t place = place_in(LENT[HAND].tokens, c.tokens, LENT[HAND].numbers[i]);
        if (LENT[PROVED].places[i] != place)
            disagrees("walked against looked up", "place", i, place, LENT[PROVED].places[i]);
        tell_way(c, LENT[HAND].numbers[i], place);
    }
}

/* Other lengths: of the index, and of the places alone. */
static void try_index_lengths(struct counts c)
{
    struct counts wrong = c;
    wrong.index = draw_wrong(c.index, INDEX_ROOM);
    if (wrong.index != c.index) {
        expect(BUILT, both_index_build, wrong, 1);
        try_wrong(wrong);
    }
    c.numbers = draw(MOST_NUMBERS + 1);
    c.places = draw_wrong(c.numbers, NUMBERS_ROOM);
    expect(FOUND, both_index_places, c, c.numbers != c.places);
}

/* The index changed in some ways, each time from the right one, which is lent in the end. */
static void try_spoilt(struct counts c, size_t tries)
{
    static uint16_t right[INDEX_ROOM];
    memcpy(right, LENT[HAND].index, sizeof right);
    for (; tries > 0; tries--) {
        tell(SPOILT, (uint8_t)spoil_index(LENT[HAND].tokens, c.tokens, LENT[HAND].index));
        share();
        try_wrong(c);
        memcpy(LENT[HAND].index, right, sizeof right);
        share();
    }
}

/* A bad list has no index, whichever it is given. */
static void try_bad_list(struct counts c)
{
    expect(BUILT, both_index_build, c, 1);
    for (int again = FIRST_ALONE; again <= EACH_TIME; again++) {
        lay_index(LENT[HAND].tokens, c.tokens, LENT[HAND].index, (enum again)again);
        share();
        try_wrong(c);
    }
}

/* Whatever the list is: its index is built, checked, looked up in and spoilt. */
static void try_index(struct counts c, size_t spoilt)
{
    static uint16_t laid[GS_INDEX_ENTRIES];
    size_t different = 0;
    while (different < c.tokens && place_in(LENT[HAND].tokens, different, LENT[HAND].tokens[different]) == different)
        different++;
    share();
    if (c.tokens > GS_MOST_TOKENS || different < c.tokens) {
        try_bad_list(c);
        return;
    }
    expect(BUILT, both_index_build, c, 0);
    lay_index(LENT[HAND].tokens, c.tokens, laid, EACH_TIME);
    for (size_t entry = 0; entry < GS_INDEX_ENTRIES; entry++)
        if (LENT[PROVED].index[entry] != laid[entry])
            disagrees("laid against built", "index", entry, laid[entry], LENT[PROVED].index[entry]);
    expect(CHECKED, both_index_check, c, 0);
    try_places(c);
    try_index_lengths(c);
    try_spoilt(c, spoilt);
}

/* Opens the book; then with the index of its list, if that is good, by which the same comes of it, or with a spoilt one. What
   was opened is turned round before, so that it shows whether it is written again. */
static uint8_t try_open(struct counts c)
{
    static uint32_t opened[BOOK_ROOM];
    uint8_t answer = tell(OPENED, both_open(c));
    memcpy(opened, LENT[HAND].opened, sizeof opened);
    for (size_t i = 0; i < BOOK_ROOM; i++)
        LENT[HAND].opened[i] = ~opened[i];
    lay_index(LENT[HAND].tokens, c.tokens, LENT[HAND].index, (enum again)draw(3));
    share();
    if (c.tokens <= 1000 && chance(20))
        try_spoilt(c, 1);
    expect(INDEX_OPENED, both_open_indexed, c, answer);
    for (size_t i = 0; answer == 0 && i < GS_BOOK_WORDS; i++)
        if (LENT[HAND].opened[i] != opened[i])
            disagrees("opened by the list and by the index", "book", i, opened[i], LENT[HAND].opened[i]);
    memcpy(LENT[HAND].opened, opened, sizeof opened);
    share();
    return answer;
}

/* ---- runs and steps ---- */

static uint16_t try_step(enum form form, struct counts c, struct entry e)
{
    static uint32_t before[BOOK_ROOM];
    memcpy(before, LENT[HAND].book, sizeof before);
    uint16_t answer = tell_step(form, e.kind, both_step(form, c, e));
    if (form == SLIP && GS_VERDICT(answer) == 15)
        tell_within(before + GS_WORD(GS_LINE(e.bench, e.customer), 0), GS_SECOND(answer));
    if (e.kind == CLEAR_LIVING && GS_VERDICT(answer) == 0)
        tell_lived(form, c, before, e, GS_SECOND(answer));
    return answer;
}

/* What a run wrote for a record, as a step answers it. */
static uint16_t written(const struct lent *b, size_t record)
{
    return (uint16_t)(b->seconds[record] << 8 | b->verdicts[record]);
}

/* A refused run writes nothing. Runs where the second buffer alone has another length are counted by themselves. */
static uint8_t tell_run(enum form form, struct counts c)
{
    static struct lent start;
    start = LENT[HAND];
    uint8_t answer = tell(STEPS[form], both_run(form, c));
    if (c.tape == 8 * c.verdicts && c.seconds != c.verdicts)
        tell(ODD_SECONDS, answer);
    if (answer != 0 && memcmp(&start, &LENT[HAND], sizeof start) != 0)
        disagrees("a refused run", "what was lent", NO_PLACE, 0, answer);
    for (size_t i = 0; answer == 0 && i < c.verdicts; i++)
        tell_step(form, LENT[HAND].tape[8 * i], written(&LENT[HAND], i));
    return answer;
}

/* Both numbers of two answers that should be the same. */
static void agree(const char *things, size_t place, uint16_t first, uint16_t then)
{
    if (GS_VERDICT(first) != GS_VERDICT(then))
        disagrees(things, "verdict", place, GS_VERDICT(first), GS_VERDICT(then));
    if (first != then)
        disagrees(things, "second number", place, GS_SECOND(first), GS_SECOND(then));
}

static struct entry entry_read(void)
{
    const uint32_t *fields = LENT[HAND].fields;
    return (struct entry){(uint8_t)fields[0], (uint8_t)fields[1], (uint8_t)fields[2], (uint8_t)fields[3], fields[4]};
}

/* The tape through the reader, step by step; then a run from the same start has to say and leave the same. */
static uint8_t try_steps(enum form form, struct counts c)
{
    static struct lent start, stepped;
    start = LENT[HAND];
    for (size_t i = 0, at = 0; i < c.verdicts; i++, at = both_read_next(c, at)) {
        STANDING.step = (long)i;
        tell(READER, both_read(c, at));
        uint16_t said = try_step(form, c, entry_read());
        stepped.verdicts[i] = GS_VERDICT(said);
        stepped.seconds[i] = GS_SECOND(said);
    }
    STANDING.step = -1;
    memcpy(stepped.book, LENT[HAND].book, sizeof stepped.book);
    LENT[HAND] = LENT[PROVED] = start;
    uint8_t answer = tell_run(form, c);
    for (size_t i = 0; i < c.verdicts; i++)
        agree("step against run", i, written(&stepped, i), answer ? answer : written(&LENT[HAND], i));
    for (size_t i = 0; i < GS_BOOK_WORDS; i++)
        if (stepped.book[i] != LENT[HAND].book[i])
            disagrees("step against run", "book", i, stepped.book[i], LENT[HAND].book[i]);
    return answer;
}

static uint8_t try_tape(enum form form, struct counts c)
{
    STANDING.form = form;
    return c.tokens <= 1000 && chance(20) ? try_steps(form, c) : tell_run(form, c);
}

/* One tape in a slip book that is sound, or empty over any list, and in the plain book that it opens to: verdicts and second
   numbers are the same, and the one opens to the other again. Answers what the runs did. */
static uint8_t try_both_forms(struct counts c)
{
    static struct lent plain;
    static uint32_t slips[BOOK_ROOM];
    memcpy(slips, LENT[HAND].book, sizeof slips);
    if (try_open(c) == 0)
        lend_book(LENT[HAND].opened);
    uint8_t answer = try_tape(PLAIN, c);
    plain = LENT[HAND];
    lend_book(slips);
    uint8_t slip_answer = try_tape(SLIP, c);
    if (slip_answer != answer)
        disagrees("plain against slip", "answer", NO_PLACE, answer, slip_answer);
    if (answer != 0)
        return answer;
    for (size_t i = 0; i < c.verdicts; i++)
        agree("plain against slip", i, written(&plain, i), written(&LENT[HAND], i));
    try_open(c);
    for (size_t i = 0; i < GS_BOOK_WORDS; i++)
        if (plain.book[i] != LENT[HAND].opened[i])
            disagrees("plain against slip", "book", i, plain.book[i], LENT[HAND].opened[i]);
    return 0;
}

/* From empty; then no slip is dead in part. */
static void try_from_empty(struct counts c)
{
    c = lay_tape(c, chance(98));
    share();
    both_empty(c);
    if (try_both_forms(c) != 0)
        return;
    for (size_t line = 0; line < GS_BENCHES * GS_CUSTOMERS; line++)
        if (has_part(c, LENT[HAND].book, line / GS_CUSTOMERS, line % GS_CUSTOMERS))
            disagrees("a book that began empty", "a slip that is dead in part", line, 0, 1);
}

/* A run that gets this number and no verdicts. */
static void try_refused(enum form form, struct counts c, uint8_t number)
{
    uint8_t answer = tell_run(form, c);
    if (answer != number)
        disagrees("a run to be refused", "answer", NO_PLACE, number, answer);
}

/* A run with another length of the second buffer alone, on a book that is sound where this is 0: 1 comes before 16. */
static void try_odd_seconds(enum form form, struct counts c, uint8_t unsound)
{
    c.seconds = draw_wrong(c.verdicts, TAPE_ROOM);
    if (c.seconds != c.verdicts)
        try_refused(form, c, unsound ? 1 : 16);
}

/* A clear of either kind, with a handshake loaded for it; then the book is lent as it was. */
static uint16_t try_clear(enum form form, struct counts c, uint8_t kind, uint8_t bench, uint8_t customer)
{
    static uint32_t kept[BOOK_ROOM];
    memcpy(kept, LENT[HAND].book, sizeof kept);
    load_handshake(bench, 2);
    uint16_t answer = try_step(form, c, (struct entry){kind, bench, customer, 0, 0});
    lend_book(kept);
    return answer;
}

/* Each line that waits is cleared from the same book: the tills of a bent book are seldom good for a handshake, so that tapes
   alone would come to few of its lines. */
static void try_clears(enum form form, struct counts c)
{
    for (uint8_t line = 0; line < GS_BENCHES * GS_CUSTOMERS; line++) {
        uint8_t bench = line / GS_CUSTOMERS, customer = line % GS_CUSTOMERS;
        if (LENT[HAND].book[GS_WORD(GS_LINE(bench, customer), GS_COUNT)] == 0)
            continue;
        try_clear(form, c, CLEAR, bench, customer);
        try_clear(form, c, CLEAR_LIVING, bench, customer);
    }
}

/* A loaded book: is it sound in either form, what does it open to, and what does a tape do to it. */
static void try_loaded(struct counts c, int spoilt)
{
    enum form form = STANDING.form = (enum form)draw(2);
    grow(form, c);
    if (!spoilt || chance(50))
        bend(form, c);
    if (spoilt)
        spoil(form, c);
    else if (c.tokens <= 1000)
        try_clears(form, c);
    c = lay_tape(c, chance(40));
    share();
    uint8_t plain = tell(PLAIN_SOUND, both_sound(PLAIN, c)), slip = tell(SLIP_SOUND, both_sound(SLIP, c));
    try_open(c);
    try_odd_seconds(form, c, form == PLAIN ? plain : slip);
    if (form == SLIP && slip == 0)
        try_both_forms(c);
    else
        try_tape(form, c);
    tell(SOUND[form], both_sound(form, c));
}

/* ---- lengths, bytes, reader and writer ---- */

static size_t draw_count(size_t right, size_t room)
{
    return chance(75) ? right : draw_wrong(right, room);
}

static struct counts draw_counts(struct counts c)
{
    return (struct counts){
        draw_count(c.tokens, 600),       draw_count(c.book, BOOK_ROOM),     draw_count(c.opened, BOOK_ROOM),
        draw_count(c.tape, TAPE_ROOM),   draw_count(c.verdicts, TAPE_ROOM), draw_count(c.seconds, TAPE_ROOM),
        draw_count(c.bytes, BYTES_ROOM), draw_count(c.fields, SMALL_ROOM),  draw_count(c.part, SMALL_ROOM),
        draw_count(c.index, INDEX_ROOM), draw_count(c.numbers, NUMBERS_ROOM), draw_count(c.places, NUMBERS_ROOM),
    };
}

static void try_counts(struct counts c)
{
    enum form form = STANDING.form = (enum form)draw(2);
    grow(form, c);
    c = lay_tape(c, 0);
    lay_index(LENT[HAND].tokens, c.tokens, LENT[HAND].index, EACH_TIME);
    c.numbers = c.places = draw(MOST_NUMBERS + 1);
    draw_numbers(LENT[HAND].tokens, c.tokens, LENT[HAND].numbers, c.numbers);
    share();
    for (int tries = 0; tries < 6; tries++) {
        tell(SOUND[form], both_sound(form, draw_counts(c)));
        tell(OPENED, both_open(draw_counts(c)));
        tell(CHECKED, both_index_check(draw_counts(c)));
        tell(FOUND, both_index_places(draw_counts(c)));
        tell(INDEX_OPENED, both_open_indexed(draw_counts(c)));
        tell_run(form, draw_counts(c));
        try_step(form, draw_counts(c), draw_entry());
        both_to_bytes(draw_counts(c));
        tell(READER, both_read(draw_counts(c), draw(c.tape + 9)));
        tell(WRITER, both_write(draw_counts(c), draw_entry()));
    }
    for (int tries = 0; tries < 6; tries++) {
        both_empty(draw_counts(c));
        both_from_bytes(draw_counts(c));
        tell(BUILT, both_index_build(draw_counts(c)));
    }
}

/* There and back, from words and from bytes; a book needn't be sound. */
static void try_bytes(struct counts c)
{
    static struct lent start;
    share();
    start = LENT[HAND];
    both_to_bytes(c);
    both_from_bytes(c);
    if (memcmp(start.book, LENT[HAND].book, sizeof start.book) != 0)
        disagrees("to bytes and back", "the book", NO_PLACE, 0, 0);
    LENT[HAND] = LENT[PROVED] = start;
    both_from_bytes(c);
    both_to_bytes(c);
    if (memcmp(start.bytes, LENT[HAND].bytes, sizeof start.bytes) != 0)
        disagrees("from bytes and back", "the bytes", NO_PLACE, 0, 0);
}

static void try_reader(struct counts c)
{
    size_t records = draw(20);
    draw_tape(LENT[HAND].tape, records, 0);
    share();
    c.tape = 8 * records + draw(8);
    for (int tries = 0; tries < 10; tries++) {
        size_t far = (size_t)draw_word() << draw(33);
        size_t places[] = {draw(c.tape + 20), 8 * draw(records + 2), SIZE_MAX - draw(20), far}, at = places[draw(4)];
        tell(READER, both_read(c, at));
        both_read_next(c, at);
    }
}

/* What was written is read back the same. */
static void try_writer(struct counts c)
{
    struct entry entry = draw_entry();
    share();
    if (tell(WRITER, both_write(c, entry)) != 0)
        return;
    memcpy(LENT[HAND].tape, LENT[HAND].part, 8);
    share();
    c.tape = 8;
    struct entry back = (tell(READER, both_read(c, 0)), entry_read());
    if (memcmp(&entry, &back, sizeof entry) != 0)
        disagrees("written and read", "an entry of this kind", NO_PLACE, entry.kind, back.kind);
}

/* ---- the worked example ---- */

/* Document 01's listing with both authentications before its clear, and what each step gets. */
enum { EXAMPLE_STEPS = 14, EXAMPLE_TOKENS = 12 };
static const struct entry EXAMPLE[EXAMPLE_STEPS] = {
    {1, 0, 3, 0, 9}, {2, 1, 0, 0, 0}, {3, 1, 3, 0, 0}, {4, 0, 3, 0, 5}, {6, 1, 3, 0, 2}, {5, 1, 0, 0, 2}, {6, 1, 3, 0, 4},
    {7, 1, 0, 0, 0}, {8, 1, 0, 0, 0}, {9, 1, 3, 0, 0}, {4, 0, 3, 0, 0}, {4, 0, 3, 0, 5}, {4, 0, 3, 0, 1}, {7, 1, 0, 0, 0}};
static const uint8_t EXAMPLE_VERDICTS[EXAMPLE_STEPS] = {0, 0, 0, 0, 0, 0, 11, 0, 0, 0, 0, 8, 10, 13};

/* Words of the book afterwards: customer 3 has a budget of 4 and 3 tokens, bench 1 a balance of 2 and an empty till; its
   handshake is used up, and nothing waits. */
static const size_t EXAMPLE_WORDS[][2] = {
    {GS_WORD(GS_CUSTOMER_VIEW(3), GS_AMOUNT), 4}, {GS_WORD(GS_CUSTOMER_VIEW(3), GS_COUNT), 3},
    {GS_WORD(GS_CARNET(3), GS_COUNT), 3},         {GS_WORD(GS_BENCH_VIEW(1), GS_AMOUNT), 2},
    {GS_WORD(GS_BENCH_VIEW(1), GS_HANDSHAKE), 0}, {GS_WORD(GS_BENCH_VIEW(1), GS_COUNT), 0},
    {GS_WORD(GS_TILL(1), GS_COUNT), 0},           {GS_WORD(GS_LINE(1, 3), GS_COUNT), 0},
};

static void try_example(enum form form)
{
    struct counts c = with_tape(RIGHT, EXAMPLE_STEPS);
    c.tokens = EXAMPLE_TOKENS;
    for (uint32_t i = 0; i < EXAMPLE_TOKENS; i++)
        LENT[HAND].tokens[i] = 21 + i;
    for (size_t i = 0; i < EXAMPLE_STEPS; i++)
        put_entry(LENT[HAND].tape + 8 * i, EXAMPLE[i]);
    share();
    both_empty(c);
    try_steps(form, c);
    for (size_t i = 0; i < EXAMPLE_STEPS; i++)
        if (LENT[PROVED].verdicts[i] != EXAMPLE_VERDICTS[i])
            differs("worked example", "verdict", i, EXAMPLE_VERDICTS[i], LENT[PROVED].verdicts[i]);
    for (size_t i = 0; i < sizeof EXAMPLE_WORDS / sizeof EXAMPLE_WORDS[0]; i++) {
        size_t place = EXAMPLE_WORDS[i][0], expected = EXAMPLE_WORDS[i][1];
        if (LENT[PROVED].book[place] != expected)
            differs("worked example", "book", place, expected, LENT[PROVED].book[place]);
    }
}

/* ---- every number, whatever the seed ---- */

/* The steps of two customers and a bench, and of one of each that never joins, and what they get: the numbers that a book
   grown from empty answers. Who they are is drawn. The two have joined with 59 and may have 2,000,000 together, so that one
   is topped up to more than anybody may join with, and trades on. The other's updates kill what waits in the line, and
   further sales stand before it. In the end the first has 32 tokens, all of which wait, in two sales, and none is left. */
enum { FIRST = 100, SECOND, NOBODY, BENCH, NO_BENCH };
enum { TOUR_TOKENS = 103 }; /* as many as are dealt in the end */
#define DEAD_AT(place) (15 | (place) << 8)
#define DROPS(tokens) ((tokens) << 8)
#define BY_BENCH(answer) {{7, BENCH, 0, 0, 0}, 1, answer}
#define BY_DESK(answer) {{8, BENCH, 0, 0, 0}, 1, answer}
#define CLEAR_OF(customer, answer) {{9, BENCH, customer, 0, 0}, 1, answer}
#define LIVING_OF(customer, answer) {{11, BENCH, customer, 0, 0}, 1, answer}
#define UPDATE_OF(customer, amount) {{4, 0, customer, 0, amount}, 1, 0}
#define SALE_OF(customer, amount) {{6, BENCH, customer, 0, amount}, 1, 0}
#define STOCK_OF(amount, answer) {{5, BENCH, 0, 0, amount}, 1, answer}
static const struct {
    struct entry entry;
    uint8_t times;
    uint16_t answer;
} TOUR[] = {
    {{1, 0, FIRST, 0, 50}, 1, 0},  {{1, 0, FIRST, 0, 50}, 1, 4},     {{2, BENCH, 0, 0, 0}, 1, 0},
    {{1, 0, SECOND, 0, 9}, 1, 0},  {{4, 0, NOBODY, 0, 1}, 1, 5},     {{6, BENCH, FIRST, 0, 0}, 1, 6},
    {{8, NO_BENCH, 0, 0, 0}, 1, 5}, {{5, NO_BENCH, 0, 0, 33}, 1, 5}, CLEAR_OF(NOBODY, 5), CLEAR_OF(FIRST, 6),
    LIVING_OF(NOBODY, 5), LIVING_OF(FIRST, 6),
    {{3, BENCH, FIRST, 0, 0}, 1, 0}, {{3, BENCH, SECOND, 0, 0}, 1, 0}, {{1, 0, NOBODY, 0, 1000001}, 1, 7},
    {{4, 0, FIRST, 0, 51}, 1, 8},  {{4, 0, FIRST, 0, 33}, 1, 9},     {{4, 0, FIRST, 0, 17}, 1, 0},
    {{6, BENCH, FIRST, 0, 18}, 1, 11}, {{6, BENCH, FIRST, 0, 1}, 16, 0}, {{6, BENCH, FIRST, 0, 1}, 1, 12},
    {{4, 0, SECOND, 0, 2}, 1, 0},  {{6, BENCH, SECOND, 0, 1}, 1, 0},

    /* With an empty till: no handshake, where 17 comes before 13, then half of one. */
    BY_BENCH(13), BY_DESK(17), CLEAR_OF(FIRST, 17),
    STOCK_OF(1, 0), BY_DESK(17), BY_BENCH(0), BY_DESK(13), CLEAR_OF(FIRST, 17),
    /* A stock undoes the half. The bench may begin again whenever it likes; the desk can't do its part twice. */
    STOCK_OF(9, 0), BY_DESK(17), BY_BENCH(0), BY_BENCH(0), BY_DESK(0), BY_DESK(17),
    BY_BENCH(0), CLEAR_OF(FIRST, 17), BY_DESK(0),
    /* A stock undoes the whole too, even one of nothing, but not one that is refused. */
    STOCK_OF(0, 0), CLEAR_OF(FIRST, 17), STOCK_OF(4, 0), BY_BENCH(0), BY_DESK(0), STOCK_OF(33, 7), CLEAR_OF(FIRST, 0),
    /* A clear uses it up for all lines. The next one is of the till's last two tokens. */
    CLEAR_OF(SECOND, 17), BY_DESK(17), BY_BENCH(0), BY_DESK(0), BY_BENCH(13), BY_DESK(17),
    CLEAR_OF(SECOND, 0), CLEAR_OF(SECOND, 17),
    /* So does the clear of an empty line; a clear that is refused leaves it. */
    STOCK_OF(2, 0), BY_BENCH(0), BY_DESK(0), CLEAR_OF(SECOND, 0), CLEAR_OF(FIRST, 17),
    STOCK_OF(8, 0), BY_BENCH(0), BY_DESK(0),

    {{6, BENCH, SECOND, 0, 1}, 1, 0}, {{4, 0, SECOND, 0, 0}, 1, 0},  CLEAR_OF(SECOND, DEAD_AT(0)),
    {{6, BENCH, SECOND, 0, 1}, 1, 0}, CLEAR_OF(SECOND, DEAD_AT(1)),  {{4, 0, SECOND, 0, 2}, 1, 0},
    {{6, BENCH, SECOND, 0, 3}, 1, 0}, CLEAR_OF(SECOND, DEAD_AT(3)),
    BY_BENCH(0), CLEAR_OF(SECOND, 17), BY_DESK(0),

    /* Three of the five live. The line is empty then, and clearing what lives of it needs a handshake too, and uses it up. */
    LIVING_OF(SECOND, DROPS(2)), LIVING_OF(SECOND, 17), BY_BENCH(0), LIVING_OF(SECOND, 17), BY_DESK(0),
    LIVING_OF(SECOND, 0), CLEAR_OF(SECOND, 17),
    /* Of two none lives; then the one that waits does; then it doesn't. */
    UPDATE_OF(SECOND, 2), SALE_OF(SECOND, 2), UPDATE_OF(SECOND, 0), BY_BENCH(0), BY_DESK(0), LIVING_OF(SECOND, DROPS(2)),
    STOCK_OF(8, 0), SALE_OF(SECOND, 1), BY_BENCH(0), BY_DESK(0), LIVING_OF(SECOND, 0),
    SALE_OF(SECOND, 1), UPDATE_OF(SECOND, 0), BY_BENCH(0), BY_DESK(0), LIVING_OF(SECOND, DROPS(1)),
    /* Once more three live tokens before two dead ones. */
    SALE_OF(SECOND, 1), UPDATE_OF(SECOND, 0), SALE_OF(SECOND, 1), UPDATE_OF(SECOND, 2), SALE_OF(SECOND, 3),
    BY_BENCH(0), BY_DESK(0), CLEAR_OF(SECOND, DEAD_AT(3)),

    {{12, 0, 0, 0, 0}, 1, 2},      {{2, 8, 0, 0, 0}, 1, 3},          {{5, BENCH, 0, 1, 1}, 1, 2},
    {{5, 8, 0, 0, 1}, 1, 3},       {{8, BENCH, 0, 0, 1}, 1, 2},      {{8, 8, 0, 0, 0}, 1, 3},
    {{9, BENCH, FIRST, 1, 0}, 1, 2},  {{9, 8, FIRST, 0, 0}, 1, 3},   {{11, BENCH, SECOND, 0, 2}, 1, 2},
    {{11, BENCH, SECOND, 1, 0}, 1, 2}, {{11, 8, SECOND, 0, 0}, 1, 3}, {{11, BENCH, 16, 0, 0}, 1, 3},
    {{10, 1, FIRST, 0, 1}, 1, 2},  {{10, 0, FIRST, 1, 1}, 1, 2},     {{10, 0, 16, 0, 1}, 1, 3},
    {{10, 0, NOBODY, 0, 2000000}, 1, 5}, {{10, 0, FIRST, 0, 4294967295}, 1, 7}, {{10, 0, FIRST, 0, 1999942}, 1, 7},
    {{10, 0, FIRST, 0, 1999941}, 1, 0}, {{10, 0, SECOND, 0, 1}, 1, 7}, {{10, 0, SECOND, 0, 0}, 1, 0},
    {{4, 0, FIRST, 0, 3}, 1, 0},   {{6, BENCH, FIRST, 0, 2}, 1, 0},  CLEAR_OF(FIRST, 0),
    {{10, 0, FIRST, 0, 1}, 1, 7},  {{4, 0, FIRST, 0, 30}, 1, 0},     {{6, BENCH, FIRST, 0, 3}, 1, 0},
    {{6, BENCH, FIRST, 0, 29}, 1, 0},

    /* Three are left. A stock of four is refused, and leaves the handshake. After one of three, no update that needs three
       is granted, and no stock of one; 7 comes before 10. */
    {{4, 0, SECOND, 0, 1}, 1, 10}, BY_BENCH(0), BY_DESK(0), STOCK_OF(4, 10), CLEAR_OF(SECOND, DEAD_AT(3)),
    STOCK_OF(3, 0), CLEAR_OF(SECOND, 17), {{4, 0, SECOND, 0, 0}, 1, 10}, STOCK_OF(1, 10), STOCK_OF(33, 7),
};

static struct entry named(struct entry e, uint8_t bench, uint8_t customer)
{
    if (e.bench >= BENCH)
        e.bench = (uint8_t)((bench + e.bench - BENCH) % 8);
    if (e.customer >= FIRST)
        e.customer = (uint8_t)((customer + e.customer - FIRST) % 16);
    return e;
}

/* Writes the tour to the tape; answers how many records it has. */
static size_t lay_tour(uint8_t bench, uint8_t customer, uint16_t *answers)
{
    size_t count = 0;
    for (size_t i = 0; i < sizeof TOUR / sizeof TOUR[0]; i++)
        for (size_t times = 0; times < TOUR[i].times; times++, count++) {
            put_entry(LENT[HAND].tape + 8 * count, named(TOUR[i].entry, bench, customer));
            answers[count] = TOUR[i].answer;
        }
    return count;
}

/* Does the tour from empty; answers the counts with the tape's own. */
static struct counts try_tour(enum form form, struct counts c, uint8_t bench, uint8_t customer)
{
    uint16_t expected[MOST_RECORDS];
    c = with_tape(c, lay_tour(bench, customer, expected));
    share();
    both_empty(c);
    try_steps(form, c);
    for (size_t i = 0; i < c.verdicts; i++)
        agree("the tour", i, expected[i], written(&LENT[PROVED], i));
    return c;
}

/* Asked whether it is sound with this word 3 in a record, the book gets this number. */
static void try_word_3(enum form form, struct counts c, size_t record, uint32_t word, uint8_t number)
{
    uint32_t *handshake = &LENT[HAND].book[GS_WORD(record, GS_HANDSHAKE)], kept = *handshake;
    *handshake = word;
    share();
    uint8_t answer = tell(SOUND[form], both_sound(form, c));
    if (answer != number)
        disagrees("a word 3", "answer", record, number, answer);
    *handshake = kept;
    share();
}

/* Word 3 of all sorts of records but lines, in use or not. */
static void try_words_3(enum form form, struct counts c, uint8_t bench, uint8_t customer)
{
    size_t others[] = {GS_DESK, GS_CARNET(customer), GS_CUSTOMER_VIEW(customer), GS_TILL(bench),
                       GS_BENCH_VIEW((bench + 1) % GS_BENCHES)};
    uint32_t words[] = {0, 1, 2, 3, 4, 257, 4294967295};
    for (size_t i = 0; i < sizeof words / sizeof words[0]; i++) {
        try_word_3(form, c, GS_BENCH_VIEW(bench), words[i], words[i] > 2);
        for (size_t other = 0; other < sizeof others / sizeof others[0]; other++)
            try_word_3(form, c, others[other], words[i], words[i] > 0);
    }
}

/* How many are left, what a stock asks for, and what it gets. The till holds three already, which doesn't count. */
static const uint8_t SHORT[][3] = {{0, 0, 0},  {0, 1, 10},   {0, 33, 7},  {3, 3, 0}, {3, 4, 10},
                                   {3, 33, 7}, {31, 32, 10}, {32, 32, 0}, {32, 33, 7}};

/* The tour's list goes on by so many tokens. Where the stock is refused, a clear finds the handshake. */
static void try_short(enum form form, struct counts c, uint8_t bench, uint8_t customer)
{
    static uint32_t kept[BOOK_ROOM];
    memcpy(kept, LENT[HAND].book, sizeof kept);
    for (size_t i = 0; i < sizeof SHORT / sizeof SHORT[0]; i++) {
        uint8_t number = SHORT[i][2];
        c.tokens = TOUR_TOKENS + SHORT[i][0];
        load_handshake(bench, 2);
        agree("a stock", i, number, try_step(form, c, (struct entry){STOCK, bench, 0, 0, SHORT[i][1]}));
        uint16_t answer = try_step(form, c, (struct entry){CLEAR, bench, customer, 0, 0});
        agree("a clear after a stock", i, number == 0 ? 17 : 0, answer);
        lend_book(kept);
    }
}

/* The tokens of a till are exchanged; 17 comes before 14. */
static void try_exchanged(enum form form, struct counts c, uint8_t bench)
{
    uint32_t *till = LENT[HAND].book + GS_WORD(GS_TILL(bench), GS_CELLS), first = till[0];
    till[0] = till[1];
    till[1] = first;
    for (uint32_t handshake = 0; handshake <= 2; handshake++) {
        load_handshake(bench, handshake);
        tell(SOUND[form], both_sound(form, c));
        agree("a token that differs", handshake, 14, try_step(form, c, (struct entry){7, bench, 0, 0, 0}));
        uint16_t answer = try_step(form, c, (struct entry){DESK_AUTHENTICATES, bench, 0, 0, 0});
        agree("a token that differs, to the desk", handshake, handshake == 1 ? 14 : 17, answer);
    }
}

/* The tokens that the desk's view of the first customer loses, one after the other, by their places in the view as the
   tour leaves it; and the place in the line of the first that is dead then. The line has the last 29 of the view before
   the first three, so that both slips become dead in part; what lives is paid for token by token. */
static const uint8_t LOST[][2] = {{2, 31}, {1, 30}, {0, 29}, {31, 28}, {5, 2}, {4, 1}, {7, 1}, {3, 0}};

static void try_lost(enum form form, struct counts c, uint8_t bench, uint8_t customer)
{
    uint32_t *view = LENT[HAND].book + GS_WORD(GS_CUSTOMER_VIEW(customer), 0), held[32];
    memcpy(held, view + GS_CELLS, sizeof held);
    for (size_t i = 0; i < sizeof LOST / sizeof LOST[0]; i++) {
        take_out(view, held[LOST[i][0]]);
        share();
        tell(SOUND[form], both_sound(form, c));
        agree("a token lost", i, DEAD_AT(LOST[i][1]), try_clear(form, c, CLEAR, bench, customer));
        agree("tokens dropped", i, (uint16_t)DROPS(i + 1), try_clear(form, c, CLEAR_LIVING, bench, customer));
    }
}

static void try_written(struct counts c)
{
    tell(READER, both_read(c, c.tape));
    tell(WRITER, both_write(c, (struct entry){7, 0, 0, 0, 0}));
    tell(WRITER, both_write(c, (struct entry){CLEAR_LIVING + 1, 0, 0, 0, 0}));
    tell(WRITER, both_write(c, (struct entry){7, 8, 0, 0, 0}));
    c.part = 7;
    tell(WRITER, both_write(c, (struct entry){7, 0, 0, 0, 0}));
}

/* A tape that ends within a record, and second buffers that are empty, too short and too long, all get this number. */
static void try_lengths(enum form form, struct counts c, uint8_t number)
{
    struct counts cut = c;
    cut.tape += 7;
    try_refused(form, cut, number);
    size_t seconds[] = {0, c.verdicts - 1, c.verdicts + 1};
    for (int i = 0; i < 3; i++) {
        c.seconds = seconds[i];
        try_refused(form, c, number);
    }
}

/* What an unsound book gets, whatever is asked of it. */
static void try_unsound(enum form form, struct counts c)
{
    share();
    try_refused(form, c, 1);
    try_lengths(form, c, 1);
    tell(SOUND[form], both_sound(form, c));
    try_open(c);
    for (uint8_t kind = STOCK; kind <= CLEAR_LIVING; kind++)
        agree("a step in an unsound book, of kind", kind, 1, try_step(form, c, (struct entry){kind, 0, 0, 0, 0}));
}

/* Every number that can be answered is, and is the one that documents 01 and 02 say: those of the tour, then 0 and 1 for
   each word 3, then those of stocks by what is left, then 14, then 15 and 0 with the second numbers that only a loaded book
   has, 16 for other lengths, and 1 where the desk isn't in use, or where no word could be higher. */
static void try_numbers(enum form form)
{
    struct counts c = RIGHT;
    uint8_t bench = (uint8_t)draw(8), customer = (uint8_t)draw(16);
    lay_junk();
    c.tokens = TOUR_TOKENS;
    draw_list(LENT[HAND].tokens, LIST_ROOM);
    c = try_tour(form, c, bench, customer);
    try_words_3(form, c, bench, customer);
    try_short(form, c, bench, customer);
    try_exchanged(form, c, bench);
    try_lost(form, c, bench, customer);
    try_open(c);
    try_written(c);
    try_lengths(form, c, 16);
    LENT[HAND].book[0] = 0;
    try_unsound(form, c);
    memset(LENT[HAND].book, 0xff, sizeof LENT[HAND].book);
    try_unsound(form, c);
}

/* ---- every way of an index, whatever the seed ---- */

/* Lists of these lengths, their tokens clashing or not; then one token too many, and one listed again. */
static void try_indexes(void)
{
    static const size_t lengths[] = {0, 1, 2, 60, GS_MOST_TOKENS};
    struct counts c = RIGHT;
    for (size_t i = 0; i < 2 * sizeof lengths / sizeof lengths[0]; i++) {
        lay_junk();
        c.tokens = lengths[i / 2];
        draw_list(LENT[HAND].tokens, LIST_ROOM);
        if (i % 2 == 1)
            draw_clashing(LENT[HAND].tokens, c.tokens, GS_INDEX_ENTRIES - 1 - draw(3), c.tokens < 100 ? 1 : 80);
        try_index(c, c.tokens < 100 ? 60 : 2);
    }
    c.tokens = GS_MOST_TOKENS + 1;
    try_index(c, 0);
    c.tokens = GS_MOST_TOKENS;
    LENT[HAND].tokens[GS_MOST_TOKENS - 1] = LENT[HAND].tokens[0];
    try_index(c, 0);
}

/* ---- all of it ---- */

static void try_case(void)
{
    struct counts c = RIGHT;
    lay_junk();
    draw_parties();
    c.tokens = draw_listed();
    draw_list(LENT[HAND].tokens, LIST_ROOM);
    if (chance(20))
        clash(c);
    try_bytes(c);
    try_reader(c);
    try_writer(c);
    if (chance(3))
        repeat_token(c);
    if (c.tokens <= 1000 && chance(25))
        try_index(c, 1 + draw(8));
    size_t about = draw(100);
    if (about < 45)
        try_from_empty(c);
    else if (about < 90)
        try_loaded(c, about < 65);
    else
        try_counts(c);
}

/* A number of 64 bits in digits alone. */
static uint64_t number_of(const char *text, const char *what)
{
    uint64_t number = 0;
    for (const char *at = text; *at != 0 || at == text; at++) {
        uint64_t digit = (uint64_t)*at - '0';
        if (digit > 9 || number > (UINT64_MAX - digit) / 10) {
            printf("differ: \"%s\" is no %s\n", text, what);
            exit(2);
        }
        number = 10 * number + digit;
    }
    return number;
}

int main(int words, char **word)
{
    if (words != 3) {
        printf("differ SEED CASES\n");
        return 2;
    }
    uint64_t seed = number_of(word[1], "seed");
    size_t cases = number_of(word[2], "number of cases");
    STANDING.seed = seed;
    STANDING.step = -1;
    printf("seed %llu, %zu cases\n", (unsigned long long)seed, cases);
    draw_from(seed);
    for (int form = PLAIN; form <= SLIP; form++) {
        STANDING.form = (enum form)form;
        try_example((enum form)form);
        try_numbers((enum form)form);
    }
    try_indexes();
    for (STANDING.number = 1; STANDING.number <= cases; STANDING.number++) {
        draw_from(seed ^ (uint64_t)STANDING.number << 40);
        STANDING.step = -1;
        try_case();
    }
    int idle = print_tallies();
    printf(idle ? "no difference, but some number never came up\n" : "no difference\n");
    return idle;
}
