#include "draw.h"

#include <string.h>

/* The first record of each sort, and the words of a record, by short names. */
enum { CARNETS = GS_CARNET(0), CUSTOMER_VIEWS = GS_CUSTOMER_VIEW(0), BENCH_VIEWS = GS_BENCH_VIEW(0), TILLS = GS_TILL(0) };
enum { LINES = GS_LINE(0, 0), RECORDS = GS_BOOK_RECORDS };
enum { IN_USE = GS_IN_USE, AMOUNT = GS_AMOUNT, COUNT = GS_COUNT, SALES = GS_SALES, CELL = GS_CELLS };
enum { HANDSHAKE = GS_HANDSHAKE };

/* ---- numbers ---- */

static uint64_t state;

void draw_from(uint64_t seed)
{
    state = seed;
}

/* Steele, Lea and Flood's splitmix64: every seed is as good as another. */
static uint64_t draw_bits(void)
{
    uint64_t z = state += 0x9e3779b97f4a7c15;
    z = (z ^ z >> 30) * 0xbf58476d1ce4e5b9;
    z = (z ^ z >> 27) * 0x94d049bb133111eb;
    return z ^ z >> 31;
}

size_t draw(size_t below)
{
    return draw_bits() % below;
}

int chance(size_t percent)
{
    return draw(100) < percent;
}

uint32_t draw_word(void)
{
    return (uint32_t)draw_bits();
}

/* ---- lists ---- */

/* An odd factor and a sum turn different numbers into different ones; with 1 and 0 the tokens are 0, 1, 2 .., which look
   like counts and flags. */
void draw_list(uint32_t *tokens, size_t n)
{
    uint32_t factor = chance(50) ? 1 : draw_word() | 1, sum = chance(50) ? 0 : draw_word();
    for (size_t i = 0; i < n; i++)
        tokens[i] = (uint32_t)i * factor + sum;
}

static uint32_t any_token(const uint32_t *tokens, size_t n)
{
    return n == 0 ? 0 : tokens[draw(n)];
}

/* ---- the index of a list ---- */

enum { ENTRIES = GS_INDEX_ENTRIES };

/* FNV-1a over whole numbers, the remainder taken each time. */
size_t start_of(uint32_t number)
{
    uint64_t hash = 2166136261;
    for (int bytes = 4; bytes > 0; bytes--, number /= 256)
        hash = (hash ^ number % 256) * 16777619 % 4294967296;
    return hash % ENTRIES;
}

void draw_clashing(uint32_t *tokens, size_t n, size_t first, size_t entries)
{
    for (size_t i = 0; i < n; i++)
        do
            tokens[i] = draw_word();
        while ((start_of(tokens[i]) + ENTRIES - first) % ENTRIES >= entries || place_in(tokens, i, tokens[i]) < i);
}

static size_t empty_from(const uint16_t *index, size_t entry)
{
    while (index[entry] != 0)
        entry = (entry + 1) % ENTRIES;
    return entry;
}

void lay_index(const uint32_t *tokens, size_t n, uint16_t *index, enum again again)
{
    for (size_t entry = 0; entry < ENTRIES; entry++)
        index[entry] = 0;
    for (size_t i = 0; i < n; i++) {
        size_t first = place_in(tokens, i, tokens[i]), entry = start_of(tokens[i]);
        if (first == i || again == EACH_TIME) {
            index[empty_from(index, entry)] = (uint16_t)(i + 1);
            continue;
        }
        while (again == LAST_ALONE && tokens[index[entry] - 1] != tokens[i])
            entry = (entry + 1) % ENTRIES;
        if (again == LAST_ALONE)
            index[entry] = (uint16_t)(i + 1);
    }
}

/* A number that begins where a token does, and hardly ever is one. */
static uint32_t draw_clash(uint32_t token)
{
    uint32_t number;
    do
        number = draw_word();
    while (start_of(number) != start_of(token));
    return number;
}

static uint32_t draw_number(const uint32_t *tokens, size_t n)
{
    size_t what = draw(100);
    if (what < 40)
        return any_token(tokens, n);
    if (what < 60)
        return any_token(tokens, n) ^ (uint32_t)1 << draw(32);
    return what < 85 ? draw_clash(any_token(tokens, n)) : draw_word();
}

void draw_numbers(const uint32_t *tokens, size_t n, uint32_t *numbers, size_t count)
{
    for (size_t i = 0; i < count; i++)
        numbers[i] = draw_number(tokens, n);
}

/* ---- indexes that are wrong ---- */

/* Any entry, or any of a list's filled ones. */
static size_t any_entry(const uint16_t *index, size_t n)
{
    size_t entry = draw(ENTRIES);
    while (n > 0 && index[entry] == 0)
        entry = (entry + 1) % ENTRIES;
    return entry;
}

/* A token exchanged with one further on that begins at the same entry, or with the next entry, filled or empty. */
static void exchange_clashing(const uint32_t *tokens, uint16_t *index, size_t n)
{
    size_t one = any_entry(index, n), other = (one + 1) % ENTRIES;
    for (size_t tries = 0, at = other; tries < 40 && index[at] != 0; tries++, at = (at + 1) % ENTRIES)
        if (chance(30) && start_of(tokens[index[one] - 1]) == start_of(tokens[index[at] - 1]))
            other = at;
    uint16_t kept = index[one];
    index[one] = index[other];
    index[other] = kept;
}

/* Every entry is right, but those that should be empty aren't, so that no way ends there. */
static void fill_index(uint16_t *index, size_t n)
{
    uint16_t any = (uint16_t)(1 + draw(n == 0 ? 65535 : n));
    for (size_t entry = 0; entry < ENTRIES; entry++)
        if (index[entry] == 0)
            index[entry] = any;
}

static void spoil_entry(size_t way, const uint32_t *tokens, size_t n, uint16_t *index)
{
    size_t filled = any_entry(index, n), any = chance(50) ? filled : draw(ENTRIES);
    uint16_t kept = index[filled], past = (uint16_t)(chance(50) ? n + 1 + draw(3) : 65535 - draw(60000));
    switch (way) {
    case 0:
        index[any] = (uint16_t)draw_word();
        break;
    case 1:
        index[filled] += (uint16_t)(chance(50) ? 1 : -1);
        break;
    case 2:
        exchange_clashing(tokens, index, n);
        break;
    case 3:
        index[empty_from(index, any)] = (uint16_t)(1 + draw(n == 0 ? 1 : n));
        break;
    case 4:
        index[chance(50) ? filled : empty_from(index, any)] = past;
        break;
    case 5:
        index[filled] = 0;
        break;
    case 6:
        index[filled] = 0;
        index[empty_from(index, (filled + 1) % ENTRIES)] = kept;
        break;
    default:
        fill_index(index, n);
    }
}

/* A way that leaves the index as it was is no use, as emptying an entry of an empty one. */
size_t spoil_index(const uint32_t *tokens, size_t n, uint16_t *index)
{
    uint16_t right[ENTRIES];
    memcpy(right, index, sizeof right);
    for (;;) {
        size_t way = draw(WAYS_TO_SPOIL);
        spoil_entry(way, tokens, n, index);
        if (memcmp(right, index, sizeof right) != 0)
            return way;
    }
}

/* ---- tapes ---- */

void put_entry(uint8_t *part, struct entry entry)
{
    part[0] = entry.kind;
    part[1] = entry.bench;
    part[2] = entry.customer;
    part[3] = entry.zero;
    for (int i = 0; i < 4; i++)
        part[4 + i] = (uint8_t)(entry.amount >> 8 * i);
}

static struct {
    size_t benches, customers;
    uint8_t first_bench, first_customer;
} parties;

/* The first of the parties that take part. The last numbers of the hall are where a loop might end too early, and 0 is what
   a field that isn't used says, so they are drawn more often than others. */
static uint8_t draw_first(size_t last)
{
    return (uint8_t)(chance(30) ? last : chance(30) ? 0 : draw(last + 1));
}

void draw_parties(void)
{
    parties.benches = chance(10) ? 8 : 1 + draw(3);
    parties.customers = chance(10) ? 16 : 1 + draw(4);
    parties.first_bench = draw_first(8 - parties.benches);
    parties.first_customer = draw_first(16 - parties.customers);
}

static uint8_t any_bench(void)
{
    return (uint8_t)(parties.first_bench + draw(parties.benches));
}

static uint8_t any_customer(void)
{
    return (uint8_t)(parties.first_customer + draw(parties.customers));
}

/* A tape being drawn; what is added to a full one is dropped. */
struct drawing {
    uint8_t *tape;
    size_t records, filled;
};

static void add_entry(struct drawing *d, struct entry entry)
{
    if (d->filled < d->records)
        put_entry(d->tape + 8 * d->filled++, entry);
}

static void add(struct drawing *d, size_t kind, uint8_t bench, uint8_t customer, size_t amount)
{
    add_entry(d, (struct entry){(uint8_t)kind, bench, customer, 0, (uint32_t)amount});
}

static size_t draw_budget(void)
{
    size_t limits[] = {999999, 1000000, 1000001, 4294967295};
    return chance(4) ? limits[draw(4)] : chance(20) ? draw(20) : draw(2000);
}

/* Mostly what a shop pays in a year; else nothing, about as much as some customers may have together, or so much that it
   would wrap round to a small amount when added. */
static size_t draw_top_up(void)
{
    switch (draw(10)) {
    case 0:
        return 0;
    case 1:
        return 1000000 * (1 + draw(4)) - 1 + draw(3);
    case 2:
        return 4294967295 - draw(4000);
    default:
        return draw(2000);
    }
}

/* Nearly everybody joins, and most lines are opened. */
static void add_joins(struct drawing *d)
{
    for (uint8_t c = parties.first_customer; c < parties.first_customer + parties.customers; c++)
        if (chance(98))
            add(d, 1, 0, c, draw_budget());
    for (uint8_t m = parties.first_bench; m < parties.first_bench + parties.benches; m++) {
        if (chance(98))
            add(d, 2, m, 0, 0);
        for (uint8_t c = parties.first_customer; c < parties.first_customer + parties.customers; c++)
            if (chance(97))
                add(d, 3, m, c, 0);
    }
}

/* What comes between a handshake and its clear: a stock, some of them refused as above 32 or more than is left, or one
   more authentication. Where it is granted the clear isn't. */
static void add_late(struct drawing *d, uint8_t bench)
{
    if (chance(50))
        add(d, 5, bench, 0, draw(chance(50) ? 3 : 66));
    else
        add(d, 7 + draw(2), bench, 0, 0);
}

static size_t either_clear(void)
{
    return chance(50) ? 9 : 11;
}

/* A clear and what it needs: so many times in a hundred a fresh stock, as the till may be empty, and both authentications,
   of which now and then one is missing. What lives is cleared in its place, or sometimes behind it, for which a 15 leaves the
   handshake. */
static void add_clear(struct drawing *d, uint8_t bench, uint8_t customer, size_t stocked)
{
    if (chance(stocked))
        add(d, 5, bench, 0, 2 + draw(3));
    if (chance(97))
        add(d, 7, bench, 0, 0);
    if (chance(97))
        add(d, 8, bench, 0, 0);
    if (chance(6))
        add_late(d, bench);
    size_t which = draw(100);
    if (which < 85)
        add(d, 9, bench, customer, 0);
    if (which >= 70)
        add(d, 11, bench, customer, 0);
}

/* Every line is cleared as a loaded book has it, before an update kills its tokens. Each bench first goes on from a
   handshake that the book may have; half of the times there are no stocks, which would replace the tills that it has. */
static void add_clears(struct drawing *d)
{
    size_t stocked = chance(50) ? 0 : 70;
    for (uint8_t m = parties.first_bench; m < parties.first_bench + parties.benches; m++) {
        for (size_t kind = 7 + draw(3); kind < 9; kind++)
            add(d, kind, m, 0, 0);
        add(d, either_clear(), m, any_customer(), 0);
        for (uint8_t c = parties.first_customer; c < parties.first_customer + parties.customers; c++)
            add_clear(d, m, c, stocked);
    }
}

/* Somebody joins or a line is opened, mostly for the second time. */
static void add_join(struct drawing *d)
{
    size_t kind = 1 + draw(3);
    add(d, kind, kind == 1 ? 0 : any_bench(), kind == 2 ? 0 : any_customer(), kind == 1 ? draw_budget() : 0);
}

/* A customer takes tokens and buys at some benches, which mostly clear before the next update kills what they hold. */
static void add_visit(struct drawing *d)
{
    uint8_t customer = any_customer(), benches[4];
    size_t sales = draw(4), most = chance(90) ? 3 : 12;
    if (chance(90))
        add(d, 4, 0, customer, draw(chance(95) ? 6 : 34));
    for (size_t i = 0; i < sales; i++) {
        benches[i] = any_bench();
        add(d, 6, benches[i], customer, draw(most));
    }
    for (size_t i = 0; i < sales; i++)
        if (chance(95))
            add_clear(d, benches[i], customer, 70);
}

static void add_authentications(struct drawing *d)
{
    uint8_t bench = any_bench();
    size_t count = draw(4);
    if (chance(60))
        add(d, 5, bench, 0, draw(chance(90) ? 10 : 35));
    for (size_t i = 0; i < count; i++)
        add(d, 7 + draw(2), bench, 0, 0);
}

/* Many small sales to one line, to fill it. */
static void add_small_sales(struct drawing *d)
{
    uint8_t bench = any_bench(), customer = any_customer();
    size_t count = 10 + draw(12);
    add(d, 4, 0, customer, draw(33));
    for (size_t i = 0; i < count; i++)
        add(d, 6, bench, customer, 1 + draw(chance(80) ? 1 : 3));
}

/* Top ups by halves, from more than all customers may have together: each that fits is granted, so whatever room the
   book has is used up to the last unit, and one more is too many. Mostly they are one customer's, whose budget may so
   pass what anybody may join with; the visits that follow go by it. */
static void add_top_ups(struct drawing *d)
{
    uint8_t customer = any_customer();
    for (size_t amount = 1 << 24; amount > 0; amount /= 2)
        add(d, 10, 0, chance(95) ? customer : any_customer(), amount);
    add(d, 10, 0, any_customer(), draw(2));
}

static uint32_t draw_amount(void)
{
    switch (draw(4)) {
    case 0:
        return 0;
    case 1:
        return (uint32_t)draw(36);
    case 2:
        return (uint32_t)(chance(50) ? draw_budget() : draw_top_up());
    default:
        return draw_word();
    }
}

static const uint8_t USES_BENCH[] = {0, 0, 1, 1, 0, 1, 1, 1, 1, 1, 0, 1};
static const uint8_t USES_CUSTOMER[] = {0, 1, 0, 1, 1, 0, 1, 0, 0, 1, 1, 1};
static const uint8_t USES_AMOUNT[] = {0, 1, 0, 0, 1, 1, 1, 0, 0, 0, 1, 0};

/* The entry, perhaps with one field changed. */
static struct entry bent(struct entry entry)
{
    switch (draw(12)) {
    case 0:
        entry.kind = (uint8_t)(chance(50) ? draw(14) : draw(256));
        break;
    case 1:
        entry.bench = (uint8_t)(chance(50) ? draw(10) : draw(256));
        break;
    case 2:
        entry.customer = (uint8_t)(chance(50) ? draw(18) : draw(256));
        break;
    case 3:
        entry.zero = (uint8_t)(1 << draw(8));
        break;
    case 4:
        entry.amount = (uint32_t)1 << draw(32);
        break;
    }
    return entry;
}

/* A well-formed entry of any parties, with numbers just past the hall's among them; then perhaps one field changed. */
struct entry draw_entry(void)
{
    uint8_t kind = (uint8_t)(1 + draw(11));
    return bent((struct entry){kind, USES_BENCH[kind] ? (uint8_t)draw(9) : 0, USES_CUSTOMER[kind] ? (uint8_t)draw(17) : 0,
                               0, USES_AMOUNT[kind] ? draw_amount() : 0});
}

/* Of zeros now and then: a test of the bits that may not be set lets them pass. */
static struct entry draw_garbage(void)
{
    if (chance(25))
        return (struct entry){0, 0, 0, 0, 0};
    uint32_t word = draw_word();
    return (struct entry){(uint8_t)word, (uint8_t)(word >> 8), (uint8_t)(word >> 16), (uint8_t)(word >> 24), draw_word()};
}

void draw_tape(uint8_t *tape, size_t records, int joining)
{
    struct drawing d = {tape, records, 0};
    if (joining)
        add_joins(&d);
    else if (chance(50))
        add_clears(&d);
    while (d.filled < records) {
        size_t scene = draw(100);
        if (scene < 53)
            add_visit(&d);
        else if (scene < 78)
            add_authentications(&d);
        else if (scene < 80)
            add_small_sales(&d);
        else if (scene < 85)
            add_entry(&d, bent((struct entry){(uint8_t)either_clear(), any_bench(), any_customer(), 0, 0}));
        else if (scene < 88)
            add_clear(&d, any_bench(), any_customer(), 70);
        else if (scene < 90)
            add_join(&d);
        else if (scene < 93)
            add_entry(&d, bent((struct entry){10, 0, any_customer(), 0, (uint32_t)draw_top_up()}));
        else if (scene < 94)
            add_top_ups(&d);
        else
            add_entry(&d, chance(70) ? draw_entry() : draw_garbage());
    }
}

void draw_sales(uint8_t *tape, size_t records)
{
    struct drawing d = {tape, records, 0};
    while (d.filled < records) {
        uint8_t customer = any_customer();
        add(&d, 4, 0, customer, draw(12));
        if (chance(50))
            add(&d, 5, any_bench(), 0, draw(33));
        for (size_t sales = 1 + draw(4); sales > 0; sales--)
            add(&d, 6, any_bench(), customer, 1 + draw(6));
    }
}

void draw_stocks(uint8_t *tape, size_t records)
{
    struct drawing d = {tape, records, 0};
    while (d.filled < records)
        add(&d, 5, any_bench(), 0, records - d.filled - 1);
}

/* ---- books ---- */

static uint32_t *record_of(uint32_t *book, size_t record)
{
    return book + GS_RECORD_WORDS * record;
}

/* A number in a hall where few parties have joined is mostly nobody's, so some are tried for a record in use. */
static size_t any_in_use(const uint32_t *book, size_t first, size_t count)
{
    size_t record = first + draw(count);
    for (int tries = 0; tries < 20 && book[GS_RECORD_WORDS * record] == 0; tries++)
        record = first + draw(count);
    return record;
}

static size_t any_line(const uint32_t *book)
{
    return any_in_use(book, LINES, 128);
}

/* A line in which tokens wait, if some tries find one. */
static size_t any_waiting(const uint32_t *book)
{
    size_t line = any_line(book);
    for (int tries = 0; tries < 20 && book[GS_WORD(line, COUNT)] == 0; tries++)
        line = any_line(book);
    return line;
}

/* Any record but the desk's, each sort as often as another. */
static size_t any_record(const uint32_t *book)
{
    switch (draw(5)) {
    case 0:
        return any_in_use(book, CARNETS, 16);
    case 1:
        return any_in_use(book, CUSTOMER_VIEWS, 16);
    case 2:
        return any_in_use(book, BENCH_VIEWS, 8);
    case 3:
        return any_in_use(book, TILLS, 8);
    default:
        return any_line(book);
    }
}

/* The money up to its bound, a little below it or one past it, by one view's amount; or amounts that would wrap round. */
static void bend_money(uint32_t *book)
{
    uint32_t *amount = &record_of(book, any_in_use(book, CUSTOMER_VIEWS, 24))[AMOUNT];
    uint64_t money = 0, joined = 0;
    for (size_t view = CUSTOMER_VIEWS; view < TILLS; view++)
        money += record_of(book, view)[AMOUNT];
    for (size_t view = CUSTOMER_VIEWS; view < BENCH_VIEWS; view++) {
        money += record_of(book, view)[COUNT];
        joined += record_of(book, view)[IN_USE];
    }
    if (chance(80)) {
        *amount += (uint32_t)(1000000 * joined - money + draw(2) - draw(chance(70) ? 1 : 4));
    } else if (chance(50)) {
        *amount -= (uint32_t)(money + draw(2));
    } else {
        *amount ^= 0x80000000;
        record_of(book, any_in_use(book, CUSTOMER_VIEWS, 24))[AMOUNT] ^= 0x80000000;
    }
}

/* A token that one record holds, behind what another holds, or the same. */
static void bend_twice(uint32_t *book)
{
    const uint32_t *from = record_of(book, any_record(book));
    uint32_t *to = record_of(book, any_record(book));
    if (from[COUNT] == 0 || from[COUNT] > 32 || to[COUNT] >= 32)
        return;
    to[CELL + to[COUNT]] = from[CELL + draw(from[COUNT])];
    to[COUNT] += 1;
}

/* One token, or in a line of a slip book one slip, behind what a record holds. */
static void bend_more(enum form form, const uint32_t *tokens, size_t n, uint32_t *book)
{
    size_t place = any_record(book);
    uint32_t *record = record_of(book, place), count = 1;
    if (place >= LINES && form == SLIP && record[SALES] < 16) {
        count += (uint32_t)draw(4);
        record[CELL + 2 * record[SALES]] = any_token(tokens, n);
        record[CELL + 2 * record[SALES] + 1] = count;
        record[SALES] += 1;
    } else if (record[COUNT] < 32) {
        record[CELL + record[COUNT]] = any_token(tokens, n);
        if (place >= LINES && record[SALES] == 0)
            record[SALES] = 1;
    }
    record[COUNT] += count;
}

/* The first or the last token goes, or in a line of a slip book the oldest slip. */
static void bend_less(enum form form, uint32_t *book)
{
    size_t place = any_record(book);
    uint32_t *record = record_of(book, place);
    if (record[COUNT] == 0)
        return;
    if (place >= LINES && form == SLIP) {
        uint32_t *slip = record + CELL + 2 * (record[SALES] - 1);
        record[COUNT] -= slip[1];
        record[SALES] -= 1;
        slip[0] = slip[1] = 0;
        return;
    }
    record[COUNT] -= 1;
    size_t from = chance(50) ? 0 : record[COUNT];
    for (size_t i = from; i < record[COUNT]; i++)
        record[CELL + i] = record[CELL + i + 1];
    record[CELL + record[COUNT]] = 0;
    if (place >= LINES && record[SALES] > record[COUNT])
        record[SALES] = record[COUNT];
}

void take_out(uint32_t *record, uint32_t token)
{
    uint32_t kept = 0;
    for (size_t i = 0; i < record[COUNT]; i++)
        if (record[CELL + i] != token)
            record[CELL + kept++] = record[CELL + i];
    for (size_t i = kept; i < record[COUNT]; i++)
        record[CELL + i] = 0;
    record[COUNT] = kept;
}

size_t place_in(const uint32_t *tokens, size_t n, uint32_t token)
{
    size_t place = 0;
    while (place < n && tokens[place] != token)
        place++;
    return place;
}

/* One token of a line is dead: it goes from the desk's view of the customer. In a slip book that may be any token of a
   slip, so that the slip is dead in part. */
static void bend_dead(enum form form, const uint32_t *tokens, size_t n, uint32_t *book)
{
    size_t place = any_waiting(book);
    const uint32_t *line = record_of(book, place);
    uint32_t *view = record_of(book, CUSTOMER_VIEWS + (place - LINES) % 16);
    if (line[COUNT] == 0 || line[COUNT] > 32 || line[SALES] == 0 || line[SALES] > 16 || view[COUNT] > 32)
        return;
    uint32_t dead = line[CELL + draw(line[COUNT])];
    if (form == SLIP) {
        const uint32_t *slip = line + CELL + 2 * draw(line[SALES]);
        size_t at = place_in(tokens, n, slip[0]);
        if (slip[1] == 0 || at + slip[1] > n)
            return;
        dead = tokens[at + draw(slip[1])];
    }
    take_out(view, dead);
}

/* Other first tokens in a till and the desk's view of it. */
static void bend_till(const uint32_t *tokens, size_t n, uint32_t *book)
{
    size_t till = any_in_use(book, TILLS, 8);
    uint32_t *records[] = {record_of(book, till), record_of(book, till - TILLS + BENCH_VIEWS)};
    for (int i = 0; i < 2; i++) {
        records[i][CELL] = any_token(tokens, n);
        if (records[i][COUNT] == 0)
            records[i][COUNT] = 1;
    }
}

/* Up to 32 tokens of the list, from any place on, in a record: a carnet mostly, and in a plain book a line too. */
static void bend_run(enum form form, const uint32_t *tokens, size_t n, uint32_t *book)
{
    size_t others = form == PLAIN && chance(50) ? any_line(book) : any_in_use(book, CUSTOMER_VIEWS, 32);
    size_t place = chance(50) ? any_in_use(book, CARNETS, 16) : others;
    uint32_t *record = record_of(book, place);
    size_t from = n == 0 ? 0 : draw(n), count = draw(33);
    if (from + count > n)
        count = n - from;
    for (size_t i = 0; i < 32; i++)
        record[CELL + i] = i < count ? tokens[from + i] : 0;
    record[COUNT] = (uint32_t)count;
    if (place >= LINES)
        record[SALES] = (uint32_t)draw(18);
}

/* A count that takes in the cell behind, which holds a zero, or leaves out the last: where 0 is a token, that may be
   sound. */
static void bend_count(uint32_t *book)
{
    record_of(book, any_record(book))[COUNT] += chance(70) ? 1 : (uint32_t)-1;
}

static void bend_order(uint32_t *book)
{
    uint32_t *record = record_of(book, any_record(book));
    if (record[COUNT] < 2 || record[COUNT] > 32)
        return;
    uint32_t *left = record + CELL + draw(record[COUNT]), *right = record + CELL + draw(record[COUNT]), kept = *left;
    *left = *right;
    *right = kept;
}

/* A slip more or less long, with the line's count. */
static void bend_slip(uint32_t *book)
{
    uint32_t *line = record_of(book, any_line(book));
    if (line[SALES] == 0 || line[SALES] > 16)
        return;
    uint32_t change = chance(50) ? 1 : (uint32_t)-1;
    line[CELL + 2 * draw(line[SALES]) + 1] += change;
    line[COUNT] += change;
}

/* Both records of a party in use or not, or one of them, or a line's. */
static void bend_use(uint32_t *book)
{
    uint32_t used = (uint32_t)draw(chance(80) ? 2 : 3);
    size_t left = CARNETS + draw(16), right = left + 16;
    if (chance(30)) {
        left = BENCH_VIEWS + draw(8);
        right = left + 8;
    } else if (chance(50)) {
        left = right = LINES + draw(128);
    }
    record_of(book, left)[IN_USE] = used;
    if (chance(80))
        record_of(book, right)[IN_USE] = used;
}

/* Handshakes of all benches that have joined, however full their tills are. */
static void bend_handshakes(uint32_t *book)
{
    for (size_t view = BENCH_VIEWS; view < TILLS; view++)
        if (record_of(book, view)[IN_USE] == 1)
            record_of(book, view)[HANDSHAKE] = chance(50) ? 2 : (uint32_t)draw(chance(95) ? 3 : 5);
}

/* How many tokens of n are dealt: half of the times all but a few. */
static size_t draw_dealt(size_t n)
{
    size_t few = chance(50) ? 3 : 40;
    return chance(50) ? draw(n + 2) : n - draw(n < few ? n + 1 : few);
}

static void bend_by_list(enum form form, const uint32_t *tokens, size_t n, uint32_t *book)
{
    switch (draw(5)) {
    case 0:
        book[AMOUNT] = (uint32_t)draw_dealt(n);
        break;
    case 1:
        bend_more(form, tokens, n, book);
        break;
    case 2:
        bend_run(form, tokens, n, book);
        break;
    case 3:
        bend_dead(form, tokens, n, book);
        break;
    default:
        bend_till(tokens, n, book);
    }
}

static void bend_by_itself(enum form form, uint32_t *book)
{
    switch (draw(9)) {
    case 0:
        bend_money(book);
        break;
    case 1:
        bend_less(form, book);
        break;
    case 2:
        bend_order(book);
        break;
    case 3:
        bend_slip(book);
        break;
    case 4:
        bend_use(book);
        break;
    case 5:
        bend_twice(book);
        break;
    case 6:
        bend_count(book);
        break;
    case 7:
        bend_handshakes(book);
        break;
    default:
        record_of(book, any_line(book))[SALES] = (uint32_t)draw(18);
    }
}

void bend_book(enum form form, const uint32_t *tokens, size_t n, uint32_t *book)
{
    if (chance(35))
        bend_by_list(form, tokens, n, book);
    else
        bend_by_itself(form, book);
}

/* No count, flag or amount of such a book is one, and every sum of them would wrap round in 32 bits. */
static void fill_book(uint32_t *book)
{
    for (size_t i = 0; i < GS_BOOK_WORDS; i++)
        book[i] = 4294967295;
}

/* Word 3 of any record but a line: only in the desk's view of a bench in use may it be 1 or 2. */
static void spoil_handshake(uint32_t *book)
{
    uint32_t values[] = {1, 2, 3, 4, 257, 65538, 4294967295};
    size_t records[] = {GS_DESK, any_in_use(book, CARNETS, 16), any_in_use(book, CUSTOMER_VIEWS, 16),
                        any_in_use(book, TILLS, 8), BENCH_VIEWS + draw(8)};
    size_t record = chance(40) ? any_in_use(book, BENCH_VIEWS, 8) : records[draw(5)];
    record_of(book, record)[HANDSHAKE] = values[draw(sizeof values / sizeof values[0])];
}

static void spoil_word(const uint32_t *tokens, size_t n, uint32_t *book)
{
    uint32_t values[] = {0, 1, 2, 16, 17, 31, 32, 33, 1000000, 4294967295, any_token(tokens, n), draw_word()};
    size_t records[] = {0, draw(RECORDS), any_record(book), any_record(book)}, words[] = {draw(6), draw(6), draw(36), 35};
    uint32_t *word = record_of(book, records[draw(4)]) + words[draw(4)];
    switch (draw(3)) {
    case 0:
        *word += chance(50) ? 1 : (uint32_t)-1;
        break;
    case 1:
        *word ^= (uint32_t)1 << draw(32);
        break;
    default:
        *word = values[draw(sizeof values / sizeof values[0])];
    }
}

void spoil_book(const uint32_t *tokens, size_t n, uint32_t *book)
{
    if (chance(1))
        fill_book(book);
    else if (chance(10))
        spoil_handshake(book);
    else
        spoil_word(tokens, n, book);
}
