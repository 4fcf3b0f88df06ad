/* The ledger of documents 01 and 02 in the plainest C, for the proved library to be held against: easy to check against
   the rules, and sharing no code with the library. It takes every input, so nothing is used as a count or a place before
   it is known to be one. Verdict numbers stand in the code as they stand in the documents. */
#include "ledger.h"

enum { RECORD = 36, RECORDS = 177, WORDS = RECORD * RECORDS, BYTES = 4 * WORDS };
enum { CUSTOMERS = 16, BENCHES = 8, MOST_TOKENS = 4096, CELLS = 32, MOST_SALES = 16, MILLION = 1000000 };
enum { ENTRIES = 8192 }; /* of an index */

/* The words of a record. Word 3 counts the sales of a line; in the desk's view of a bench it is the handshake. */
enum { IN_USE, AMOUNT, COUNT, SALES, CELL, HANDSHAKE = SALES };

/* How far a handshake is: not begun, the bench has authenticated, or after it the desk has too. */
enum { NONE, BENCH_HAS, BOTH_HAVE };

/* The first record of each sort. */
enum { DESK = 0, CARNETS = 1, CUSTOMER_VIEWS = 17, BENCH_VIEWS = 33, TILLS = 41, LINES = 49 };

enum { JOIN_CUSTOMER = 1, JOIN_BENCH, OPEN, UPDATE, STOCK, SELL, BENCH_AUTHENTICATES, DESK_AUTHENTICATES, CLEAR, TOP_UP,
       CLEAR_LIVING };

enum form { PLAIN, SLIP };

/* Where a record begins. */
static size_t at(size_t record)
{
    return RECORD * record;
}

static size_t line_of(size_t bench, size_t customer)
{
    return LINES + 16 * bench + customer;
}

/* ---- lists of words ---- */

/* The place of a token's first hit in a list, or the list's length. */
static size_t place_of(const uint32_t *list, size_t n, uint32_t token)
{
    for (size_t i = 0; i < n; i++)
        if (list[i] == token)
            return i;
    return n;
}

static int all_different(const uint32_t *list, size_t n)
{
    for (size_t i = 0; i < n; i++)
        if (place_of(list, i, list[i]) < i)
            return 0;
    return 1;
}

static int all_zero(const uint32_t *list, size_t n)
{
    for (size_t i = 0; i < n; i++)
        if (list[i] != 0)
            return 0;
    return 1;
}

static int good_list(const uint32_t *tokens, size_t n)
{
    return n <= MOST_TOKENS && all_different(tokens, n);
}

/* ---- soundness of a plain book of the right length over a good list ---- */

static int shape_good(const uint32_t *record)
{
    if (record[IN_USE] > 1)
        return 0;
    if (record[IN_USE] == 0)
        return all_zero(record, RECORD);
    return record[COUNT] <= CELLS && all_zero(record + CELL + record[COUNT], CELLS - record[COUNT]);
}

static int desk_good(const uint32_t *desk, size_t n)
{
    return desk[IN_USE] == 1 && desk[AMOUNT] <= n && all_zero(desk + COUNT, RECORD - COUNT);
}

static int amount_good(const uint32_t *book, size_t record)
{
    int may_have_one = record == DESK || (record >= CUSTOMER_VIEWS && record < TILLS);
    return may_have_one || book[at(record) + AMOUNT] == 0;
}

static int sales_good(const uint32_t *line)
{
    uint32_t sales = line[SALES], count = line[COUNT];
    return sales <= MOST_SALES && sales <= count && (sales == 0) == (count == 0);
}

static int word_3_good(const uint32_t *book, size_t record)
{
    const uint32_t *words = book + at(record);
    if (record >= LINES)
        return sales_good(words);
    if (record >= BENCH_VIEWS && record < TILLS)
        return words[HANDSHAKE] <= BOTH_HAVE;
    return words[3] == 0;
}

static int records_good(const uint32_t *book)
{
    for (size_t record = 0; record < RECORDS; record++)
        if (!shape_good(book + at(record)) || !amount_good(book, record) || !word_3_good(book, record))
            return 0;
    return 1;
}

static int parties_good(const uint32_t *book)
{
    for (size_t customer = 0; customer < CUSTOMERS; customer++)
        if (book[at(CARNETS + customer)] != book[at(CUSTOMER_VIEWS + customer)])
            return 0;
    for (size_t bench = 0; bench < BENCHES; bench++)
        if (book[at(TILLS + bench)] != book[at(BENCH_VIEWS + bench)])
            return 0;
    for (size_t bench = 0; bench < BENCHES; bench++)
        for (size_t customer = 0; customer < CUSTOMERS; customer++)
            if (book[at(line_of(bench, customer))] && !(book[at(TILLS + bench)] && book[at(CARNETS + customer)]))
                return 0;
    return 1;
}

/* The tokens of the records from first up to but not last, one behind the other; answers how many. */
static size_t gather(const uint32_t *book, size_t first, size_t last, uint32_t *held)
{
    size_t n = 0;
    for (size_t record = first; record < last; record++)
        for (size_t i = 0; i < book[at(record) + COUNT]; i++)
            held[n++] = book[at(record) + CELL + i];
    return n;
}

static int all_dealt(const uint32_t *tokens, const uint32_t *book)
{
    uint32_t held[RECORDS * CELLS];
    size_t n = gather(book, CARNETS, RECORDS, held), dealt = book[at(DESK) + AMOUNT];
    for (size_t i = 0; i < n; i++)
        if (place_of(tokens, dealt, held[i]) == dealt)
            return 0;
    return 1;
}

static int none_twice(const uint32_t *book)
{
    uint32_t held[RECORDS * CELLS];
    size_t n = gather(book, CARNETS, CUSTOMER_VIEWS, held);
    n += gather(book, LINES, RECORDS, held + n);
    if (!all_different(held, n))
        return 0;
    if (!all_different(held, gather(book, CUSTOMER_VIEWS, TILLS, held)))
        return 0;
    for (size_t till = TILLS; till < LINES; till++)
        if (!all_different(held, gather(book, till, till + 1, held)))
            return 0;
    return 1;
}

/* Whether the book's money, and so much more, keeps to the bound. It is summed in 64 bits, which forty words of 32 can't
   fill, so that no amount wraps round to a small one. */
static int money_fits(const uint32_t *book, uint64_t more)
{
    uint64_t money = 0, joined = 0;
    for (size_t view = CUSTOMER_VIEWS; view < BENCH_VIEWS; view++) {
        money += (uint64_t)book[at(view) + AMOUNT] + book[at(view) + COUNT];
        joined += book[at(view) + IN_USE];
    }
    for (size_t view = BENCH_VIEWS; view < TILLS; view++)
        money += book[at(view) + AMOUNT];
    return money + more <= MILLION * joined;
}

/* The records come first: what follows goes by their counts. */
static int plain_good(const uint32_t *tokens, size_t n, const uint32_t *book)
{
    return records_good(book) && desk_good(book, n) && parties_good(book) && all_dealt(tokens, book) && none_twice(book)
           && money_fits(book, 0);
}

/* ---- slips ---- */

/* The tokens of a line whose slips are known to be good, newest first; answers how many. */
static size_t open_slips(const uint32_t *tokens, size_t n, const uint32_t *line, uint32_t *opened)
{
    size_t filled = 0;
    for (size_t slip = 0; slip < line[SALES]; slip++) {
        size_t place = place_of(tokens, n, line[CELL + 2 * slip]);
        for (size_t i = 0; i < line[CELL + 2 * slip + 1]; i++)
            opened[filled++] = tokens[place + i];
    }
    return filled;
}

/* Every slip opens within the dealt tokens, at most n; the sum is as said, and fits a plain line. */
static int slips_good(const uint32_t *tokens, size_t n, size_t dealt, const uint32_t *line)
{
    size_t slips = line[SALES], sum = 0;
    if (slips > MOST_SALES)
        return 0;
    for (size_t slip = 0; slip < slips; slip++) {
        size_t place = place_of(tokens, n, line[CELL + 2 * slip]), count = line[CELL + 2 * slip + 1];
        if (count < 1 || count > 32 || place + count > dealt)
            return 0;
        sum += count;
    }
    return sum == line[COUNT] && sum <= CELLS && all_zero(line + CELL + 2 * slips, CELLS - 2 * slips);
}

static int is_run(const uint32_t *tokens, size_t n, const uint32_t *carnet)
{
    if (carnet[COUNT] > CELLS)
        return 0;
    size_t place = place_of(tokens, n, carnet[CELL]);
    for (size_t i = 0; i < carnet[COUNT]; i++)
        if (place + i >= n || tokens[place + i] != carnet[CELL + i])
            return 0;
    return 1;
}

static void open_book(const uint32_t *tokens, size_t n, const uint32_t *slips, uint32_t *plain)
{
    for (size_t i = 0; i < WORDS; i++)
        plain[i] = slips[i];
    for (size_t line = LINES; line < RECORDS; line++) {
        for (size_t i = 0; i < CELLS; i++)
            plain[at(line) + CELL + i] = 0;
        open_slips(tokens, n, slips + at(line), plain + at(line) + CELL);
    }
}

static int slip_good(const uint32_t *tokens, size_t n, const uint32_t *book)
{
    uint32_t plain[WORDS];
    size_t dealt = book[at(DESK) + AMOUNT];
    if (dealt > n)
        return 0;
    for (size_t carnet = CARNETS; carnet < CUSTOMER_VIEWS; carnet++)
        if (!is_run(tokens, n, book + at(carnet)))
            return 0;
    for (size_t line = LINES; line < RECORDS; line++)
        if (!slips_good(tokens, n, dealt, book + at(line)))
            return 0;
    open_book(tokens, n, book, plain);
    return plain_good(tokens, n, plain);
}

static int sound(enum form form, const uint32_t *tokens, size_t n, const uint32_t *book, size_t words)
{
    if (words != WORDS || !good_list(tokens, n))
        return 0;
    return form == PLAIN ? plain_good(tokens, n, book) : slip_good(tokens, n, book);
}

/* ---- the index beside the list ---- */

/* The entry at which a token's way begins: FNV-1a of its four bytes, lowest first. */
static size_t start_of(uint32_t token)
{
    uint32_t hash = 2166136261;
    for (int i = 0; i < 4; i++)
        hash = (hash ^ (token >> 8 * i & 255)) * 16777619;
    return hash % ENTRIES;
}

/* Forward from there, round the end, to the entry of the token or an empty one. At most 4,096 entries are filled, so that
   the way ends. */
static size_t entry_of_token(const uint32_t *tokens, const uint16_t *index, uint32_t token)
{
    size_t entry = start_of(token);
    while (index[entry] != 0 && tokens[index[entry] - 1] != token)
        entry = (entry + 1) % ENTRIES;
    return entry;
}

/* The index of a good list: its tokens are entered in their order. */
static void lay_index(const uint32_t *tokens, size_t n, uint16_t *index)
{
    for (size_t entry = 0; entry < ENTRIES; entry++)
        index[entry] = 0;
    for (size_t place = 0; place < n; place++)
        index[entry_of_token(tokens, index, tokens[place])] = (uint16_t)(place + 1);
}

/* Whether the list is good and this is the index that is built from it. */
static int index_good(const uint32_t *tokens, size_t n, const uint16_t *index, size_t entries)
{
    uint16_t built[ENTRIES];
    if (entries != ENTRIES || !good_list(tokens, n))
        return 0;
    lay_index(tokens, n, built);
    for (size_t entry = 0; entry < ENTRIES; entry++)
        if (index[entry] != built[entry])
            return 0;
    return 1;
}

/* As place_of, by a good index of the list. */
static size_t looked_up(const uint32_t *tokens, size_t n, const uint16_t *index, uint32_t number)
{
    size_t entry = entry_of_token(tokens, index, number);
    return index[entry] == 0 ? n : index[entry] - (size_t)1;
}

/* ---- records of the tape ---- */

struct entry {
    uint8_t kind, bench, customer, zero;
    uint32_t amount;
};

/* Either kind of clear. */
static int clears(uint8_t kind)
{
    return kind == CLEAR || kind == CLEAR_LIVING;
}

static int uses_bench(uint8_t kind)
{
    return kind != JOIN_CUSTOMER && kind != UPDATE && kind != TOP_UP;
}

static int uses_customer(uint8_t kind)
{
    return kind == JOIN_CUSTOMER || kind == OPEN || kind == UPDATE || kind == SELL || clears(kind) || kind == TOP_UP;
}

static int uses_amount(uint8_t kind)
{
    return kind == JOIN_CUSTOMER || kind == UPDATE || kind == STOCK || kind == SELL || kind == TOP_UP;
}

/* 2, 3 or 0. */
static uint8_t judge_entry(struct entry e)
{
    if (e.kind < JOIN_CUSTOMER || e.kind > CLEAR_LIVING || e.zero != 0)
        return 2;
    if ((!uses_bench(e.kind) && e.bench) || (!uses_customer(e.kind) && e.customer) || (!uses_amount(e.kind) && e.amount))
        return 2;
    if ((uses_bench(e.kind) && e.bench >= BENCHES) || (uses_customer(e.kind) && e.customer >= CUSTOMERS))
        return 3;
    return 0;
}

static uint32_t word_of(const uint8_t *bytes)
{
    return bytes[0] | (uint32_t)bytes[1] << 8 | (uint32_t)bytes[2] << 16 | (uint32_t)bytes[3] << 24;
}

static void put_word(uint8_t *bytes, uint32_t word)
{
    for (int i = 0; i < 4; i++)
        bytes[i] = (uint8_t)(word >> 8 * i);
}

static struct entry entry_of(const uint8_t *bytes)
{
    return (struct entry){bytes[0], bytes[1], bytes[2], bytes[3], word_of(bytes + 4)};
}

/* ---- a step in a sound book ---- */

/* The records that a step may name, and all that it goes by. */
struct desk {
    enum form form;
    const uint32_t *tokens;
    size_t n;
    const uint32_t *book; /* whole, for what is asked of all records together */
    uint32_t *own, *carnet, *customer_view, *bench_view, *till, *line;
};

static struct desk desk_of(enum form form, const uint32_t *tokens, size_t n, uint32_t *book, struct entry e)
{
    return (struct desk){form, tokens, n, book, book + at(DESK), book + at(CARNETS + e.customer),
                         book + at(CUSTOMER_VIEWS + e.customer), book + at(BENCH_VIEWS + e.bench),
                         book + at(TILLS + e.bench), book + at(line_of(e.bench, e.customer))};
}

/* The tokens that wait in the line, newest first; answers how many. */
static size_t waiting(const struct desk *d, uint32_t *tokens)
{
    if (d->form == SLIP)
        return open_slips(d->tokens, d->n, d->line, tokens);
    for (size_t i = 0; i < d->line[COUNT]; i++)
        tokens[i] = d->line[CELL + i];
    return d->line[COUNT];
}

/* Whether a token is in the desk's view of the customer. */
static int lives(const struct desk *d, uint32_t token)
{
    size_t held = d->customer_view[COUNT];
    return place_of(d->customer_view + CELL, held, token) < held;
}

/* The place among the tokens that wait in the line, counted from 0, of the first that is dead; CELLS, which is no place, if
   all live. */
static size_t first_dead(const struct desk *d)
{
    uint32_t tokens[CELLS];
    size_t n = waiting(d, tokens);
    for (size_t i = 0; i < n; i++)
        if (!lives(d, tokens[i]))
            return i;
    return CELLS;
}

/* The documents' table from 4 on, row by row; 17 has its place behind 6. */
static uint8_t judge_step(const struct desk *d, uint8_t kind, uint64_t n)
{
    uint64_t held = d->customer_view[COUNT], left = d->n - d->own[AMOUNT];
    uint64_t asked = kind == UPDATE ? held + n : kind == STOCK ? n : 0; /* of the list */
    uint32_t handshake = d->bench_view[HANDSHAKE];
    int authenticates = kind == BENCH_AUTHENTICATES || kind == DESK_AUTHENTICATES;

    if ((kind == JOIN_CUSTOMER && d->carnet[IN_USE]) || (kind == JOIN_BENCH && d->till[IN_USE])
        || (kind == OPEN && d->line[IN_USE]))
        return 4;
    if (kind >= OPEN && ((uses_customer(kind) && !d->carnet[IN_USE]) || (uses_bench(kind) && !d->till[IN_USE])))
        return 5;
    if ((kind == SELL || clears(kind)) && !d->line[IN_USE])
        return 6;
    if ((kind == DESK_AUTHENTICATES && handshake != BENCH_HAS) || (clears(kind) && handshake != BOTH_HAVE))
        return 17;
    if ((kind == JOIN_CUSTOMER && n > MILLION) || (kind == STOCK && n > 32)
        || (kind == TOP_UP && !money_fits(d->book, n)))
        return 7;
    if (kind == UPDATE && n > d->customer_view[AMOUNT])
        return 8;
    if (kind == UPDATE && held + n > 32)
        return 9;
    if (asked > left)
        return 10;
    if (kind == SELL && n > d->carnet[COUNT])
        return 11;
    if (kind == SELL && (d->line[COUNT] + n > 32 || (n > 0 && d->line[SALES] == 16)))
        return 12;
    if (authenticates && (d->till[COUNT] == 0 || d->bench_view[COUNT] == 0))
        return 13;
    if (authenticates && d->till[CELL] != d->bench_view[CELL])
        return 14;
    if (kind == CLEAR && first_dead(d) < CELLS)
        return 15;
    return 0;
}

/* The next tokens of the list become what the record holds. */
static void deal_to(const struct desk *d, uint32_t *record, size_t count)
{
    for (size_t i = 0; i < count; i++)
        record[CELL + i] = d->tokens[d->own[AMOUNT] + i];
    for (size_t i = count; i < CELLS; i++)
        record[CELL + i] = 0;
    record[COUNT] = (uint32_t)count;
}

static void drop_first(uint32_t *record, size_t n)
{
    size_t rest = record[COUNT] - n;
    for (size_t i = 0; i < rest; i++)
        record[CELL + i] = record[CELL + n + i];
    for (size_t i = rest; i < record[COUNT]; i++)
        record[CELL + i] = 0;
    record[COUNT] = (uint32_t)rest;
}

static void update(const struct desk *d, uint32_t n)
{
    uint32_t count = d->customer_view[COUNT] + n;
    deal_to(d, d->carnet, count);
    deal_to(d, d->customer_view, count);
    d->customer_view[AMOUNT] -= n;
    d->own[AMOUNT] += count;
}

static void stock(const struct desk *d, uint32_t n)
{
    deal_to(d, d->till, n);
    deal_to(d, d->bench_view, n);
    d->own[AMOUNT] += n;
    d->bench_view[HANDSHAKE] = NONE;
}

/* Moves what a line has in its first cells back by some cells. */
static void make_room(uint32_t *line, size_t filled, size_t by)
{
    for (size_t i = filled; i > 0; i--)
        line[CELL + by + i - 1] = line[CELL + i - 1];
}

static void sell(const struct desk *d, uint32_t n)
{
    if (n == 0)
        return;
    if (d->form == SLIP) {
        make_room(d->line, 2 * d->line[SALES], 2);
        d->line[CELL] = d->carnet[CELL];
        d->line[CELL + 1] = n;
    } else {
        make_room(d->line, d->line[COUNT], n);
        for (size_t i = 0; i < n; i++)
            d->line[CELL + i] = d->carnet[CELL + i];
    }
    d->line[COUNT] += n;
    d->line[SALES] += 1;
    drop_first(d->carnet, n);
}

static void authenticate(const struct desk *d, uint32_t handshake)
{
    drop_first(d->till, 1);
    drop_first(d->bench_view, 1);
    d->bench_view[HANDSHAKE] = handshake;
}

/* Takes tokens out of a record; the others keep their order. */
static void strike(uint32_t *record, const uint32_t *tokens, size_t n)
{
    size_t kept = 0;
    for (size_t i = 0; i < record[COUNT]; i++)
        if (place_of(tokens, n, record[CELL + i]) == n)
            record[CELL + kept++] = record[CELL + i];
    for (size_t i = kept; i < record[COUNT]; i++)
        record[CELL + i] = 0;
    record[COUNT] = (uint32_t)kept;
}

/* Each token of the line that lives is paid for, and the dead ones are dropped; answers how many. A clear that was granted
   finds none dead. */
static size_t clear(const struct desk *d)
{
    uint32_t tokens[CELLS];
    size_t n = waiting(d, tokens), paid = 0;
    for (size_t i = 0; i < n; i++)
        if (lives(d, tokens[i]))
            paid++;
    strike(d->customer_view, tokens, n);
    d->bench_view[AMOUNT] += (uint32_t)paid;
    d->bench_view[HANDSHAKE] = NONE;
    for (size_t i = COUNT; i < RECORD; i++)
        d->line[i] = 0;
    return n - paid;
}

/* Answers how many tokens were dropped. */
static size_t do_step(const struct desk *d, uint8_t kind, uint32_t n)
{
    switch (kind) {
    case JOIN_CUSTOMER:
        d->carnet[IN_USE] = 1;
        d->customer_view[IN_USE] = 1;
        d->customer_view[AMOUNT] = n;
        break;
    case JOIN_BENCH:
        d->till[IN_USE] = 1;
        d->bench_view[IN_USE] = 1;
        break;
    case OPEN:
        d->line[IN_USE] = 1;
        break;
    case UPDATE:
        update(d, n);
        break;
    case STOCK:
        stock(d, n);
        break;
    case SELL:
        sell(d, n);
        break;
    case BENCH_AUTHENTICATES:
        authenticate(d, BENCH_HAS);
        break;
    case DESK_AUTHENTICATES:
        authenticate(d, BOTH_HAVE);
        break;
    case TOP_UP:
        d->customer_view[AMOUNT] += n;
        break;
    case CLEAR:
    case CLEAR_LIVING:
        return clear(d);
    }
    return 0;
}

/* Answers the verdict in the low byte and the second number in the high one: with a 15 the dead token's place, with a 0 how
   many were dropped. */
static uint16_t step(enum form form, const uint32_t *tokens, size_t n, uint32_t *book, struct entry e)
{
    uint8_t verdict = judge_entry(e);
    if (verdict != 0)
        return verdict;
    struct desk d = desk_of(form, tokens, n, book, e);
    verdict = judge_step(&d, e.kind, e.amount);
    size_t second = verdict == 15 ? first_dead(&d) : 0;
    if (verdict == 0)
        second = do_step(&d, e.kind, e.amount);
    return (uint16_t)(second << 8 | verdict);
}

/* ---- what is called from outside ---- */

uint8_t hand_empty(uint32_t *book, size_t words)
{
    if (words != WORDS)
        return 1;
    for (size_t i = 0; i < WORDS; i++)
        book[i] = 0;
    book[at(DESK) + IN_USE] = 1;
    return 0;
}

uint8_t hand_sound(const uint32_t *tokens, size_t n, const uint32_t *book, size_t words)
{
    return sound(PLAIN, tokens, n, book, words) ? 0 : 1;
}

uint8_t hand_slip_sound(const uint32_t *tokens, size_t n, const uint32_t *book, size_t words)
{
    return sound(SLIP, tokens, n, book, words) ? 0 : 1;
}

int hand_sound_but_tokens(const uint32_t *book, size_t n)
{
    return records_good(book) && desk_good(book, n) && parties_good(book) && money_fits(book, 0);
}

uint16_t hand_step(const uint32_t *tokens, size_t n, uint32_t *book, size_t words, uint8_t kind, uint8_t bench,
                   uint8_t customer, uint8_t zero, uint32_t amount)
{
    if (!sound(PLAIN, tokens, n, book, words))
        return 1;
    return step(PLAIN, tokens, n, book, (struct entry){kind, bench, customer, zero, amount});
}

uint16_t hand_slip_step(const uint32_t *tokens, size_t n, uint32_t *book, size_t words, uint8_t kind, uint8_t bench,
                        uint8_t customer, uint8_t zero, uint32_t amount)
{
    if (!sound(SLIP, tokens, n, book, words))
        return 1;
    return step(SLIP, tokens, n, book, (struct entry){kind, bench, customer, zero, amount});
}

/* A step leaves a sound book sound, so a run asks once. */
static uint8_t run(enum form form, const uint32_t *tokens, size_t n, uint32_t *book, size_t words, const uint8_t *tape,
                   size_t bytes, uint8_t *verdicts, size_t count, uint8_t *seconds, size_t second_count)
{
    if (!sound(form, tokens, n, book, words))
        return 1;
    if (bytes % 8 != 0 || count != bytes / 8 || second_count != bytes / 8)
        return 16;
    for (size_t i = 0; i < count; i++) {
        uint16_t answer = step(form, tokens, n, book, entry_of(tape + 8 * i));
        verdicts[i] = (uint8_t)answer;
        seconds[i] = (uint8_t)(answer >> 8);
    }
    return 0;
}

uint8_t hand_run(const uint32_t *tokens, size_t n, uint32_t *book, size_t words, const uint8_t *tape, size_t bytes,
                 uint8_t *verdicts, size_t count, uint8_t *seconds, size_t second_count)
{
    return run(PLAIN, tokens, n, book, words, tape, bytes, verdicts, count, seconds, second_count);
}

uint8_t hand_slip_run(const uint32_t *tokens, size_t n, uint32_t *book, size_t words, const uint8_t *tape, size_t bytes,
                      uint8_t *verdicts, size_t count, uint8_t *seconds, size_t second_count)
{
    return run(SLIP, tokens, n, book, words, tape, bytes, verdicts, count, seconds, second_count);
}

uint8_t hand_slip_open(const uint32_t *tokens, size_t n, const uint32_t *slips, size_t words, uint32_t *plain,
                       size_t plain_words)
{
    if (!sound(SLIP, tokens, n, slips, words) || plain_words != WORDS)
        return 1;
    open_book(tokens, n, slips, plain);
    return 0;
}

uint8_t hand_index_build(const uint32_t *tokens, size_t n, uint16_t *index, size_t entries)
{
    if (entries != ENTRIES || !good_list(tokens, n))
        return 1;
    lay_index(tokens, n, index);
    return 0;
}

uint8_t hand_index_check(const uint32_t *tokens, size_t n, const uint16_t *index, size_t entries)
{
    return index_good(tokens, n, index, entries) ? 0 : 1;
}

uint8_t hand_index_places(const uint32_t *tokens, size_t n, const uint16_t *index, size_t entries, const uint32_t *numbers,
                          size_t count, uint32_t *places, size_t place_count)
{
    if (!index_good(tokens, n, index, entries) || count != place_count)
        return 1;
    for (size_t i = 0; i < count; i++)
        places[i] = (uint32_t)looked_up(tokens, n, index, numbers[i]);
    return 0;
}

/* The index gives the places that the list gives, so a book opens to the same with it. */
uint8_t hand_slip_open_indexed(const uint32_t *tokens, size_t n, const uint16_t *index, size_t entries,
                               const uint32_t *slips, size_t words, uint32_t *plain, size_t plain_words)
{
    if (!index_good(tokens, n, index, entries))
        return 1;
    return hand_slip_open(tokens, n, slips, words, plain, plain_words);
}

uint8_t hand_book_to_bytes(const uint32_t *book, size_t words, uint8_t *bytes, size_t n)
{
    if (words != WORDS || n != BYTES)
        return 1;
    for (size_t i = 0; i < WORDS; i++)
        put_word(bytes + 4 * i, book[i]);
    return 0;
}

uint8_t hand_book_from_bytes(const uint8_t *bytes, size_t n, uint32_t *book, size_t words)
{
    if (words != WORDS || n != BYTES)
        return 1;
    for (size_t i = 0; i < WORDS; i++)
        book[i] = word_of(bytes + 4 * i);
    return 0;
}

static int has_record(size_t bytes, size_t place)
{
    return place <= bytes && bytes - place >= 8;
}

uint8_t hand_read(const uint8_t *tape, size_t bytes, size_t place, uint32_t *fields, size_t count)
{
    if (count != 5)
        return 16;
    struct entry e = {0, 0, 0, 0, 0};
    if (has_record(bytes, place))
        e = entry_of(tape + place);
    fields[0] = e.kind;
    fields[1] = e.bench;
    fields[2] = e.customer;
    fields[3] = e.zero;
    fields[4] = e.amount;
    return has_record(bytes, place) ? judge_entry(e) : 16;
}

size_t hand_read_next(const uint8_t *tape, size_t bytes, size_t place)
{
    (void)tape;
    return has_record(bytes, place) ? place + 8 : place;
}

uint8_t hand_write(uint8_t kind, uint8_t bench, uint8_t customer, uint8_t zero, uint32_t amount, uint8_t *part, size_t n)
{
    uint8_t verdict = judge_entry((struct entry){kind, bench, customer, zero, amount});
    if (verdict != 0)
        return verdict;
    if (n != 8)
        return 16;
    part[0] = kind;
    part[1] = bench;
    part[2] = customer;
    part[3] = zero;
    put_word(part + 4, amount);
    return 0;
}
