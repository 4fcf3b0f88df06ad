/* The ledger of documents 01 and 02 once more, in C that is written to be fast, for the library to be measured beside:
   steps and runs, the index, and a book opened with it. host/ledger.c is the one to check against the rules, and this
   one is held to it.

   A run asks the plain ledger once whether the book is sound. Every step leaves it so, and relies on it: a record that
   isn't in use holds nothing; the parties of a line in use are in use; no count is above 32, and the cells past it are
   zero.

   A block of words whose size the compiler knows is moved in few instructions. So what a record holds isn't moved word
   by word but with all of its cells, or with the first 8 if it holds no more. Cells of the next record may then be
   read too: one stands behind every carnet, view and till. */
#include "quick.h"

#include <string.h>

#include "gingerstall.h"
#include "ledger.h"

#if __BYTE_ORDER__ != __ORDER_LITTLE_ENDIAN__
#error "a record of the tape is read as one number, lowest byte first"
#endif

#define INLINE static inline __attribute__((always_inline))
#define APART static __attribute__((noinline)) /* what is seldom done takes no registers from what is done mostly */

enum { CELLS = 32, FEW = 8, MOST_SALES = 16, MILLION = 1000000 };
enum { IN_USE = GS_IN_USE, AMOUNT = GS_AMOUNT, COUNT = GS_COUNT, SALES = GS_SALES, CELL = GS_CELLS };
enum { HANDSHAKE = GS_HANDSHAKE, NONE = 0, BENCH_HAS, BOTH_HAVE };

enum { JOIN_CUSTOMER = 1, JOIN_BENCH, OPEN, UPDATE, STOCK, SELL, BENCH_AUTHENTICATES, DESK_AUTHENTICATES, CLEAR, TOP_UP,
       CLEAR_LIVING, KINDS = 16 };

enum form { PLAIN, SLIP };

/* What a run goes by. */
struct run {
    const uint32_t *tokens;
    size_t n;
    uint32_t *book;
    uint32_t room;                 /* how far the money is from its bound; only joins and top ups change it */
    uint32_t latest[GS_CUSTOMERS]; /* the place from which on a customer's latest tokens are likely to stand */
};

/* ---- blocks of words ---- */

/* Four in one register. */
typedef uint32_t four __attribute__((vector_size(16)));

INLINE four load(const uint32_t *from)
{
    four words;
    memcpy(&words, from, sizeof words);
    return words;
}

INLINE void store(uint32_t *to, four words)
{
    memcpy(to, &words, sizeof words);
}

INLINE void move(uint32_t *to, const uint32_t *from, size_t words)
{
    memmove(to, from, words * sizeof to[0]);
}

INLINE void zero(uint32_t *words, size_t n)
{
    memset(words, 0, n * sizeof words[0]);
}

/* ---- records of the tape ---- */

/* The fields of an entry that is read as one number. */
#define BENCH 0xFF00u
#define CUSTOMER 0xFF0000u
#define SUM 0xFFFFFFFF00000000u
#define ODD 0xFF0000F0u    /* a kind above 15, or byte 3 */
#define BEYOND 0x00F0F800u /* a bench above 7, or a customer above 15 */

/* What is zero in an entry of each kind that there is. */
static const uint64_t UNUSED[] = {
    [JOIN_CUSTOMER] = ODD | BENCH,
    [JOIN_BENCH] = ODD | CUSTOMER | SUM,
    [OPEN] = ODD | SUM,
    [UPDATE] = ODD | BENCH,
    [STOCK] = ODD | CUSTOMER,
    [SELL] = ODD,
    [BENCH_AUTHENTICATES] = ODD | CUSTOMER | SUM,
    [DESK_AUTHENTICATES] = ODD | CUSTOMER | SUM,
    [CLEAR] = ODD | SUM,
    [TOP_UP] = ODD | BENCH,
    [CLEAR_LIVING] = ODD | SUM,
};

INLINE uint64_t entry_at(const uint8_t *tape)
{
    uint64_t entry;
    memcpy(&entry, tape, sizeof entry);
    return entry;
}

/* Neither 2 nor 3. Only then an entry names records. */
INLINE int is_good(uint64_t entry, size_t kind)
{
    return (entry & (UNUSED[kind] | BEYOND)) == 0;
}

INLINE size_t bench_of(uint64_t entry)
{
    return entry >> 8 & 255;
}

INLINE size_t customer_of(uint64_t entry)
{
    return (uint32_t)entry >> 16;
}

INLINE uint32_t amount_of(uint64_t entry)
{
    return (uint32_t)(entry >> 32);
}

INLINE uint32_t *carnet_of(const struct run *r, uint64_t entry)
{
    return r->book + GS_WORD(GS_CARNET(customer_of(entry)), 0);
}

INLINE uint32_t *customer_view_of(const struct run *r, uint64_t entry)
{
    return r->book + GS_WORD(GS_CUSTOMER_VIEW(customer_of(entry)), 0);
}

INLINE uint32_t *bench_view_of(const struct run *r, uint64_t entry)
{
    return r->book + GS_WORD(GS_BENCH_VIEW(bench_of(entry)), 0);
}

INLINE uint32_t *till_of(const struct run *r, uint64_t entry)
{
    return r->book + GS_WORD(GS_TILL(bench_of(entry)), 0);
}

/* Counted from the carnet, which a sale needs too. */
INLINE uint32_t *line_of(const struct run *r, uint64_t entry)
{
    return carnet_of(r, entry) + GS_WORD(GS_LINE(bench_of(entry), 0) - GS_CARNET(0), 0);
}

INLINE uint32_t *dealt_of(const struct run *r)
{
    return r->book + GS_WORD(GS_DESK, AMOUNT);
}

/* ---- why a step is refused ---- */

INLINE int party_missing(const struct run *r, uint64_t entry, size_t kind)
{
    return (!(UNUSED[kind] & CUSTOMER) && !carnet_of(r, entry)[IN_USE])
           || (!(UNUSED[kind] & BENCH) && !till_of(r, entry)[IN_USE]);
}

/* The steps ask in whatever order is quickest whether all is well. If it isn't, this is asked in the documents' order,
   but for 15, which a clear says itself. Something is wrong then, so that a number is given without asking if no other
   is left. */
APART uint32_t why(const struct run *r, uint64_t entry)
{
    uint32_t kind = entry % KINDS, n = amount_of(entry);
    if (entry & UNUSED[kind])
        return 2;
    if (entry & BEYOND)
        return 3;
    const uint32_t *carnet = carnet_of(r, entry), *view = customer_view_of(r, entry), *line = line_of(r, entry);
    const uint32_t *till = till_of(r, entry), *bench_view = bench_view_of(r, entry);
    if (kind == JOIN_BENCH || (kind == JOIN_CUSTOMER && carnet[IN_USE]) || (kind == OPEN && line[IN_USE]))
        return 4;
    if (kind != JOIN_CUSTOMER && party_missing(r, entry, kind))
        return 5;
    switch (kind) {
    case UPDATE:
        return n > view[AMOUNT] ? 8 : n + view[COUNT] > CELLS ? 9 : 10;
    case STOCK:
        return n > CELLS ? 7 : 10;
    case SELL:
        return !line[IN_USE] ? 6 : n > carnet[COUNT] ? 11 : 12;
    case BENCH_AUTHENTICATES:
    case DESK_AUTHENTICATES:
        if (kind == DESK_AUTHENTICATES && bench_view[HANDSHAKE] != BENCH_HAS)
            return 17;
        return till[COUNT] == 0 || bench_view[COUNT] == 0 ? 13 : 14;
    case CLEAR:
    case CLEAR_LIVING:
        return !line[IN_USE] ? 6 : 17;
    default: /* a customer joins, or tops up */
        return 7;
    }
}

/* ---- joins, lines and top ups ---- */

static uint32_t join_customer(struct run *r, uint64_t entry)
{
    uint32_t n = amount_of(entry);
    if (!is_good(entry, JOIN_CUSTOMER) || carnet_of(r, entry)[IN_USE] || n > MILLION)
        return why(r, entry);
    uint32_t *carnet = carnet_of(r, entry), *view = customer_view_of(r, entry);
    carnet[IN_USE] = view[IN_USE] = 1;
    view[AMOUNT] = n;
    r->room += MILLION - n;
    return 0;
}

static uint32_t join_bench(struct run *r, uint64_t entry)
{
    if (!is_good(entry, JOIN_BENCH) || till_of(r, entry)[IN_USE])
        return why(r, entry);
    till_of(r, entry)[IN_USE] = bench_view_of(r, entry)[IN_USE] = 1;
    return 0;
}

static uint32_t open_line(struct run *r, uint64_t entry)
{
    if (!is_good(entry, OPEN) || line_of(r, entry)[IN_USE] || party_missing(r, entry, OPEN))
        return why(r, entry);
    line_of(r, entry)[IN_USE] = 1;
    return 0;
}

static uint32_t top_up(struct run *r, uint64_t entry)
{
    uint32_t n = amount_of(entry);
    if (!is_good(entry, TOP_UP) || !customer_view_of(r, entry)[IN_USE] || n > r->room)
        return why(r, entry);
    customer_view_of(r, entry)[AMOUNT] += n;
    r->room -= n;
    return 0;
}

/* ---- updates and stocks ---- */

/* Copies some words to two places, as many as a block has or up to twice as many: the first block and the last, which
   may overlap, so that nothing past the count is read or written. */
INLINE void copy_twice(uint32_t *one, uint32_t *other, const uint32_t *from, size_t count, size_t block)
{
    four first[4], last[4];
    for (size_t i = 0; i < block / 4; i++) {
        first[i] = load(from + 4 * i);
        last[i] = load(from + count - block + 4 * i);
    }
    for (size_t i = 0; i < block / 4; i++) {
        store(one + 4 * i, first[i]);
        store(one + count - block + 4 * i, last[i]);
        store(other + 4 * i, first[i]);
        store(other + count - block + 4 * i, last[i]);
    }
}

/* The list's next tokens become what two records hold, whose cells past the count are zero. */
INLINE void deal(struct run *r, uint32_t *one, uint32_t *other, size_t dealt, size_t count)
{
    const uint32_t *from = r->tokens + dealt;
    *dealt_of(r) = (uint32_t)(dealt + count);
    one[COUNT] = other[COUNT] = (uint32_t)count;
    one += CELL;
    other += CELL;
    if (count - 4 <= 4)
        copy_twice(one, other, from, count, 4);
    else if (count > 16)
        copy_twice(one, other, from, count, 16);
    else if (count > 8)
        copy_twice(one, other, from, count, 8);
    else if (count > 0) { /* up to three */
        one[0] = other[0] = from[0];
        one[count / 2] = other[count / 2] = from[count / 2];
        one[count - 1] = other[count - 1] = from[count - 1];
    }
}

/* The view holds no more than it gets. A carnet may, in a book that was loaded. */
static uint32_t update(struct run *r, uint64_t entry)
{
    if (!is_good(entry, UPDATE))
        return why(r, entry);
    uint32_t *carnet = carnet_of(r, entry), *view = customer_view_of(r, entry), n = amount_of(entry);
    size_t count = (size_t)view[COUNT] + n, dealt = *dealt_of(r);
    if (!view[IN_USE] || n > view[AMOUNT])
        return why(r, entry);
    if (count > CELLS || count > r->n - dealt)
        return why(r, entry);
    if (carnet[COUNT] > count)
        zero(carnet + CELL, CELLS);
    r->latest[customer_of(entry)] = (uint32_t)dealt;
    deal(r, carnet, view, dealt, count);
    view[AMOUNT] -= n;
    return 0;
}

static uint32_t stock(struct run *r, uint64_t entry)
{
    if (!is_good(entry, STOCK))
        return why(r, entry);
    uint32_t *till = till_of(r, entry), *view = bench_view_of(r, entry);
    size_t n = amount_of(entry), dealt = *dealt_of(r);
    if (!till[IN_USE] || n > CELLS || n > r->n - dealt)
        return why(r, entry);
    if (till[COUNT] > n)
        zero(till + CELL, CELLS);
    if (view[COUNT] > n)
        zero(view + CELL, CELLS);
    deal(r, till, view, dealt, n);
    view[HANDSHAKE] = NONE;
    return 0;
}

/* ---- sales ---- */

/* Makes the last cells zero, 1 to 32 of them: up to three one by one, more by fours. */
INLINE void zero_last(uint32_t *cells, size_t n)
{
    cells[CELLS - 1] = cells[CELLS - (n + 1) / 2] = cells[CELLS - n] = 0;
    for (size_t i = CELLS - n; n > 3 && i < CELLS; i += 4)
        zero(cells + (i < CELLS - 4 ? i : CELLS - 4), 4);
}

/* The first n of a record's tokens go. With few, zeros move up behind the others; with more than 16, words of the next
   record do, which are made zero here. */
INLINE void drop_first(uint32_t *record, size_t count, size_t n)
{
    uint32_t *cells = record + CELL;
    record[COUNT] = (uint32_t)(count - n);
    if (count <= FEW)
        move(cells, cells + n, FEW);
    else if (count <= 2 * FEW)
        move(cells, cells + n, 2 * FEW);
    else {
        move(cells, cells + n, CELLS);
        zero_last(cells, n);
    }
}

/* The tokens of a sale go before a line's older ones, few in all. Those copied past the sale's give way to the older
   ones. */
INLINE void put_few(uint32_t *cells, const uint32_t *sold, size_t n)
{
    four first = load(cells), second = load(cells + 4);
    move(cells, sold, FEW);
    store(cells + n, first);
    store(cells + n + 4, second);
}

/* A sale in a line that is in use, of any size. */
INLINE uint32_t sell_any(enum form form, struct run *r, uint64_t entry)
{
    uint32_t *carnet = carnet_of(r, entry), *line = line_of(r, entry), n = amount_of(entry);
    if (n == 0)
        return 0;
    if (n > carnet[COUNT] || line[COUNT] + n > CELLS || line[SALES] == MOST_SALES)
        return why(r, entry);
    if (form == PLAIN) {
        move(line + CELL + n, line + CELL, line[COUNT]);
        move(line + CELL, carnet + CELL, n);
    } else {
        move(line + CELL + 2, line + CELL, CELLS - 2);
        line[CELL] = carnet[CELL];
        line[CELL + 1] = n;
    }
    line[COUNT] += n;
    line[SALES]++;
    drop_first(carnet, carnet[COUNT], n);
    return 0;
}

APART uint32_t sell_many(struct run *r, uint64_t entry)
{
    return sell_any(PLAIN, r, entry);
}

APART uint32_t sell_many_slips(struct run *r, uint64_t entry)
{
    return sell_any(SLIP, r, entry);
}

/* A line with few tokens has few sales: 12 is asked where there are more. */
static uint32_t sell(struct run *r, uint64_t entry)
{
    if (!is_good(entry, SELL) || !line_of(r, entry)[IN_USE])
        return why(r, entry);
    uint32_t *carnet = carnet_of(r, entry), *line = line_of(r, entry), n = amount_of(entry);
    uint32_t count = carnet[COUNT], waiting = line[COUNT] + n;
    if (n - 1 >= count || waiting > FEW)
        return sell_many(r, entry);
    put_few(line + CELL, carnet + CELL, n);
    line[COUNT] = waiting;
    line[SALES]++;
    drop_first(carnet, count, n);
    return 0;
}

static uint32_t sell_slip(struct run *r, uint64_t entry)
{
    if (!is_good(entry, SELL) || !line_of(r, entry)[IN_USE])
        return why(r, entry);
    uint32_t *carnet = carnet_of(r, entry), *line = line_of(r, entry), n = amount_of(entry);
    uint32_t count = carnet[COUNT], waiting = line[COUNT] + n;
    if (n - 1 >= count || waiting > CELLS || line[SALES] > FEW / 2)
        return sell_many_slips(r, entry);
    move(line + CELL + 2, line + CELL, FEW);
    line[CELL] = carnet[CELL];
    line[CELL + 1] = n;
    line[COUNT] = waiting;
    line[SALES]++;
    drop_first(carnet, count, n);
    return 0;
}

/* ---- authentications ---- */

/* Both counts less 1 are looked at together: where nothing is held that is the highest number. */
INLINE uint32_t authenticate(struct run *r, uint64_t entry, size_t kind)
{
    if (!is_good(entry, kind))
        return why(r, entry);
    uint32_t *till = till_of(r, entry), *view = bench_view_of(r, entry);
    if (till[CELL] != view[CELL] || (kind == DESK_AUTHENTICATES && view[HANDSHAKE] != BENCH_HAS))
        return why(r, entry);
    uint32_t one = till[COUNT] - 1, other = view[COUNT] - 1;
    if ((one | other) < FEW) {
        till[COUNT] = one;
        view[COUNT] = other;
        move(till + CELL, till + CELL + 1, FEW);
        move(view + CELL, view + CELL + 1, FEW);
    } else if ((one | other) < CELLS) {
        drop_first(till, one + 1, 1);
        drop_first(view, other + 1, 1);
    } else
        return why(r, entry);
    view[HANDSHAKE] = kind == DESK_AUTHENTICATES ? BOTH_HAVE : BENCH_HAS;
    return 0;
}

static uint32_t bench_authenticates(struct run *r, uint64_t entry)
{
    return authenticate(r, entry, BENCH_AUTHENTICATES);
}

static uint32_t desk_authenticates(struct run *r, uint64_t entry)
{
    return authenticate(r, entry, DESK_AUTHENTICATES);
}

/* ---- clears ---- */

/* Where a token is among the cells up to an end. If it isn't there, the end or what is behind it. */
INLINE uint32_t *found(uint32_t *cells, const uint32_t *end, uint32_t token)
{
    do {
        for (size_t i = 0; i < 4; i++)
            if (cells[i] == token)
                return cells + i;
        cells += 4;
    } while (cells < end);
    return cells;
}

/* Takes tokens out of the cells up to an end, each time as many as stand there in a row; what is behind closes up.
   Stops at a dead token, and answers how many are left. A token 0 may seem to stand behind the end, where the cells
   are zero: with few cells that is a stop too. */
INLINE size_t strike(uint32_t *cells, uint32_t **end, const uint32_t *tokens, size_t n, int few)
{
    while (n > 0) {
        uint32_t *at = found(cells, *end, *tokens);
        if (at >= *end)
            break;
        size_t row = 1;
        while (row < n && at[row] == tokens[row])
            row++;
        if (few && at + row > *end)
            break;
        if (at + row > *end)
            row = (size_t)(*end - at);
        move(at, at + row, FEW);
        for (at += FEW; !few && at < *end; at += FEW)
            move(at, at + row, FEW);
        *end -= row;
        tokens += row;
        n -= row;
    }
    return n;
}

/* The same, but if not all have to live, the dead are counted and passed over. Answers how many it came to. */
INLINE size_t strike_living(uint32_t *cells, uint32_t **end, const uint32_t *tokens, size_t n, int all, size_t *dead)
{
    size_t left = n;
    while ((left = strike(cells, end, tokens + n - left, left, 0)) > 0 && !all) {
        left--;
        *dead += 1;
    }
    return n - left;
}

/* Whether a token is among so many. All are compared, so that the compiler can compare some at once. */
INLINE int among(const uint32_t *tokens, size_t n, uint32_t token)
{
    uint32_t hit = 0;
    for (size_t i = 0; i < n; i++)
        hit |= tokens[i] == token;
    return hit != 0;
}

/* A token's place in a part of the list, or where the part ends. */
static size_t searched(const uint32_t *tokens, size_t from, size_t to, uint32_t token)
{
    while (to - from >= CELLS && !among(tokens + from, CELLS, token))
        from += CELLS;
    for (; to - from >= 4; from += 4)
        for (size_t i = 0; i < 4; i++)
            if (tokens[from + i] == token)
                return from + i;
    while (from < to && tokens[from] != token)
        from++;
    return from;
}

/* Where a slip's first token stands. A customer's tokens are dealt in a row of at most 32, so that the place of one
   tells where the others are; one that isn't there is mostly older. */
APART size_t place_of(struct run *r, size_t customer, uint32_t token)
{
    size_t from = r->latest[customer], dealt = *dealt_of(r);
    size_t to = dealt - from < 2 * CELLS ? dealt : from + 2 * CELLS;
    size_t place = searched(r->tokens, from, to, token);
    if (place < to)
        return place;
    place = searched(r->tokens, 0, from, token);
    if (place == from)
        place = searched(r->tokens, to, dealt, token);
    r->latest[customer] = place < CELLS ? 0 : (uint32_t)place - CELLS;
    return place;
}

/* The same for the tokens of a line's slips. A slip of one token is its own list. */
INLINE size_t strike_slips(struct run *r, uint64_t entry, uint32_t *cells, uint32_t **end, int all, size_t *dead)
{
    const uint32_t *line = line_of(r, entry), *slip = line + CELL, *last = slip + 2 * line[SALES];
    size_t done = 0;
    for (; slip < last; slip += 2) {
        const uint32_t *tokens = slip[1] == 1 ? slip : r->tokens + place_of(r, customer_of(entry), slip[0]);
        size_t some = strike_living(cells, end, tokens, slip[1], all, dead);
        done += some;
        if (some < slip[1])
            break;
    }
    return done;
}

/* A clear of either kind, of any size. Tokens are struck from a copy of the view, with zeros behind it, so that
   nothing was touched if one turns out to be dead. */
INLINE uint32_t clear_any(enum form form, struct run *r, uint64_t entry)
{
    uint32_t *line = line_of(r, entry), *view = customer_view_of(r, entry), *bench_view = bench_view_of(r, entry);
    if (!line[IN_USE] || bench_view[HANDSHAKE] != BOTH_HAVE)
        return why(r, entry);
    uint32_t copy[CELLS + CELLS + FEW], *end = copy + view[COUNT];
    size_t n = line[COUNT], done, dead = 0;
    int all = entry % KINDS == CLEAR;
    move(copy, view + CELL, CELLS);
    zero(copy + CELLS, CELLS + FEW);
    if (form == PLAIN)
        done = strike_living(copy, &end, line + CELL, n, all, &dead);
    else
        done = strike_slips(r, entry, copy, &end, all, &dead);
    if (done < n)
        return (uint32_t)done << 8 | 15;
    move(view + CELL, copy, CELLS);
    view[COUNT] = (uint32_t)(end - copy);
    bench_view[AMOUNT] += (uint32_t)(n - dead);
    bench_view[HANDSHAKE] = NONE;
    zero(line + COUNT, CELL - COUNT + CELLS);
    return (uint32_t)dead << 8;
}

APART uint32_t clear_many(struct run *r, uint64_t entry)
{
    return clear_any(PLAIN, r, entry);
}

APART uint32_t clear_many_slips(struct run *r, uint64_t entry)
{
    return clear_any(SLIP, r, entry);
}

/* The slips of a line with few tokens, if each begins among the first tokens that the customer got latest or has but
   one. Answers whether that is so and all of them live. */
INLINE int strike_few_slips(struct run *r, size_t customer, uint32_t *cells, uint32_t **end, const uint32_t *line)
{
    const uint32_t *slip = line + CELL, *last = slip + 2 * line[SALES], *near = r->tokens + r->latest[customer];
    if (r->n - r->latest[customer] < FEW)
        return 0;
    for (; slip < last; slip += 2) {
        size_t place = 0;
        while (slip[1] > 1 && place < FEW && near[place] != slip[0])
            place++;
        if (place == FEW || strike(cells, end, slip[1] > 1 ? near + place : slip, slip[1], 1) > 0)
            return 0;
    }
    return 1;
}

/* The answer of a clear that has left all as it was, and is to be done by clear_any. */
enum { ANEW = 1 };

/* A clear of either kind, of few tokens from a view of few. They are struck from the view itself, and put back if one
   of them is dead. */
INLINE uint32_t clear(enum form form, struct run *r, uint64_t entry)
{
    if (!is_good(entry, CLEAR))
        return why(r, entry);
    uint32_t *line = line_of(r, entry), *view = customer_view_of(r, entry), *bench_view = bench_view_of(r, entry);
    uint32_t *cells = view + CELL, *end = cells + view[COUNT], n = line[COUNT];
    if (!line[IN_USE] || bench_view[HANDSHAKE] != BOTH_HAVE || view[COUNT] > FEW || n > FEW)
        return ANEW;
    four first = load(cells), second = load(cells + 4);
    int all;
    if (form == PLAIN)
        all = strike(cells, &end, line + CELL, n, 1) == 0;
    else
        all = strike_few_slips(r, customer_of(entry), cells, &end, line);
    if (!all) {
        store(cells, first);
        store(cells + 4, second);
        return ANEW;
    }
    view[COUNT] = (uint32_t)(end - cells);
    bench_view[AMOUNT] += line[COUNT];
    bench_view[HANDSHAKE] = NONE;
    zero(line + COUNT, CELL - COUNT + (form == PLAIN ? FEW : 2 * FEW));
    return 0;
}

static uint32_t clear_plain(struct run *r, uint64_t entry)
{
    return clear(PLAIN, r, entry);
}

static uint32_t clear_slips(struct run *r, uint64_t entry)
{
    return clear(SLIP, r, entry);
}

/* ---- a run ---- */

/* A step answers its verdict in the low byte and its second number in the next. */
typedef uint32_t step(struct run *, uint64_t);

static uint32_t no_kind(struct run *r, uint64_t entry)
{
    (void)r;
    (void)entry;
    return 2;
}

#define OF_BOTH_FORMS                                                                                                 \
    [0] = no_kind, [JOIN_CUSTOMER] = join_customer, [JOIN_BENCH] = join_bench, [OPEN] = open_line, [UPDATE] = update, \
    [STOCK] = stock, [BENCH_AUTHENTICATES] = bench_authenticates, [DESK_AUTHENTICATES] = desk_authenticates,          \
    [TOP_UP] = top_up, [CLEAR_LIVING + 1] = no_kind, no_kind, no_kind, no_kind

static step *const STEPS[2][KINDS] = {
    {OF_BOTH_FORMS, [SELL] = sell, [CLEAR] = clear_plain, [CLEAR_LIVING] = clear_plain},
    {OF_BOTH_FORMS, [SELL] = sell_slip, [CLEAR] = clear_slips, [CLEAR_LIVING] = clear_slips},
};

static uint32_t room_in(const uint32_t *book)
{
    uint32_t room = 0;
    for (size_t customer = 0; customer < GS_CUSTOMERS; customer++) {
        const uint32_t *view = book + GS_WORD(GS_CUSTOMER_VIEW(customer), 0);
        room += MILLION * view[IN_USE] - view[AMOUNT] - view[COUNT];
    }
    for (size_t bench = 0; bench < GS_BENCHES; bench++)
        room -= book[GS_WORD(GS_BENCH_VIEW(bench), AMOUNT)];
    return room;
}

/* Most steps answer 0, which is written beforehand. */
INLINE uint8_t run(enum form form, const uint32_t *tokens, size_t n, uint32_t *book, size_t words, const uint8_t *tape,
                   size_t bytes, uint8_t *verdicts, size_t count, uint8_t *seconds, size_t second_count)
{
    if ((form == PLAIN ? hand_sound : hand_slip_sound)(tokens, n, book, words) != 0)
        return 1;
    if (bytes % GS_TAPE_BYTES != 0 || count != bytes / GS_TAPE_BYTES || second_count != count)
        return 16;
    struct run r = {tokens, n, book, room_in(book), {0}};
    memset(verdicts, 0, count);
    memset(seconds, 0, count);
    for (size_t i = 0; i < count; i++) {
        uint64_t entry = entry_at(tape + GS_TAPE_BYTES * i);
        uint32_t answer = STEPS[form][entry % KINDS](&r, entry);
        if (answer == 0)
            continue;
        if (answer == ANEW)
            answer = (form == PLAIN ? clear_many : clear_many_slips)(&r, entry_at(tape + GS_TAPE_BYTES * i));
        verdicts[i] = (uint8_t)answer;
        seconds[i] = (uint8_t)(answer >> 8);
    }
    return 0;
}

uint8_t quick_run(const uint32_t *tokens, size_t n, uint32_t *book, size_t words, const uint8_t *tape, size_t bytes,
                  uint8_t *verdicts, size_t count, uint8_t *seconds, size_t second_count)
{
    return run(PLAIN, tokens, n, book, words, tape, bytes, verdicts, count, seconds, second_count);
}

uint8_t quick_slip_run(const uint32_t *tokens, size_t n, uint32_t *book, size_t words, const uint8_t *tape,
                       size_t bytes, uint8_t *verdicts, size_t count, uint8_t *seconds, size_t second_count)
{
    return run(SLIP, tokens, n, book, words, tape, bytes, verdicts, count, seconds, second_count);
}

/* A step is a run over its record. */
INLINE uint16_t run_one(enum form form, const uint32_t *tokens, size_t n, uint32_t *book, size_t words, uint8_t kind,
                        uint8_t bench, uint8_t customer, uint8_t zero, uint32_t amount)
{
    uint8_t tape[GS_TAPE_BYTES] = {kind, bench, customer, zero}, verdict, second;
    memcpy(tape + 4, &amount, sizeof amount);
    if (run(form, tokens, n, book, words, tape, sizeof tape, &verdict, 1, &second, 1) != 0)
        return 1;
    return (uint16_t)(second << 8 | verdict);
}

uint16_t quick_step(const uint32_t *tokens, size_t n, uint32_t *book, size_t words, uint8_t kind, uint8_t bench,
                    uint8_t customer, uint8_t zero, uint32_t amount)
{
    return run_one(PLAIN, tokens, n, book, words, kind, bench, customer, zero, amount);
}

uint16_t quick_slip_step(const uint32_t *tokens, size_t n, uint32_t *book, size_t words, uint8_t kind, uint8_t bench,
                         uint8_t customer, uint8_t zero, uint32_t amount)
{
    return run_one(SLIP, tokens, n, book, words, kind, bench, customer, zero, amount);
}

/* ---- the index, and a book opened with it: no squares of the list's length, unless very many tokens clash ---- */

/* The entry at which a token's way begins: FNV-1a of its four bytes, lowest first. */
static size_t start_of(uint32_t token)
{
    uint32_t hash = 2166136261;
    for (int i = 0; i < 4; i++)
        hash = (hash ^ (token >> 8 * i & 255)) * 16777619;
    return hash % GS_INDEX_ENTRIES;
}

/* Forward from there, round the end, to the entry of the token or an empty one. At most half of the entries are
   filled, so that the way ends. */
static size_t entry_of_token(const uint32_t *tokens, const uint16_t *index, uint32_t token)
{
    size_t entry = start_of(token);
    while (index[entry] != 0 && tokens[index[entry] - 1] != token)
        entry = (entry + 1) % GS_INDEX_ENTRIES;
    return entry;
}

/* A number's place by a good index of the list, or n. */
static size_t looked_up(const uint32_t *tokens, size_t n, const uint16_t *index, uint32_t number)
{
    size_t entry = entry_of_token(tokens, index, number);
    return index[entry] == 0 ? n : index[entry] - (size_t)1;
}

/* Enters the tokens in their order, unless one of them is there already. */
static int lay(const uint32_t *tokens, size_t n, uint16_t *index)
{
    memset(index, 0, GS_INDEX_ENTRIES * sizeof index[0]);
    for (size_t place = 0; place < n; place++) {
        size_t entry = entry_of_token(tokens, index, tokens[place]);
        if (index[entry] != 0)
            return 0;
        index[entry] = (uint16_t)(place + 1);
    }
    return 1;
}

/* No entry is left over, and each token's way leads over tokens that are listed before it, none of them the same, to
   its own entry: there the build found the first empty one. */
static int index_good(const uint32_t *tokens, size_t n, const uint16_t *index, size_t entries)
{
    uint16_t filled = 0; /* no wider than an entry, so that eight are counted at a time */
    if (entries != GS_INDEX_ENTRIES || n > GS_MOST_TOKENS)
        return 0;
    for (size_t entry = 0; entry < GS_INDEX_ENTRIES; entry++)
        filled = (uint16_t)(filled + (index[entry] != 0));
    if (filled != n)
        return 0;
    for (size_t place = 0; place < n; place++)
        for (size_t entry = start_of(tokens[place]); index[entry] != place + 1; entry = (entry + 1) % GS_INDEX_ENTRIES)
            if (index[entry] == 0 || index[entry] > place || tokens[index[entry] - 1] == tokens[place])
                return 0;
    return 1;
}

/* A list with its good index. Of each place it is known in which group a token there was met last, so that one that
   stands in a group twice is seen when it is met again. */
struct met {
    const uint32_t *tokens;
    const uint16_t *index;
    size_t n, dealt;
    uint8_t last[GS_MOST_TOKENS];
};
enum { NO_GROUP, HELD, VIEWED, IN_TILLS }; /* carnets and lines; the desk's views; the first of the tills */

static size_t place_in(const struct met *m, uint32_t token)
{
    return looked_up(m->tokens, m->n, m->index, token);
}

/* A run of the list, at most 32 tokens of it, is dealt and new to the group. */
static int meet(struct met *m, uint8_t group, size_t place, size_t count)
{
    if (place + count > m->dealt)
        return 0;
    for (size_t i = place; i < place + count; i++) {
        if (m->last[i] == group)
            return 0;
        m->last[i] = group;
    }
    return 1;
}

/* The tokens of a view or a till whose count is good. */
static int meet_record(struct met *m, uint8_t group, const uint32_t *record)
{
    for (size_t i = 0; i < record[COUNT]; i++)
        if (!meet(m, group, place_in(m, record[CELL + i]), 1))
            return 0;
    return 1;
}

static int meet_carnet(struct met *m, const uint32_t *carnet)
{
    size_t count = carnet[COUNT];
    if (count == 0)
        return 1;
    size_t place = place_in(m, carnet[CELL]);
    return count <= CELLS && meet(m, HELD, place, count)
           && memcmp(m->tokens + place, carnet + CELL, count * sizeof carnet[0]) == 0;
}

/* Opens a line's slips to cells that are zero, each slip in its turn. */
static int meet_slips(struct met *m, const uint32_t *line, uint32_t *cells)
{
    size_t slips = line[SALES], filled = 0;
    if (slips > MOST_SALES)
        return 0;
    for (size_t slip = 0; slip < slips; slip++) {
        size_t place = place_in(m, line[CELL + 2 * slip]), count = line[CELL + 2 * slip + 1];
        if (count < 1 || count > CELLS - filled || !meet(m, HELD, place, count))
            return 0;
        memcpy(cells + filled, m->tokens + place, count * sizeof cells[0]);
        filled += count;
    }
    uint32_t rest = 0;
    for (size_t i = 2 * slips; i < CELLS; i++)
        rest |= line[CELL + i];
    return filled == line[COUNT] && rest == 0;
}

static int open_slips(struct met *m, const uint32_t *slips, uint32_t *plain)
{
    memcpy(plain, slips, GS_WORD(GS_LINE(0, 0), 0) * sizeof plain[0]);
    for (size_t customer = 0; customer < GS_CUSTOMERS; customer++)
        if (!meet_carnet(m, slips + GS_WORD(GS_CARNET(customer), 0)))
            return 0;
    for (size_t at = GS_WORD(GS_LINE(0, 0), 0); at < GS_BOOK_WORDS; at += GS_RECORD_WORDS) {
        memcpy(plain + at, slips + at, CELL * sizeof plain[0]);
        memset(plain + at + CELL, 0, CELLS * sizeof plain[0]);
        if (!meet_slips(m, slips + at, plain + at + CELL))
            return 0;
    }
    return hand_sound_but_tokens(plain, m->n);
}

/* The views and the tills, whose counts are good by now. After the carnets and lines, so that each group is met as a
   whole. */
static int meet_rest(struct met *m, const uint32_t *book)
{
    for (size_t view = GS_CUSTOMER_VIEW(0); view < GS_TILL(0); view++)
        if (!meet_record(m, VIEWED, book + GS_WORD(view, 0)))
            return 0;
    for (size_t bench = 0; bench < GS_BENCHES; bench++)
        if (!meet_record(m, (uint8_t)(IN_TILLS + bench), book + GS_WORD(GS_TILL(bench), 0)))
            return 0;
    return 1;
}

uint8_t quick_index_build(const uint32_t *tokens, size_t n, uint16_t *index, size_t entries)
{
    uint16_t built[GS_INDEX_ENTRIES];
    if (entries != GS_INDEX_ENTRIES || n > GS_MOST_TOKENS || !lay(tokens, n, built))
        return 1;
    memcpy(index, built, sizeof built);
    return 0;
}

uint8_t quick_index_check(const uint32_t *tokens, size_t n, const uint16_t *index, size_t entries)
{
    return index_good(tokens, n, index, entries) ? 0 : 1;
}

uint8_t quick_index_places(const uint32_t *tokens, size_t n, const uint16_t *index, size_t entries,
                           const uint32_t *numbers, size_t count, uint32_t *places, size_t place_count)
{
    if (count != place_count || !index_good(tokens, n, index, entries))
        return 1;
    for (size_t i = 0; i < count; i++)
        places[i] = (uint32_t)looked_up(tokens, n, index, numbers[i]);
    return 0;
}

uint8_t quick_slip_open_indexed(const uint32_t *tokens, size_t n, const uint16_t *index, size_t entries,
                                const uint32_t *slips, size_t words, uint32_t *plain, size_t plain_words)
{
    uint32_t opened[GS_BOOK_WORDS];
    if (words != GS_BOOK_WORDS || plain_words != GS_BOOK_WORDS || !index_good(tokens, n, index, entries))
        return 1;
    struct met m = {tokens, index, n, slips[GS_WORD(GS_DESK, AMOUNT)], {NO_GROUP}};
    if (m.dealt > n || !open_slips(&m, slips, opened) || !meet_rest(&m, opened))
        return 1;
    memcpy(plain, opened, sizeof opened);
    return 0;
}
