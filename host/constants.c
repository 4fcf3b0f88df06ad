/* Holds the constants of include/gingerstall.h to what the library does. Says what differs, and then ends with status 1.
   It is C99 and C++ at once. */
#include "gingerstall.h" /* first: it has to do by itself */

#include <stdio.h>
#include <string.h>

static uint32_t tokens[GS_MOST_TOKENS + 1], book[GS_BOOK_WORDS + 1], expected[GS_BOOK_WORDS];
static uint16_t index_of_list[GS_INDEX_ENTRIES + 1];
static uint8_t bytes[GS_BOOK_BYTES + 1], tape[12 * GS_TAPE_BYTES], verdicts[12], seconds[12];
static int differences;

static void is(const char *what, size_t found, size_t wanted)
{
    if (found == wanted)
        return;
    printf("%s: %lu, and %lu was expected\n", what, (unsigned long)found, (unsigned long)wanted);
    differences++;
}

static void lengths(void)
{
    is("the words of all records", GS_BOOK_RECORDS * GS_RECORD_WORDS, GS_BOOK_WORDS);
    is("an empty book", gs_empty(book, GS_BOOK_WORDS), 0);
    is("an empty book, a word longer", gs_empty(book, GS_BOOK_WORDS + 1), 1);
    is("to bytes", gs_book_to_bytes(book, GS_BOOK_WORDS, bytes, GS_BOOK_BYTES), 0);
    is("to a byte more", gs_book_to_bytes(book, GS_BOOK_WORDS, bytes, GS_BOOK_BYTES + 1), 1);
    is("the longest list", gs_sound(tokens, GS_MOST_TOKENS, book, GS_BOOK_WORDS), 0);
    is("a list too long", gs_sound(tokens, GS_MOST_TOKENS + 1, book, GS_BOOK_WORDS), 1);
    is("an index", gs_index_build(tokens, GS_MOST_TOKENS, index_of_list, GS_INDEX_ENTRIES), 0);
    is("an index, an entry longer", gs_index_build(tokens, GS_MOST_TOKENS, index_of_list, GS_INDEX_ENTRIES + 1), 1);
    is("a tape's record", gs_write(2, 0, 0, 0, 0, tape, GS_TAPE_BYTES), 0);
    is("a byte more", gs_write(2, 0, 0, 0, 0, tape, GS_TAPE_BYTES + 1), 16);
    is("the last customer", gs_write(1, 0, GS_CUSTOMERS - 1, 0, 0, tape, GS_TAPE_BYTES), 0);
    is("the next one", gs_write(1, 0, GS_CUSTOMERS, 0, 0, tape, GS_TAPE_BYTES), 3);
    is("the last bench", gs_write(2, GS_BENCHES - 1, 0, 0, 0, tape, GS_TAPE_BYTES), 0);
    is("the next one", gs_write(2, GS_BENCHES, 0, 0, 0, tape, GS_TAPE_BYTES), 3);
    is("the last record", GS_LINE(GS_BENCHES - 1, GS_CUSTOMERS - 1), GS_BOOK_RECORDS - 1);
}

/* A record in use, with n tokens from the list's place on. */
static void expect(size_t record, uint32_t amount, uint32_t sales, size_t place, uint32_t n)
{
    expected[GS_WORD(record, GS_IN_USE)] = 1;
    expected[GS_WORD(record, GS_AMOUNT)] = amount;
    expected[GS_WORD(record, GS_COUNT)] = n;
    expected[GS_WORD(record, GS_SALES)] = sales;
    memcpy(expected + GS_WORD(record, GS_CELLS), tokens + place, 4 * n);
}

/* A day of one customer and one bench, after which each of their records differs from all others. */
static void day(uint8_t bench, uint8_t customer)
{
    const uint8_t steps[12][2] = {{1, 9}, {2, 0}, {3, 0}, {4, 6}, {5, 5}, {6, 2},
                                  {7, 0}, {8, 0}, {9, 0}, {6, 1}, {6, 1}, {7, 0}};
    for (size_t i = 0; i < 12; i++) {
        uint8_t kind = steps[i][0], at = kind == 1 || kind == 4 ? 0 : bench;
        uint8_t who = kind == 2 || kind == 5 || kind == 7 || kind == 8 ? 0 : customer;
        gs_write(kind, at, who, 0, steps[i][1], tape + GS_TAPE_BYTES * i, GS_TAPE_BYTES);
    }
    gs_empty(book, GS_BOOK_WORDS);
    is("the run", gs_run(tokens, GS_MOST_TOKENS, book, GS_BOOK_WORDS, tape, sizeof tape, verdicts, 12, seconds, 12), 0);
    memset(expected, 0, sizeof expected);
    expect(GS_DESK, 11, 0, 0, 0);
    expect(GS_CARNET(customer), 0, 0, 4, 2);
    expect(GS_CUSTOMER_VIEW(customer), 3, 0, 2, 4);
    expect(GS_BENCH_VIEW(bench), 2, 0, 9, 2);
    expected[GS_WORD(GS_BENCH_VIEW(bench), GS_HANDSHAKE)] = 1; /* the bench's part of a second one */
    expect(GS_TILL(bench), 0, 0, 9, 2);
    expect(GS_LINE(bench, customer), 0, 2, 2, 2);
    uint32_t *line = expected + GS_WORD(GS_LINE(bench, customer), GS_CELLS);
    line[0] = tokens[3]; /* the newest first */
    line[1] = tokens[2];
    for (size_t i = 0; i < GS_BOOK_WORDS; i++)
        is("a word of the book", book[i], expected[i]);
}

static uint16_t step(uint8_t kind, uint8_t bench, uint8_t customer, uint32_t amount)
{
    return gs_step(tokens, GS_MOST_TOKENS, book, GS_BOOK_WORDS, kind, bench, customer, 0, amount);
}

/* After the day the desk completes the handshake. An update kills the two tokens that wait, and two that are sold then come
   before them. */
static void dead(uint8_t bench, uint8_t customer)
{
    is("a clear with half a handshake", step(9, bench, customer, 0), 17);
    is("the other half", step(8, bench, 0, 0), 0);
    is("the handshake", book[GS_WORD(GS_BENCH_VIEW(bench), GS_HANDSHAKE)], 2);
    is("an update's verdict", GS_VERDICT(step(4, 0, customer, 0)), 0);
    is("a sale's two numbers", step(6, bench, customer, 2), 0);
    uint16_t answer = step(9, bench, customer, 0);
    is("the verdict on a dead token", GS_VERDICT(answer), 15);
    is("its place", GS_SECOND(answer), 2);
    answer = step(11, bench, customer, 0);
    is("the verdict where what lives is cleared", GS_VERDICT(answer), 0);
    is("how many were dropped", GS_SECOND(answer), 2);
    is("the balance", book[GS_WORD(GS_BENCH_VIEW(bench), GS_AMOUNT)], 4);
}

int main(void)
{
    for (uint32_t i = 0; i <= GS_MOST_TOKENS; i++)
        tokens[i] = 1000 + i;
    lengths();
    day(GS_BENCHES - 1, GS_CUSTOMERS - 1);
    day(2, 5); /* two that can't be taken for each other */
    dead(2, 5);
    return differences != 0;
}
