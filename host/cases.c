/* Tries the library on cases: the rows of a file, whose head says how they are read. A row says what is done to a book, a
   token list and a tape, and what is shown of them. This program decides nothing.

       cases ROWS */
#include <stdio.h>
#include <stdlib.h>
#include <string.h>

#include "both.h"

enum { LIST = GS_MOST_TOKENS + 1, WORDS = GS_BOOK_WORDS + 1, BYTES = GS_BOOK_BYTES + 4, MOST_VERDICTS = 32, TEXT = 1 << 20 };
enum { AS_VERDICTS = MOST_VERDICTS + 1, ENTRIES = GS_INDEX_ENTRIES + 1, MOST_NUMBERS = 32 };

/* What a row is tried on, and what it has said so far: its last five numbers, oldest first; how much is lent of the list,
   of the book, of the tape to be written, to a run for second numbers, and of the index; where the tape ends; and how many
   numbers are to be looked up. */
static struct trial {
    enum form form;
    uint32_t list[LIST], book[WORDS], said[5], numbers[MOST_NUMBERS];
    uint16_t index[ENTRIES];
    uint8_t bytes[BYTES];
    size_t tokens, words, part, seconds, entries, end, asked;
} t;

static const struct ledger *const LIBRARY = &LEDGERS[PROVED];

static size_t smaller(size_t a, size_t b)
{
    return a < b ? a : b;
}

static void show(size_t number)
{
    printf(" %zu", number);
}

/* A step's two numbers. A second one of 0, which most have, isn't shown. */
static void show_both(uint16_t answer)
{
    show(GS_VERDICT(answer));
    if (GS_SECOND(answer) != 0)
        printf(":%d", GS_SECOND(answer));
}

/* ---- the list and the book ---- */

static size_t place(uint32_t record, uint32_t word)
{
    return GS_WORD((size_t)record, word);
}

/* What is lent of the book; a word past it is 0, and isn't stored. */
static uint32_t word_at(size_t at)
{
    return at < t.words ? t.book[at] : 0;
}

static void store(size_t at, uint32_t word)
{
    if (at < t.words)
        t.book[at] = word;
}

/* A record in use, with n tokens from the first on. */
static void put_run(uint32_t record, uint32_t amount, uint32_t word3, uint32_t first, uint32_t n)
{
    uint32_t head[] = {1, amount, n, word3};
    for (uint32_t i = 0; i < 4; i++)
        store(place(record, i), head[i]);
    for (uint32_t i = 0; i < n; i++)
        store(place(record, 4) + i, first + i);
}

/* The book is opened in place, from a copy, with the index or without. */
static uint8_t open_book(int indexed)
{
    static uint32_t slips[WORDS];
    memcpy(slips, t.book, sizeof slips);
    if (indexed)
        return LIBRARY->open_indexed(t.list, t.tokens, t.index, t.entries, slips, t.words, t.book, t.words);
    return LIBRARY->open(t.list, t.tokens, slips, t.words, t.book, t.words);
}

/* ---- the index ---- */

static size_t filled(void)
{
    size_t count = 0;
    for (size_t entry = 0; entry < t.entries; entry++)
        count += t.index[entry] != 0;
    return count;
}

static void look_up(size_t places)
{
    uint32_t found[MOST_NUMBERS];
    size_t n = smaller(places, MOST_NUMBERS);
    for (size_t i = 0; i < n; i++)
        found[i] = 99;
    show(LIBRARY->index_places(t.list, t.tokens, t.index, t.entries, t.numbers, t.asked, found, n));
    for (size_t i = 0; i < n; i++)
        show(found[i]);
    printf(" |");
}

/* ---- the tape, or a book on file ---- */

static void read_record(size_t at, size_t bytes)
{
    uint32_t fields[5];
    uint8_t answer = LIBRARY->read(t.bytes, bytes, at, fields, 5);
    show(answer);
    show(LIBRARY->read_next(t.bytes, bytes, at));
    for (int i = 0; answer != 16 && i < 5; i++)
        show(fields[i]);
}

/* A bar ends it, as only the row says how long it is. */
static void show_buffer(const uint8_t *buffer, size_t n)
{
    for (size_t i = 0; i < n; i++)
        show(buffer[i]);
    printf(" |");
}

static void run(size_t verdicts, size_t bytes)
{
    uint8_t first[MOST_VERDICTS], second[MOST_VERDICTS];
    size_t n = smaller(verdicts, MOST_VERDICTS), m = t.seconds == AS_VERDICTS ? n : t.seconds;
    memset(first, 99, sizeof first);
    memset(second, 99, sizeof second);
    show(LIBRARY->run[t.form](t.list, t.tokens, t.book, t.words, t.bytes, bytes, first, n, second, m));
    show_buffer(first, n);
    show_buffer(second, m);
}

/* ---- what a sign does with the numbers before it ---- */

static void on_index(char sign, uint32_t a, uint32_t b)
{
    switch (sign) {
    case '(':
        show(LIBRARY->index_build(t.list, t.tokens, t.index, t.entries));
        break;
    case ')':
        show(LIBRARY->index_check(t.list, t.tokens, t.index, t.entries));
        break;
    case '[':
        if (a < ENTRIES)
            t.index[a] = (uint16_t)b;
        break;
    case ']':
        show(b < ENTRIES ? t.index[b] : 0);
        t.said[4]++;
        break;
    case '\'':
        show(filled());
        break;
    case '_':
        if (t.asked < MOST_NUMBERS)
            t.numbers[t.asked++] = b;
        break;
    case '"':
        look_up(b);
        break;
    }
}

static void on_bytes(char sign, uint32_t a, uint32_t b, const uint8_t *five)
{
    size_t n = smaller(b, BYTES), end = smaller(t.end, BYTES);
    switch (sign) {
    case '.':
        if (a < BYTES)
            t.bytes[a] = (uint8_t)b;
        break;
    case ',':
        show(LIBRARY->write(five[0], five[1], five[2], five[3], b, t.bytes + end, smaller(t.part, BYTES - end)));
        t.end += t.part;
        break;
    case '^':
        read_record(a, n);
        break;
    case '~':
        run(a, n);
        break;
    case '>':
        show(LIBRARY->to_bytes(t.book, t.words, t.bytes, n));
        break;
    case '<':
        show(LIBRARY->from_bytes(t.bytes, n, t.book, t.words));
        break;
    default:
        on_index(sign, a, b);
    }
}

static void on_book(char sign, const uint32_t *s, const uint8_t *five)
{
    switch (sign) {
    case '@':
        if (s[3] < t.tokens)
            t.list[s[3]] = s[4];
        break;
    case '=':
        store(place(s[2], s[3]), s[4]);
        break;
    case '&':
        put_run(s[0], s[1], s[2], s[3], s[4]);
        break;
    case '*':
        show(LIBRARY->empty(t.book, t.words));
        break;
    case '?':
        show(word_at(place(s[3], s[4])));
        t.said[4]++;
        break;
    case '!':
        show(LIBRARY->sound[t.form](t.list, t.tokens, t.book, t.words));
        break;
    case '/':
    case '+':
        show(open_book(sign == '+'));
        break;
    case ';':
        show_both(LIBRARY->step[t.form](t.list, t.tokens, t.book, t.words, five[0], five[1], five[2], five[3], s[4]));
        break;
    default:
        on_bytes(sign, s[3], s[4], five);
    }
}

static void on_sign(char sign)
{
    uint32_t *s = t.said;
    uint8_t five[] = {(uint8_t)s[0], (uint8_t)s[1], (uint8_t)s[2], (uint8_t)s[3]};
    if (sign == ' ') {
        for (int i = 0; i < 4; i++)
            s[i] = s[i + 1];
        s[4] = 0;
    } else if (sign >= '0' && sign <= '9') {
        s[4] = 10 * s[4] + (uint32_t)(sign - '0');
    } else if (sign == '#') {
        t.tokens = smaller(s[4], LIST);
    } else if (sign == '$') {
        t.words = smaller(s[4], WORDS);
    } else if (sign == '%') {
        t.part = s[4];
    } else if (sign == '|') {
        t.seconds = smaller(s[4], MOST_VERDICTS);
    } else if (sign == '{') {
        t.entries = smaller(s[4], ENTRIES);
    } else {
        on_book(sign, s, five);
    }
}

/* ---- rows: a letter for the books it is tried on, a name up to a colon, and what is done ---- */

/* Token 100 + p stands at place p, but 0, a token as good as any, at place 140. The index isn't built. */
static void begin(enum form form, const uint32_t *loaded)
{
    memset(&t, 0, sizeof t);
    t.form = form;
    t.tokens = 160;
    t.words = GS_BOOK_WORDS;
    t.part = 8;
    t.seconds = AS_VERDICTS;
    t.entries = GS_INDEX_ENTRIES;
    memcpy(t.book, loaded, 4 * GS_BOOK_WORDS);
    for (uint32_t i = 0; i < LIST; i++)
        t.list[i] = i == 140 ? 0 : 100 + i;
    for (size_t entry = 0; entry < ENTRIES; entry++)
        t.index[entry] = 99;
}

static void try_row(enum form form, uint32_t *loaded, const char *row, size_t length)
{
    const char *letter = form == PLAIN ? "bpl" : "bsl";
    size_t name = 1;
    while (name < length && row[name] != ':')
        name++;
    if (name >= length || memchr(letter, row[0], 3) == NULL)
        return;
    printf("%s%.*s:", form == PLAIN ? "plain" : "slip ", (int)name - 1, row + 1);
    begin(form, loaded);
    for (size_t i = name + 1; i < length; i++)
        on_sign(row[i]);
    printf("\n");
    if (row[0] == 'l')
        memcpy(loaded, t.book, 4 * GS_BOOK_WORDS);
}

int main(int words, char **word)
{
    static char text[TEXT];
    static uint32_t loaded[2][GS_BOOK_WORDS];
    FILE *rows = words == 2 ? fopen(word[1], "rb") : NULL;
    size_t size = rows ? fread(text, 1, TEXT, rows) : TEXT, end;
    if (size == TEXT) {
        printf("cases ROWS: no rows, or too many\n");
        return 2;
    }
    for (size_t at = 0; at < size; at = end + 1) {
        for (end = at; end < size && text[end] != '\n';)
            end++;
        for (enum form form = PLAIN; form <= SLIP; form++)
            try_row(form, loaded[form], text + at, end - at);
    }
    return 0;
}
