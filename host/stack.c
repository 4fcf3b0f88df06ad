/* How many bytes of stack one call takes, for host/stack: of a run mostly. Prints a line for each piece of work: the plain
   book by hand and proved, the slip book by hand and proved, and what the work is. Where a form of the book has no such work
   its two numbers are 0.

   The function is called on a stack of its own, which is painted before. Counted are the bytes from the stack pointer at the
   call, so that the return address is one of them and arguments aren't, down to the lowest that isn't as it was painted. */
#include <stdio.h>
#include <string.h>

#include "works.h"

#ifndef __x86_64__
#error "the call below is written for x86-64, the one machine that the library is for"
#endif

enum { ROOM = 1 << 20, MOST_PARTS = 2, MOST_ARGUMENTS = 10, IN_REGISTERS = 6 };
enum call { RUN, BUILT, OPENED, INDEX_OPENED };

/* Each has one part or two, and takes what the deeper one does. How deep a clear goes may depend on how many slips it looks at, so
   that clears of the most sales are a work of their own. A run over no record is what soundness takes, of two books: a full
   one, whose carnets are empty, and a day's. The same two are opened; in the full one a line has the most sales. */
static const struct {
    const char *title;
    enum call call;
    size_t parts, part[MOST_PARTS];
} WORKS[] = {
    {"a mixed tape", RUN, 1, {MIXED}},
    {"updates", RUN, 1, {4}},
    {"stocks", RUN, 1, {5}},
    {"sales", RUN, 1, {6}},
    {"authentications", RUN, 2, {7, 8}},
    {"clears", RUN, 1, {9}},
    {"clears of what lives", RUN, 1, {11}},
    {"clears of 16 sales", RUN, 2, {LONG_LINES, LONG_LIVING}},
    {"top ups", RUN, 1, {10}},
    {"no step", RUN, 2, {FULL, DAY}},
    {"a book opened", OPENED, 2, {FULL, DAY}},
    {"a book opened with the index", INDEX_OPENED, 2, {FULL, DAY}},
    {"an index built", BUILT, 2, {FULL, DAY}},
};
enum { HOW_MANY = sizeof WORKS / sizeof WORKS[0] };

/* The stack, and right above it the arguments that a function gets there: those behind the sixth. */
static struct stack {
    _Alignas(64) uint8_t room[ROOM];
    size_t passed[MOST_ARGUMENTS - IN_REGISTERS];
} STACK;
_Static_assert(offsetof(struct stack, passed) == ROOM, "nothing is between the two");
_Static_assert(ROOM % 16 == 0, "the stack pointer is aligned as a call asks for");

static uint32_t book[GS_BOOK_WORDS], opened[GS_BOOK_WORDS];
static uint16_t built[GS_INDEX_ENTRIES];

/* A function and what it is called with: pointers and counts, as many as it takes. */
struct called {
    size_t function, with[MOST_ARGUMENTS];
};
#define AT(thing) ((size_t)(thing))

/* The call of a work. */
static struct called called(const struct ledger *ledger, enum call call, enum form form)
{
    size_t tokens = AT(LAID.tokens), n = LAID.listed, index = AT(LAID.index), on = AT(book), words = GS_BOOK_WORDS;
    switch (call) {
    case RUN:
        return (struct called){AT(ledger->run[form]), {tokens, n, on, words, AT(LAID.tape), 8 * LAID.records,
                               AT(LAID.verdicts), LAID.records, AT(LAID.seconds), LAID.records}};
    case BUILT:
        return (struct called){AT(ledger->index_build), {tokens, n, AT(built), GS_INDEX_ENTRIES}};
    case OPENED:
        return (struct called){AT(ledger->open), {tokens, n, on, words, AT(opened), words}};
    default:
        return (struct called){AT(ledger->open_indexed), {tokens, n, index, GS_INDEX_ENTRIES, on, words, AT(opened), words}};
    }
}

/* The call itself is in assembly: nothing of a caller in C stands between the top of the room and the return address. What a
   callee may change is told the compiler as an output or as clobbered. Register rbx is kept by a callee. */
static uint8_t call_in_room(struct called c)
{
    uint8_t answer;
    memcpy(STACK.passed, c.with + IN_REGISTERS, sizeof STACK.passed);
    register size_t fifth __asm__("r8") = c.with[4];
    register size_t sixth __asm__("r9") = c.with[5];
    __asm__ volatile("movq %%rsp, %%rbx\n\t"
                     "movq %[top], %%rsp\n\t"
                     "callq *%[function]\n\t"
                     "movq %%rbx, %%rsp"
                     : "=a"(answer), "+D"(c.with[0]), "+S"(c.with[1]), "+d"(c.with[2]), "+c"(c.with[3]), "+r"(fifth),
                       "+r"(sixth)
                     : [top] "r"(STACK.passed), [function] "r"(c.function)
                     : "rbx", "r10", "r11", "xmm0", "xmm1", "xmm2", "xmm3", "xmm4", "xmm5", "xmm6", "xmm7", "xmm8", "xmm9",
                       "xmm10", "xmm11", "xmm12", "xmm13", "xmm14", "xmm15", "cc", "memory");
    return answer;
}

/* What a call takes, seen against one paint. */
static size_t taken(struct called c, uint8_t paint)
{
    size_t left = 0;
    memcpy(book, LAID.start, sizeof book);
    memset(STACK.room, paint, ROOM);
    if (!all_granted(call_in_room(c)))
        fail("not granted");
    while (left < ROOM && STACK.room[left] == paint)
        left++;
    if (left == 0)
        fail("the room is too small");
    return ROOM - left;
}

static size_t higher(size_t one, size_t other)
{
    return one > other ? one : other;
}

/* A byte may be written just as it was painted, but not against both paints. The first call doesn't count: in it the loader
   may look for functions of the C library, on the stack of who calls them first. */
static size_t deepest(struct called c)
{
    taken(c, 0);
    return higher(taken(c, 0xA5), taken(c, 0x5A));
}

/* The work's parts in one form by both ledgers; by hand means the plain run and the quick index. Only a slip book is
   opened; the index, which is of a list and of no book, stands there too. */
static void print_form(size_t work, enum form form)
{
    size_t hand = 0, proved = 0;
    enum call call = WORKS[work].call;
    for (size_t i = 0; (call == RUN || form == SLIP) && i < WORKS[work].parts; i++) {
        lay(WORKS[work].part[i], form);
        hand = higher(hand, deepest(called(&LEDGERS[call == RUN ? HAND : QUICK], call, form)));
        proved = higher(proved, deepest(called(&LEDGERS[PROVED], call, form)));
    }
    printf("%zu %zu ", hand, proved);
}

int main(void)
{
    for (size_t work = 0; work < HOW_MANY; work++) {
        print_form(work, PLAIN);
        print_form(work, SLIP);
        printf("%s\n", WORKS[work].title);
    }
    return 0;
}
