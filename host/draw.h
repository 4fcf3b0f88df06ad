/* Lists, indexes, tapes and books drawn at random from a seed. */
#ifndef DRAW_H
#define DRAW_H

#include "both.h"

/* Begins again from a seed; what is drawn afterwards depends on it alone. */
void draw_from(uint64_t seed);

/* A number below another, which isn't 0; true so many times in a hundred; any word. */
size_t draw(size_t below);
int chance(size_t percent);
uint32_t draw_word(void);

/* n different tokens. */
void draw_list(uint32_t *tokens, size_t n);

/* The entry at which a number's way through an index begins. */
size_t start_of(uint32_t number);

/* n different tokens whose ways begin at so many entries, from the first on and round the end: they clash. */
void draw_clashing(uint32_t *tokens, size_t n, size_t first, size_t entries);

/* The index of a list. It is laid for bad lists too: of a token that is listed again the first is entered, the last, or
   all. */
enum again { FIRST_ALONE, LAST_ALONE, EACH_TIME };
void lay_index(const uint32_t *tokens, size_t n, uint16_t *index, enum again again);

/* Numbers to look up in a list: its tokens, others, and others that begin where a token does. */
void draw_numbers(const uint32_t *tokens, size_t n, uint32_t *numbers, size_t count);

/* Changes the index of a good list of n tokens in one of these ways, so that it isn't its index any more; answers in which:
   any value in an entry, one too many or too few, tokens that clash exchanged, a token entered again, an entry past the list,
   an entry emptied, an entry moved on to an empty one, and no entry left empty. */
enum { WAYS_TO_SPOIL = 8 };
size_t spoil_index(const uint32_t *tokens, size_t n, uint16_t *index);

/* Who takes part in the tapes from now on. Few parties meet often. */
void draw_parties(void);

/* A tape of so many records, which begins with their joining or not. Most are granted where they have joined and there
   are tokens enough. */
void draw_tape(uint8_t *tape, size_t records, int joining);

/* A tape of updates, stocks and sales alone, after which what was bought waits, and some benches can authenticate. */
void draw_sales(uint8_t *tape, size_t records);

/* A tape of stocks, each of as many tokens as records follow it: where fewer are left, and the benches have joined, one asks for
   one too many, the next for just what is left, and the last for nothing of nothing. */
void draw_stocks(uint8_t *tape, size_t records);

/* A token's place in a list of n, or n. */
size_t place_in(const uint32_t *tokens, size_t n, uint32_t token);

/* Any entry: mostly one that is well formed, or nearly. */
struct entry draw_entry(void);

/* Changes one thing in a book so that it often stays sound, though no step might have done it. */
void bend_book(enum form form, const uint32_t *tokens, size_t n, uint32_t *book);

/* Changes one word, or rarely every word to the highest number there is. */
void spoil_book(const uint32_t *tokens, size_t n, uint32_t *book);

/* A token goes from a record that holds at most 32; the others keep their order. */
void take_out(uint32_t *record, uint32_t token);

void put_entry(uint8_t *part, struct entry entry);

#endif
