/* The clearing book of a print-finishing hall, as a library: crates/gingerstall/out/libgingerstall.a, written by
   `rt lib` in crates/gingerstall. docs/RULES.md tells the rules, and what each number below stands for.

   A book is 6,372 words of 32 bits; on file it is 25,488 bytes, each word's lowest byte first. An empty book is one of
   either form, plain or slip. A token list is 0 to 4,096 words, all different. A tape is records of 8 bytes. An index of a
   list is 8,192 numbers of 16 bits; docs/RULES.md tells which.

   What is lent comes as a pointer and the count of its elements. A caller owes pointers that are valid for these counts:
   not null, even where a count is 0, and none to be written that overlaps another. Nothing else is asked: any words,
   bytes and counts are taken. An answer other than 0 leaves all that was lent as it was, but for gs_read's fields. */
#ifndef GINGERSTALL_H
#define GINGERSTALL_H

#include <stddef.h>
#include <stdint.h>

/* Lengths. */
#define GS_RECORD_WORDS 36
#define GS_BOOK_RECORDS 177
#define GS_BOOK_WORDS 6372
#define GS_INDEX_ENTRIES 8192
#define GS_BOOK_BYTES 25488 /* of a book on file */
#define GS_TAPE_BYTES 8     /* of one record on a tape */
#define GS_MOST_TOKENS 4096 /* in a list */
#define GS_CUSTOMERS 16     /* numbered from 0 */
#define GS_BENCHES 8        /* numbered from 0 */

/* The number of each record in a book. */
#define GS_DESK 0
#define GS_CARNET(customer) (1 + (customer))
#define GS_CUSTOMER_VIEW(customer) (17 + (customer)) /* the desk's view of the customer */
#define GS_BENCH_VIEW(bench) (33 + (bench))          /* the desk's view of the bench */
#define GS_TILL(bench) (41 + (bench))
#define GS_LINE(bench, customer) (49 + GS_CUSTOMERS * (bench) + (customer))

/* The words of a record, and the place of such a word in the book. */
#define GS_IN_USE 0
#define GS_AMOUNT 1
#define GS_COUNT 2
#define GS_SALES 3     /* of a line */
#define GS_HANDSHAKE 3 /* of the desk's view of a bench: 0 none, 1 the bench has authenticated, 2 then the desk too */
#define GS_CELLS 4     /* the first of them */
#define GS_WORD(record, word) (GS_RECORD_WORDS * (record) + (word))

/* The two numbers that a step answers. */
#define GS_VERDICT(answer) ((answer) & 255)
#define GS_SECOND(answer) ((answer) >> 8)

#ifdef __cplusplus
extern "C" {
#endif

/* Makes the book empty and answers 0; with other than 6,372 words answers 1. */
uint8_t gs_empty(uint32_t *book, size_t words);

/* 0 if this is a sound plain book over a good list, else 1. Writes nothing. */
uint8_t gs_sound(const uint32_t *tokens, size_t n, const uint32_t *book, size_t words);

/* The same of a slip book. */
uint8_t gs_slip_sound(const uint32_t *tokens, size_t n, const uint32_t *book, size_t words);

/* Does one step in a plain book, told by the five fields of its record. Answers two numbers. The low byte is its verdict:
   0 if it was granted and the book has changed accordingly, 1 if the book isn't sound over the list, else one of 2 to 15
   and 17. Where several fit it is the one that stands first in the table of docs/RULES.md, section 5, where 17, handshake
   missing, stands between 6 and 7. The high byte is the second number: with a 15 the place, counted from 0 in the line's
   tokens, of the first that isn't in the desk's view of the customer; where kind 11, clear what lives, was granted, how many
   of them weren't there and were dropped; and 0 with everything else. */
uint16_t gs_step(const uint32_t *tokens, size_t n, uint32_t *book, size_t words, uint8_t kind, uint8_t bench,
                 uint8_t customer, uint8_t zero, uint32_t amount);

/* The same in a slip book. The second number counts in the tokens that the line's slips open to. */
uint16_t gs_slip_step(const uint32_t *tokens, size_t n, uint32_t *book, size_t words, uint8_t kind, uint8_t bench,
                      uint8_t customer, uint8_t zero, uint32_t amount);

/* Does the steps of a tape in a plain book. Answers 1 if the book isn't sound over the list, 16 if the tape isn't 8
   bytes for each of the count verdicts or the seconds aren't as many as these. Otherwise 0: each granted step is done,
   verdicts[i] is what record i got, and seconds[i] its second number. */
uint8_t gs_run(const uint32_t *tokens, size_t n, uint32_t *book, size_t words, const uint8_t *tape, size_t bytes,
               uint8_t *verdicts, size_t count, uint8_t *seconds, size_t second_count);

/* The same in a slip book. */
uint8_t gs_slip_run(const uint32_t *tokens, size_t n, uint32_t *book, size_t words, const uint8_t *tape, size_t bytes,
                    uint8_t *verdicts, size_t count, uint8_t *seconds, size_t second_count);

/* Opens a slip book into a plain one, whatever that held, and answers 0. Answers 1 if the slip book isn't sound over the
   list or the plain one hasn't 6,372 words. */
uint8_t gs_slip_open(const uint32_t *tokens, size_t n, const uint32_t *slips, size_t words, uint32_t *plain,
                     size_t plain_words);

/* Makes the index of a list and answers 0. Answers 1 if the list isn't good or the index hasn't 8,192 entries. Takes some
   16 kilobytes of stack. */
uint8_t gs_index_build(const uint32_t *tokens, size_t n, uint16_t *index, size_t entries);

/* 0 if the list is good and this is its index, entry for entry, else 1. Writes nothing. */
uint8_t gs_index_check(const uint32_t *tokens, size_t n, const uint16_t *index, size_t entries);

/* Where each of the numbers stands in the list: places[i] becomes the place of numbers[i], counted from 0, or n if it is no
   token. Answers 0, or 1 if gs_index_check would, or if there aren't as many places as numbers. The index is checked once. */
uint8_t gs_index_places(const uint32_t *tokens, size_t n, const uint16_t *index, size_t entries, const uint32_t *numbers,
                        size_t count, uint32_t *places, size_t place_count);

/* As gs_slip_open, but each slip is looked up with the index. Answers 1 also if gs_index_check would. */
uint8_t gs_slip_open_indexed(const uint32_t *tokens, size_t n, const uint16_t *index, size_t entries, const uint32_t *slips,
                             size_t words, uint32_t *plain, size_t plain_words);

/* The book of either form as bytes, n of them. Answers 1 if a length is wrong, else 0. Soundness isn't asked. */
uint8_t gs_book_to_bytes(const uint32_t *book, size_t words, uint8_t *bytes, size_t n);

/* The way back. Answers 1 if a length is wrong, else 0. Soundness isn't asked: the first step on the book does that. */
uint8_t gs_book_from_bytes(const uint8_t *bytes, size_t n, uint32_t *book, size_t words);

/* Reads the record at a place of the tape, which may be any number. The fields become kind, bench, customer, byte 3 and
   amount. Answers 0, or 2 or 3 where a step in a sound book would. With fewer than 8 bytes from that place on it answers
   16 and the fields become 0. If count isn't 5 it answers 16 and writes nothing. */
uint8_t gs_read(const uint8_t *tape, size_t bytes, size_t at, uint32_t *fields, size_t count);

/* Where the reader stands after that: 8 further, or still there if fewer than 8 bytes are left. */
size_t gs_read_next(const uint8_t *tape, size_t bytes, size_t at);

/* Writes a record to a part of a tape. Answers 2 or 3 where reading it would, then 16 if n isn't 8, else 0. */
uint8_t gs_write(uint8_t kind, uint8_t bench, uint8_t customer, uint8_t zero, uint32_t amount, uint8_t *part, size_t n);

#ifdef __cplusplus
}
#endif

#endif
