/* A ledger by the rules of documents 01 and 02, written by hand. Each function does what its namesake in
   include/gingerstall.h is said to do. */
#ifndef LEDGER_H
#define LEDGER_H

#include <stddef.h>
#include <stdint.h>

uint8_t hand_empty(uint32_t *book, size_t words);

uint8_t hand_sound(const uint32_t *tokens, size_t n, const uint32_t *book, size_t words);
uint8_t hand_slip_sound(const uint32_t *tokens, size_t n, const uint32_t *book, size_t words);

/* Without a namesake: whether a plain book of the right length is sound over a list of n but for the tokens in its
   records, which aren't looked at. */
int hand_sound_but_tokens(const uint32_t *book, size_t n);

uint16_t hand_step(const uint32_t *tokens, size_t n, uint32_t *book, size_t words, uint8_t kind, uint8_t bench,
                   uint8_t customer, uint8_t zero, uint32_t amount);
uint16_t hand_slip_step(const uint32_t *tokens, size_t n, uint32_t *book, size_t words, uint8_t kind, uint8_t bench,
                        uint8_t customer, uint8_t zero, uint32_t amount);

uint8_t hand_run(const uint32_t *tokens, size_t n, uint32_t *book, size_t words, const uint8_t *tape, size_t bytes,
                 uint8_t *verdicts, size_t count, uint8_t *seconds, size_t second_count);
uint8_t hand_slip_run(const uint32_t *tokens, size_t n, uint32_t *book, size_t words, const uint8_t *tape, size_t bytes,
                      uint8_t *verdicts, size_t count, uint8_t *seconds, size_t second_count);

uint8_t hand_slip_open(const uint32_t *tokens, size_t n, const uint32_t *slips, size_t words, uint32_t *plain,
                       size_t plain_words);

uint8_t hand_index_build(const uint32_t *tokens, size_t n, uint16_t *index, size_t entries);
uint8_t hand_index_check(const uint32_t *tokens, size_t n, const uint16_t *index, size_t entries);
uint8_t hand_index_places(const uint32_t *tokens, size_t n, const uint16_t *index, size_t entries, const uint32_t *numbers,
                          size_t count, uint32_t *places, size_t place_count);
uint8_t hand_slip_open_indexed(const uint32_t *tokens, size_t n, const uint16_t *index, size_t entries,
                               const uint32_t *slips, size_t words, uint32_t *plain, size_t plain_words);

uint8_t hand_book_to_bytes(const uint32_t *book, size_t words, uint8_t *bytes, size_t n);
uint8_t hand_book_from_bytes(const uint8_t *bytes, size_t n, uint32_t *book, size_t words);

uint8_t hand_read(const uint8_t *tape, size_t bytes, size_t at, uint32_t *fields, size_t count);
size_t hand_read_next(const uint8_t *tape, size_t bytes, size_t at);
uint8_t hand_write(uint8_t kind, uint8_t bench, uint8_t customer, uint8_t zero, uint32_t amount, uint8_t *part, size_t n);

#endif
