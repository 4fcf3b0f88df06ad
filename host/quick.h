/* A second ledger by the rules of documents 01 and 02, written to be fast: steps, runs and the index. Each function
   does what its namesake in host/ledger.h does. */
#ifndef QUICK_H
#define QUICK_H

#include <stddef.h>
#include <stdint.h>

uint16_t quick_step(const uint32_t *tokens, size_t n, uint32_t *book, size_t words, uint8_t kind, uint8_t bench,
                    uint8_t customer, uint8_t zero, uint32_t amount);
uint16_t quick_slip_step(const uint32_t *tokens, size_t n, uint32_t *book, size_t words, uint8_t kind, uint8_t bench,
                         uint8_t customer, uint8_t zero, uint32_t amount);

uint8_t quick_run(const uint32_t *tokens, size_t n, uint32_t *book, size_t words, const uint8_t *tape, size_t bytes,
                  uint8_t *verdicts, size_t count, uint8_t *seconds, size_t second_count);
uint8_t quick_slip_run(const uint32_t *tokens, size_t n, uint32_t *book, size_t words, const uint8_t *tape,
                       size_t bytes, uint8_t *verdicts, size_t count, uint8_t *seconds, size_t second_count);

uint8_t quick_index_build(const uint32_t *tokens, size_t n, uint16_t *index, size_t entries);
uint8_t quick_index_check(const uint32_t *tokens, size_t n, const uint16_t *index, size_t entries);
uint8_t quick_index_places(const uint32_t *tokens, size_t n, const uint16_t *index, size_t entries,
                           const uint32_t *numbers, size_t count, uint32_t *places, size_t place_count);
uint8_t quick_slip_open_indexed(const uint32_t *tokens, size_t n, const uint16_t *index, size_t entries,
                                const uint32_t *slips, size_t words, uint32_t *plain, size_t plain_words);

#endif
