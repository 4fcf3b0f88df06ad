/* The two ledgers, each as a table of its functions, so that a program says a call once. Where a row has two, the first
   is the plain book's and the second the slip book's. A third table is the quick ledger, also by hand: its steps, runs
   and index are written to be fast, and all else is the first table's. */
#ifndef BOTH_H
#define BOTH_H

#include "gingerstall.h"

enum form { PLAIN, SLIP };

struct entry {
    uint8_t kind, bench, customer, zero;
    uint32_t amount;
};

struct ledger {
    const char *name;
    uint8_t (*empty)(uint32_t *, size_t);
    uint8_t (*sound[2])(const uint32_t *, size_t, const uint32_t *, size_t);
    uint16_t (*step[2])(const uint32_t *, size_t, uint32_t *, size_t, uint8_t, uint8_t, uint8_t, uint8_t, uint32_t);
    uint8_t (*run[2])(const uint32_t *, size_t, uint32_t *, size_t, const uint8_t *, size_t, uint8_t *, size_t,
                      uint8_t *, size_t);
    uint8_t (*open)(const uint32_t *, size_t, const uint32_t *, size_t, uint32_t *, size_t);
    uint8_t (*index_build)(const uint32_t *, size_t, uint16_t *, size_t);
    uint8_t (*index_check)(const uint32_t *, size_t, const uint16_t *, size_t);
    uint8_t (*index_places)(const uint32_t *, size_t, const uint16_t *, size_t, const uint32_t *, size_t, uint32_t *,
                            size_t);
    uint8_t (*open_indexed)(const uint32_t *, size_t, const uint16_t *, size_t, const uint32_t *, size_t, uint32_t *,
                            size_t);
    uint8_t (*to_bytes)(const uint32_t *, size_t, uint8_t *, size_t);
    uint8_t (*from_bytes)(const uint8_t *, size_t, uint32_t *, size_t);
    uint8_t (*read)(const uint8_t *, size_t, size_t, uint32_t *, size_t);
    size_t (*read_next)(const uint8_t *, size_t, size_t);
    uint8_t (*write)(uint8_t, uint8_t, uint8_t, uint8_t, uint32_t, uint8_t *, size_t);
};

extern const struct ledger LEDGERS[3];
enum { HAND, PROVED, QUICK };

#endif
