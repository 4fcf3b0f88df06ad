/* What waits in slip books over one token list: builds the list's index once, opens each book with it, and prints for each
   line in which tokens wait its bench, its customer and these tokens, newest first.

       slips tokens.rec slips.rec .. */
#include <stdio.h>
#include <stdlib.h>

#include "gingerstall.h"

enum { ROOM = 1 << 20 };
static uint8_t file[ROOM];
static uint32_t tokens[ROOM / 4], slips[GS_BOOK_WORDS], plain[GS_BOOK_WORDS];
static uint16_t entries[GS_INDEX_ENTRIES];

static void fail(const char *what, const char *path)
{
    fprintf(stderr, "%s: %s\n", path, what);
    exit(2);
}

static size_t load(const char *path)
{
    FILE *from = fopen(path, "rb");
    size_t bytes = from ? fread(file, 1, ROOM, from) : ROOM;
    if (bytes == ROOM || ferror(from))
        fail("can't be read or is too long", path);
    fclose(from);
    return bytes;
}

static size_t load_list(const char *path)
{
    size_t bytes = load(path);
    for (size_t i = 0; i < bytes; i++)
        tokens[i / 4] |= (uint32_t)file[i] << 8 * (i % 4);
    if (bytes % 4 != 0)
        fail("is cut within a token", path);
    return bytes / 4;
}

static void tell(const char *path)
{
    for (int line = 0; line < GS_BENCHES * GS_CUSTOMERS; line++) {
        const uint32_t *record = plain + GS_WORD(GS_LINE(0, line), 0);
        if (record[GS_COUNT] == 0)
            continue;
        printf("%s: bench %d, customer %d:", path, line / GS_CUSTOMERS, line % GS_CUSTOMERS);
        for (uint32_t i = 0; i < record[GS_COUNT]; i++)
            printf(" %u", record[GS_CELLS + i]);
        printf("\n");
    }
}

int main(int words, char **word)
{
    if (words < 3)
        fail("takes tokens.rec and slip books", "slips");
    size_t n = load_list(word[1]);
    uint8_t answer = gs_index_build(tokens, n, entries, GS_INDEX_ENTRIES);
    for (int i = 2; answer == 0 && i < words; i++) {
        answer = gs_book_from_bytes(file, load(word[i]), slips, GS_BOOK_WORDS);
        if (answer == 0)
            answer = gs_slip_open_indexed(tokens, n, entries, GS_INDEX_ENTRIES, slips, GS_BOOK_WORDS, plain, GS_BOOK_WORDS);
        if (answer == 0)
            tell(word[i]);
    }
    if (answer != 0)
        printf("refused %d\n", answer);
    return answer;
}
