/* A day with the book: loads a token list and a book, applies a tape, saves the book, and prints what was refused and the
   balance of each bench that has joined. With a 15 it prints which token is dead, counted from 0 in the line's tokens, and
   where dead tokens were dropped how many.

       embed tokens.rec book.rec tape.rec
       embed book.rec                          makes an empty book, if there is no file of that name */
#define _POSIX_C_SOURCE 200809L
#include <fcntl.h>
#include <stdio.h>
#include <stdlib.h>
#include <string.h>
#include <unistd.h>

#include "gingerstall.h"

enum { ROOM = 1 << 20, PATH = 4096 };
static uint8_t file[ROOM], verdicts[ROOM / GS_TAPE_BYTES], seconds[ROOM / GS_TAPE_BYTES];
static uint32_t tokens[ROOM / 4], book[GS_BOOK_WORDS];

static void fail(const char *what, const char *path)
{
    fprintf(stderr, "%s: %s\n", path, what);
    exit(2);
}

static size_t load(const char *path)
{
    FILE *from = fopen(path, "rb");
    size_t bytes = from ? fread(file, 1, ROOM, from) : ROOM;
    if (bytes == ROOM || ferror(from))
        fail("can't be read or is too long", path);
    fclose(from);
    return bytes;
}

/* Whether all that was written to a file, or to the names in a folder, is on the disk. */
static int is_kept(int opened)
{
    int kept = opened >= 0 && fsync(opened) == 0;
    return opened >= 0 && close(opened) == 0 && kept;
}

/* The new book is on the disk before it takes the old one's name: a crash leaves the old one whole, or the new one. */
static void save(const char *path)
{
    char beside[PATH], folder[PATH];
    const char *slash = strrchr(path, '/');
    if (snprintf(beside, PATH, "%s.new", path) >= PATH)
        fail("is too long a name", path);
    snprintf(folder, PATH, "%.*s", slash ? (int)(slash - path) + 1 : 1, slash ? path : ".");
    gs_book_to_bytes(book, GS_BOOK_WORDS, file, GS_BOOK_BYTES);
    int to = open(beside, O_WRONLY | O_CREAT | O_TRUNC, 0666);
    int written = to >= 0 && write(to, file, GS_BOOK_BYTES) == GS_BOOK_BYTES;
    if (!is_kept(to) || !written || rename(beside, path) != 0 || !is_kept(open(folder, O_RDONLY)))
        fail("can't be saved", path);
}

static void make_empty(const char *path)
{
    if (access(path, F_OK) == 0)
        fail("is there already", path);
    gs_empty(book, GS_BOOK_WORDS);
    save(path);
}

static void tell(size_t steps)
{
    for (size_t i = 0; i < steps; i++)
        if (verdicts[i] == 15)
            printf("step %zu: refused 15, token %d is dead\n", i, seconds[i]);
        else if (verdicts[i] != 0)
            printf("step %zu: refused %d\n", i, verdicts[i]);
        else if (seconds[i] != 0)
            printf("step %zu: granted, %d dropped\n", i, seconds[i]);
    for (int bench = 0; bench < GS_BENCHES; bench++)
        if (book[GS_WORD(GS_BENCH_VIEW(bench), GS_IN_USE)] == 1)
            printf("bench %d: %u\n", bench, book[GS_WORD(GS_BENCH_VIEW(bench), GS_AMOUNT)]);
}

static int run(const char *list, const char *filed, const char *tape)
{
    size_t listed = load(list);
    for (size_t i = 0; i < listed; i++)
        tokens[i / 4] |= (uint32_t)file[i] << 8 * (i % 4);
    if (listed % 4 != 0)
        fail("is cut within a token", list);
    uint8_t answer = gs_book_from_bytes(file, load(filed), book, GS_BOOK_WORDS);
    size_t bytes = load(tape), steps = bytes / GS_TAPE_BYTES;
    if (answer == 0)
        answer = gs_run(tokens, listed / 4, book, GS_BOOK_WORDS, file, bytes, verdicts, steps, seconds, steps);
    if (answer != 0) {
        printf("refused %d\n", answer);
        return answer;
    }
    save(filed);
    tell(steps);
    return 0;
}

int main(int words, char **word)
{
    if (words == 4)
        return run(word[1], word[2], word[3]);
    if (words != 2)
        fail("takes tokens.rec book.rec tape.rec, or book.rec alone", "embed");
    make_empty(word[1]);
    return 0;
}
