#ifndef HEADERS_STDLIB_H
#define HEADERS_STDLIB_H

#include <stddef.h>

#ifdef __cplusplus
extern "C" {
#endif

#define EXIT_SUCCESS 0
#define EXIT_FAILURE 1

void *malloc(size_t size);
void *calloc(size_t count, size_t size);
void *realloc(void *from, size_t size);
void free(void *from);
void exit(int status) __attribute__((noreturn));
char *getenv(const char *name);
void abort(void) __attribute__((noreturn));
unsigned long long strtoull(const char *text, char **end, int base);

#ifdef __cplusplus
}
#endif

#endif
