#ifndef HEADERS_STRING_H
#define HEADERS_STRING_H

#include <stddef.h>

#ifdef __cplusplus
extern "C" {
#endif

void *memcpy(void *to, const void *from, size_t size);
void *memmove(void *to, const void *from, size_t size);
int memcmp(const void *left, const void *right, size_t size);
void *memset(void *to, int byte, size_t size);
void *memchr(const void *from, int byte, size_t size);
size_t strlen(const char *text);
int strcmp(const char *left, const char *right);
char *strrchr(const char *text, int byte);
char *strerror(int number);

#ifdef __cplusplus
}
#endif

#endif
