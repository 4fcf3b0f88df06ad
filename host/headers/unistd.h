#ifndef HEADERS_UNISTD_H
#define HEADERS_UNISTD_H

#include <stddef.h>

#ifdef __cplusplus
extern "C" {
#endif

typedef long ssize_t;
#define F_OK 0

ssize_t read(int file, void *to, size_t size);
ssize_t write(int file, const void *from, size_t size);
int fsync(int file);
int close(int file);
int access(const char *path, int how);
void _exit(int status) __attribute__((noreturn));
long syscall(long number, ...);

#ifdef __cplusplus
}
#endif

#endif
