#ifndef HEADERS_ERRNO_H
#define HEADERS_ERRNO_H

#ifdef __cplusplus
extern "C" {
#endif

/* Each thread has its own. */
int *__errno_location(void) __attribute__((const));
#define errno (*__errno_location())
#define ENOENT 2
#define EINTR 4
#define EEXIST 17
#define EINVAL 22
#define ENOSPC 28

#ifdef __cplusplus
}
#endif

#endif
