#ifndef HEADERS_TIME_H
#define HEADERS_TIME_H

#ifdef __cplusplus
extern "C" {
#endif

struct timespec {
    long tv_sec;
    long tv_nsec;
};
#define CLOCK_MONOTONIC 1
int clock_gettime(int clock, struct timespec *now);

#ifdef __cplusplus
}
#endif

#endif
