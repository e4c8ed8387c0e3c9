/* What the C programs of the tests need of the C library. It is declared here, so that they stand on the C compiler alone: like izk.h they include no
   header that has a library behind it. */
#ifndef PLAIN_H
#define PLAIN_H

#include <stddef.h>
#include <stdint.h>

/* Linux on x86-64 has these numbers. */
#define PROT_NONE 0
#define PROT_READ 1
#define PROT_WRITE 2
#define MAP_PRIVATE 2
#define MAP_ANONYMOUS 32

long read(int file, void *bytes, size_t n);
long write(int file, const void *bytes, size_t n);
/* all ones where there is no memory */
void *mmap(void *at, size_t n, int protection, int flags, int file, long offset);
int mprotect(void *at, size_t n, int protection);
void *memset(void *bytes, int value, size_t n);
void *memcpy(void *to, const void *from, size_t n);
int memcmp(const void *a, const void *b, size_t n);
size_t strlen(const char *text);
_Noreturn void exit(int status);

/* Linux's layout at 64 bits. The clock of this number is the processor's time of the calling thread. */
enum { THREAD_TIME = 3 };
struct timespec {
    long tv_sec;
    long tv_nsec;
};
int clock_gettime(int clock, struct timespec *time);

#endif
