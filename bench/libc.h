/* The functions of the C library that are used here. The kit's compiler brings no headers for x86-64. */
#ifndef LIBC_H
#define LIBC_H

#include <stddef.h>

void *memcpy(void *restrict to, const void *restrict from, size_t n);
void *memset(void *to, int x, size_t n);
int memcmp(const void *a, const void *b, size_t n);
size_t strlen(const char *s);
int strcmp(const char *a, const char *b);
int sscanf(const char *s, const char *format, ...);
int printf(const char *format, ...);
int open(const char *path, int flags, ...);
long read(int fd, void *to, size_t n);
long write(int fd, const void *from, size_t n);
int close(int fd);
void perror(const char *what);
long clock(void); /* microseconds of this process */
_Noreturn void exit(int status);

#endif
