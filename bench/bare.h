/* What a C program needs that stands on the kernel's calls alone: its start, and the two functions that clang calls for large copies.
   The start calls void run(void), or void run(const long *words): the number of words that the program was started with, then a pointer
   to each. To be included by one file of a program. */
#ifndef BARE_H
#define BARE_H

#include <stddef.h>

/* Started by the kernel with an aligned stack, as a call would not have it. */
__asm__(".globl _start\n_start: mov %rsp, %rdi\ncall run\n");

enum { SYS_READ = 0, SYS_WRITE = 1, SYS_OPEN = 2, SYS_MPROTECT = 10, SYS_EXIT = 60 };

static long call(long number, long a, const void *b, long c)
{
    long result;
    __asm__ volatile("syscall" : "=a"(result) : "a"(number), "D"(a), "S"(b), "d"(c) : "rcx", "r11", "memory");
    return result;
}

/* By words, as a C library has them; the emulator counts a repeated instruction once for each time. */
void *memcpy(void *to, const void *from, size_t n)
{
    void *at = to;
    size_t words = n / 8;
    n %= 8;
    __asm__ volatile("rep movsq" : "+D"(at), "+S"(from), "+c"(words) : : "memory");
    __asm__ volatile("rep movsb" : "+D"(at), "+S"(from), "+c"(n) : : "memory");
    return to;
}

void *memset(void *to, int byte, size_t n)
{
    void *at = to;
    size_t words = n / 8;
    n %= 8;
    __asm__ volatile("rep stosq" : "+D"(at), "+c"(words) : "a"((unsigned char)byte * 0x0101010101010101ull) : "memory");
    __asm__ volatile("rep stosb" : "+D"(at), "+c"(n) : "a"(byte) : "memory");
    return to;
}

#endif
