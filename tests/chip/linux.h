/* bench/bare.h for Linux on other processors than x86-64: the same start and the same calls. To be included before all else, by one
   file of a program. */
#ifndef BARE_H
#define BARE_H

#include <stddef.h>
#include <stdint.h>

#if defined(__aarch64__)
enum { SYS_READ = 63, SYS_WRITE = 64, SYS_MPROTECT = 226, SYS_EXIT = 93 };
__asm__(".globl _start\n_start: bl run\n");
#define REGISTER(name, n) register long name __asm__("x" #n)
#define NUMBER 8
#define TRAP "svc 0"
#elif defined(__riscv)
enum { SYS_READ = 63, SYS_WRITE = 64, SYS_MPROTECT = 226, SYS_EXIT = 93 };
__asm__(".globl _start\n_start: call run\n");
#define REGISTER(name, n) register long name __asm__("a" #n)
#define NUMBER 7
#define TRAP "ecall"
#else
enum { SYS_READ = 3, SYS_WRITE = 4, SYS_MPROTECT = 125, SYS_EXIT = 1 };
__asm__(".globl _start\n.arm\n_start: blx run\n");
#define REGISTER(name, n) register long name __asm__("r" #n)
#define NUMBER 7
#define TRAP "svc 0"
#endif
#define REGISTER_OF(name, n) REGISTER(name, n)

static long call(long number, long a, const void *b, long c)
{
    REGISTER_OF(what, NUMBER) = number;
    REGISTER(first, 0) = a;
    REGISTER(second, 1) = (long)b;
    REGISTER(third, 2) = c;
    __asm__ volatile(TRAP : "+r"(first) : "r"(what), "r"(second), "r"(third) : "memory");
    return first;
}

#define OURS __attribute__((no_builtin))
OURS void *memcpy(void *to, const void *from, size_t n)
{
    for (size_t i = 0; i < n; i++)
        ((uint8_t *)to)[i] = ((const uint8_t *)from)[i];
    return to;
}
OURS void *memset(void *to, int byte, size_t n)
{
    for (size_t i = 0; i < n; i++)
        ((uint8_t *)to)[i] = (uint8_t)byte;
    return to;
}
#if defined(__arm__)
void __aeabi_memcpy(void *to, const void *from, size_t n) { memcpy(to, from, n); }
void __aeabi_memcpy4(void *to, const void *from, size_t n) { memcpy(to, from, n); }
void __aeabi_memcpy8(void *to, const void *from, size_t n) { memcpy(to, from, n); }
void __aeabi_memset(void *to, size_t n, int byte) { memset(to, byte, n); }
void __aeabi_memset4(void *to, size_t n, int byte) { memset(to, byte, n); }
void __aeabi_memset8(void *to, size_t n, int byte) { memset(to, byte, n); }
void __aeabi_memclr(void *to, size_t n) { memset(to, 0, n); }
void __aeabi_memclr4(void *to, size_t n) { memset(to, 0, n); }
void __aeabi_memclr8(void *to, size_t n) { memset(to, 0, n); }
#endif

#endif
