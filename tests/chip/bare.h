/* bench/bare.h for a Cortex-M in the emulator: the same start and the same calls, by semihosting. To be included before all else, by one
   file of a program. A fault, as a touch of memory that was shut, ends the program with status 4. */
#ifndef BARE_H
#define BARE_H

#include <stddef.h>
#include <stdint.h>

enum { SYS_READ = 0, SYS_WRITE = 1, SYS_MPROTECT = 10, SYS_EXIT = 60 };
enum { HOST_OPEN = 1, HOST_WRITE = 5, HOST_READ = 6, HOST_EXIT = 0x20, FAULT_STATUS = 4 };

static uint32_t ask_host(uint32_t what, const void *with)
{
    register uint32_t r0 __asm__("r0") = what;
    register const void *r1 __asm__("r1") = with;
    __asm__ volatile("bkpt 0xAB" : "+r"(r0) : "r"(r1) : "memory");
    return r0;
}

/* The host's standard input (mode 0) or output (mode 4). */
static uint32_t console(uint32_t mode)
{
    const uint32_t words[3] = {(uint32_t)":tt", mode, 3};
    return ask_host(HOST_OPEN, words);
}

static long read_host(const void *to, uint32_t room)
{
    static uint32_t file;
    if (file == 0)
        file = console(0) + 1;
    const uint32_t words[3] = {file - 1, (uint32_t)to, room};
    return (long)(room - ask_host(HOST_READ, words));
}

static long write_host(const void *from, uint32_t length)
{
    static uint32_t file;
    if (file == 0)
        file = console(4) + 1;
    const uint32_t words[3] = {file - 1, (uint32_t)from, length};
    return (long)(length - ask_host(HOST_WRITE, words));
}

/* Nobody may touch the 64 KiB from here on: a region of the memory protection unit for each. The M0+ has the same registers. */
static long shut_memory(uint32_t from)
{
    static uint32_t region;
    *(volatile uint32_t *)0xE000ED9C = from | 1 << 4 | region++; /* RBAR */
    *(volatile uint32_t *)0xE000EDA0 = 1 << 28 | 15 << 1 | 1;    /* RASR: no access, 2 to the 16 bytes, on */
    *(volatile uint32_t *)0xE000ED94 = 1 << 2 | 1;               /* CTRL: on, all else as without it */
    __asm__ volatile("dsb\n\tisb" : : : "memory");
    return 0;
}

static long call(long number, long a, const void *b, long c)
{
    if (number == SYS_READ)
        return read_host(b, (uint32_t)c);
    if (number == SYS_WRITE)
        return write_host(b, (uint32_t)c);
    if (number == SYS_MPROTECT)
        return shut_memory((uint32_t)a);
    const uint32_t words[2] = {0x20026, (uint32_t)a};
    ask_host(HOST_EXIT, words);
    for (;;)
        continue;
}

void run(void);

void _start(void)
{
#ifdef __ARM_FP
    *(volatile uint32_t *)0xE000ED88 |= 0xFu << 20; /* the floating-point unit on; FPSCR as after reset */
    __asm__ volatile("dsb\n\tisb");
#endif
    run();
    call(SYS_EXIT, 0, 0, 0);
}

static void fault(void) { call(SYS_EXIT, FAULT_STATUS, 0, 0); }

__attribute__((section(".vectors"), used)) static void (*const vectors[16])(void) = {
    (void (*)(void))0x20400000, _start, fault, fault, fault, fault, fault,
};

/* The memory copies that the libraries leave to a firmware: by words where they may, as a C library has them. */
#define OURS __attribute__((no_builtin))
OURS void *memcpy(void *to, const void *from, size_t n)
{
    size_t i = 0;
    if ((((uint32_t)to | (uint32_t)from) & 3) == 0)
        for (; i + 4 <= n; i += 4)
            *(uint32_t *)((uint8_t *)to + i) = *(const uint32_t *)((const uint8_t *)from + i);
    for (; i < n; i++)
        ((uint8_t *)to)[i] = ((const uint8_t *)from)[i];
    return to;
}
OURS void *memset(void *to, int byte, size_t n)
{
    size_t i = 0;
    if (((uint32_t)to & 3) == 0)
        for (; i + 4 <= n; i += 4)
            *(uint32_t *)((uint8_t *)to + i) = (uint8_t)byte * 0x01010101u;
    for (; i < n; i++)
        ((uint8_t *)to)[i] = (uint8_t)byte;
    return to;
}
void __aeabi_memcpy(void *to, const void *from, size_t n) { memcpy(to, from, n); }
void __aeabi_memcpy4(void *to, const void *from, size_t n) { memcpy(to, from, n); }
void __aeabi_memcpy8(void *to, const void *from, size_t n) { memcpy(to, from, n); }
void __aeabi_memset(void *to, size_t n, int byte) { memset(to, byte, n); }
void __aeabi_memset4(void *to, size_t n, int byte) { memset(to, byte, n); }
void __aeabi_memset8(void *to, size_t n, int byte) { memset(to, byte, n); }
void __aeabi_memclr(void *to, size_t n) { memset(to, 0, n); }
void __aeabi_memclr4(void *to, size_t n) { memset(to, 0, n); }
void __aeabi_memclr8(void *to, size_t n) { memset(to, 0, n); }

#endif
