/* For C programs that call the product as a Python script asks them to: memory to lend that shows what a call touched, and requests on
   standard input with answers on standard output. To be included by one file of a program.

   A request is the length of what follows (four bytes, low first), a letter, and what the letter asks for; an answer is its length and
   its bytes. What is lent ends where memory begins that nobody may touch: a call that goes past it ends the program. */
#ifndef LENT_H
#define LENT_H

#include "bare.h"
#include <stdint.h>

enum { MOST = 8192, PAGE = 65536 }; /* the largest page of any processor that emulates this one */
enum { REQUEST = 1 << 18 };

/* Memory to lend: the last MOST bytes of the first page, of which `before` is a copy. The second page is shut. */
struct region {
    uint8_t pages[2 * PAGE];
    uint8_t before[PAGE];
} __attribute__((aligned(PAGE)));

static uint8_t request[REQUEST], answer[REQUEST];
static size_t answer_length;

static void shut(struct region *region)
{
    if (call(SYS_MPROTECT, (long)(region->pages + PAGE), (void *)PAGE, 0) != 0)
        call(SYS_EXIT, 3, 0, 0);
}

/* The region's last bytes are these, the others a pattern; from now on a change shows. */
static uint8_t *lend(struct region *region, const void *bytes, size_t length)
{
    uint8_t *all = region->pages + PAGE - MOST, *lent = region->pages + PAGE - length;
    memset(all, 0x5A, MOST);
    memcpy(lent, bytes, length);
    memcpy(region->before, all, MOST);
    return lent;
}

static int equal(const uint8_t *a, const uint8_t *b, size_t length)
{
    for (size_t i = 0; i < length; i++)
        if (a[i] != b[i])
            return 0;
    return 1;
}

/* Whether a byte of the region has changed, but for the `length` bytes from `free` on. */
static int touched(const struct region *region, const void *free, size_t length)
{
    const uint8_t *all = region->pages + PAGE - MOST;
    size_t head = (size_t)((const uint8_t *)free - all), rest = head + length;
    return !equal(all, region->before, head) || !equal(all + rest, region->before + rest, MOST - rest);
}

static void add(const void *bytes, size_t length)
{
    memcpy(answer + answer_length, bytes, length);
    answer_length += length;
}

static void add_number(int32_t number)
{
    add(&number, sizeof number);
}

static uint32_t number_at(const uint8_t *bytes)
{
    uint32_t number;
    memcpy(&number, bytes, sizeof number);
    return number;
}

/* Reads so many bytes; the program ends where the input does. */
static void take(uint8_t *to, size_t length)
{
    while (length > 0) {
        long count = call(SYS_READ, 0, to, (long)length);
        if (count <= 0)
            call(SYS_EXIT, 0, 0, 0);
        to += count;
        length -= (size_t)count;
    }
}

static void give(const uint8_t *from, size_t length)
{
    while (length > 0) {
        long count = call(SYS_WRITE, 1, from, (long)length);
        if (count <= 0)
            call(SYS_EXIT, 1, 0, 0);
        from += count;
        length -= (size_t)count;
    }
}

/* The next request stands in `request`, and the answer to it is empty. Returns its length. */
static size_t next_request(void)
{
    uint8_t length_bytes[4];
    take(length_bytes, 4);
    size_t length = number_at(length_bytes);
    if (length == 0 || length > REQUEST)
        call(SYS_EXIT, 2, 0, 0);
    take(request, length);
    answer_length = 0;
    return length;
}

static void send_answer(void)
{
    uint32_t length = (uint32_t)answer_length;
    give((const uint8_t *)&length, 4);
    give(answer, answer_length);
}

#endif
