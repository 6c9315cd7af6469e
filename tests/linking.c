/* Both libraries in one C program, as README.md builds it: a fresh unit's configuration is saved, a frame writes 3015h:2 = 150, the
   configuration is saved again, and the list that leads from the first image to the second is shown: its length, then its bytes. */
#include "restore_list.h"
#include "valve.h"
#include "bare.h"

static uint32_t unit[VALVE_UNIT];
static uint8_t before[VALVE_IMAGE], after[VALVE_IMAGE], list[RESTORE_LIST_MOST];

static void show(const char *words, long length) { call(SYS_WRITE, 1, words, length); }

static void show_byte(uint8_t byte)
{
    const char *digits = "0123456789ABCDEF";
    const char words[3] = {' ', digits[byte >> 4], digits[byte & 15]};
    show(words, sizeof words);
}

void run(void)
{
    static const uint8_t frame[8] = {0x2B, 0x15, 0x30, 2, 150};
    uint8_t reply[8];
    valve_start(unit);
    valve_save(unit, before, sizeof before);
    valve_serve(unit, frame, sizeof frame, reply, sizeof reply);
    valve_save(unit, after, sizeof after);
    int32_t length = restore_list(before, sizeof before, after, sizeof after, list, sizeof list);
    const char tens_and_ones[2] = {(char)('0' + length / 10), (char)('0' + length % 10)};
    show(tens_and_ones, sizeof tens_and_ones);
    show(" bytes:", 7);
    for (int32_t i = 0; i < length; i++)
        show_byte(list[i]);
    show("\n", 1);
    call(SYS_EXIT, 0, 0, 0);
}
