/* Calls restore_list for tests/lists.py, and plays a list on a unit of the firmware. lent.h has what a request is.

       L, three lengths, a byte, two images    restore_list into a buffer full of   the result, what was touched (TOUCHED_..),
                                               that byte; the lengths are those     the whole buffer
                                               of the images and of the buffer
       E, two lengths, a byte, an image        the same, the image being both       the same
       P, two images, then events of nine      both are loaded; the events happen   both results; for each event the reply's length,
       bytes: S and a frame, T and four        on a unit that holds the first       the reply, and whether every entry holds its value
       samples                                                                      of the first or of the second; the unit's image */
#include "restore_list.h"
#include "valve.h"
#include "lent.h"

enum { ENTRIES = 611, EVENT = 9 };
enum { TOUCHED_CURRENT = 1, TOUCHED_WANTED = 2, TOUCHED_LIST = 4 };

static struct region currents, wanteds, lists;
static uint32_t unit[VALVE_UNIT], first[VALVE_UNIT], second[VALVE_UNIT];

static void make(const uint8_t *current, size_t current_length, const uint8_t *wanted, size_t wanted_length, size_t room, uint8_t filler)
{
    uint8_t full[MOST];
    int32_t what = 0;
    memset(full, filler, room);
    uint8_t *list = lend(&lists, full, room);
    int32_t made = restore_list(current, current_length, wanted, wanted_length, list, room);
    if (touched(&currents, current, 0))
        what |= TOUCHED_CURRENT;
    if (touched(&wanteds, wanted == current ? wanteds.pages + PAGE : wanted, 0))
        what |= TOUCHED_WANTED;
    if (touched(&lists, list, made < 0 ? 0 : (size_t)made <= room ? (size_t)made : room))
        what |= TOUCHED_LIST;
    add_number(made);
    add_number(what);
    add(list, room);
}

static void make_list(const uint8_t *asked)
{
    size_t current = number_at(asked), wanted = number_at(asked + 4), room = number_at(asked + 8);
    const uint8_t *images = asked + 13;
    const uint8_t *lent = lend(&currents, images, current);
    make(lent, current, lend(&wanteds, images + current, wanted), wanted, room, asked[12]);
}

static void make_list_of_one(const uint8_t *asked)
{
    size_t length = number_at(asked), room = number_at(asked + 4);
    const uint8_t *lent = lend(&currents, asked + 9, length);
    lend(&wanteds, asked, 0);
    make(lent, length, lent, length, room, asked[8]);
}

static uint8_t holds_first_or_second(void)
{
    for (size_t i = 0; i < ENTRIES; i++)
        if (unit[i] != first[i] && unit[i] != second[i])
            return 0;
    return 1;
}

static void happen(const uint8_t *event)
{
    uint8_t reply[8] = {0}, length = 0;
    int16_t samples[4];
    if (event[0] == 'S') {
        length = (uint8_t)valve_serve(unit, event + 1, 8, reply, 8);
    } else {
        memcpy(samples, event + 1, sizeof samples);
        valve_tick(unit, samples);
    }
    add(&length, 1);
    add(reply, sizeof reply);
    length = holds_first_or_second();
    add(&length, 1);
}

static void play(const uint8_t *images, const uint8_t *end)
{
    uint8_t saved[VALVE_IMAGE];
    valve_start(first);
    valve_start(second);
    add_number(valve_load(first, images, VALVE_IMAGE));
    add_number(valve_load(second, images + VALVE_IMAGE, VALVE_IMAGE));
    memcpy(unit, first, sizeof unit);
    for (const uint8_t *event = images + 2 * VALVE_IMAGE; event < end; event += EVENT)
        happen(event);
    valve_save(unit, saved, VALVE_IMAGE);
    add(saved, VALVE_IMAGE);
}

static void answer_one(void)
{
    size_t length = next_request();
    if (request[0] == 'L')
        make_list(request + 1);
    else if (request[0] == 'E')
        make_list_of_one(request + 1);
    else
        play(request + 1, request + length);
    send_answer();
}

void run(void)
{
    shut(&currents);
    shut(&wanteds);
    shut(&lists);
    for (;;)
        answer_one();
}
