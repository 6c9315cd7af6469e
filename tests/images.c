/* Calls the image functions of valve.h for tests/images.py, one request after the other, and says what a call touched that it must
   leave alone. lent.h has what a request is. The unit stays from request to request.

       U, all words of the unit                          nothing
       I, an image        valve_check, valve_load        both results, what was touched (TOUCHED_..), the unit's first 611 words
       S, room, a byte    valve_save into a buffer       the result, what was touched, the whole buffer
                          full of that byte
       F, a frame         valve_serve                    the length of the reply, the reply */
#include "valve.h"
#include "lent.h"

enum { ENTRIES = 611 };
enum { TOUCHED_IMAGE_BY_CHECK = 1, TOUCHED_IMAGE_BY_LOAD = 2, TOUCHED_UNIT = 4, TOUCHED_BUFFER = 8 };

static struct region images, units, saved_units;

static uint32_t *const unit = (uint32_t *)(void *)(units.pages + PAGE - 4 * VALVE_UNIT);

static void set_unit(const uint8_t *words)
{
    memcpy(unit, words, 4 * VALVE_UNIT);
}

static void check_and_load(const uint8_t *bytes, size_t length)
{
    uint8_t copy[4 * VALVE_UNIT];
    int32_t what = 0;
    const uint8_t *image = lend(&images, bytes, length);
    add_number(valve_check(image, length));
    if (touched(&images, image, 0))
        what |= TOUCHED_IMAGE_BY_CHECK;

    image = lend(&images, bytes, length);
    memcpy(copy, unit, sizeof copy);
    lend(&units, copy, sizeof copy);
    int32_t loaded = valve_load(unit, image, length);
    if (loaded == 0) /* a load is a write: the mark of a tick, the unit's last word, is taken away */
        memset(units.before + MOST - 4, 0, 4);
    if (touched(&images, image, 0))
        what |= TOUCHED_IMAGE_BY_LOAD;
    if (touched(&units, unit, loaded == 0 ? 4 * ENTRIES : 0))
        what |= TOUCHED_UNIT;
    add_number(loaded);
    add_number(what);
    add(unit, 4 * ENTRIES);
}

static void save(size_t room, uint8_t filler)
{
    uint8_t empty[MOST];
    int32_t what = 0;
    memset(empty, filler, room);
    uint8_t *buffer = lend(&images, empty, room);
    const uint32_t *lent = (const uint32_t *)(const void *)lend(&saved_units, unit, 4 * VALVE_UNIT);
    int32_t saved = valve_save(lent, buffer, room);
    if (touched(&saved_units, lent, 0))
        what |= TOUCHED_UNIT;
    if (touched(&images, buffer, saved == 0 ? VALVE_IMAGE : 0))
        what |= TOUCHED_BUFFER;
    add_number(saved);
    add_number(what);
    add(buffer, room);
}

static void serve(const uint8_t *frame)
{
    uint8_t reply[8] = {0};
    add_number(valve_serve(unit, frame, 8, reply, 8));
    add(reply, 8);
}

static void answer_one(void)
{
    size_t length = next_request();
    if (request[0] == 'U')
        set_unit(request + 1);
    else if (request[0] == 'I')
        check_and_load(request + 1, length - 1);
    else if (request[0] == 'S')
        save(number_at(request + 1), request[5]);
    else
        serve(request + 1);
    send_answer();
}

void run(void)
{
    shut(&images);
    shut(&units);
    shut(&saved_units);
    for (;;)
        answer_one();
}
