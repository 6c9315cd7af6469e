/* Questions why on one unit for tests/why.py. lent.h has what a request is.

       N                                     valve_start                           nothing
       E, then events of nine bytes: S       the events happen                     nothing
       and a frame, T and four samples
       L, an image                           valve_load                            what it returns
       Q, an output, a byte                  valve_why into a trail full of        the result, what was touched (TOUCHED_..), the whole trail
                                             that byte */
#include "valve.h"
#include "lent.h"

enum { EVENT = 9 };
enum { TOUCHED_UNIT = 1, TOUCHED_BESIDE = 2 };

static uint32_t unit[VALVE_UNIT];
static struct region units, trails;

static void happen(const uint8_t *event)
{
    int16_t samples[4];
    uint8_t reply[8];
    if (event[0] == 'S') {
        valve_serve(unit, event + 1, 8, reply, 8);
    } else {
        memcpy(samples, event + 1, sizeof samples);
        valve_tick(unit, samples);
    }
}

static void ask(uint8_t output, uint8_t filler)
{
    uint8_t full[VALVE_TRAIL];
    int32_t what = 0;
    memset(full, filler, sizeof full);
    uint8_t *trail = lend(&trails, full, sizeof full);
    const uint32_t *lent = (const uint32_t *)(const void *)lend(&units, unit, sizeof unit);
    int32_t told = valve_why(lent, output, trail);
    if (touched(&units, lent, 0))
        what |= TOUCHED_UNIT;
    if (touched(&trails, trail, sizeof full))
        what |= TOUCHED_BESIDE;
    add_number(told);
    add_number(what);
    add(trail, sizeof full);
}

void run(void)
{
    shut(&units);
    shut(&trails);
    for (;;) {
        size_t length = next_request();
        if (request[0] == 'N')
            valve_start(unit);
        else if (request[0] == 'L')
            add_number(valve_load(unit, request + 1, length - 1));
        else if (request[0] == 'Q')
            ask(request[1], request[2]);
        else
            for (const uint8_t *event = request + 1; event < request + length; event += EVENT)
                happen(event);
        send_answer();
    }
}
