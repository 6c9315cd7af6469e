/* Frames and ticks on one unit for tests/chip.py. lent.h has what a request is.

       N                                     valve_start                           nothing
       E, then events of nine bytes: S       the events happen                     for each event nine bytes: the reply's length and the
       and a frame, T and four samples                                             reply, or the register and the four commands
       X                                     memory is touched that is shut        nothing: the program must end */
#include "valve.h"
#include "lent.h"

enum { EVENT = 9 };

static uint32_t unit[VALVE_UNIT];
static struct region lent;

static void happen(const uint8_t *event)
{
    int16_t words[4] = {0};
    uint8_t reply[8] = {0}, first;
    if (event[0] == 'S') {
        first = (uint8_t)valve_serve(unit, event + 1, 8, reply, 8);
    } else {
        memcpy(words, event + 1, sizeof words);
        valve_tick(unit, words);
        valve_commands(unit, words);
        memcpy(reply, words, sizeof words);
        first = valve_error_register(unit);
    }
    add(&first, 1);
    add(reply, sizeof reply);
}

void run(void)
{
    shut(&lent);
    for (;;) {
        size_t length = next_request();
        if (request[0] == 'N')
            valve_start(unit);
        else if (request[0] == 'X')
            *(volatile uint8_t *)(lent.pages + PAGE) = 1;
        else
            for (const uint8_t *event = request + 1; event < request + length; event += EVENT)
                happen(event);
        send_answer();
    }
}
