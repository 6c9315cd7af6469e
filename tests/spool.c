/* The spool product for tests/spool.py: the libraries spool and firmware in one program. lent.h has what a request is.

       N                                   spool_start, over words of something    whether all else is as it must be
       E, then events of nine bytes: S     the events happen; what the coils are   for each event ten bytes: the reply's length and the
       and a frame, T and four samples,    sent ends at memory that is shut        reply, or the register, what was sent and the last
       L and two numbers to be lent                                                two commands; then whether all else is as it must be

   The same frames and ticks happen to a unit of valve_tick's own. All else: the two units are equal, and nothing beside what is lent as
   sent was touched. */
#include "spool.h"
#include "valve.h"
#include "lent.h"

enum { EVENT = 9, SENT = 4 };

static uint32_t unit[VALVE_UNIT], core[VALVE_UNIT];
static struct region lent;
static int16_t sent[2];

/* What was sent is lent, and taken back. */
static uint8_t started_or_ticked(const int16_t *samples)
{
    uint8_t *at = lend(&lent, sent, SENT);
    if (samples)
        spool_tick(unit, (int16_t *)at, samples);
    else
        spool_start(unit, (int16_t *)at);
    memcpy(sent, at, SENT);
    return !touched(&lent, at, SENT);
}

static uint8_t are_equal(void) { return (uint8_t)equal((const uint8_t *)unit, (const uint8_t *)core, sizeof unit); }

static void happen(const uint8_t *event)
{
    uint8_t reply[8] = {0}, other[8] = {0}, first = 0, good = 1;
    int16_t words[4];
    if (event[0] == 'S') {
        first = (uint8_t)valve_serve(unit, event + 1, 8, reply, 8);
        good = first == valve_serve(core, event + 1, 8, other, 8) && equal(reply, other, sizeof reply);
    } else if (event[0] == 'T') {
        memcpy(words, event + 1, sizeof words);
        good = started_or_ticked(words);
        valve_tick(core, words);
        valve_commands(unit, words);
        memcpy(words, sent, SENT);
        memcpy(reply, words, sizeof words);
        first = valve_error_register(unit);
    } else {
        memcpy(sent, event + 1, SENT);
    }
    good = good && are_equal();
    add(&first, 1);
    add(reply, sizeof reply);
    add(&good, 1);
}

void run(void)
{
    shut(&lent);
    for (;;) {
        size_t length = next_request();
        if (request[0] == 'N') {
            memset(unit, 0xA5, sizeof unit);
            memset(sent, 0xA5, sizeof sent);
            uint8_t good = started_or_ticked(0);
            valve_start(core);
            add_number(good && are_equal());
        } else {
            for (const uint8_t *event = request + 1; event < request + length; event += EVENT)
                happen(event);
        }
        send_answer();
    }
}
