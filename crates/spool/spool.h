/* The twin-coil spool product for a firmware written in C: one spool, two coils on outputs 1 and 2 of the controller in valve.h, and an
 * interlock between them.
 *
 * The caller lends the controller's unit, and beside it two numbers, what was last sent to coil 1 and coil 2 in mA. There is no other
 * state.
 *
 *     static uint32_t unit[VALVE_UNIT];
 *     static int16_t sent[2];
 *     spool_start(unit, sent);                                        once, for valve_start
 *     spool_tick(unit, sent, samples);                                every millisecond, for valve_tick
 *     drive_coils(sent[0], sent[1]);
 *     if (valve_serve(unit, frame, 8, reply, 8) == 8) send(reply);    all else is the controller's, as before
 *
 * A coil is sent the controller's command, but it goes above 0 only if the other was sent 0 on the tick before; where both ask while both
 * are at 0, coil 1 wins, and the coil that loses is sent 0. So the two are never above 0 on one tick, whatever frames, samples and images
 * come, and between the one and the other there is at least one tick with both at 0. The controller is not told: 7330h:1-2 and
 * valve_commands have its own commands, its ramps go on while a coil is held at 0, and outputs 3 and 4 are driven by valve_commands as
 * before. Which settings make one lever drive two coils is up to the configuration.
 *
 * What each call does is proved for any words in either array and any samples. For numbers that were not sent by spool_tick: 0 and nothing
 * else counts as sent 0. What valve.h says of its calls holds of these: they never write outside the arrays that are lent to them, never
 * allocate, never wait, never fail, and always return; the arrays lent to one call must not overlap. Link libspool.a and libfirmware.a.
 */
#ifndef SPOOL_H
#define SPOOL_H

#include <stdint.h>

#ifdef __cplusplus
extern "C" {
#endif

/* Makes the unit of VALVE_UNIT words a fresh one, as valve_start does, and both numbers 0. */
void spool_start(uint32_t *unit, int16_t *sent);

/* One tick of a millisecond on four samples, as valve_tick has it; then what the two coils are sent, in the place of what they were sent
 * on the tick before. */
void spool_tick(uint32_t *unit, int16_t *sent, const int16_t *samples);

#ifdef __cplusplus
}
#endif

#endif
