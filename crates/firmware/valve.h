/* A CANopen valve controller for a firmware written in C.
 *
 * The caller lends one array of VALVE_UNIT words, the whole unit: its object dictionary and what its ticks remember. There is no
 * other state, so each unit is an array of its own, and units never touch each other.
 *
 *     static uint32_t unit[VALVE_UNIT];
 *     valve_start(unit);                                              once
 *     valve_tick(unit, samples);                                      every millisecond
 *     valve_commands(unit, commands);                                 and what it commands, four numbers
 *     if (valve_serve(unit, frame, 8, reply, 8) == 8) send(reply);    for each SDO request
 *
 *     static uint8_t trail[VALVE_TRAIL];
 *     int32_t rule = valve_why(unit, 1, trail);                       why output 1 has its command, for a technician
 *
 *     static uint8_t image[VALVE_IMAGE];
 *     valve_save(unit, image, VALVE_IMAGE);                           the configuration as bytes to keep
 *     if (valve_load(unit, image, VALVE_IMAGE) != 0) complain();      and back, into this unit or another
 *
 * What each call does is proved for any words in the array, any frame, any samples and any image. A call never writes outside the
 * arrays that are lent to it, never reads past the lengths given, never allocates, never waits, never fails, and always returns. It
 * may be called from an interrupt; two calls on the same unit must not overlap in time. The arrays lent to one call must not overlap
 * each other. Pointers are not NULL, also where a length is 0, and a length is that of the array behind the pointer. Lengths are 64 bits
 * wide on every chip.
 */
#ifndef VALVE_H
#define VALVE_H

#include <stdint.h>

#ifdef __cplusplus
extern "C" {
#endif

/* How many words a unit has. */
#define VALVE_UNIT 758

/* Makes the unit a fresh one: every entry at its default, nothing remembered. What was in the array does not matter. */
void valve_start(uint32_t *unit);

/* Answers one SDO request of frame_length bytes (DS-301, expedited transfer): a read (40h), a write that tells its size (23h, 27h, 2Bh,
 * 2Fh), or one that does not (22h), of which as many bytes count as the entry has. Returns the reply's length: 8 where the first 8 bytes of
 * reply now hold the answer, which may be an abort, or 0 where there is no answer and reply is as it was: a frame that is not 8 long,
 * room for fewer than 8 bytes, or the client's own abort (80h). Only an accepted write changes the unit, and that in one entry; a 0
 * written to 1003h:0 so clears the error list. valve_why then tells nothing until the next tick. */
int32_t valve_serve(uint32_t *unit, const uint8_t *frame, uint64_t frame_length, uint8_t *reply, uint64_t reply_length);

/* One tick of a millisecond on four samples, those of inputs 1 to 4. An input that is flagged and was not on the last tick is entered in the
 * error list: 1003h:0 reads how many are kept, 8 at most, 1003h:1 the newest, FF00h in the low half and the input's number in the high half. */
void valve_tick(uint32_t *unit, const int16_t *samples);

/* The four commands in mA, those of outputs 1 to 4, as the last tick left them: what a read of 7330h:1-4 answers. */
void valve_commands(const uint32_t *unit, int16_t *commands);

/* The error register, 21h while an input is flagged, else 0: what a read of 1001h answers. */
uint8_t valve_error_register(const uint32_t *unit);

/* How many bytes an image has. An image is a configuration: the count 611 (u32), then for each of the 611 entries, ascending by index
 * then sub, a record: index (u16), sub (u8), the data's size (u32), data. Numbers have their low byte first. */
#define VALVE_IMAGE 5207

/* The three functions below return 0, or the number of a refusal, which is below zero. A refusal writes nothing. Bytes are judged
 * record by record, and the first record with a fault decides; then come bytes left over, and the chains at the very end. */
#define VALVE_ENDED_EARLY (-1)  /* the image ends before the count, a record's head of 7 bytes, or a record's data is complete */
#define VALVE_WRONG_COUNT (-2)  /* the count is not 611 */
#define VALVE_NOT_NEXT (-3)     /* the index or sub is not that of the entry which comes next */
#define VALVE_WRONG_SIZE (-4)   /* the size is not that of the entry's type */
#define VALVE_OUT_OF_RANGE (-5) /* the value is outside its entry's own range, or a REAL32 that is not finite */
#define VALVE_OUT_OF_ORDER (-6) /* each value is in range, but two are not in order, as a minimum above its maximum */
#define VALVE_LEFT_OVER (-7)    /* there are bytes behind the last record */
#define VALVE_NO_ROOM (-8)      /* valve_save alone: image_length is under VALVE_IMAGE */

/* Writes the unit's configuration as the first VALVE_IMAGE bytes of image; bytes behind them stay. Returns 0, or VALVE_NO_ROOM. The
 * words are written as they are, none is judged. */
int32_t valve_save(const uint32_t *unit, uint8_t *image, uint64_t image_length);

/* Whether the image_length bytes are a good image: 0, or VALVE_ENDED_EARLY to VALVE_LEFT_OVER. */
int32_t valve_check(const uint8_t *image, uint64_t image_length);

/* Makes the image's configuration the unit's if valve_check would return 0, and returns what it would return. All else in the unit
 * stays as it is: the EC values, and what ticks published and remember; but valve_why then tells nothing until the next tick. So a fresh
 * unit with that configuration is valve_start, then valve_load. */
int32_t valve_load(uint32_t *unit, const uint8_t *image, uint64_t image_length);

/* The most bytes that valve_why writes. */
#define VALVE_TRAIL 43

/* Why none is told, in this order. All of trail then stays. */
#define VALVE_NO_OUTPUT (-1) /* output is not 1 to 4 */
#define VALVE_NO_TICK (-2)   /* no tick since valve_start, since the last frame answered 60h, or since an image was loaded */

/* Why output 1 to 4 has its command: returns the rule that gave it at the last tick, 1 to 7, or one of the two numbers above. trail
 * has room for VALVE_TRAIL bytes. It then has
 *
 *     0     source of the signal that decided, as it stands in 2350h (rules 1, 2), 2360h (rules 3, 4) or 2340h (rules 5 to 7)
 *     1     its number, as it stands in 2351h, 2361h or 2341h; a pair that names nothing stays as it was typed
 *     2     its kind: 0 not available, 1 whole number, 2 REAL32, 3 error
 *     3-6   its value, low byte first: a whole number sign-extended, a REAL32 by its bits, else 0
 *
 * and for an error behind that
 *
 *     7     how many steps
 *     8     the steps, a source and a number each: the signal that decided, then what it read, and so on. Of several inputs of a math
 *           block in error the lowest-numbered is followed
 *     then  how they end: VALVE_FLAGGED, VALVE_DIVIDED or VALVE_EARLIER
 *
 * Every byte behind stays. */
#define VALVE_FLAGGED 1 /* the last step is an input that is flagged */
#define VALVE_DIVIDED 2 /* it is a math block that divides by zero, none of its inputs being in error */
#define VALVE_EARLIER 3 /* it is a block's signal taken from the tick before, which was in error then */
int32_t valve_why(const uint32_t *unit, uint8_t output, uint8_t *trail);

#ifdef __cplusplus
}
#endif

#endif
