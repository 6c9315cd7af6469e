/* The restore list of a CANopen valve controller, for a gateway written in C: what has to be sent to a unit that holds one
 * configuration, and in which order, so that it holds another.
 *
 * Both configurations are images: the count 611 (u32), then for each of the 611 entries, ascending by index then sub, a record: index
 * (u16), sub (u8), the data's size (u32), data. Numbers have their low byte first; an image has RESTORE_LIST_MOST bytes. A gateway
 * makes one by reading the 611 entries. A list has the same layout with fewer records, which the count tells.
 *
 *     static uint8_t current[RESTORE_LIST_MOST], wanted[RESTORE_LIST_MOST], list[RESTORE_LIST_MOST];
 *     int32_t length = restore_list(current, sizeof current, wanted, sizeof wanted, list, sizeof list);
 *     if (length < 0) complain(length); else send(list, length);
 *
 * To send a list is one SDO write for each record, from the first to the last: the command 2Fh, 2Bh or 23h for a size of 1, 2 or 4,
 * the record's index and sub, its data, and zeros up to eight bytes. A unit that holds the current configuration accepts every one of
 * them and then holds the wanted one. Wherever the sending is cut, each entry holds its value of one image or of the other. Ticks,
 * reads, refused frames and EC values (2500h) may go between; another write to the configuration may not.
 *
 * What the call does is proved for any bytes and any lengths. It never writes outside list, never reads past the lengths given, keeps
 * nothing in memory from one call to the next, never allocates, never waits, and always returns; it needs nothing but a stack. Two
 * calls may run at the same time if neither's list is lent to the other. The list overlaps neither image; the two images may be the
 * same. Pointers are not NULL, also where a length is 0, and a length is that of the array before it. Lengths are 64
 * bits wide on every processor.
 */
#ifndef RESTORE_LIST_H
#define RESTORE_LIST_H

#include <stdint.h>

#ifdef __cplusplus
extern "C" {
#endif

/* How many bytes always are room enough for a list. An image has as many. */
#define RESTORE_LIST_MOST 5207

/* How an image can be wrong. Its bytes are judged record by record, and the first record with a fault decides; then come bytes left
 * over, and the chains at the very end. */
#define RESTORE_LIST_ENDED_EARLY 1  /* the image ends before the count, a record's head of 7 bytes, or a record's data is complete */
#define RESTORE_LIST_WRONG_COUNT 2  /* the count is not 611 */
#define RESTORE_LIST_NOT_NEXT 3     /* the index or sub is not that of the entry which comes next */
#define RESTORE_LIST_WRONG_SIZE 4   /* the size is not that of the entry's type */
#define RESTORE_LIST_OUT_OF_RANGE 5 /* the value is outside its entry's own range, or a REAL32 that is not finite */
#define RESTORE_LIST_OUT_OF_ORDER 6 /* each value is in range, but two are not in order, as a minimum above its maximum */
#define RESTORE_LIST_LEFT_OVER 7    /* there are bytes behind the last record */

/* What restore_list returns for such a fault; the current image is judged first, then the wanted one, then the room. */
#define RESTORE_LIST_CURRENT(fault) (-(fault))       /* -1 to -7: the fault of the current image */
#define RESTORE_LIST_WANTED(fault) (-(10 + (fault))) /* -11 to -17: the fault of the wanted image, the current one being good */
#define RESTORE_LIST_NO_ROOM (-8)                    /* both are good, but the list does not fit into list_length bytes */

/* Writes the list that takes a unit from the current configuration to the wanted one as the first bytes of list, and returns how many
 * they are: 4 (a count of 0) where the two are equal, at most RESTORE_LIST_MOST. Bytes of list behind them stay. Or returns one of the
 * numbers above, which are all below zero, and writes nothing.
 *
 * There is one record for each entry whose data bytes differ, as it stands in the wanted image. Their order: take the entries as an
 * image has them, but 7148h:1-4 before 7120h:1-4. First come the records that rise, from the last to the first, then the others, from
 * the first to the last. A record rises if its value is larger in the wanted image than in the current one, both read as INTEGER16
 * from the low two bytes; a value of one byte is that byte. */
int32_t restore_list(const uint8_t *current, uint64_t current_length, const uint8_t *wanted, uint64_t wanted_length, uint8_t *list,
                     uint64_t list_length);

#ifdef __cplusplus
}
#endif

#endif
