/* A side that does nothing: what is left of a run is the driver's own. Each call is one instruction. */
#include <stddef.h>
#include <stdint.h>

void empty_start(uint32_t *unit);
int32_t empty_serve(uint32_t *unit, const uint8_t *frame, size_t frame_length, uint8_t *reply, size_t reply_length);
void empty_tick(uint32_t *unit, const int16_t *samples);
int32_t empty_save(const uint32_t *unit, uint8_t *image, size_t image_length);
int32_t empty_check(const uint8_t *image, size_t image_length);
int32_t empty_load(uint32_t *unit, const uint8_t *image, size_t image_length);
int32_t empty_why(const uint32_t *unit, uint8_t output, uint8_t *trail);
int32_t empty_restore_list(const uint8_t *current, size_t current_length, const uint8_t *wanted, size_t wanted_length, uint8_t *list,
                           size_t list_length);
#ifdef __arm__
#define CALLED(name) ".thumb_func\n" #name ":\n"
#define RETURN "bx lr"
#else
#define CALLED(name) #name ":\n"
#define RETURN "ret"
#endif
__asm__(CALLED(empty_start) CALLED(empty_serve) CALLED(empty_tick) CALLED(empty_save) CALLED(empty_check) CALLED(empty_load)
        CALLED(empty_why) CALLED(empty_restore_list) RETURN);
