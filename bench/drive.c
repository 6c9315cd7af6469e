/* Drives one side (-DSIDE=plain, valve or empty) through a file of events and writes what it answered. It stands on system calls
   alone, so that nothing but events adds to the instructions of a run. An event is 16 bytes: a letter, seven bytes of nothing, and

       S, a frame                 T, four samples
       W, I, L, a length          valve_save into the image, valve_check and valve_load of it, so many bytes of it
       B, a place and a byte      the byte at this place of the image
       K                          a copy of the image is kept, as the current one
       M, three lengths           restore_list from the current image to the image: so many bytes of each, and room for so many
       D                          a digest of all the list's bytes and the trail's
       Y, an output               valve_why of it, into the trail
       N                          valve_start again
       P                          the stack below is painted
       G                          how many bytes of the stack have lost their paint, down to the deepest

   An answer is 16 bytes: the reply's length, seven bytes of nothing, the reply; that of W, I, L, M, D, Y and G is the number returned. The
   whole image, the whole list and the trail come behind the answers. */
#include HEADER
#include "bare.h"

#define JOINED(a, b) a##_##b
#define CALL(side, name) JOINED(side, name)

struct event {
    uint8_t kind, nothing[7];
    union {
        uint8_t frame[8];
        int16_t samples[4];
        uint32_t length;
        uint8_t output;
        struct {
            uint32_t place;
            uint8_t byte;
        };
        struct {
            uint16_t current, wanted, room;
        };
    };
};

struct answer {
    uint8_t length, nothing[7];
    union {
        uint8_t reply[8];
        int32_t number;
    };
};

#ifdef __arm__
enum { EVENTS = 1 << 16 }; /* what a board's memory has room for */
#else
enum { EVENTS = 1 << 19 };
#endif
enum { IMAGE = 5300 };

static struct event events[EVENTS];
static struct answer answers[EVENTS];
static uint64_t unit[512]; /* room for either side's */
static uint8_t image[IMAGE], current[IMAGE], list[IMAGE], trail[64];

/* No paint lies where a call puts its return address: what is gone from there down is the called function's own. */
void paint(void);
int32_t gone(void);
#ifdef __arm__
__asm__(".thumb_func\npaint: sub.w r0, sp, #8192\nmovs r1, #0xA5\n"
        "1: strb r1, [r0], #1\ncmp r0, sp\nbne 1b\nbx lr\n"
        ".thumb_func\ngone: sub.w r0, sp, #8192\n"
        "1: cmp r0, sp\nbeq 2f\nldrb r1, [r0], #1\ncmp r1, #0xA5\nbeq 1b\nsubs r0, #1\n2: mov r1, sp\nsubs r0, r1, r0\nbx lr\n");
#else
__asm__("paint: lea -8192(%rsp), %rdi\nmov $8192, %ecx\nmov $0xA5, %al\nrep stosb\nret\n"
        "gone: lea -8192(%rsp), %rdi\nmov $8193, %ecx\nmov $0xA5, %al\nrepe scasb\nmov %ecx, %eax\nret\n");
#endif

static int32_t digest(void)
{
    uint32_t sum = 0;
    for (size_t i = 0; i < sizeof list; i++)
        sum = 31 * sum + list[i];
    for (size_t i = 0; i < sizeof trail; i++)
        sum = 31 * sum + trail[i];
    return (int32_t)sum;
}

static int32_t call_for(const struct event *event)
{
    if (event->kind == 'W')
        return CALL(SIDE, save)((void *)unit, image, event->length);
    if (event->kind == 'I')
        return CALL(SIDE, check)(image, event->length);
    if (event->kind == 'M')
        return CALL(SIDE, restore_list)(current, event->current, image, event->wanted, list, event->room);
    if (event->kind == 'D')
        return digest();
    if (event->kind == 'Y')
        return CALL(SIDE, why)((void *)unit, event->output, trail);
    if (event->kind == 'G')
        return gone();
    return CALL(SIDE, load)((void *)unit, image, event->length);
}

static void take(const struct event *event, struct answer *answer)
{
    if (event->kind == 'S') {
        answer->length = (uint8_t)CALL(SIDE, serve)((void *)unit, event->frame, 8, answer->reply, 8);
    } else if (event->kind == 'T') {
        CALL(SIDE, tick)((void *)unit, event->samples);
    } else if (event->kind == 'B') {
        image[event->place] = event->byte;
    } else if (event->kind == 'K') {
        memcpy(current, image, sizeof image);
    } else if (event->kind == 'N') {
        CALL(SIDE, start)((void *)unit);
    } else if (event->kind == 'P') {
        paint();
    } else {
        answer->number = call_for(event);
        answer->length = sizeof answer->number;
    }
}

void run(void)
{
    long count = call(SYS_READ, 0, events, sizeof events) / (long)sizeof *events;
    CALL(SIDE, start)((void *)unit);
    for (long i = 0; i < count; i++)
        take(&events[i], &answers[i]);
    call(SYS_WRITE, 1, answers, count * (long)sizeof *answers);
    call(SYS_WRITE, 1, image, sizeof image);
    call(SYS_WRITE, 1, list, sizeof list);
    call(SYS_WRITE, 1, trail, sizeof trail);
    call(SYS_EXIT, 0, 0, 0);
}
