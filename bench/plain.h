/* The controller of document 01 in plain C: its state and its calls, as crates/firmware/valve.h has them. */
#ifndef PLAIN_H
#define PLAIN_H
#include <stddef.h>
#include <stdint.h>

enum kind { ABSENT, FAULT, WHOLE, REAL };

struct signal {
    int32_t kind;
    union {
        int32_t whole;
        float real;
    };
};

struct table {
    int32_t source, number, x_digits, y_digits;
    int32_t response[11], x[11], y[11]; /* response[0] is the axis type */
    int32_t value;
};

struct condition {
    int32_t source1, number1, source2, number2, comparison;
};

struct logic {
    int32_t table[3], operator[3];
    struct condition condition[9]; /* three for each of A, B, C */
};

struct math {
    int32_t source[4], number[4], digits[4], from[4], to[4], gain[4], operator[3];
};

/* An output's ramp: the ticks counted, 0 for none, and what the count began with. */
struct ramp {
    int32_t count, start, rising, ramp, fv1, fv2;
};

/* Every name of the dictionary is a word of its own, a whole number or a REAL32; the rows in plain.c say which. */
struct plain {
    int32_t error_register;
    int32_t errors_kept, errors[8]; /* newest first */
    int32_t ec[12], ec_digits[12], ec_from[12], ec_to[12];
    int32_t detect[4], hysteresis[4], delay[4], input_digits[4];
    int32_t sample[4], pv[4], fv1[4], pv1[4], fv2[4], pv2[4], span_start[4], span_end[4];
    struct table table[6];
    int32_t logic_enable[2], selected[2], logic_value[2];
    struct logic logic[2];
    int32_t math_enable[4], math_from[4], math_to[4], math_digits[4];
    float math_value[4];
    struct math math[4];
    float constant[15];
    int32_t override_fv[4], ramp_up[4], ramp_down[4], output_digits[4], fault_mode[4], fault_fv[4];
    int32_t control_source[4], control_number[4];
    int32_t enable_source[4], enable_number[4], enable_response[4];
    int32_t override_source[4], override_number[4], override_response[4];
    int32_t out_pv1[4], out_fv1[4], out_pv2[4], out_fv2[4], command[4];
    /* What ticks remember and nobody can read. */
    union {
        struct {
            struct signal input_signal[4], math_signal[4], table_signal[6], logic_signal[2];
        };
        struct signal signals[16]; /* the same, in the order of their turns */
    };
    int32_t run[4], flagged[4];
    struct ramp ramp[4];
    struct signal before[16]; /* the signals as the last tick found them */
    int32_t ticked;           /* since the start, and since the last accepted write */
};

void plain_start(struct plain *s);
int32_t plain_serve(struct plain *s, const uint8_t *frame, size_t frame_length, uint8_t *reply, size_t reply_length);
void plain_tick(struct plain *s, const int16_t *samples);
int32_t plain_save(const struct plain *s, uint8_t *image, size_t length);
int32_t plain_check(const uint8_t *image, size_t length);
int32_t plain_load(struct plain *s, const uint8_t *image, size_t length);
int32_t plain_why(const struct plain *s, uint8_t output, uint8_t *trail);
int32_t plain_restore_list(const uint8_t *current, size_t current_length, const uint8_t *wanted, size_t wanted_length, uint8_t *list,
                           size_t list_length); /* as crates/gateway/restore_list.h has it */
#endif
