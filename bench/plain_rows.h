/* The names of document 01, and 1003h of document 02, as const rows, ascending: what each holds, its place in struct plain, its neighbours in a chain. */
#ifndef PLAIN_ROWS_H
#define PLAIN_ROWS_H
#include "plain.h"

enum type { U8, U16, I16, R32 };

static const struct {
    uint8_t size, read;
    uint32_t mask;
} types[] = {
    [U8] = {1, 0x4F, 0xFF},
    [U16] = {2, 0x4B, 0xFFFF},
    [I16] = {2, 0x4B, 0xFFFF},
    [R32] = {4, 0x43, 0xFFFFFFFF},
};

/* FIXED: no frame writes it. RECEIVED: frames do, but it is no configuration. */
enum use { CONFIGURED, RECEIVED, FIXED };

/* The first row of an ARRAY stands at its sub 0; what an ARRAY's subs do not share is told by several rows. */
struct row {
    uint32_t name;               /* index and first sub */
    uint8_t last, largest;       /* the row's last sub; the ARRAY's largest, 0 for a VAR */
    uint8_t type, use;           /* what it is for */
    int32_t low, high;           /* its own range */
    int16_t start, step;         /* at start the row's first entry, and how much more each next one */
    int16_t word;                /* where sub 0 would stand in struct plain */
    int16_t above, below;        /* words to the neighbours in its chain, 0: none */
    int8_t above_gap, below_gap; /* 1 for <, 0 for <= */
};

#define WORD(field) (int)(offsetof(struct plain, field) / 4)
#define NAME(index, sub) ((index) << 8 | (sub))
#define VAR(index, field, ...) {.name = NAME(index, 0), .word = WORD(field), __VA_ARGS__}
#define PART(index, first, end, n, field, ...) \
    {.name = NAME(index, first), .last = end, .largest = n, .word = WORD(field) - 1, __VA_ARGS__}
#define ARRAY(index, n, field, ...) PART(index, 0, n, n, field, __VA_ARGS__)

#define BYTE(most) .type = U8, .high = most
#define SOURCE BYTE(6)
#define NUMBER BYTE(15)
#define DIGITS BYTE(3)
#define ANY16 .type = I16, .low = -32768, .high = 32767
#define CURRENT .type = I16, .high = 2500
#define TIME .type = U16, .high = 60000, .start = 1000
#define FINITE .type = R32, .low = -2147483647 - 1, .high = 2147483647 /* of its bits: finite is told apart */
#define SHOWN(t) .type = t, .use = FIXED
#define UNDER(field, upper, gap) .above = WORD(upper) - WORD(field), .above_gap = gap
#define OVER(field, lower, gap) .below = WORD(lower) - WORD(field), .below_gap = gap

#define TABLE(index, t) \
    VAR(index, t.source, SOURCE), VAR(index + 1, t.number, NUMBER), VAR(index + 2, t.x_digits, DIGITS), \
    VAR(index + 3, t.y_digits, DIGITS), PART(index + 4, 0, 1, 11, t.response, BYTE(0)), \
    PART(index + 4, 2, 11, 11, t.response, BYTE(2), .start = 1), PART(index + 5, 0, 1, 11, t.x, ANY16, .above = 1), \
    PART(index + 5, 2, 10, 11, t.x, ANY16, .start = 100, .step = 100, .above = 1, .below = -1), \
    PART(index + 5, 11, 11, 11, t.x, ANY16, .start = 1000, .below = -1), ARRAY(index + 6, 11, t.y, ANY16, .step = 100), \
    VAR(index + 7, t.value, SHOWN(I16))
#define CONDITION(index, c) \
    PART(index, 0, 1, 5, c, SOURCE), PART(index, 2, 2, 5, c, NUMBER), PART(index, 3, 3, 5, c, SOURCE), \
    PART(index, 4, 4, 5, c, NUMBER), PART(index, 5, 5, 5, c, BYTE(5))
#define LETTER(index, c, n) CONDITION(index, c[n]), CONDITION(index + 1, c[n + 1]), CONDITION(index + 2, c[n + 2])
#define LOGIC(index, l, first) \
    ARRAY(index + 0x01, 3, l.table, BYTE(6), .low = 1, .start = first, .step = 1), \
    PART(index + 0x02, 0, 2, 3, l.operator, BYTE(4), .start = 1), PART(index + 0x02, 3, 3, 3, l.operator, BYTE(4)), \
    LETTER(index + 0x11, l.condition, 0), LETTER(index + 0x21, l.condition, 3), LETTER(index + 0x31, l.condition, 6)
#define MATH(index, m) \
    ARRAY(index, 4, m.source, SOURCE), ARRAY(index + 0x01, 4, m.number, NUMBER), ARRAY(index + 0x02, 4, m.digits, DIGITS), \
    ARRAY(index + 0x20, 4, m.from, ANY16, UNDER(m.from, m.to, 1)), \
    ARRAY(index + 0x22, 4, m.to, ANY16, .start = 1000, OVER(m.to, m.from, 1)), \
    ARRAY(index + 0x40, 4, m.gain, .type = I16, .low = -100, .high = 100, .start = 100), \
    ARRAY(index + 0x50, 3, m.operator, BYTE(5))

static const struct row rows[] = {
    VAR(0x1001, error_register, SHOWN(U8)),
    VAR(0x1003, errors_kept, BYTE(0), .use = RECEIVED),
    PART(0x1003, 1, 8, 8, errors, SHOWN(R32)), /* four bytes, as a REAL32 has */
    ARRAY(0x2110, 4, detect, BYTE(1), .start = 1),
    ARRAY(0x2111, 4, hysteresis, .type = I16, .high = 32767, .start = 100),
    ARRAY(0x2112, 4, delay, TIME),
    ARRAY(0x2300, 4, override_fv, CURRENT, .start = 2000),
    ARRAY(0x2330, 4, ramp_up, TIME),
    ARRAY(0x2331, 4, ramp_down, TIME),
    ARRAY(0x2340, 4, control_source, SOURCE),
    ARRAY(0x2341, 4, control_number, NUMBER),
    ARRAY(0x2350, 4, enable_source, SOURCE),
    ARRAY(0x2351, 4, enable_number, NUMBER),
    ARRAY(0x2352, 4, enable_response, BYTE(1)),
    ARRAY(0x2360, 4, override_source, SOURCE),
    ARRAY(0x2361, 4, override_number, NUMBER),
    ARRAY(0x2362, 4, override_response, BYTE(1)),
    ARRAY(0x2500, 12, ec, ANY16, .use = RECEIVED),
    ARRAY(0x2502, 12, ec_digits, DIGITS),
    ARRAY(0x2520, 12, ec_from, ANY16, UNDER(ec_from, ec_to, 1)),
    ARRAY(0x2522, 12, ec_to, ANY16, .start = 1000, OVER(ec_to, ec_from, 1)),
    TABLE(0x3010, table[0]), TABLE(0x3020, table[1]), TABLE(0x3030, table[2]),
    TABLE(0x3040, table[3]), TABLE(0x3050, table[4]), TABLE(0x3060, table[5]),
    ARRAY(0x4000, 2, logic_enable, BYTE(1)),
    ARRAY(0x4010, 2, selected, SHOWN(U8)),
    ARRAY(0x4020, 2, logic_value, SHOWN(I16)),
    LOGIC(0x4100, logic[0], 1), LOGIC(0x4200, logic[1], 4),
    ARRAY(0x4500, 4, math_enable, BYTE(1)),
    ARRAY(0x4521, 4, math_from, ANY16, UNDER(math_from, math_to, 1)),
    ARRAY(0x4523, 4, math_to, ANY16, .start = 1000, OVER(math_to, math_from, 1)),
    ARRAY(0x4530, 4, math_value, SHOWN(R32)),
    ARRAY(0x4532, 4, math_digits, DIGITS),
    MATH(0x4600, math[0]), MATH(0x4700, math[1]), MATH(0x4800, math[2]), MATH(0x4900, math[3]),
    PART(0x5010, 0, 2, 15, constant, SHOWN(R32)),
    PART(0x5010, 3, 15, 15, constant, FINITE),
    ARRAY(0x6132, 4, input_digits, DIGITS),
    ARRAY(0x6302, 4, output_digits, DIGITS),
    ARRAY(0x6340, 4, fault_mode, BYTE(1), .start = 1),
    ARRAY(0x7100, 4, sample, SHOWN(I16)),
    ARRAY(0x7120, 4, fv1, ANY16, .start = 500, OVER(fv1, span_start, 0), UNDER(fv1, fv2, 1)),
    ARRAY(0x7121, 4, pv1, ANY16),
    ARRAY(0x7122, 4, fv2, ANY16, .start = 4500, OVER(fv2, fv1, 1), UNDER(fv2, span_end, 0)),
    ARRAY(0x7123, 4, pv2, ANY16, .start = 1000),
    ARRAY(0x7130, 4, pv, SHOWN(I16)),
    ARRAY(0x7148, 4, span_start, ANY16, UNDER(span_start, fv1, 0)),
    ARRAY(0x7149, 4, span_end, ANY16, .start = 5000, OVER(span_end, fv2, 0)),
    ARRAY(0x7320, 4, out_pv1, ANY16, UNDER(out_pv1, out_pv2, 1)),
    ARRAY(0x7321, 4, out_fv1, CURRENT, UNDER(out_fv1, out_fv2, 1)),
    ARRAY(0x7322, 4, out_pv2, ANY16, .start = 1000, OVER(out_pv2, out_pv1, 1)),
    ARRAY(0x7323, 4, out_fv2, CURRENT, .start = 1500, OVER(out_fv2, out_fv1, 1)),
    ARRAY(0x7330, 4, command, SHOWN(I16)),
    ARRAY(0x7341, 4, fault_fv, CURRENT),
};

#define ROWS (sizeof rows / sizeof rows[0])

static inline int is_configured(const struct row *row) { return row->use == CONFIGURED; }

/* The first sub with an entry: an ARRAY's sub 0 is its largest sub. */
static inline uint32_t first_sub(const struct row *row)
{
    uint32_t first = row->name & 0xFF;
    return first == 0 && row->largest ? 1 : first;
}
#endif
