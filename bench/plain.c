/* The controller of document 01, with the error list of document 02, in plain C, as a firmware engineer would write it: const rows found by halving, one struct, no
   allocation, and nothing looked up that cannot matter. bench/count holds the Rattle code's instruction counts against it. */
#include "plain.h"
#include "plain_rows.h"

/* ---- The dictionary */

/* The last row that does not stand behind the name. */
static const struct row *find(uint32_t name)
{
    const struct row *row = rows;
    for (size_t n = ROWS; n > 1; n -= n / 2)
        if (row[n / 2].name <= name)
            row += n / 2;
    return row;
}

static int32_t word_at(const struct plain *s, int32_t at)
{
    int32_t word;
    __builtin_memcpy(&word, (const char *)s + 4 * at, 4);
    return word;
}

static void set_word(struct plain *s, int32_t at, int32_t word) { __builtin_memcpy((char *)s + 4 * at, &word, 4); }

void plain_start(struct plain *s)
{
    __builtin_memset(s, 0, sizeof *s);
    for (size_t r = 0; r < ROWS; r++) {
        const struct row *row = &rows[r];
        int32_t first = row->name & 0xFF, value = row->start;
        for (int32_t sub = first == 0 && row->largest ? 1 : first; sub <= row->last; sub++, value += row->step)
            set_word(s, row->word + sub, value);
    }
    s->constant[1] = 1.0f;
}

/* ---- Frames */

static uint32_t load32(const uint8_t *p) { return p[0] | p[1] << 8 | p[2] << 16 | (uint32_t)p[3] << 24; }

static void store32(uint8_t *p, uint32_t v)
{
    p[0] = v;
    p[1] = v >> 8;
    p[2] = v >> 16;
    p[3] = v >> 24;
}

/* The value that the data bytes have in the row's type. */
static int32_t decoded(enum type type, uint32_t data)
{
    switch (type) {
    case U8: return (uint8_t)data;
    case U16: return (uint16_t)data;
    case I16: return (int16_t)data;
    default: return (int32_t)data;
    }
}

/* The abort code of rows 5 to 9, or 0 where the write was done. */
static uint32_t write(struct plain *s, const struct row *row, uint32_t sub, uint32_t size, uint32_t data)
{
    int32_t at = row->word + (int32_t)sub, value;
    if (row->use == FIXED || (sub == 0 && row->largest))
        return 0x06010002;
    if (size != types[row->type].size)
        return size > types[row->type].size ? 0x06070012 : 0x06070013;
    value = decoded(row->type, data);
    if (row->type == R32 && (data & 0x7F800000) == 0x7F800000)
        return 0x06090030;
    if (value > row->high)
        return row->name == NAME(0x1003, 0) ? 0x06090030 : 0x06090031;
    if (value < row->low)
        return 0x06090032;
    if (row->above && value + row->above_gap > word_at(s, at + row->above))
        return 0x06090031;
    if (row->below && value - row->below_gap < word_at(s, at + row->below))
        return 0x06090032;
    set_word(s, at, value);
    s->ticked = 0;
    return 0;
}

static int32_t reply_with(uint8_t *reply, uint32_t command, uint32_t name, uint32_t data)
{
    store32(reply, command | name);
    store32(reply + 4, data);
    return 8;
}

int32_t plain_serve(struct plain *s, const uint8_t *frame, size_t frame_length, uint8_t *reply, size_t reply_length)
{
    const struct row *row;
    uint32_t head, command, name, sub, size, code;
    if (frame_length != 8 || reply_length < 8 || frame[0] == 0x80)
        return 0;
    head = load32(frame);
    command = head & 0xFF;
    name = head & 0xFFFFFF00; /* as it stands in a reply */
    sub = head >> 24;
    /* 23h, 27h, 2Bh, 2Fh write 4, 3, 2, 1 bytes, 22h as many as the entry has */
    if (command != 0x40 && (command & 0xF3) != 0x23 && command != 0x22)
        return reply_with(reply, 0x80, name, 0x05040001);
    row = find((head & 0xFFFF00) | sub);
    if (row->name >> 8 != (head >> 8 & 0xFFFF))
        return reply_with(reply, 0x80, name, 0x06020000);
    /* of 1003h as many subs are there as errors are kept */
    if (sub > row->last || (row->name == NAME(0x1003, 1) && (int32_t)sub > s->errors_kept))
        return reply_with(reply, 0x80, name, 0x06090011);
    if (command == 0x40) {
        if (sub == 0 && row->largest)
            return reply_with(reply, 0x4F, name, row->largest);
        return reply_with(reply, types[row->type].read, name, word_at(s, row->word + (int32_t)sub) & types[row->type].mask);
    }
    size = command == 0x22 ? types[row->type].size : 4 - (command >> 2 & 3);
    code = write(s, row, sub, size, load32(frame + 4));
    return reply_with(reply, code ? 0x80 : 0x60, name, code);
}

/* ---- Numbers and signals */

static int32_t limit(int32_t value, int32_t low, int32_t high) { return value < low ? low : value > high ? high : value; }

static float limit_real(float value, float low, float high) { return value < low ? low : value > high ? high : value; }

/* The line through (x1, y1) and (x2, y2), x1 < x2: the value to nearest, halves away from zero. */
static int32_t line(int32_t x, int32_t x1, int32_t y1, int32_t x2, int32_t y2)
{
    uint32_t run = (uint32_t)(x2 - x1), value = (uint32_t)y1 * run + (uint32_t)(x - x1) * (uint32_t)(y2 - y1);
    if (value >> 31)
        return -(int32_t)((run / 2 - value) / run);
    return (int32_t)((run / 2 + value) / run);
}

static struct signal whole(int32_t number) { return (struct signal){.kind = WHOLE, .whole = number}; }

static struct signal real(float number) { return (struct signal){.kind = REAL, .real = number}; }

static const struct signal absent = {.kind = ABSENT}, fault = {.kind = FAULT};

static struct signal signal_of(const struct plain *s, int32_t source, int32_t number)
{
    uint32_t at = (uint32_t)number - 1;
    switch (source) {
    case 1: return at < 12 ? whole(s->ec[at]) : absent;
    case 2: return at < 4 ? s->input_signal[at] : absent;
    case 3: return at < 6 ? s->table_signal[at] : absent;
    case 4: return at < 2 ? s->logic_signal[at] : absent;
    case 5: return at < 4 ? s->math_signal[at] : absent;
    case 6: return at < 15 ? real(s->constant[at]) : absent;
    default: return absent;
    }
}

static float real32(struct signal v) { return v.kind == WHOLE ? (float)v.whole : v.real; }

/* To nearest, halves away from zero; doubling is exact. */
static int32_t integer16(struct signal v)
{
    int32_t halves;
    if (v.kind == WHOLE)
        return v.whole;
    halves = (int32_t)(limit_real(v.real, -32768.0f, 32767.0f) * 2.0f);
    return (halves + (halves < 0 ? -1 : 1)) / 2;
}

/* ---- One tick */

static void enter(struct plain *s, int k)
{
    for (int i = 7; i > 0; i--)
        s->errors[i] = s->errors[i - 1];
    s->errors[0] = (k + 1) << 16 | 0xFF00;
    if (s->errors_kept < 8)
        s->errors_kept++;
}

static void watch(struct plain *s, int k, int32_t sample)
{
    int32_t start = s->span_start[k], end = s->span_end[k];
    if (!s->detect[k]) {
        s->run[k] = 0;
        s->flagged[k] = 0;
    } else if (sample < start || sample > end) {
        if (s->run[k] < 65536) /* beyond every delay */
            s->run[k]++;
        if (s->run[k] > s->delay[k]) {
            if (!s->flagged[k])
                enter(s, k);
            s->flagged[k] = 1;
        }
    } else {
        s->run[k] = 0;
        if (s->flagged[k] && start + s->hysteresis[k] <= sample && sample <= end - s->hysteresis[k])
            s->flagged[k] = 0;
    }
}

static void input(struct plain *s, int k, int32_t sample)
{
    s->sample[k] = sample;
    watch(s, k, sample);
    if (s->flagged[k]) {
        s->input_signal[k] = fault;
        s->pv[k] = 0;
        return;
    }
    s->pv[k] = line(limit(sample, s->fv1[k], s->fv2[k]), s->fv1[k], s->pv1[k], s->fv2[k], s->pv2[k]);
    s->input_signal[k] = whole(s->pv[k]);
}

static float operand(const struct math *m, int i, struct signal v)
{
    float part = (real32(v) - (float)m->from[i]) / (float)(m->to[i] - m->from[i]);
    return limit_real(part, 0.0f, 1.0f) * ((float)m->gain[i] / 100.0f);
}

static struct signal folded(const struct math *m, const struct signal in[4], float low, float high)
{
    float run = operand(m, 0, in[0]);
    for (int i = 1; i < 4; i++) {
        float next;
        if (in[i].kind == ABSENT)
            continue;
        next = operand(m, i, in[i]);
        switch (m->operator[i - 1]) {
        case 0: run += next; break;
        case 1: run -= next; break;
        case 2: run *= next; break;
        case 3:
            if (next == 0.0f)
                return fault;
            run /= next;
            break;
        case 4: run = next < run ? next : run; break;
        default: run = next > run ? next : run; break;
        }
        run = limit_real(run, -1.0f, 1.0f);
    }
    return real(limit_real(limit_real(run, 0.0f, 1.0f) * (high - low) + low, low, high));
}

static struct signal calculated(const struct plain *s, int k)
{
    const struct math *m = &s->math[k];
    struct signal in[4];
    int faults = 0;
    if (!s->math_enable[k])
        return absent;
    for (int i = 0; i < 4; i++) {
        in[i] = signal_of(s, m->source[i], m->number[i]);
        if (i == 0 && in[0].kind == ABSENT)
            return absent;
        faults |= in[i].kind == FAULT;
    }
    return faults ? fault : folded(m, in, (float)s->math_from[k], (float)s->math_to[k]);
}

static int32_t curve(const struct table *t, int32_t x)
{
    int i;
    if (x <= t->x[0])
        return t->y[0];
    for (i = 1; i < 11 && t->response[i]; i++)
        if (x <= t->x[i])
            return t->response[i] == 2 ? t->y[i] : line(x, t->x[i - 1], t->y[i - 1], t->x[i], t->y[i]);
    return t->y[i - 1];
}

static void table(struct plain *s, int z)
{
    struct table *t = &s->table[z];
    struct signal x = signal_of(s, t->source, t->number);
    if (x.kind < WHOLE) {
        s->table_signal[z] = x;
        t->value = 0;
        return;
    }
    t->value = curve(t, integer16(x));
    s->table_signal[z] = whole(t->value);
}

enum verdict { FALSE, TRUE, ERROR, NA };

/* The digits of a source that gives whole numbers; a logic block has those of the table that gave its signal. */
static int32_t digits_of(const struct plain *s, int32_t source, int32_t number)
{
    switch (source) {
    case 1: return s->ec_digits[number - 1];
    case 2: return s->input_digits[number - 1];
    case 4: number = s->selected[number - 1]; /* falls through */
    default: return s->table[number - 1].y_digits;
    }
}

/* Document 02 (vii): two whole numbers are compared as the decimal numbers they stand for. */
static enum verdict in_same_digits(const struct plain *s, const struct condition *c, int32_t v, int32_t w)
{
    static const int32_t tens[4] = {1, 10, 100, 1000};
    int32_t a = v * tens[digits_of(s, c->source2, c->number2)], b = w * tens[digits_of(s, c->source1, c->number1)];
    switch (c->comparison) {
    case 0: return a == b;
    case 1: return a != b;
    case 2: return a > b;
    case 3: return a >= b;
    case 4: return a < b;
    default: return a <= b;
    }
}

static enum verdict judged(const struct plain *s, const struct condition *c)
{
    struct signal one = signal_of(s, c->source1, c->number1), two;
    float a, b;
    if (one.kind == ABSENT)
        return NA;
    two = signal_of(s, c->source2, c->number2);
    if (two.kind == ABSENT)
        return NA;
    if (one.kind == FAULT || two.kind == FAULT)
        return ERROR;
    if (one.kind == WHOLE && two.kind == WHOLE)
        return in_same_digits(s, c, one.whole, two.whole);
    a = real32(one);
    b = real32(two);
    switch (c->comparison) {
    case 0: return a == b;
    case 1: return a != b;
    case 2: return a > b;
    case 3: return a >= b;
    case 4: return a < b;
    default: return a <= b;
    }
}

static int is_true(const struct plain *s, const struct condition *c) { return judged(s, c) == TRUE; }

static int allows(const struct plain *s, const struct condition *c)
{
    enum verdict v = judged(s, c);
    return v == TRUE || v == NA;
}

static int holds(const struct plain *s, int32_t operator, const struct condition *c)
{
    switch (operator) {
    case 0: return 1;
    case 1: return allows(s, c) && allows(s, c + 1) && allows(s, c + 2);
    case 2: return is_true(s, c) || is_true(s, c + 1) || is_true(s, c + 2);
    case 3: return (is_true(s, c) && is_true(s, c + 1)) || is_true(s, c + 2);
    default: return (is_true(s, c) || is_true(s, c + 1)) && is_true(s, c + 2);
    }
}

/* The number of the selected table, 0 for none. */
static int32_t selected(const struct plain *s, int x)
{
    const struct logic *l = &s->logic[x];
    if (s->logic_enable[x])
        for (int letter = 0; letter < 3; letter++)
            if (holds(s, l->operator[letter], &l->condition[3 * letter]))
                return l->table[letter];
    return 0;
}

static void logic(struct plain *s, int x)
{
    int32_t number = selected(s, x);
    struct signal v = number ? s->table_signal[number - 1] : absent;
    s->selected[x] = number;
    s->logic_signal[x] = v;
    s->logic_value[x] = v.kind == WHOLE ? v.whole : 0;
}

/* Response 1 turns on and off round. */
static int is_on(struct signal v, int32_t response)
{
    return (v.kind == WHOLE ? v.whole != 0 : v.real != 0.0f) != (response == 1);
}

static int32_t at_fault(const struct plain *s, int k) { return s->fault_mode[k] ? s->fault_fv[k] : s->command[k]; }

/* A command that a rule of 1 to 6 names, or the target that is reached: no count is under way. */
static int32_t named(struct plain *s, int k, int32_t command)
{
    s->ramp[k].count = 0;
    return command;
}

/* Where k ticks lead from the start of the count, stopped at the target. What the count began with is kept until it starts again. */
static int32_t ramped(struct plain *s, int k, int32_t control)
{
    struct ramp *r = &s->ramp[k];
    int32_t fv1 = s->out_fv1[k], fv2 = s->out_fv2[k], pv1 = s->out_pv1[k], pv2 = s->out_pv2[k];
    int32_t target = line(limit(control, pv1, pv2), pv1, fv1, pv2, fv2);
    int32_t last = limit(s->command[k], fv1, fv2);
    int32_t rising = target > last, ramp = rising ? s->ramp_up[k] : s->ramp_down[k], way;
    if (ramp == 0 || target == last)
        return named(s, k, target);
    if (r->count == 0 || r->rising != rising || r->ramp != ramp || r->fv1 != fv1 || r->fv2 != fv2)
        *r = (struct ramp){0, last, rising, ramp, fv1, fv2};
    r->count++;
    way = (uint32_t)r->count * (uint32_t)(fv2 - fv1) / (uint32_t)ramp;
    way = rising ? r->start + way : r->start - way;
    return (rising ? way < target : way > target) ? way : named(s, k, target);
}

static int32_t commanded(struct plain *s, int k)
{
    struct signal v = signal_of(s, s->enable_source[k], s->enable_number[k]);
    if (v.kind == FAULT)
        return named(s, k, at_fault(s, k));
    if (v.kind != ABSENT && !is_on(v, s->enable_response[k]))
        return named(s, k, 0);
    v = signal_of(s, s->override_source[k], s->override_number[k]);
    if (v.kind == FAULT)
        return named(s, k, at_fault(s, k));
    if (v.kind != ABSENT && is_on(v, s->override_response[k]))
        return named(s, k, s->override_fv[k]);
    v = signal_of(s, s->control_source[k], s->control_number[k]);
    if (v.kind == FAULT)
        return named(s, k, at_fault(s, k));
    return v.kind == ABSENT ? named(s, k, 0) : ramped(s, k, integer16(v));
}

void plain_tick(struct plain *s, const int16_t *samples)
{
    __builtin_memcpy(s->before, s->signals, sizeof s->before);
    for (int k = 0; k < 4; k++)
        input(s, k, samples[k]);
    for (int k = 0; k < 4; k++) {
        s->math_signal[k] = calculated(s, k);
        s->math_value[k] = s->math_signal[k].kind == REAL ? s->math_signal[k].real : 0.0f;
    }
    for (int z = 0; z < 6; z++)
        table(s, z);
    for (int x = 0; x < 2; x++)
        logic(s, x);
    for (int k = 0; k < 4; k++)
        s->command[k] = commanded(s, k);
    s->error_register = s->flagged[0] || s->flagged[1] || s->flagged[2] || s->flagged[3] ? 0x21 : 0;
    s->ticked = 1;
}

/* ---- Why an output has its command */

struct pair {
    int32_t source, number;
};

/* The turn of the block that a pair names, 16 where it names none. */
static int32_t block_of(struct pair p)
{
    switch (p.source) {
    case 2: return p.number >= 1 && p.number <= 4 ? p.number - 1 : 16;
    case 3: return p.number >= 1 && p.number <= 6 ? p.number + 7 : 16;
    case 4: return p.number >= 1 && p.number <= 2 ? p.number + 13 : 16;
    case 5: return p.number >= 1 && p.number <= 4 ? p.number + 3 : 16;
    default: return 16;
    }
}

/* What the block with that turn saw of a pair. */
static struct signal saw(const struct plain *s, int32_t reader, struct pair p)
{
    int32_t block = block_of(p);
    return block >= reader && block < 16 ? s->before[block] : signal_of(s, p.source, p.number);
}

/* The pair from which the block with that turn has its error, or else how the trail ends: 1 with a flag, 2 with a division by zero. */
static int32_t cause(const struct plain *s, int32_t block, struct pair *p)
{
    if (block < 4)
        return 1;
    if (block >= 14) {
        *p = (struct pair){3, s->selected[block - 14]};
    } else if (block >= 8) {
        *p = (struct pair){s->table[block - 8].source, s->table[block - 8].number};
    } else {
        const struct math *m = &s->math[block - 4];
        for (int i = 0; i < 4; i++) {
            *p = (struct pair){m->source[i], m->number[i]};
            if (saw(s, block, *p).kind == FAULT)
                return 0;
        }
        return 2;
    }
    return 0;
}

/* Steps and end behind the count. */
static void put_trail(const struct plain *s, struct pair p, uint8_t *trail)
{
    uint8_t *at = trail + 1;
    int32_t reader = 16, end = 0;
    for (;;) {
        int32_t block = block_of(p);
        *at++ = (uint8_t)p.source;
        *at++ = (uint8_t)p.number;
        end = block >= reader ? 3 : cause(s, block, &p);
        if (end)
            break;
        reader = block;
    }
    *trail = (uint8_t)((at - trail) / 2);
    *at = (uint8_t)end;
}

static int32_t rule_of(const struct plain *s, int k, struct pair *p, struct signal *v)
{
    *p = (struct pair){s->enable_source[k], s->enable_number[k]};
    *v = signal_of(s, p->source, p->number);
    if (v->kind == FAULT)
        return 2;
    if (v->kind != ABSENT && !is_on(*v, s->enable_response[k]))
        return 1;
    *p = (struct pair){s->override_source[k], s->override_number[k]};
    *v = signal_of(s, p->source, p->number);
    if (v->kind == FAULT)
        return 4;
    if (v->kind != ABSENT && is_on(*v, s->override_response[k]))
        return 3;
    *p = (struct pair){s->control_source[k], s->control_number[k]};
    *v = signal_of(s, p->source, p->number);
    return v->kind == FAULT ? 5 : v->kind == ABSENT ? 6 : 7;
}

int32_t plain_why(const struct plain *s, uint8_t output, uint8_t *trail)
{
    static const uint8_t kinds[] = {[ABSENT] = 0, [WHOLE] = 1, [REAL] = 2, [FAULT] = 3};
    struct pair p;
    struct signal v;
    int32_t rule;
    if (output < 1 || output > 4)
        return -1;
    if (!s->ticked)
        return -2;
    rule = rule_of(s, output - 1, &p, &v);
    trail[0] = (uint8_t)p.source;
    trail[1] = (uint8_t)p.number;
    trail[2] = kinds[v.kind];
    store32(trail + 3, v.kind == WHOLE || v.kind == REAL ? (uint32_t)v.whole : 0);
    if (v.kind == FAULT)
        put_trail(s, p, trail + 7);
    return rule;
}

/* ---- Images: a count, then a record for each entry of the configuration, the head of which is index, sub and size */

enum {
    ENDED_EARLY = -1,
    WRONG_COUNT = -2,
    NOT_NEXT = -3,
    WRONG_SIZE = -4,
    OUT_OF_RANGE = -5,
    OUT_OF_ORDER = -6,
    LEFT_OVER = -7,
    NO_ROOM = -8,
};
enum { ENTRIES = 611, COUNT = 4, HEAD = 7, IMAGE = 5207 };

static uint32_t load16(const uint8_t *p) { return p[0] | p[1] << 8; }

static void store16(uint8_t *p, uint32_t v)
{
    p[0] = v;
    p[1] = v >> 8;
}

/* The value of one record of so many bytes, or how the record is wrong. */
static int32_t decode(const struct row *row, uint32_t sub, const uint8_t *record, size_t length, int32_t *value)
{
    uint32_t size = types[row->type].size, data;
    if (length < HEAD)
        return ENDED_EARLY;
    if (load16(record) != row->name >> 8 || record[2] != sub)
        return NOT_NEXT;
    if (load32(record + 3) != size)
        return WRONG_SIZE;
    if (length < HEAD + size)
        return ENDED_EARLY;
    data = size == 1 ? record[HEAD] : size == 2 ? load16(record + HEAD) : load32(record + HEAD);
    *value = decoded(row->type, data);
    if (row->type == R32 && (data & 0x7F800000) == 0x7F800000)
        return OUT_OF_RANGE;
    return *value < row->low || *value > row->high ? OUT_OF_RANGE : 0;
}

/* Decodes every record into s. */
static int32_t decode_all(struct plain *s, const uint8_t *image, size_t length)
{
    size_t at = COUNT;
    if (length < COUNT)
        return ENDED_EARLY;
    if (load32(image) != ENTRIES)
        return WRONG_COUNT;
    for (const struct row *row = rows; row < rows + ROWS; row++) {
        if (!is_configured(row))
            continue;
        for (uint32_t sub = first_sub(row); sub <= row->last; sub++) {
            int32_t value, wrong = decode(row, sub, image + at, length - at, &value);
            if (wrong)
                return wrong;
            set_word(s, row->word + (int32_t)sub, value);
            at += HEAD + types[row->type].size;
        }
    }
    return at < length ? LEFT_OVER : 0;
}

static int is_in_order(const struct plain *s)
{
    for (const struct row *row = rows; row < rows + ROWS; row++) {
        if (!row->above)
            continue;
        for (int32_t at = row->word + (int32_t)first_sub(row); at <= row->word + row->last; at++)
            if (word_at(s, at) + row->above_gap > word_at(s, at + row->above))
                return 0;
    }
    return 1;
}

/* The configuration goes to s, which is a scratch unit where it turns out to be wrong. */
static int32_t read_image(struct plain *s, const uint8_t *image, size_t length)
{
    int32_t wrong = decode_all(s, image, length);
    return wrong ? wrong : is_in_order(s) ? 0 : OUT_OF_ORDER;
}

int32_t plain_check(const uint8_t *image, size_t length)
{
    struct plain scratch;
    return read_image(&scratch, image, length);
}

int32_t plain_load(struct plain *s, const uint8_t *image, size_t length)
{
    struct plain scratch;
    int32_t wrong = read_image(&scratch, image, length);
    if (wrong)
        return wrong;
    for (const struct row *row = rows; row < rows + ROWS; row++)
        if (is_configured(row))
            for (int32_t at = row->word + (int32_t)first_sub(row); at <= row->word + row->last; at++)
                set_word(s, at, word_at(&scratch, at));
    s->ticked = 0;
    return 0;
}

/* Writes the record; behind it. */
static uint8_t *encode(const struct row *row, uint32_t sub, uint32_t word, uint8_t *record)
{
    uint32_t size = types[row->type].size;
    store16(record, row->name >> 8);
    record[2] = sub;
    store32(record + 3, size);
    switch (size) {
    case 1: record[HEAD] = word; break;
    case 2: store16(record + HEAD, word); break;
    default: store32(record + HEAD, word); break;
    }
    return record + HEAD + size;
}

int32_t plain_save(const struct plain *s, uint8_t *image, size_t length)
{
    uint8_t *record = image + COUNT;
    if (length < IMAGE)
        return NO_ROOM;
    store32(image, ENTRIES);
    for (const struct row *row = rows; row < rows + ROWS; row++)
        if (is_configured(row))
            for (uint32_t sub = first_sub(row); sub <= row->last; sub++)
                record = encode(row, sub, (uint32_t)word_at(s, row->word + (int32_t)sub), record);
    return 0;
}

/* ---- Restore lists: the wanted image's records whose data are not the current image's, in an order that a unit accepts */

/* Where the records of 7120h, 7148h and 7149h begin in an image. */
enum { LINE_STARTS = 4811, SPAN_STARTS = 4955, SPAN_ENDS = 4991 };

/* An image in the order for sending, from and to: of two neighbours in a chain the upper one comes later, 7148h thus before 7120h. */
static const uint16_t stretches[4][2] = {
    {COUNT, LINE_STARTS},
    {SPAN_STARTS, SPAN_ENDS},
    {LINE_STARTS, SPAN_STARTS},
    {SPAN_ENDS, IMAGE},
};

/* Where the records stand that have to be sent: from the front those that fall, and from the end, backward, those that rise. */
struct plan {
    uint16_t record[ENTRIES];
    uint32_t falling, rising;
    int32_t length; /* of the list */
};

/* The value as chains read it. */
static int32_t number_in(const uint8_t *record, uint32_t size)
{
    return size == 1 ? record[HEAD] : (int16_t)load16(record + HEAD);
}

/* The last eight bytes of a record: all of its data, and the end of its head, which is the same in every image. */
static uint64_t tail_of(const uint8_t *record, uint32_t size)
{
    uint64_t tail;
    __builtin_memcpy(&tail, record + HEAD + size - 8, 8);
    return tail;
}

/* Both images are good, so that their records stand at the same places. */
static void make_plan(struct plan *plan, const uint8_t *current, const uint8_t *wanted)
{
    plan->falling = 0;
    plan->rising = ENTRIES;
    plan->length = COUNT;
    for (int i = 0; i < 4; i++) {
        for (uint32_t at = stretches[i][0], size; at < stretches[i][1]; at += HEAD + size) {
            size = wanted[at + 3];
            if (tail_of(current + at, size) == tail_of(wanted + at, size))
                continue;
            plan->length += (int32_t)(HEAD + size);
            if (number_in(current + at, size) < number_in(wanted + at, size))
                plan->record[--plan->rising] = (uint16_t)at;
            else
                plan->record[plan->falling++] = (uint16_t)at;
        }
    }
}

/* Copies the records; behind them. */
static uint8_t *copy_records(uint8_t *to, const uint8_t *wanted, const uint16_t *from, const uint16_t *end)
{
    for (; from < end; from++) {
        const uint8_t *record = wanted + *from;
        uint32_t size = record[3];
        __builtin_memcpy(to, record, HEAD + 1);
        if (size == 2)
            to[HEAD + 1] = record[HEAD + 1];
        else if (size == 4)
            __builtin_memcpy(to + HEAD, record + HEAD, 4);
        to += HEAD + size;
    }
    return to;
}

int32_t plain_restore_list(const uint8_t *current, size_t current_length, const uint8_t *wanted, size_t wanted_length, uint8_t *list,
                           size_t list_length)
{
    struct plan plan;
    uint8_t *record;
    int32_t wrong = plain_check(current, current_length);
    if (wrong)
        return wrong;
    wrong = plain_check(wanted, wanted_length);
    if (wrong)
        return wrong - 10;
    make_plan(&plan, current, wanted);
    if ((size_t)plan.length > list_length)
        return NO_ROOM;
    store32(list, plan.falling + ENTRIES - plan.rising);
    record = copy_records(list + COUNT, wanted, plan.record + plan.rising, plan.record + ENTRIES);
    copy_records(record, wanted, plan.record, plan.record + plan.falling);
    return plan.length;
}
