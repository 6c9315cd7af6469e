/* What a chip without a floating-point unit has to be given: REAL32's operations, each rounded once to nearest, ties to even, with
   subnormals; and the division of 32 bits for the chip that has none. A firmware takes them from its compiler's library, which the kit
   does not have for chips; these are for the tests. No number here is wider than 32 bits. */
#include <stdint.h>

#define NAN32 0x7FC00000u
#define INFINITE 0x7F800000u
#define SIGN 0x80000000u

static int is_nan(uint32_t a) { return (a & ~SIGN) > INFINITE; }
static int is_infinite(uint32_t a) { return (a & ~SIGN) == INFINITE; }
static int is_zero(uint32_t a) { return (a & ~SIGN) == 0; }

/* Shifted right; what is lost stays as the lowest bit. */
static uint32_t jammed(uint32_t m, uint32_t by) { return by == 0 ? m : by < 32 ? m >> by | ((m & ((1u << by) - 1)) != 0) : m != 0; }

/* The REAL32 nearest to m / 2 to the 30, times 2 to the (x - 127), of this sign; m is below 2 to the 31. */
static uint32_t rounded(uint32_t sign, int32_t x, uint32_t m)
{
    if (m == 0)
        return sign;
    for (; m >> 30 == 0; x--)
        m <<= 1;
    if (x >= 255)
        return sign | INFINITE;
    if (x <= 0) {
        m = jammed(m, (uint32_t)(1 - x));
        x = 1;
    }
    uint32_t half = (m & 127) == 64, q = (m + 64) >> 7;
    q &= ~half;
    q += (uint32_t)(x - 1) << 23; /* the leading one is the exponent's last unit */
    return sign | (q < INFINITE ? q : INFINITE);
}

/* The exponent, and 24 digits with the leading one. */
static int32_t exponent(uint32_t a) { return (a >> 23 & 255) ? (int32_t)(a >> 23 & 255) : 1; }
static uint32_t digits(uint32_t a) { return (a & 0x7FFFFF) | (uint32_t)((a >> 23 & 255) != 0) << 23; }

/* The same with a leading one, where there is none. */
static int32_t led(uint32_t *m, int32_t x)
{
    for (; *m >> 23 == 0; x--)
        *m <<= 1;
    return x;
}

static uint32_t add(uint32_t a, uint32_t b)
{
    if (is_nan(a) || is_nan(b) || (is_infinite(a) && is_infinite(b) && a != b))
        return NAN32;
    if (is_infinite(a) || is_infinite(b))
        return is_infinite(a) ? a : b;
    if ((a & ~SIGN) < (b & ~SIGN)) {
        uint32_t c = a;
        a = b;
        b = c;
    }
    int32_t x = exponent(a);
    uint32_t m = digits(a) << 7, n = jammed(digits(b) << 7, (uint32_t)(x - exponent(b)));
    if (((a ^ b) & SIGN) == 0) {
        m += n;
        return m >> 31 ? rounded(a & SIGN, x + 1, jammed(m, 1)) : m ? rounded(a & SIGN, x, m) : a & b;
    }
    return m == n ? 0 : rounded(a & SIGN, x, m - n);
}

static uint32_t mul(uint32_t a, uint32_t b)
{
    uint32_t sign = (a ^ b) & SIGN;
    if (is_nan(a) || is_nan(b) || (is_infinite(a) && is_zero(b)) || (is_zero(a) && is_infinite(b)))
        return NAN32;
    if (is_infinite(a) || is_infinite(b))
        return sign | INFINITE;
    if (is_zero(a) || is_zero(b))
        return sign;
    uint32_t m = digits(a), n = digits(b), sum = 0, lost = 0;
    int32_t x = led(&m, exponent(a)) + led(&n, exponent(b)) - 127;
    for (int k = 0; k < 24; k++) { /* 64 times the product, without its lowest 24 digits */
        if (n >> k & 1)
            sum += m << 6;
        lost |= sum & 1;
        sum >>= 1;
    }
    return rounded(sign, x + 2, sum | lost);
}

static uint32_t div(uint32_t a, uint32_t b)
{
    uint32_t sign = (a ^ b) & SIGN;
    if (is_nan(a) || is_nan(b) || (is_infinite(a) && is_infinite(b)) || (is_zero(a) && is_zero(b)))
        return NAN32;
    if (is_infinite(a) || is_zero(b))
        return sign | INFINITE;
    if (is_zero(a) || is_infinite(b))
        return sign;
    uint32_t m = digits(a), n = digits(b), quotient = 0;
    int32_t x = led(&m, exponent(a)) - led(&n, exponent(b)) + 127;
    for (int k = 0; k < 31; k++) {
        quotient <<= 1;
        if (m >= n) {
            m -= n;
            quotient |= 1;
        }
        m <<= 1;
    }
    return rounded(sign, x, quotient | (m != 0));
}

static uint32_t of_unsigned(uint32_t sign, uint32_t v) { return v >> 31 ? rounded(sign, 127 + 31, jammed(v, 1)) : rounded(sign, 127 + 30, v); }
static uint32_t of_signed(int32_t v) { return v < 0 ? of_unsigned(SIGN, 0u - (uint32_t)v) : of_unsigned(0, (uint32_t)v); }

static int unordered(uint32_t a, uint32_t b) { return is_nan(a) || is_nan(b); }
static int equal(uint32_t a, uint32_t b) { return !unordered(a, b) && (a == b || (is_zero(a) && is_zero(b))); }
static int32_t place(uint32_t a) { return a & SIGN ? -(int32_t)(a & ~SIGN) : (int32_t)a; } /* in the order of the numbers */
static int less(uint32_t a, uint32_t b) { return !unordered(a, b) && place(a) < place(b); }

#if defined(__riscv)
uint32_t __addsf3(uint32_t a, uint32_t b) { return add(a, b); }
uint32_t __subsf3(uint32_t a, uint32_t b) { return add(a, b ^ SIGN); }
uint32_t __mulsf3(uint32_t a, uint32_t b) { return mul(a, b); }
uint32_t __divsf3(uint32_t a, uint32_t b) { return div(a, b); }
uint32_t __floatsisf(int32_t v) { return of_signed(v); }
uint32_t __floatunsisf(uint32_t v) { return of_unsigned(0, v); }
/* Below 0, 0 or above 0 as a is below, at or above b; for what is not ordered a number that makes each test fail. */
static int compared(uint32_t a, uint32_t b, int none) { return unordered(a, b) ? none : less(a, b) ? -1 : !equal(a, b); }
int __eqsf2(uint32_t a, uint32_t b) { return compared(a, b, 1); }
int __nesf2(uint32_t a, uint32_t b) { return compared(a, b, 1); }
int __ltsf2(uint32_t a, uint32_t b) { return compared(a, b, 1); }
int __lesf2(uint32_t a, uint32_t b) { return compared(a, b, 1); }
int __gtsf2(uint32_t a, uint32_t b) { return compared(a, b, -1); }
int __gesf2(uint32_t a, uint32_t b) { return compared(a, b, -1); }
int __unordsf2(uint32_t a, uint32_t b) { return unordered(a, b); }
#else
uint32_t __aeabi_fadd(uint32_t a, uint32_t b) { return add(a, b); }
uint32_t __aeabi_fsub(uint32_t a, uint32_t b) { return add(a, b ^ SIGN); }
uint32_t __aeabi_fmul(uint32_t a, uint32_t b) { return mul(a, b); }
uint32_t __aeabi_fdiv(uint32_t a, uint32_t b) { return div(a, b); }
uint32_t __aeabi_i2f(int32_t v) { return of_signed(v); }
uint32_t __aeabi_ui2f(uint32_t v) { return of_unsigned(0, v); }
int __aeabi_fcmpeq(uint32_t a, uint32_t b) { return equal(a, b); }
int __aeabi_fcmplt(uint32_t a, uint32_t b) { return less(a, b); }
int __aeabi_fcmple(uint32_t a, uint32_t b) { return less(a, b) || equal(a, b); }
int __aeabi_fcmpgt(uint32_t a, uint32_t b) { return less(b, a); }
int __aeabi_fcmpge(uint32_t a, uint32_t b) { return less(b, a) || equal(a, b); }
int __aeabi_fcmpun(uint32_t a, uint32_t b) { return unordered(a, b); }

/* The quotient in the first register, the rest in the second. */
uint64_t __aeabi_uidivmod(uint32_t a, uint32_t b)
{
    uint32_t quotient = 0, rest = 0;
    for (int k = 31; k >= 0; k--) {
        uint32_t high = rest >> 31;
        rest = rest << 1 | (a >> k & 1);
        if (high || rest >= b) {
            rest -= b;
            quotient |= 1u << k;
        }
    }
    return (uint64_t)rest << 32 | quotient;
}
uint32_t __aeabi_uidiv(uint32_t a, uint32_t b) { return (uint32_t)__aeabi_uidivmod(a, b); }
uint64_t __aeabi_idivmod(int32_t a, int32_t b)
{
    uint64_t both = __aeabi_uidivmod(a < 0 ? 0u - (uint32_t)a : (uint32_t)a, b < 0 ? 0u - (uint32_t)b : (uint32_t)b);
    uint32_t quotient = (uint32_t)both, rest = (uint32_t)(both >> 32);
    return (uint64_t)(a < 0 ? 0u - rest : rest) << 32 | ((a < 0) != (b < 0) ? 0u - quotient : quotient);
}
int32_t __aeabi_idiv(int32_t a, int32_t b) { return (int32_t)(uint32_t)__aeabi_idivmod(a, b); }
#endif
