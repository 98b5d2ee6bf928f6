#include "field.h"

uint8_t opponent_product[256][256], opponent_power[255], opponent_log[256];

void opponent_make_tables(void)
{
    unsigned a = 1;
    for (unsigned i = 0; i < 255; i++) {
        opponent_power[i] = (uint8_t)a;
        opponent_log[a] = (uint8_t)i;
        a ^= a << 1;
        if (a & 0x100) a ^= 0x11b;
    }
    for (unsigned i = 1; i < 256; i++)
        for (unsigned j = 1; j < 256; j++)
            opponent_product[i][j] = opponent_power[(opponent_log[i] + opponent_log[j]) % 255];
}

/* An element low + high X of the field between bytes and points, with X^2 = X + 20. */
typedef struct {
    uint8_t low, high;
} pair;

static inline pair pair_sum(pair a, pair b)
{
    pair sum = { a.low ^ b.low, a.high ^ b.high };
    return sum;
}

static inline pair pair_product(pair a, pair b)
{
    uint8_t lows = byte_product(a.low, b.low), highs = byte_product(a.high, b.high);
    uint8_t all = byte_product(a.low ^ a.high, b.low ^ b.high);
    pair product = { lows ^ byte_product(0x20, highs), all ^ lows };
    return product;
}

/* 20 X a */
static inline pair twenty_x(pair a)
{
    pair product = { byte_product(byte_product(0x20, 0x20), a.high), byte_product(0x20, a.low ^ a.high) };
    return product;
}

/* The conjugate over the bytes: X goes to X + 1. */
static inline pair conjugate(pair a)
{
    pair conjugate = { a.low ^ a.high, a.high };
    return conjugate;
}

/* The product of a pair with its conjugate, a byte. */
static inline uint8_t pair_norm(pair a) { return pair_product(a, conjugate(a)).low; }

static inline pair low_pair(point a)
{
    pair low = { point_byte(a, 0), point_byte(a, 1) };
    return low;
}

static inline pair high_pair(point a)
{
    pair high = { point_byte(a, 2), point_byte(a, 3) };
    return high;
}

static inline point point_of(pair low, pair high)
{
    return (point)low.low | (point)low.high << 8 | (point)high.low << 16 | (point)high.high << 24;
}

/* Z^2 = Z + 20 X */
point point_product(point a, point b)
{
    pair lows = pair_product(low_pair(a), low_pair(b)), highs = pair_product(high_pair(a), high_pair(b));
    pair all = pair_product(pair_sum(low_pair(a), high_pair(a)), pair_sum(low_pair(b), high_pair(b)));
    return point_of(pair_sum(lows, twenty_x(highs)), pair_sum(all, lows));
}

/* The product of a point with its conjugate over the pairs, for which Z goes to Z + 1. */
static pair point_norm(point a)
{
    pair low = low_pair(a), high = high_pair(a);
    return pair_sum(pair_product(low, pair_sum(low, high)), twenty_x(pair_product(high, high)));
}

point point_inverse(point a)
{
    pair norm = point_norm(a), turned = conjugate(norm);
    uint8_t factor = byte_inverse(pair_norm(norm));
    pair inverse = { byte_product(factor, turned.low), byte_product(factor, turned.high) };
    pair low = pair_product(inverse, pair_sum(low_pair(a), high_pair(a)));
    return point_of(low, pair_product(inverse, high_pair(a)));
}

/* Over the pairs a is a root of Y^2 + B Y + N, with B its high pair and N its norm; this times its conjugate. */
void characteristic(point a, uint8_t chi[4])
{
    pair high = high_pair(a), norm = point_norm(a);
    chi[3] = high.high;
    chi[2] = norm.high ^ pair_norm(high);
    chi[1] = pair_product(high, conjugate(norm)).high;
    chi[0] = pair_norm(norm);
}
