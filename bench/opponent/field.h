/* The byte field and the points field (document 01, Fields). */
#ifndef OPPONENT_FIELD_H
#define OPPONENT_FIELD_H

#include <stdint.h>
#include <string.h>

/* Constants of the field: opponent_product[a][b] is a b, and powers of 03 and their logarithms. */
extern uint8_t opponent_product[256][256], opponent_power[255], opponent_log[256];

/* Fills the tables. To be called once, before everything else. */
void opponent_make_tables(void);

static inline uint8_t byte_product(uint8_t a, uint8_t b) { return opponent_product[a][b]; }

/* The inverse of a byte that is not zero. */
static inline uint8_t byte_inverse(uint8_t a) { return opponent_power[(255 - opponent_log[a]) % 255]; }

/* A point b0 + b1 X + (b2 + b3 X) Z, with b0 as the lowest byte. */
typedef uint32_t point;

static inline uint8_t point_byte(point a, unsigned i) { return (uint8_t)(a >> 8 * i); }

/* Point l of some points as bytes, on a little-endian machine. */
static inline point read_point(const uint8_t *points, unsigned l)
{
    point a;
    memcpy(&a, points + 4 * l, 4);
    return a;
}

static inline void write_point(uint8_t *points, unsigned l, point a) { memcpy(points + 4 * l, &a, 4); }

/* A byte times a point. */
static inline point scaled(uint8_t a, point b)
{
    const uint8_t *multiple = opponent_product[a];
    return (point)multiple[b & 255] | (point)multiple[b >> 8 & 255] << 8 | (point)multiple[b >> 16 & 255] << 16 |
           (point)multiple[b >> 24] << 24;
}

/* Four bytes times four points. */
static inline point combined(const uint8_t c[4], const point of[4])
{
    return scaled(c[0], of[0]) ^ scaled(c[1], of[1]) ^ scaled(c[2], of[2]) ^ scaled(c[3], of[3]);
}

point point_product(point a, point b);

/* The inverse of a point that is not zero. */
point point_inverse(point a);

/* chi(Y) = Y^4 + chi[3] Y^3 + .. + chi[0], the polynomial over the bytes whose roots are a and its conjugates. */
void characteristic(point a, uint8_t chi[4]);

#endif
