/* Keccak-f[1600] (FIPS 202, section 3), unrolled. Lanes 1, 2, 8, 12, 17 and 20 are kept complemented, so that chi takes five NOTs
   a round in place of 25. */
#include "keccak.h"

#define ROTATED(lane, by) ((lane) << (by) | (lane) >> (64 - (by)))

static const uint64_t constants[24] = {
    0x0000000000000001, 0x0000000000008082, 0x800000000000808a, 0x8000000080008000, 0x000000000000808b, 0x0000000080000001,
    0x8000000080008081, 0x8000000000008009, 0x000000000000008a, 0x0000000000000088, 0x0000000080008009, 0x000000008000000a,
    0x000000008000808b, 0x800000000000008b, 0x8000000000008089, 0x8000000000008003, 0x8000000000008002, 0x8000000000000080,
    0x000000000000800a, 0x800000008000000a, 0x8000000080008081, 0x8000000000008080, 0x0000000080000001, 0x8000000080008008,
};

/* The parity of a column of lanes, and what theta adds to each lane of a column. */
#define PARITY(A, v, w, x, y, z) (A##v ^ A##w ^ A##x ^ A##y ^ A##z)
#define THETA(A)                                                                                                                 \
    uint64_t c0 = PARITY(A, 0, 5, 10, 15, 20), c1 = PARITY(A, 1, 6, 11, 16, 21), c2 = PARITY(A, 2, 7, 12, 17, 22);               \
    uint64_t c3 = PARITY(A, 3, 8, 13, 18, 23), c4 = PARITY(A, 4, 9, 14, 19, 24);                                                 \
    uint64_t d0 = c4 ^ ROTATED(c1, 1), d1 = c0 ^ ROTATED(c2, 1), d2 = c1 ^ ROTATED(c3, 1), d3 = c2 ^ ROTATED(c4, 1);             \
    uint64_t d4 = c3 ^ ROTATED(c0, 1);                                                                                           \
    uint64_t b0, b1, b2, b3, b4

/* Theta's last step, rho and pi: the lanes that come to stand in one row. */
#define ROW(A, v, i, w, j, x, k, y, l, z, m)                                                                                     \
    b0 = A##v ^ d##i, b1 = A##w ^ d##j, b2 = A##x ^ d##k, b3 = A##y ^ d##l, b4 = A##z ^ d##m
#define TURN(i, j, k, l, m)                                                                                                      \
    b0 = ROTATED(b0, i), b1 = ROTATED(b1, j), b2 = ROTATED(b2, k), b3 = ROTATED(b3, l), b4 = ROTATED(b4, m)

/* A round from lanes A to lanes E. Chi is written for the complemented lanes. */
#define ROUND(A, E, constant)                                                                                                    \
    do {                                                                                                                         \
        THETA(A);                                                                                                                \
        b0 = A##0 ^ d0, b1 = ROTATED(A##6 ^ d1, 44), b2 = ROTATED(A##12 ^ d2, 43);                                               \
        b3 = ROTATED(A##18 ^ d3, 21), b4 = ROTATED(A##24 ^ d4, 14);                                                              \
        E##0 = b0 ^ (b1 | b2) ^ (constant);                                                                                      \
        E##1 = b1 ^ (~b2 | b3), E##2 = b2 ^ (b3 & b4), E##3 = b3 ^ (b4 | b0), E##4 = b4 ^ (b0 & b1);                             \
        ROW(A, 3, 3, 9, 4, 10, 0, 16, 1, 22, 2);                                                                                 \
        TURN(28, 20, 3, 45, 61);                                                                                                 \
        E##5 = b0 ^ (b1 | b2), E##6 = b1 ^ (b2 & b3), E##7 = b2 ^ (b3 | ~b4), E##8 = b3 ^ (b4 | b0), E##9 = b4 ^ (b0 & b1);      \
        ROW(A, 1, 1, 7, 2, 13, 3, 19, 4, 20, 0);                                                                                 \
        TURN(1, 6, 25, 8, 18);                                                                                                   \
        E##10 = b0 ^ (b1 | b2), E##11 = b1 ^ (b2 & b3), b3 = ~b3, E##12 = b2 ^ (b3 & b4), E##13 = b3 ^ (b4 | b0);                \
        E##14 = b4 ^ (b0 & b1);                                                                                                  \
        ROW(A, 4, 4, 5, 0, 11, 1, 17, 2, 23, 3);                                                                                 \
        TURN(27, 36, 10, 15, 56);                                                                                                \
        E##15 = b0 ^ (b1 & b2), E##16 = b1 ^ (b2 | b3), b3 = ~b3, E##17 = b2 ^ (b3 | b4), E##18 = b3 ^ (b4 & b0);                \
        E##19 = b4 ^ (b0 | b1);                                                                                                  \
        ROW(A, 2, 2, 8, 3, 14, 4, 15, 0, 21, 1);                                                                                 \
        TURN(62, 55, 39, 41, 2);                                                                                                 \
        E##24 = b4 ^ (b0 & b1), b1 = ~b1, E##20 = b0 ^ (b1 & b2), E##21 = b1 ^ (b2 | b3), E##22 = b2 ^ (b3 & b4);                \
        E##23 = b3 ^ (b4 | b0);                                                                                                  \
    } while (0)

#define LANES(A) A##0, A##1, A##2, A##3, A##4, A##5, A##6, A##7, A##8, A##9, A##10, A##11, A##12, A##13, A##14, A##15, A##16,    \
    A##17, A##18, A##19, A##20, A##21, A##22, A##23, A##24

/* Both ways: what complements the lanes also takes the complement back. */
#define COPY_COMPLEMENTED(to, from)                                                                                              \
    do {                                                                                                                         \
        to(0) = from(0), to(1) = ~from(1), to(2) = ~from(2), to(3) = from(3), to(4) = from(4), to(5) = from(5);                  \
        to(6) = from(6), to(7) = from(7), to(8) = ~from(8), to(9) = from(9), to(10) = from(10), to(11) = from(11);               \
        to(12) = ~from(12), to(13) = from(13), to(14) = from(14), to(15) = from(15), to(16) = from(16), to(17) = ~from(17);      \
        to(18) = from(18), to(19) = from(19), to(20) = ~from(20), to(21) = from(21), to(22) = from(22), to(23) = from(23);       \
        to(24) = from(24);                                                                                                       \
    } while (0)
#define LOCAL(i) a##i
#define LENT(i) lanes[i]

/* Two rounds a turn. All 24 in a row are as fast when nothing else runs, and take an eighth longer in the calls (gcc 12, -O3). */
void opponent_permute(uint64_t lanes[25])
{
    uint64_t LANES(a), LANES(e);
    COPY_COMPLEMENTED(LOCAL, LENT);
    for (int round = 0; round < 24; round += 2) {
        ROUND(a, e, constants[round]);
        ROUND(e, a, constants[round + 1]);
    }
    COPY_COMPLEMENTED(LENT, LOCAL);
}
