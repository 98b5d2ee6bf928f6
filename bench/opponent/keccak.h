/* The permutation of SHAKE256, for the opponent of the library and for bench/shake256. */
#ifndef OPPONENT_KECCAK_H
#define OPPONENT_KECCAK_H

#include <stdint.h>

/* Lane x + 5y of FIPS 202 stands at entry x + 5y. */
void opponent_permute(uint64_t lanes[25]);

#endif
