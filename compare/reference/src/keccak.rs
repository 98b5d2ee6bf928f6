//! The permutation Keccak-f[1600] (FIPS 202, section 3). Its constants come from the standard's rules, not from tables.

/// The state: lane (x, y) of section 3.1 stands at entry x + 5·y.
pub type Lanes = [u64; 25];

/// The number of rounds for width 1600.
const ROUNDS: usize = 24;

const ROTATIONS: [u32; 25] = rotations();
const ROUND_CONSTANTS: [u64; ROUNDS] = round_constants();

/// The offsets of ρ: section 3.2.2, algorithm 2, with lanes of 64 bits.
const fn rotations() -> [u32; 25] {
    let mut offsets = [0; 25];
    let (mut x, mut y) = (1, 0);
    let mut step = 0;
    while step < 24 {
        offsets[x + 5 * y] = (step + 1) * (step + 2) / 2 % 64;
        (x, y) = (y, (2 * x + 3 * y) % 5);
        step += 1;
    }
    offsets
}

/// The function rc: section 3.2.5, algorithm 5, as a shift register of eight bits.
const fn round_constant_bit(t: usize) -> u64 {
    let mut register: u16 = 1;
    let mut step = 0;
    while step < t % 255 {
        register <<= 1;
        if register & 0x100 != 0 {
            register ^= 0x171;
        }
        step += 1;
    }
    (register & 1) as u64
}

/// The constants of ι: section 3.2.5, algorithm 6.
const fn round_constants() -> [u64; ROUNDS] {
    let mut constants = [0; ROUNDS];
    let mut round = 0;
    while round < ROUNDS {
        let mut j = 0;
        while j <= 6 {
            constants[round] |= round_constant_bit(j + 7 * round) << ((1 << j) - 1);
            j += 1;
        }
        round += 1;
    }
    constants
}

fn theta(lanes: &mut Lanes) {
    let parity = |x: usize| lanes[x] ^ lanes[x + 5] ^ lanes[x + 10] ^ lanes[x + 15] ^ lanes[x + 20];
    let columns = [parity(0), parity(1), parity(2), parity(3), parity(4)];
    for row in lanes.chunks_exact_mut(5) {
        for x in 0..5 {
            row[x] ^= columns[(x + 4) % 5] ^ columns[(x + 1) % 5].rotate_left(1);
        }
    }
}

/// ρ and then π: lane (x, y) comes from lane (x + 3y, x), rotated.
fn rho_and_pi(lanes: &Lanes) -> Lanes {
    let mut moved = [0; 25];
    for y in 0..5 {
        for x in 0..5 {
            let from = (x + 3 * y) % 5 + 5 * x;
            moved[x + 5 * y] = lanes[from].rotate_left(ROTATIONS[from]);
        }
    }
    moved
}

fn chi(lanes: &mut Lanes) {
    for row in lanes.chunks_exact_mut(5) {
        let before = [row[0], row[1], row[2], row[3], row[4]];
        for x in 0..5 {
            row[x] ^= !before[(x + 1) % 5] & before[(x + 2) % 5];
        }
    }
}

/// Keccak-f[1600]: 24 rounds of ι ∘ χ ∘ π ∘ ρ ∘ θ.
pub fn permute(lanes: &Lanes) -> Lanes {
    let mut state = *lanes;
    for constant in ROUND_CONSTANTS {
        theta(&mut state);
        state = rho_and_pi(&state);
        chi(&mut state);
        state[0] ^= constant;
    }
    state
}
