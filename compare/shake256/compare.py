"""compare.py LIBRARY: SHAKE256 of the library against hashlib's, on random messages in random pieces."""

import ctypes
import hashlib
import random
import sys

RANDOM_CASES = 3000
# About the ends of a block of 136 bytes, and of a lane of 8.
EDGES = [0, 1, 7, 8, 9, 50, 127, 128, 129, 135, 136, 137, 143, 144, 271, 272, 273, 408]


def pieces(total, rng):
    """Lengths of pieces, some of them 0, that may stop short of the total or go past it."""
    kind = rng.randrange(4)
    if kind == 0:
        return []
    largest = {1: 3, 2: 40, 3: 300}[kind]
    lengths = []
    while sum(lengths) < total and len(lengths) < 400 and rng.random() < 0.97:
        lengths.append(rng.randint(0, largest))
    return lengths


def cases(rng):
    for length in EDGES:
        for count in EDGES:
            yield length, count
    for _ in range(RANDOM_CASES):
        yield rng.randint(0, 1000), rng.randint(1, 700)


def main():
    library = ctypes.CDLL(sys.argv[1])
    size, text = ctypes.c_size_t, ctypes.c_char_p
    numbers = ctypes.POINTER(ctypes.c_uint16)
    library.unlock_test_shake256.argtypes = [text, size, text, size]
    library.unlock_test_pieces.argtypes = [text, size, numbers, size, text, size, numbers, size]
    for function in (library.unlock_test_shake256, library.unlock_test_pieces):
        function.restype = None
    rng = random.Random(202)
    passed = failed = 0
    for length, count in cases(rng):
        message = rng.randbytes(length)
        expected = hashlib.shake_256(message).digest(count)
        cuts, spans = pieces(length, rng), pieces(count, rng)
        whole, parts = ctypes.create_string_buffer(count), ctypes.create_string_buffer(count)
        library.unlock_test_shake256(message, length, whole, count)
        library.unlock_test_pieces(
            message, length, (ctypes.c_uint16 * len(cuts))(*cuts), len(cuts),
            parts, count, (ctypes.c_uint16 * len(spans))(*spans), len(spans),
        )
        if whole.raw == expected and parts.raw == expected:
            passed += 1
        else:
            failed += 1
            print(f"differs: {length} bytes in pieces {cuts}, {count} bytes out in pieces {spans}")
    print(f"{passed} passed, {failed} failed")
    sys.exit(1 if failed or not passed else 0)


main()
