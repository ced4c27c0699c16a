#!/usr/bin/env python3
"""Computes, from RFC 8439 and not from the program, the first coefficients of keys, masks and errors, and prints them.

The values stand in the test of the crate psi_sampler. The block function below is checked on the RFC's own example
(its section 2.3.2) before anything is printed.
"""
import struct

Q1, Q2 = 68719403009, 68719230977
MASK32 = 0xFFFFFFFF


def rotate(word, by):
    return ((word << by) | (word >> (32 - by))) & MASK32


def quarter_round(state, a, b, c, d):
    state[a] = (state[a] + state[b]) & MASK32
    state[d] = rotate(state[d] ^ state[a], 16)
    state[c] = (state[c] + state[d]) & MASK32
    state[b] = rotate(state[b] ^ state[c], 12)
    state[a] = (state[a] + state[b]) & MASK32
    state[d] = rotate(state[d] ^ state[a], 8)
    state[c] = (state[c] + state[d]) & MASK32
    state[b] = rotate(state[b] ^ state[c], 7)


def block(key, counter, nonce):
    """The 64 bytes of a block: a key of 32 bytes, a counter of 32 bits and a nonce of 12 bytes."""
    start = list(struct.unpack("<4I", b"expand 32-byte k"))
    start += struct.unpack("<8I", key)
    start.append(counter)
    start += struct.unpack("<3I", nonce)
    state = list(start)
    for _ in range(10):
        quarter_round(state, 0, 4, 8, 12)
        quarter_round(state, 1, 5, 9, 13)
        quarter_round(state, 2, 6, 10, 14)
        quarter_round(state, 3, 7, 11, 15)
        quarter_round(state, 0, 5, 10, 15)
        quarter_round(state, 1, 6, 11, 12)
        quarter_round(state, 2, 7, 8, 13)
        quarter_round(state, 3, 4, 9, 14)
    return struct.pack("<16I", *((x + y) & MASK32 for x, y in zip(state, start)))


def word(seed, stream, place):
    """The word at a place of a stream: the nonce is four zero bytes and the stream number, low byte first."""
    nonce = bytes(4) + stream.to_bytes(8, "little")
    at = 4 * (place % 16)
    return int.from_bytes(block(seed, place // 16, nonce)[at:at + 4], "little")


def key_coefficient(seed, i):
    return word(seed, 0, i) % 3 - 1


def mask_residues(seed, c, i):
    w = [word(seed, 1 + 2 * c, 4 * i + j) for j in range(4)]
    return (w[0] + 2**32 * w[1]) % Q1, (w[2] + 2**32 * w[3]) % Q2


def low_ones(w):
    return bin(w & (2**21 - 1)).count("1")


def error_coefficient(seed, c, i):
    return low_ones(word(seed, 2 + 2 * c, 2 * i)) - low_ones(word(seed, 2 + 2 * c, 2 * i + 1))


def check_block():
    got = block(bytes(range(32)), 1, bytes.fromhex("000000090000004a00000000"))
    want = ("10f1e7e4d13b5915500fdd1fa32071c4c7d1f4c733c068030422aa9ac3d46c4e"
            "d2826446079faa0914c2d705d98b02a2b5129cd1de164eb9cbd083e8a2503c4e")
    assert got.hex() == want


# the first places, and the last
PLACES = [0, 1, 2, 3, 4, 5, 6, 7, 4095]


def main():
    check_block()
    for name, seed in [("zero seed", bytes(32)), ("seed 0 to 31", bytes(range(32)))]:
        print(name, "key", [key_coefficient(seed, i) for i in PLACES])
        for c in [0, 2399]:
            print(name, "mask", c, "modulo Q1", [mask_residues(seed, c, i)[0] for i in PLACES])
            print(name, "mask", c, "modulo Q2", [mask_residues(seed, c, i)[1] for i in PLACES])
            print(name, "error", c, [error_coefficient(seed, c, i) for i in PLACES])


if __name__ == "__main__":
    main()
