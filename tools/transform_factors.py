#!/usr/bin/env python3
"""Writes the factors of the transforms: one Rattle file for each modulus, into crates/negacyclic/src.

Place L + j, for L = 1, 2, 4 .. 2048 and j below L, has the power (2048 / L)(2j + 1) of the modulus's root, whose 4096th
power is -1, and the quotient of that number times 2^64 by the modulus, rounded down. Place 0 has 1.
"""
import os

PLACES = 4096
MODULI = [
    ("first_factors", "Q1", 68719403009, 5546991020),
    ("second_factors", "Q2", 68719230977, 41019061109),
    ("plain_factors", "T", 65537, 6561),
]


def numbers(modulus, root):
    yield 1
    level = 1
    while level < PLACES:
        for j in range(level):
            yield pow(root, PLACES // 2 // level * (2 * j + 1), modulus)
        level *= 2


def main():
    folder = os.path.join(os.path.dirname(os.path.abspath(__file__)), "..", "crates", "negacyclic", "src")
    for name, modulus_name, modulus, root in MODULI:
        assert pow(root, PLACES, modulus) == modulus - 1
        with open(os.path.join(folder, name + ".rt"), "w", encoding="utf-8") as out:
            out.write(f"//! The factors of the transforms modulo `{modulus_name}`, as `tools/transform_factors.py` wrote them.\n")
            out.write("use crate::factors::{Factor, factors};\n\n")
            out.write(f"/// Place L + j, for L = 1, 2, 4 .. 2048 and j below L, has the power (2048 / L)(2j + 1) of {root}.\n")
            out.write("pub static FACTORS: [Factor; 4096] = factors![\n")
            rows = [f"{number} {(number << 64) // modulus}" for number in numbers(modulus, root)]
            for start in range(0, PLACES, 3):
                out.write("    " + ", ".join(rows[start : start + 3]) + ("\n" if start + 3 >= PLACES else ",\n"))
            out.write("];\n")


main()
