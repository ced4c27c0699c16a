#!/usr/bin/env python3
"""Writes the crate bench_interpolate, which measures an interpolation of 64 points, and says what it must print.

No part of the gate. In a copy of the repository, run this at the top, and `rt run` in crates/bench_interpolate. Each of its three
lines has the first and the last coefficient and the time.
"""
import random

from definitions import T, through
from throwaway import write_crate

COUNT = 64

MAIN = """//! How long an interpolation of 64 points takes.
#![tactic(auto)]
ghost use Rattle.std.specs.Prelude.{◌<◌, IsTrue};
ghost use Rattle.std.specs.List.{All};

use label_interp::interpolate;
use std::time::Instant;

// The polynomial of degree below 64 through 64 points.
fn through_points(out: &mut [u32; 64]) {
    let points = [POINTS];
    if are_below(&points) {
        interpolate(&points, out);
    }
}

// Whether all numbers are below the modulus.
fn are_below(points: &[(u32, u32)]) -> bool
    ensures { IsTrue result → All (λ p. (p.0 < 65537) × (p.1 < 65537)) points.now }
{
    points.iter().all(|p| p.0 < 65537 && p.1 < 65537)
}

// Interpolates once, and says how long it took.
fn timed(rt: &HostRuntime) -> Result<(), anyhow::Error> {
    let mut out = [0; 64];
    let before = Instant::now(rt)?;
    through_points(&mut out);
    let after = Instant::now(rt)?;
    let nanos = after.saturating_duration_since(before).as_nanos();
    println!(rt; "{} {} in {nanos} ns", out[0], out[63])?;
    Ok(())
}

fn main(rt: HostRuntime) -> Result<(), anyhow::Error> {
    timed(&rt)?;
    timed(&rt)?;
    timed(&rt)?;
    Ok(())
}
"""

ANSWERS = """use Rattle.std.proofs.Common.{refl}
use Rattle.std.specs.List.{IsDistinct}
use Rattle.bench_interpolate.proofs.through_points.Goals as goal

pub interpolate-requires-clause-places_differ : goal.interpolate-requires-clause-places_differ
unfolding IsDistinct
interpolate-requires-clause-places_differ c = APART
"""


def apart(count):
    """That the places of `count` points differ: each from all after it, by computing."""
    whole = "tt"
    for after in range(count):
        one = "tt"
        for _ in range(after):
            one = f"(refl, {one})"
        whole = f"({one}, {whole})"
    return whole


def main():
    draw = random.Random(COUNT)
    points = [(place, draw.randrange(T)) for place in draw.sample(range(T), COUNT)]
    files = {
        "src/main.rt": MAIN.replace("POINTS", ", ".join(map(str, points))),
        "proofs/through_points/Answers.antt": ANSWERS.replace("APART", apart(COUNT)),
    }
    write_crate("bench_interpolate", "anyhow label_interp", files)
    wanted = through(points)
    print(f"each line must begin with {wanted[0]} {wanted[-1]}")


if __name__ == "__main__":
    main()
