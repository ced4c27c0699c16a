#!/usr/bin/env python3
"""Writes the crate bench_transforms, which measures transforms, packing, encryption and decryption.

No part of the gate. In a copy of the repository, run this at the top, and `rt run` in crates/bench_transforms. Each line has the least times of many rounds, in nanoseconds a call.
"""
from throwaway import write_crate

MAIN = """//! How long transforms, packing, encryption and decryption take: the least of many rounds, in nanoseconds a call.
#![tactic(auto)]
ghost use Rattle.std.specs.Prelude.{◌≡◌, ◌<◌};
ghost use Rattle.psi_residue.specs.Numbers.{modulus_of, plain_modulus};
ghost use Rattle.psi_residue.specs.Polynomials.{IsPolynomial};

use batching::{pack, unpack};
use bfv_core::{SecretKey, decrypt, encrypt};
use negacyclic::{forward, inverse, mul_acc};
use psi_residue::{Modulus, N};
use std::time::Instant;

// Ten transforms forward.
fn forwards(m: Modulus, a: &mut [u64; N])
    requires { IsPolynomial (modulus_of m) a.old }
    ensures { IsPolynomial (modulus_of m) a.new }
{
    for _ in 0..10 {
        forward(m, a);
    }
}

// Ten transforms backward.
fn inverses(m: Modulus, a: &mut [u64; N])
    requires { IsPolynomial (modulus_of m) a.old }
    ensures { IsPolynomial (modulus_of m) a.new }
{
    for _ in 0..10 {
        inverse(m, a);
    }
}

// Ten sums of products.
fn sums(m: Modulus, a: &[u64; N], sum: &mut [u64; N])
    requires first { IsPolynomial (modulus_of m) a.now }
    requires second { IsPolynomial (modulus_of m) sum.old }
    ensures { IsPolynomial (modulus_of m) sum.new }
{
    for _ in 0..10 {
        mul_acc(m, a, a, sum);
    }
}

// The polynomial whose coefficients are all one.
fn ones(m: Modulus) -> [u64; N]
    ensures { IsPolynomial (modulus_of m) result }
{
    let _m = m;
    [1; N]
}

// The plaintext whose coefficients are all the same.
fn plaintext() -> [u32; N]
    ensures { IsPolynomial plain_modulus result }
{
    [65536; N]
}

// The least times of transforms.
fn transforms(rt: &HostRuntime, m: Modulus) -> Result<(), anyhow::Error> {
    let mut a = ones(m);
    let b = ones(m);
    let mut least = [u128::MAX; 3];
    for _ in 0..300 {
        let t0 = Instant::now(rt)?;
        forwards(m, &mut a);
        let t1 = Instant::now(rt)?;
        inverses(m, &mut a);
        let t2 = Instant::now(rt)?;
        sums(m, &b, &mut a);
        let t3 = Instant::now(rt)?;
        least[0] = least[0].min(t1.saturating_duration_since(t0).as_nanos());
        least[1] = least[1].min(t2.saturating_duration_since(t1).as_nanos());
        least[2] = least[2].min(t3.saturating_duration_since(t2).as_nanos());
    }
    println!(rt; "forward {} inverse {} mul_acc {} ({})", least[0] / 10, least[1] / 10, least[2] / 10, a[0])?;
    Ok(())
}

// The least times of packing.
fn packing(rt: &HostRuntime) -> Result<(), anyhow::Error> {
    let values = plaintext();
    let mut poly = [0; N];
    let mut slots = [0; N];
    let mut least = [u128::MAX; 2];
    for _ in 0..3000 {
        let t0 = Instant::now(rt)?;
        pack(&values, &mut poly);
        let t1 = Instant::now(rt)?;
        unpack(&values, &mut slots);
        let t2 = Instant::now(rt)?;
        least[0] = least[0].min(t1.saturating_duration_since(t0).as_nanos());
        least[1] = least[1].min(t2.saturating_duration_since(t1).as_nanos());
    }
    println!(rt; "pack {} unpack {} ({} {})", least[0], least[1], poly[0], slots[0])?;
    Ok(())
}

// The least times of encryption and decryption.
fn ciphertexts(rt: &HostRuntime) -> Result<(), anyhow::Error> {
    let seed = [7; 32];
    let plain = plaintext();
    let mut out = [0; N];
    let key = SecretKey::of(rt.alloc(), &seed)?;
    let mut least = [u128::MAX; 2];
    for _ in 0..1000 {
        let t0 = Instant::now(rt)?;
        let ct = encrypt(rt.alloc(), &key, &seed, 5, &plain)?;
        let t1 = Instant::now(rt)?;
        decrypt(&key, &ct, &mut out);
        let t2 = Instant::now(rt)?;
        least[0] = least[0].min(t1.saturating_duration_since(t0).as_nanos());
        least[1] = least[1].min(t2.saturating_duration_since(t1).as_nanos());
    }
    println!(rt; "encrypt {} decrypt {} ({})", least[0], least[1], out[0])?;
    Ok(())
}

fn main(rt: HostRuntime) -> Result<(), anyhow::Error> {
    transforms(&rt, Modulus::Q1)?;
    transforms(&rt, Modulus::Q2)?;
    transforms(&rt, Modulus::T)?;
    packing(&rt)?;
    ciphertexts(&rt)?;
    Ok(())
}
"""

INVARIANT = """use Rattle.psi_residue.specs.Numbers.{modulus_of}
use Rattle.psi_residue.specs.Polynomials.{IsPolynomial}
use Rattle.bench_transforms.proofs.NAME.Given as goal

abbrev pub invariant-loop : goal.invariant-loop
invariant-loop l = IsPolynomial (modulus_of l.m) l.VARIABLE
"""

ONES = """use Rattle.psi_residue.specs.Numbers.{modulus_of}
use Rattle.psi_residue.proofs.Polynomials.{IsPolynomial-constant}
use Rattle.negacyclic.proofs.TransformLaws.{one-below}
use Rattle.bench_transforms.proofs.ones.Goals as goal

pub returns : goal.returns
returns c = IsPolynomial-constant (modulus_of c.args.m) 1 (one-below c.args.m)
"""

PLAINTEXT = """use Rattle.std.proofs.Common.{arith}
use Rattle.psi_residue.proofs.Polynomials.{IsPolynomial-constant}
use Rattle.bench_transforms.proofs.plaintext.Goals as goal

pub returns : goal.returns
returns c = IsPolynomial-constant 65537 65536 (omega arith)
"""


def main():
    files = {"src/main.rt": MAIN, "proofs/ones/Answers.antt": ONES, "proofs/plaintext/Answers.antt": PLAINTEXT}
    for name, variable in [("forwards", "a"), ("inverses", "a"), ("sums", "sum"), ("transforms", "a")]:
        files[f"proofs/{name}/Invariants.antt"] = INVARIANT.replace("NAME", name).replace("VARIABLE", variable)
    write_crate("bench_transforms", "anyhow batching bfv_core negacyclic psi_residue", files)


if __name__ == "__main__":
    main()
