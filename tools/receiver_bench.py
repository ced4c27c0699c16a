#!/usr/bin/env python3
"""Measures the receiver: a query of 500 items at capacity 64, and opening a reply of 60 bundles in which nothing is found.

No part of the gate. In a copy of the repository, run this at the top: it writes the crate bench_receiver. Then `rt run`
in crates/bench_receiver. Each line that the program writes has the times of one round, in nanoseconds a ciphertext: of `ask`,
64 ciphertexts, and of `open`, 60.

`receiver_bench.py measure TIMES`, at the top, then runs it so often on one processor (each in its turn) and on all, by turns,
since a host may take a processor's speed away for a minute or a moment. It writes of both the least, the median and the mean
time, and how many times as fast all processors were.
"""
import os
import statistics
import subprocess
import sys

from throwaway import write_crate

MAIN = """//! How long a query and the opening of a reply take, in nanoseconds a ciphertext.
#![tactic(auto)]
ghost use Rattle.std.specs.Prelude.{◌≡◌, ◌*◌, ◌<◌, ◌≤◌, ◌^◌, IfOk, length};
ghost use Rattle.psi_residue.specs.Numbers.{plain_modulus};
ghost use Rattle.psi_residue.specs.Polynomials.{IsPolynomial};

use anyhow::anyhow;
use bfv_core::{Ciphertext, SecretKey, encrypt};
use noise_ledger::{Params, check};
use psi_receiver::{ask, open};
use query_codec::write_reply;
use std::alloc::{AllocError, Global};
use std::thread::Threads;
use std::time::Instant;

const SEED: [u8; 32] = [7; 32];

// The items, so many.
fn items(alloc: Global, number: u32) -> Result<Vec<Vec<u8>>, AllocError>
    ensures { IfOk result (λ items. length items.items ≡ number) }
{
    let mut items = Vec::new(alloc);
    for n in 0..number {
        items.push(n.to_be_bytes().to_vec(alloc)?)?;
    }
    Ok(items)
}

// The constant polynomial 1, which is 1 in each slot.
fn one() -> [u32; 4096]
    ensures { IsPolynomial plain_modulus result }
{
    let mut plain = [0; 4096];
    plain[0] = 1;
    plain
}

// Encryptions of 1 in each slot, so many.
fn ones(alloc: Global, number: u16) -> Result<Vec<Ciphertext>, AllocError>
    requires { number < 2400 }
    ensures { IfOk result (λ cts. length cts.items ≡ number) }
{
    let key = SecretKey::of(alloc, &SEED)?;
    let plain = one();
    let mut cts = Vec::new(alloc);
    for c in 0..number {
        cts.push(encrypt(alloc, &key, &SEED, u32::from(c), &plain)?)?;
    }
    Ok(cts)
}

// The times of rounds of a query and an opening, a line each.
fn measure<R: Threads + Sync>(rt: &HostRuntime, threads: &R) -> Result<(), anyhow::Error> {
    let alloc = rt.alloc();
    let params = Params::of(1, 64, 0);
    if check(&params).is_err() {
        return Err(anyhow!("refused"));
    }
    let items = items(alloc, 500)?;
    let reply = match write_reply(alloc, &params, &[60], &ones(alloc, 60)?) {
        Ok(reply) => reply,
        Err(_) => return Err(AllocError.into()),
    };
    for _ in 0..40 {
        let t0 = Instant::now(rt)?;
        let query = ask(threads, alloc, &params, &SEED, &items).ok();
        let t1 = Instant::now(rt)?;
        let found = open(threads, alloc, &params, &SEED, &items, &reply).ok();
        let t2 = Instant::now(rt)?;
        if query.is_none() || found.map_or(true, |found| !found.is_empty()) {
            return Err(anyhow!("not as it should be"));
        }
        let asked = t1.saturating_duration_since(t0).as_nanos() / 64;
        let opened = t2.saturating_duration_since(t1).as_nanos() / 60;
        println!(rt; "ask {asked} open {opened}")?;
    }
    Ok(())
}

fn main(rt: HostRuntime) -> Result<(), anyhow::Error> {
    measure(&rt, &rt)
}
"""

ITEMS = """use Rattle.std.proofs.Common.{◌≡◌, length}
use Rattle.bench_receiver.proofs.items.Given as goal

abbrev pub invariant-loop-n : goal.invariant-loop-n
invariant-loop-n l = length l.items.items ≡ l.n
"""

ONES = """use Rattle.std.proofs.Common.{◌≡◌, length}
use Rattle.bench_receiver.proofs.ones.Given as goal

abbrev pub invariant-loop-c : goal.invariant-loop-c
invariant-loop-c l = length l.cts.items ≡ l.c
"""

ONE = """use Rattle.std.proofs.Common.{arith, replicate}
use Rattle.psi_residue.proofs.Polynomials.{IsPolynomial-constant, IsPolynomial-set}
use Rattle.bench_receiver.proofs.one.Goals as goal

pub returns : goal.returns
returns c = IsPolynomial-set 65537 (replicate 4096 0) 0 1 (IsPolynomial-constant 65537 0 (omega arith)) (omega arith)
"""


PROGRAM = "crates/bench_receiver/out/bench_receiver"


def write():
    files = {"src/main.rt": MAIN, "proofs/items/Invariants.antt": ITEMS, "proofs/ones/Invariants.antt": ONES, "proofs/one/Answers.antt": ONE}
    write_crate("bench_receiver", "anyhow bfv_core noise_ledger psi_receiver psi_residue query_codec", files)


def rounds(command):
    """The times of `ask` and of `open` in each round of one run."""
    lines = subprocess.run(command, capture_output=True, text=True, check=True).stdout.split("\n")
    words = [line.split() for line in lines if line]
    return [(int(w[1]), int(w[3])) for w in words]


def measure(times):
    processors = sorted(os.sched_getaffinity(0))
    on_one, on_all = [], []
    for turn in range(times):
        on_one += rounds(["taskset", "-c", str(processors[turn % len(processors)]), PROGRAM])
        on_all += rounds([PROGRAM])
    for place, call in enumerate(("ask", "open")):
        one = [found[place] / 1000 for found in on_one]
        every = [found[place] / 1000 for found in on_all]
        print(f"{call}, microseconds a ciphertext, on one processor and on {len(processors)}:")
        for name, of in (("least", min), ("median", statistics.median), ("mean", statistics.mean)):
            print(f"  {name:6} {of(one):7.1f} {of(every):7.1f}, {of(one) / of(every):.2f} times as fast")


if __name__ == "__main__":
    if sys.argv[1:2] == ["measure"]:
        measure(int(sys.argv[2]))
    else:
        write()
