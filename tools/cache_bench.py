#!/usr/bin/env python3
"""Writes the crate bench_caches, which measures building a cache, and the answer to a query on caches.

No part of the gate. In a copy of the repository, run this at the top, and `rt run` in crates/bench_caches; then run
out/bench_caches there on one processor (`taskset -c 0`), so that rayon's threads share it. Each line has the least times of some rounds, in nanoseconds: of a build for each row, once of an empty bundle
and once of a full one, and of a query's transforms with its evaluation on one or two caches.
"""
from throwaway import write_crate

MAIN = """//! How long caches and evaluations take: the least of some rounds, in nanoseconds.
#![tactic(auto)]
ghost use Rattle.std.specs.Prelude.{◌≡◌, ◌*◌, ◌<◌, ◌≤◌, IfOk, length};
ghost use Rattle.noise_ledger.specs.Verdicts.{ArePassed, ciphertexts_of, parameters_of};
ghost use Rattle.psi_bundle.specs.Planes.{planes_of_bundle};
ghost use Rattle.bundle_cache.specs.Caches.{IsBundleBlock, IsCacheable};

use bfv_core::Ciphertext;
use bundle_cache::{Cache, Powers, Scratch, eval_into};
use item_slots::{Tag, tag_from};
use noise_ledger::{Params, check};
use psi_bundle::{Bundle, Label, Member};
use row_block::RowBlock;
use std::alloc::{AllocError, Global};
use std::sync::Arc;
use std::thread::Threads;
use std::time::Instant;

// Number `n` of some tags.
fn tag(n: u32) -> Tag {
    let mut bytes = [0; 22];
    for part in 0..5u32 {
        let value = n.wrapping_mul(40503).wrapping_add(part * 977);
        bytes[2 * part as usize] = (value / 256 % 256) as u8;
        bytes[2 * part as usize + 1] = (value % 256) as u8;
    }
    tag_from(bytes)
}

// The bundle with one more member, if its bin accepts it.
fn with_member(alloc: Global, params: &Params, bundle: Bundle, bin: u16, n: u32) -> Result<Bundle, AllocError>
    requires bin { bin < 819 }
    requires short { params.now.units ≤ 4 }
    requires cacheable { IsCacheable (parameters_of params.now) bundle }
    ensures { IfOk result (λ new. IsCacheable (parameters_of params.now) new) }
{
    let tag = tag(n);
    let label = [7; 40];
    match Label::of(&label[..10 * usize::from(params.units)]) {
        Some(label) if bundle.accepts(bin, &tag, params.capacity) => bundle.add(alloc, bin, Member { tag, label }, params.capacity),
        _ => Ok(bundle),
    }
}

// A bundle whose bins are full.
fn full(alloc: Global, params: &Params, count: u32) -> Result<Bundle, AllocError>
    requires short { params.now.units ≤ 4 }
    ensures { IfOk result (λ bundle. IsCacheable (parameters_of params.now) bundle) }
{
    let mut bundle = Bundle::empty(alloc)?;
    for n in 0..count {
        for bin in 0..819u16 {
            bundle = with_member(alloc, params, bundle, bin, n)?;
        }
    }
    Ok(bundle)
}

// Zero ciphertexts, so many.
fn zeros(alloc: Global, number: usize) -> Result<Vec<Ciphertext>, AllocError>
    ensures { IfOk result (λ zeros. length zeros.items ≡ number) }
{
    let mut zeros = Vec::new(alloc);
    for _ in 0..number {
        zeros.push(Ciphertext::zero(alloc)?)?;
    }
    Ok(zeros)
}

// The cache of a bundle, and the nanoseconds that it took.
fn build<R: Threads + Sync>(rt: &HostRuntime, threads: &R, params: &Params, bundle: Bundle) -> Result<(Cache, u128), anyhow::Error>
    requires passed { ArePassed (parameters_of params.now) }
    requires cacheable { IsCacheable (parameters_of params.now) bundle }
    ensures { IfOk result (λ built. built.0.parameters ≡ parameters_of params.now) }
{
    let alloc = rt.alloc();
    let mut scratch = Scratch::open(alloc, params)?;
    let bundle = Arc::new(alloc, bundle)?;
    match scratch.take_block() {
        Some(block) => {
            let t0 = Instant::now(rt)?;
            let built = Cache::build(threads, alloc, params, bundle, block);
            let t1 = Instant::now(rt)?;
            match built {
                Ok(cache) => Ok((cache, t1.saturating_duration_since(t0).as_nanos())),
                Err(_) => Err(AllocError.into()),
            }
        }
        None => Err(AllocError.into()),
    }
}

// A query's transforms, and its evaluations.
fn ask(rt: &HostRuntime, params: &Params, cache: &Cache, scratch: &mut Scratch, bundles: u32) -> Result<(u128, u128), anyhow::Error>
    requires passed { ArePassed (parameters_of params.now) }
    requires cache { cache.now.parameters ≡ parameters_of params.now }
    requires scratch { scratch.old.parameters ≡ parameters_of params.now }
    ensures scratch { scratch.new ≡ scratch.old }
{
    let alloc = rt.alloc();
    let query = zeros(alloc, usize::from(params.rows) * usize::from(params.capacity))?;
    let mut out = zeros(alloc, 1 + usize::from(params.units))?;
    let t0 = Instant::now(rt)?;
    let powers = Powers::of(params, query);
    let t1 = Instant::now(rt)?;
    evaluate(cache, &powers, scratch, &mut out, bundles);
    let t2 = Instant::now(rt)?;
    Ok((t1.saturating_duration_since(t0).as_nanos(), t2.saturating_duration_since(t1).as_nanos()))
}

// Some evaluations of one bundle.
fn evaluate(cache: &Cache, powers: &Powers, scratch: &mut Scratch, out: &mut [Ciphertext], bundles: u32)
    requires passed { ArePassed cache.now.parameters }
    requires query { powers.now.parameters ≡ cache.now.parameters }
    requires scratch { scratch.old.parameters ≡ cache.now.parameters }
    requires places { length out.old ≡ planes_of_bundle cache.now.parameters }
    ensures scratch { scratch.new ≡ scratch.old }
{
    for _ in 0..bundles {
        eval_into(cache, powers, 0, scratch, out);
    }
}

// The cache of a full bundle, with the least times of building that of a bundle without members, and it.
fn builds<R: Threads + Sync>(rt: &HostRuntime, threads: &R, params: &Params) -> Result<(Cache, u128, u128), anyhow::Error>
    requires passed { ArePassed (parameters_of params.now) }
    ensures { IfOk result (λ built. built.0.parameters ≡ parameters_of params.now) }
{
    let alloc = rt.alloc();
    let count = u32::from(params.capacity);
    let (mut cache, mut whole) = build(rt, threads, params, full(alloc, params, count)?)?;
    let mut least = u128::MAX;
    for _ in 0..5 {
        let (_, empty) = build(rt, threads, params, full(alloc, params, 0)?)?;
        least = least.min(empty);
        let (next, time) = build(rt, threads, params, full(alloc, params, count)?)?;
        whole = whole.min(time);
        cache = next;
    }
    Ok((cache, least, whole))
}

// The least times of asking.
fn asks(rt: &HostRuntime, params: &Params, cache: &Cache, bundles: u32) -> Result<(u128, u128), anyhow::Error>
    requires passed { ArePassed (parameters_of params.now) }
    requires cache { cache.now.parameters ≡ parameters_of params.now }
{
    let mut scratch = Scratch::open(rt.alloc(), params)?;
    let mut powers = u128::MAX;
    let mut sums = u128::MAX;
    for _ in 0..20 {
        let (first, second) = ask(rt, params, cache, &mut scratch, bundles)?;
        powers = powers.min(first);
        sums = sums.min(second);
    }
    Ok((powers, sums))
}

fn measure<R: Threads + Sync>(rt: &HostRuntime, threads: &R, params: &Params, bundles: u32) -> Result<(), anyhow::Error>
    requires passed { ArePassed (parameters_of params.now) }
{
    let (cache, least, whole) = builds(rt, threads, params)?;
    let (powers, sums) = asks(rt, params, &cache, bundles)?;
    let cells = (1 + u128::from(params.units)) * (u128::from(params.capacity) + 1);
    println!(rt; "capacity {} units {}: row {} full {} powers {} evaluation {} for each cell {}", params.capacity, params.units, least / cells, whole / cells, powers, sums, sums / cells / u128::from(bundles.max(1)))?;
    Ok(())
}

fn main(rt: HostRuntime) -> Result<(), anyhow::Error> {
    for (capacity, units, bundles) in [(16u16, 1u8, 1u32), (64, 0, 1), (64, 1, 2)] {
        let params = Params::of(1, capacity, units);
        if check(&params).is_ok() {
            measure(&rt, &rt, &params, bundles)?;
        }
    }
    Ok(())
}
"""

CACHEABLE = """use Rattle.noise_ledger.specs.Verdicts.{parameters_of}
use Rattle.bundle_cache.specs.Caches.{IsCacheable}
use Rattle.bench_caches.proofs.full.Given as goal

abbrev pub invariant-loop-n : goal.invariant-loop-n
invariant-loop-n l = IsCacheable (parameters_of l.params) l.bundle

abbrev pub invariant-loop-bin : goal.invariant-loop-bin
invariant-loop-bin l = IsCacheable (parameters_of l.params) l.bundle
"""

FULL = """use Rattle.std.proofs.Common.{sym, subst}
use Rattle.noise_ledger.specs.Verdicts.{parameters_of}
use Rattle.bundle_cache.specs.Caches.{IsCacheable}
use Rattle.bundle_cache.proofs.Cacheable.{cacheable-empty}
use Rattle.bench_caches.proofs.full.Goals as goal

pub loop-n-init : goal.loop-n-init
loop-n-init c = let p = parameters_of c.args.params.now in subst (IsCacheable p) (sym c.in_ok-bundle.ensures) (cacheable-empty p)
"""

MEMBER = """use Rattle.std.proofs.Common.{◌≡◌, ◌∙◌, ◌*◌, ℕ, replicate, length, ap, sym, subst, arith}
use Rattle.std.proofs.lemmas.List.{length-replicate, length-take-le}
use Rattle.std.proofs.lemmas.Result.{IfOk-weaker}
use Rattle.noise_ledger.specs.Verdicts.{parameters_of}
use Rattle.bundle_cache.specs.Caches.{IsCacheable}
use Rattle.bundle_cache.proofs.Cacheable.{cacheable-more}
use Rattle.bench_caches.proofs.with_member.Goals as goal

pub returns-in-Some : goal.returns-in-Some
returns-in-Some c =
    let p = parameters_of c.args.params.now in
    let size = length-replicate {A = ℕ} 40 7 in
    IfOk-weaker c.add.result _ _
    (λ bundle e.
    subst (IsCacheable p) (sym e)
    (cacheable-more p c.args.bundle c.args.bin _ c.requires.cacheable (sym c.accepts.ensures ∙ c.if-accepts.true)
    (ap length c.in-Some.ensures.shown ∙ length-take-le (10 * c.from.result) (replicate 40 7) (omega (arith, c.from.ensures, c.requires.short, size)) ∙ ap (λ (n : ℕ). 10 * n) c.from.ensures)))
    c.add.ensures
"""

ZEROS = """use Rattle.std.proofs.Common.{◌≡◌, length}
use Rattle.bench_caches.proofs.zeros.Given as goal

abbrev pub invariant-loop : goal.invariant-loop
invariant-loop l = length l.zeros.items ≡ l.counter
"""

EVALUATE = """use Rattle.std.proofs.Common.{◌≡◌, length}
use Rattle.bench_caches.proofs.evaluate.Given as goal

abbrev pub invariant-loop : goal.invariant-loop
invariant-loop l = record { scratch : l.scratch ≡ l.fn.scratch; size : length l.out ≡ length l.fn.out }
"""


BUILDS = """use Rattle.std.proofs.Common.{◌≡◌}
use Rattle.noise_ledger.specs.Verdicts.{parameters_of}
use Rattle.bench_caches.proofs.builds.Given as goal

abbrev pub invariant-loop : goal.invariant-loop
invariant-loop g l = l.cache.parameters ≡ parameters_of l.params
"""

ASKS = """use Rattle.std.proofs.Common.{◌≡◌}
use Rattle.noise_ledger.specs.Verdicts.{parameters_of}
use Rattle.bench_caches.proofs.asks.Given as goal

abbrev pub invariant-loop : goal.invariant-loop
invariant-loop l = l.scratch.parameters ≡ parameters_of l.params
"""


def main():
    libraries = "anyhow bfv_core bundle_cache item_slots noise_ledger psi_bundle psi_residue row_block"
    files = {
        "src/main.rt": MAIN,
        "proofs/full/Invariants.antt": CACHEABLE,
        "proofs/full/Answers.antt": FULL,
        "proofs/with_member/Answers.antt": MEMBER,
        "proofs/zeros/Invariants.antt": ZEROS,
        "proofs/builds/Invariants.antt": BUILDS,
        "proofs/asks/Invariants.antt": ASKS,
        "proofs/evaluate/Invariants.antt": EVALUATE,
    }
    write_crate("bench_caches", libraries, files)


if __name__ == "__main__":
    main()
