#!/usr/bin/env python3
"""Writes the crate bench_rounds, which measures a round of eight warm Asks on one worker and on four, without bytes.

No part of the gate. In a copy of the repository, run this at the top, and `rt run` in crates/bench_rounds; then run
out/bench_rounds there. The lines have the least times of some rounds, in microseconds, at capacity 16 and one label unit, behind 40,000 items and rounds in which four
builders made all caches. The queries are zeros.
"""
from throwaway import write_crate

MAIN = """//! How long a round of eight warm Asks takes on some workers: the least of some rounds, in microseconds.
#![tactic(auto)]
ghost use Rattle.std.specs.Prelude.{◌≡◌, ◌*◌, ◌≤◌, IfSome, IfOk, length};
ghost use Rattle.std.specs.List.{All};
ghost use Rattle.noise_ledger.specs.Verdicts.{ArePassed, parameters_of};
ghost use Rattle.psi_frames.specs.Requests.{IsFit, count_asks};

use anyhow::anyhow;
use bundle_cache::Cache;
use item_slots::tag_of;
use noise_ledger::{Params, check};
use psi_bundle::Label;
use psi_frames::Request;
use psi_outside::Open;
use query_codec::{Ciphertext, Ciphertexts};
use query_pool::{Shape, run_round};
use sender_core::Book;
use std::alloc::Global;
use std::sync::Wait;
use std::thread::Threads;
use std::time::Instant;

// The book with one more item.
fn with_item(alloc: Global, book: Book<Cache>, n: u32) -> Option<Book<Cache>>
    requires { book.parameters.units ≡ 1 }
    ensures { IfSome result (λ new. new.parameters ≡ book.parameters) }
{
    let mut book = book;
    let label = Label::of(&[7; 10])?;
    book.put(alloc, tag_of(&n.to_be_bytes()), label).ok()?;
    Some(book)
}

// A book of so many items.
fn filled(alloc: Global, params: &Params, items: u32) -> Option<Book<Cache>>
    requires passed { ArePassed (parameters_of params.now) }
    requires units { (parameters_of params.now).units ≡ 1 }
    ensures { IfSome result (λ book. book.parameters ≡ parameters_of params.now) }
{
    let mut book = Book::open(alloc, params).ok()?;
    for n in 0..items {
        book = with_item(alloc, book, n)?;
    }
    Some(book)
}

// An Ask of a session, with a query of zeros.
fn query(alloc: Global, params: &Params, session: u16) -> Option<Request>
    requires { params.now.rows * params.now.capacity ≡ 16 }
    ensures { IfSome result (IsFit (parameters_of params.now)) }
{
    let mut cts = Vec::new(alloc);
    for _ in 0..16u32 {
        cts.push(Ciphertext::zero(alloc).ok()?).ok()?;
    }
    Some(Request::Ask {
        session,
        number: 1,
        query: Ciphertexts::of(cts),
    })
}

// Asks of so many sessions.
fn queries(alloc: Global, params: &Params, number: u16) -> Option<Vec<Request>>
    requires whole { params.now.rows * params.now.capacity ≡ 16 }
    ensures fit { IfSome result (λ rs. All (IsFit (parameters_of params.now)) rs.items) }
    ensures number { IfSome result (λ rs. length rs.items ≡ number) }
{
    let mut requests = Vec::new(alloc);
    for session in 0..number {
        requests.push(query(alloc, params, session)?).ok()?;
    }
    Some(requests)
}

// The book behind a round of some Asks, and its time.
fn timed<R: Threads + Wait + Sync>(rt: &HostRuntime, threads: &R, params: &Params, book: Book<Cache>, number: u16, shape: Shape) -> Result<(Book<Cache>, u128), anyhow::Error>
    requires passed { ArePassed (parameters_of params.now) }
    requires same { book.parameters ≡ parameters_of params.now }
    requires whole { params.now.rows * params.now.capacity ≡ 16 }
    requires few { number ≤ 8 }
    requires workers { (1 ≤ shape.workers) × (shape.workers ≤ 8) }
    requires builders { shape.builders ≤ 4 }
    ensures { IfOk result (λ r. r.0.parameters ≡ parameters_of params.now) }
{
    let alloc = rt.alloc();
    let requests = queries(alloc, params, number).ok_or_else(|| anyhow!("no memory"))?;
    let t0 = Instant::now(rt)?;
    let round = run_round(threads, alloc, params, book, requests, shape, &Open)?;
    let t1 = Instant::now(rt)?;
    Ok((round.book, t1.saturating_duration_since(t0).as_micros()))
}

// The least time of some rounds.
fn least<R: Threads + Wait + Sync>(rt: &HostRuntime, threads: &R, params: &Params, book: Book<Cache>, number: u16, shape: Shape, rounds: u32) -> Result<(Book<Cache>, u128), anyhow::Error>
    requires passed { ArePassed (parameters_of params.now) }
    requires same { book.parameters ≡ parameters_of params.now }
    requires whole { params.now.rows * params.now.capacity ≡ 16 }
    requires few { number ≤ 8 }
    requires workers { (1 ≤ shape.workers) × (shape.workers ≤ 8) }
    requires builders { shape.builders ≤ 4 }
    ensures { IfOk result (λ r. r.0.parameters ≡ parameters_of params.now) }
{
    let mut book = book;
    let mut least = u128::MAX;
    for _ in 0..rounds {
        let (next, time) = timed(rt, threads, params, book, number, shape)?;
        book = next;
        least = least.min(time);
    }
    Ok((book, least))
}

fn measure<R: Threads + Wait + Sync>(rt: &HostRuntime, threads: &R) -> Result<(u128, u128), anyhow::Error> {
    let params = Params::of(1, 16, 1);
    if check(&params).is_err() {
        return Err(anyhow!("refused"));
    }
    let book = filled(rt.alloc(), &params, 40000).ok_or_else(|| anyhow!("no memory"))?;
    let (book, _) = least(rt, threads, &params, book, 1, Shape { workers: 1, builders: 4 }, 20)?;
    let (book, one) = least(rt, threads, &params, book, 8, Shape { workers: 1, builders: 0 }, 20)?;
    let (_, four) = least(rt, threads, &params, book, 8, Shape { workers: 4, builders: 0 }, 60)?;
    Ok((one, four))
}

fn main(rt: HostRuntime) -> Result<(), anyhow::Error> {
    for _ in 0..3 {
        let (one, four) = measure(&rt, &rt)?;
        println!(rt; "one worker {one} four workers {four}")?;
    }
    Ok(())
}
"""

PROOFS = {
    "filled/Invariants.antt": """use Rattle.std.proofs.Common.{◌≡◌}
use Rattle.noise_ledger.specs.Verdicts.{parameters_of}
use Rattle.bench_rounds.proofs.filled.Given as goal

abbrev pub invariant-loop-n : goal.invariant-loop-n
invariant-loop-n l = l.book.parameters ≡ parameters_of l.params
""",
    "query/Invariants.antt": """use Rattle.std.proofs.Common.{◌≡◌, length}
use Rattle.bench_rounds.proofs.query.Given as goal

abbrev pub invariant-loop : goal.invariant-loop
invariant-loop l = length l.cts.items ≡ l.counter
""",
    "queries/Invariants.antt": """use Rattle.std.proofs.Common.{◌≡◌, length}
use Rattle.std.specs.List.{All}
use Rattle.noise_ledger.specs.Verdicts.{parameters_of}
use Rattle.psi_frames.specs.Requests.{IsFit}
use Rattle.bench_rounds.proofs.queries.Given as goal

abbrev pub invariant-loop-session : goal.invariant-loop-session
invariant-loop-session l = record {
  fit : All (IsFit (parameters_of l.params)) l.requests.items;
  number : length l.requests.items ≡ l.session;
}
""",
    "least/Invariants.antt": """use Rattle.std.proofs.Common.{◌≡◌}
use Rattle.noise_ledger.specs.Verdicts.{parameters_of}
use Rattle.bench_rounds.proofs.least.Given as goal

abbrev pub invariant-loop : goal.invariant-loop
invariant-loop g l = l.book.parameters ≡ parameters_of l.params
""",
}


def main():
    libraries = "anyhow bundle_cache item_slots noise_ledger psi_bundle psi_frames psi_outside psi_residue query_codec query_pool sender_core"
    files = {"src/main.rt": MAIN} | {f"proofs/{name}": text for name, text in PROOFS.items()}
    write_crate("bench_rounds", libraries, files, "may_wait=13")


if __name__ == "__main__":
    main()
