#!/usr/bin/env python3
"""Runs calls of the libraries with one allocation refused: the first, then the second, and so on, until none is refused any more.

No part of the gate. In a copy of the repository, run this at the top: it adds the crate refused_calls to crates.txt, writes it for
each of its programs, and runs it by `rt try`, which proves nothing. So that one build does for all numbers, `rt try` refuses always
the allocation LIMIT, and a program makes some in vain before its calls, one for each byte of its input: behind LIMIT - 1 of them the
calls' first one is refused, behind LIMIT - 2 the second. Behind its calls it makes one more, which tells where theirs end.

- build: puts a tag into an empty book, and builds the cache of its one bundle by `build_some`, with budget 4 and a shelf. A refused
  Put is made again, and has to be Added. A refused build is made again with the same shelf, and has to install the cache and find
  that each bundle has one; or only the latter, where the first was refused behind its install. The block of a cache that could not
  be built has to be on the shelf, and has to leave it again.
- place: `place` of four equal sets, of two sets, of the positions of 60 items, and of more items than a row has bins. All answer as
  without a refusal, but for one that answers NoMemory. The 60 items' places are those of outside_values.py, and the crowded items
  have fewer positions than they are.

Each run has to end with status 0 in one of the ways that are listed, and each of these ways has to come.

Usage: refused_calls.py [build|place]
"""
import collections
import pathlib
import re
import subprocess
import sys
import tempfile

from definitions import positions, tag_of
from outside_values import first_placement
from throwaway import write_crate

CRATE = pathlib.Path("crates/refused_calls")
LIBRARIES = "bundle_cache cuckoo_place item_slots live_sender noise_ledger psi_bundle psi_outside psi_rebuilder row_block sender_core"
LIMIT = 120
ITEMS, MORE_ITEMS = 60, 820

IN_VAIN = """
// Makes allocations in vain, and tells which are refused.
fn allocate(rt: &HostRuntime, times: usize, name: &str) {
    for _ in 0..times {
        if Vec::<u8>::with_capacity(rt.alloc(), 1).is_err() {
            let _ = print!(rt; " {name} NoMemory;");
        }
    }
}
"""

BUILD = """//! Builds the cache of a book's bundle, and again after a refusal.
use item_slots::tag_of;
use live_sender::Sender;
use noise_ledger::Params;
use psi_bundle::Label;
use psi_outside::Open;
use psi_rebuilder::{Built, build_some};
use row_block::Shelf;
use sender_core::{Bare, Book};
use std::io::Read;
""" + IN_VAIN + """
fn tell_built(rt: &HostRuntime, built: &Built) {
    let _ = print!(rt; " build");
    for receipt in &built.receipts {
        let (row, index, stamp) = (receipt.row(), receipt.index(), receipt.stamp());
        let _ = print!(rt; " row {row} bundle {index} stamp {stamp} at {} now {:?},", receipt.at(), receipt.now());
    }
    let _ = print!(rt; " All {:?};", built.all.as_ref().map(|shown| shown.place()));
}

// Tells the block of the shelf, if there is one, and leaves it there.
fn tell_shelf(rt: &HostRuntime, shelf: &mut Shelf) {
    if let Some(block) = shelf.take() {
        let _ = print!(rt; " block {} of {} by {};", block.held(), block.rows(), block.width());
        let _ = shelf.give(block);
    }
}

fn main(rt: HostRuntime) {
    let alloc = rt.alloc();
    allocate(&rt, rt.reader().read(&mut [0; 256]).unwrap_or(0), "in vain");
    let params = Params::of(1, 1, 0);
    let Some((sender, mut seat)) = Book::open(alloc, &params).ok().and_then(|book| Sender::open(alloc, book).ok()) else {
        let _ = print!(rt; " open NoMemory;");
        return;
    };
    for _ in 0..2 {
        if let Ok(placed) = sender.put(&rt, alloc, &mut seat, tag_of(b"abc"), Label::of(b"").unwrap()) {
            let _ = print!(rt; " put {:?} at {};", placed.answer, placed.place);
            break;
        }
        let _ = print!(rt; " put NoMemory;");
    }
    let mut shelf = Shelf::open();
    for _ in 0..2 {
        if let Ok(built) = build_some(&rt, alloc, &sender, &mut seat, &mut shelf, &params, 0, 4, &Open) {
            tell_built(&rt, &built);
            break;
        }
        let _ = print!(rt; " build NoMemory;");
        tell_shelf(&rt, &mut shelf);
        let _ = match sender.fetch_bare(&rt, alloc, &mut seat, 0) {
            Ok(Bare::One { .. }) => print!(rt; " bare;"),
            Ok(Bare::All { .. }) => print!(rt; " cached;"),
            Err(_) => print!(rt; " fetch NoMemory;"),
        };
    }
    tell_shelf(&rt, &mut shelf);
    allocate(&rt, 1, "end");
}
"""

PLACE = """//! Places several lists of sets.
use cuckoo_place::{Unplaced, place};
use item_slots::{Positions, positions, tag_of};
use std::alloc::Global;
use std::io::Read;
""" + IN_VAIN + """
fn tell(rt: &HostRuntime, answer: Result<Vec<u16>, Unplaced>) {
    let _ = match answer {
        Ok(places) => print!(rt; " placed {:?};", places.as_slice()),
        Err(Unplaced::Crowded { items }) => print!(rt; " crowded {:?};", items.as_slice()),
        Err(Unplaced::NoMemory) => print!(rt; " NoMemory;"),
    };
}

fn place_items(alloc: Global, count: u32) -> Result<Vec<u16>, Unplaced> {
    let mut sets = Vec::with_capacity(alloc, count as usize)?;
    for item in 0..count {
        sets.push(positions(&tag_of(&item.to_be_bytes()), 1)).map_err(|_| Unplaced::NoMemory)?;
    }
    place(alloc, &sets, 819)
}

fn main(rt: HostRuntime) {
    let alloc = rt.alloc();
    allocate(&rt, rt.reader().read(&mut [0; 256]).unwrap_or(0), "in vain");
    let equal = || Positions::of(0, 1, 2);
    tell(&rt, place(alloc, &[equal(), equal(), equal(), equal()], 3));
    tell(&rt, place(alloc, &[Positions::of(0, 1, 1), Positions::of(0, 0, 0)], 3));
    tell(&rt, place_items(alloc, ITEMS));
    tell(&rt, place_items(alloc, MORE_ITEMS));
    allocate(&rt, 1, "end");
}
""".replace("MORE_ITEMS", str(MORE_ITEMS)).replace("ITEMS", str(ITEMS))


def ways_of_build(_):
    """What is told without a refusal, and what may be told with one, with its name."""
    put, refused, block = " put Added at 0;", " build NoMemory;", " block 0 of 2 by 8192;"
    built = " build row 0 bundle 0 stamp 1 at 1 now None, All Some(1);"
    return put + built, {
        " open NoMemory;": "without a book",
        " put NoMemory;" + put + built: "put again",
        put + refused + " bare;" + built: "built again and installed",
        put + refused + block + " bare;" + built: "built again in the block of the shelf and installed",
        put + refused + " cached; build All Some(1);": "refused behind the install",
    }


def ways_of_place(text):
    """The same, for which the crowd is taken from what is told, if it is one."""
    sets = [positions(tag_of(n.to_bytes(4, "big"))) for n in range(MORE_ITEMS)]
    told = re.search(r" crowded \[([\d, ]+)\];$", text)
    crowd = [int(n) for n in told[1].split(",")] if told else []
    is_crowd = crowd == sorted(set(crowd) & set(range(MORE_ITEMS))) and len({p for n in crowd for p in sets[n]}) < len(crowd)
    placed = f" placed {first_placement(sets[:ITEMS])};"
    answers = [" crowded [0, 1, 2, 3];", " placed [1, 0];", placed, told[0] if is_crowd else " a crowd;"]
    names = ["four sets", "two sets", f"{ITEMS} items", f"{MORE_ITEMS} items"]
    return "".join(answers), {"".join(answers[:i] + [" NoMemory;"] + answers[i + 1:]): f"NoMemory for {names[i]}" for i in range(4)}


PROGRAMS = {"build": (BUILD, ways_of_build), "place": (PLACE, ways_of_place)}


def run(source):
    """How each run ends and what it tells, by the allocation that is refused, and how `rt` itself ends."""
    write_crate(CRATE.name, LIBRARIES, {"src/main.rt": source})
    with tempfile.TemporaryDirectory() as folder:
        for n in range(1, LIMIT + 1):
            pathlib.Path(folder, str(n)).write_bytes(bytes(LIMIT - n))
        words = ["rt", "try", "--fail-alloc", str(LIMIT), "--seconds", "20", "--cases", folder]
        ran = subprocess.run(words, cwd=CRATE, capture_output=True, text=True)
    if "case=" not in ran.stderr:
        sys.exit(ran.stderr)
    ends = dict(re.findall(r"^case=(\d+) (run=\S+(?: status=\S+)?)", ran.stderr, re.M))
    texts = dict(re.findall(r"^== (\d+)\n(.*)$", ran.stdout, re.M))
    return {n: (ends.get(str(n), "no end"), texts.get(str(n), "")) for n in range(1, LIMIT + 1)}, ran


def findings(name):
    """What is wrong with the runs of a program; and tells it."""
    source, ways_of = PROGRAMS[name]
    runs, ran = run(source)
    whole, ways = ways_of(runs[LIMIT][1])
    good = "run=ended status=0"
    last = next((n for n in runs if runs[n] == (good, whole + " end NoMemory;")), LIMIT)
    found, came = [], collections.Counter()
    for n, (end, text) in runs.items():
        way = "as without a refusal" if text == whole else ways.get(text)
        if end != good or n < last and not way or n > last and text != whole:
            found.append(f"allocation {n}: {end}:{text}")
        elif n < last:
            came[way] += 1
    if last == LIMIT:
        found.append(f"the allocations do not end below {LIMIT}")
    found += [f"no run ends: {way}" for way in ways.values() if not came[way]]
    if ran.returncode:
        found.append(f"rt try: status {ran.returncode}\n{ran.stderr[-1000:]}")
    print("".join(f"{name}, {text}\n" for text in found), end="")
    print(f"{name}: {last - 1} allocations refused in turn: " + ", ".join(f"{count} {way}" for way, count in came.items()))
    return found


def main(*names):
    return 1 if any([findings(name) for name in names or PROGRAMS]) else 0


if __name__ == "__main__":
    sys.exit(main(*sys.argv[1:]))
