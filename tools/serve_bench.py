#!/usr/bin/env python3
"""Times the program from bytes to bytes: a stream of Puts, and rounds of eight warm Asks on one worker and on several.

No part of the gate. Each time is the least of some. That of Puts is a whole run of the program; that of Asks is from the end of one
round's replies to that of the next, as the system tells the bytes that the program has written, behind Puts (SET items) and rounds in
which four builders made all caches. A query is of random residues, so nothing is opened.

Usage: serve_bench.py PROGRAM [WORKERS]
"""
import pathlib
import random
import subprocess
import sys
import tempfile
import time

from definitions import GO_FRAME as GO, N, Params, Q1, Q2, frame, residue_bytes, spelled

PUTS = 20000
CAPACITY = 16
ASKS = 8
ROUNDS = 10
TRIES = 5
SET = 40000


def put(number, label=b""):
    item = number.to_bytes(8, "big")
    return frame(1, 1 + number % 4, number, spelled(item) + label)


def query(seed, capacity, units):
    """The body of a query for one row."""
    source = random.Random(seed)
    residues = [source.randrange(q) for _ in range(capacity) for q in (Q1, Q2, Q1, Q2) for _ in range(N)]
    return Params(1, capacity, units).bytes() + residue_bytes(residues)


def timed(program, words, data):
    """The least time of some runs from a file to nowhere, in seconds."""
    least = None
    with tempfile.TemporaryFile() as file:
        file.write(data)
        for _ in range(TRIES):
            file.seek(0)
            began = time.perf_counter()
            subprocess.run([program] + words, stdin=file, stdout=subprocess.DEVNULL, check=True)
            took = time.perf_counter() - began
            least = took if least is None else min(least, took)
    return least


def stream_of_puts(program):
    empty = timed(program, ["serve", "1", str(CAPACITY), "0", "1", "0"], b"")
    took = timed(program, ["serve", "1", str(CAPACITY), "0", "1", "0"], b"".join(put(n) for n in range(PUTS)))
    print(f"{PUTS} puts at capacity {CAPACITY}: {(took - empty) / PUTS * 1e9:.0f} ns each")


def written(program, words, data):
    """The number of bytes that a run writes."""
    return len(subprocess.run([program] + words, input=data, stdout=subprocess.PIPE, check=True).stdout)


def times_of_writing(program, words, data):
    """When a run has written how many bytes, as far as the system tells it while the run goes on."""
    told = []
    with tempfile.TemporaryFile() as file:
        file.write(data)
        file.seek(0)
        with subprocess.Popen([program] + words, stdin=file, stdout=subprocess.DEVNULL) as run:
            while run.poll() is None:
                try:
                    count = int(pathlib.Path(f"/proc/{run.pid}/io").read_text().split("wchar:")[1].split()[0])
                except (OSError, IndexError):
                    continue
                if not told or told[-1][1] != count:
                    told.append((time.perf_counter(), count))
                time.sleep(0.0005)
    return told


def warm_asks(program, workers):
    """The least time of one round of Asks, with so many workers: from the end of one round's replies to that of the next."""
    puts = b"".join(put(n, n.to_bytes(10, "big")) for n in range(SET)) + GO
    warming = b"".join(put(n, n.to_bytes(10, "big")) + GO for n in range(SET, SET + 20))
    body = query(1, CAPACITY, 1)
    asks = b"".join(b"".join(frame(3, 1 + n, n, body) for n in range(ASKS)) + GO for _ in range(ROUNDS))
    words = ["serve", "1", str(CAPACITY), "1", str(workers), "4"]
    before = written(program, words, puts + warming)
    size = (written(program, words, puts + warming + asks) - before) // ROUNDS
    least = None
    for _ in range(TRIES):
        told = times_of_writing(program, words, puts + warming + asks)
        ends = [next((at for at, count in told if count >= before + k * size), None) for k in range(1, ROUNDS)]
        spans = [b - a for a, b in zip(ends, ends[1:]) if a and b]
        least = min(spans + ([least] if least else []))
    print(f"a round of {ASKS} asks of {SET} items on {workers} workers: {least * 1e3:.2f} ms")
    return least


def main(program, workers="4"):
    stream_of_puts(program)
    one, many = warm_asks(program, 1), warm_asks(program, int(workers))
    print(f"{workers} workers are {one / many:.2f} times as fast as one")


if __name__ == "__main__":
    main(*sys.argv[1:])
