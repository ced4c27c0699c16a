#!/usr/bin/env python3
"""Feeds the program hostile bytes: random ones, and valid inputs that were cut, spliced, or had bits or length words changed.

For each input it reads the frames on its own, and so knows the status (0, or 4 where a frame is bad or cut) and how many replies
have to be written before it. It also looks at the program's time and at the greatest memory of all runs. Nothing is written.

Usage: hostile_bytes.py PROGRAM [INPUTS [SEED]]
"""
import concurrent.futures
import os
import random
import resource
import subprocess
import sys
import time

from definitions import ZERO_QUERY, frame, spelled

GREATEST = 196608015
WORDS = ["serve", "1", "1", "0", "1", "0"]
BATCH = 250
SECONDS = 10
KIBIBYTES = 1 << 21


def valid_input(source):
    """Some requests, and now and then a Go frame or a query."""
    out = b""
    for number in range(source.randrange(1, 12)):
        item = source.randbytes(source.choice([0, 1, 3, 12, 255]))
        session = source.randrange(4)
        kind = source.random()
        if kind < 0.4:
            out += frame(1, session, number, spelled(item))
        elif kind < 0.6:
            out += frame(2, session, number, spelled(item))
        elif kind < 0.7:
            out += frame(4, session, number, bytes([source.randrange(3)]))
        elif kind < 0.85:
            out += frame(5, 0, 0, b"")
        elif kind < 0.9:
            out += frame(3, session, number, ZERO_QUERY)
        else:
            out += frame(source.randrange(1, 5), session, number, source.randbytes(source.randrange(30)))
    return out


def flipped(source, data):
    data = bytearray(data)
    for _ in range(source.randrange(1, 4)):
        at = source.randrange(min(len(data), 200))
        data[at] ^= 1 << source.randrange(8)
    return bytes(data)


def spliced(source, data):
    other = valid_input(source)
    return data[:source.randrange(len(data) + 1)] + other[source.randrange(len(other) + 1):]


def with_length(source, data):
    word = source.choice([0, 6, 7, 8, GREATEST, GREATEST + 1, 2**32 - 1, source.randrange(2**32)])
    return word.to_bytes(4, "big") + data[4:]


def hostile_input(source):
    data = valid_input(source)
    ways = [
        lambda: source.randbytes(source.randrange(64)),
        lambda: data[:source.randrange(len(data) + 1)],
        lambda: flipped(source, data),
        lambda: spliced(source, data),
        lambda: with_length(source, data),
        lambda: data,
    ]
    return source.choice(ways)()


def expected(data):
    """The status, and the number of replies."""
    at = replies = 0
    while at < len(data):
        if len(data) - at < 4:
            return 4, replies
        size = int.from_bytes(data[at:at + 4], "big")
        if not 7 <= size <= GREATEST or len(data) - at < 5:
            return 4, replies
        kind = data[at + 4]
        if not 1 <= kind <= 5 or kind == 5 and size != 7 or len(data) - at < 4 + size:
            return 4, replies
        replies += kind != 5
        at += 4 + size
    return 0, replies


def count_replies(text):
    """The number of whole reply frames, or None."""
    at = count = 0
    while at < len(text):
        size = int.from_bytes(text[at:at + 4], "big")
        if len(text) - at < 4 + size or not 129 <= text[at + 4] <= 137:
            return None
        at, count = at + 4 + size, count + 1
    return count


def batch(program, seed):
    """Runs some inputs; the findings."""
    source, found = random.Random(seed), []
    for number in range(BATCH):
        data = hostile_input(source)
        began = time.monotonic()
        try:
            ran = subprocess.run([program] + WORDS, input=data, capture_output=True, timeout=SECONDS)
        except subprocess.TimeoutExpired:
            found.append(f"batch {seed}, input {number}: not ended after {SECONDS} seconds")
            continue
        status, replies = expected(data)
        if ran.returncode != status or count_replies(ran.stdout) != replies:
            found.append(f"batch {seed}, input {number}: status {ran.returncode}, {count_replies(ran.stdout)} replies; wanted {status}, {replies}")
        if time.monotonic() - began > SECONDS / 2:
            found.append(f"batch {seed}, input {number}: {time.monotonic() - began:.1f} seconds")
    return found, resource.getrusage(resource.RUSAGE_CHILDREN).ru_maxrss


def main(program, inputs=100000, seed=1):
    began = time.monotonic()
    batches = -(-inputs // BATCH)
    failed, most = 0, 0
    with concurrent.futures.ProcessPoolExecutor(os.cpu_count()) as pool:
        for found, memory in pool.map(batch, [program] * batches, range(seed * 10**6, seed * 10**6 + batches)):
            failed, most = failed + len(found), max(most, memory)
            for line in found:
                print(line)
    if most > KIBIBYTES:
        failed += 1
        print(f"a run took {most} KiB")
    print(f"{batches * BATCH} inputs in {time.monotonic() - began:.0f} seconds, at most {most} KiB: {failed} findings")
    return 1 if failed else 0


if __name__ == "__main__":
    sys.exit(main(sys.argv[1], *map(int, sys.argv[2:])))
