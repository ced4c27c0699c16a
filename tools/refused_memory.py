#!/usr/bin/env python3
"""Runs the program with one allocation refused: the first, then the second, and so on, until none is refused any more.

A small library that is loaded before the C library (compiled here, by the C compiler `cc`) counts the calls of malloc and its kin
over all threads and refuses the one whose number it is told. Each run has to end with status 7, or exactly as without the refusal.
With status 7 what was written has to be the replies of the rounds before, whole. Where a program takes more than so many
allocations (LIMIT), the later ones are refused in steps.

Usage: refused_memory.py PROGRAM [LIMIT]
"""
import concurrent.futures
import os
import subprocess
import sys
import tempfile

from definitions import GO_FRAME as GO, ZERO_QUERY, frame, frames_of

SHIM = r"""
#include <errno.h>
#include <fcntl.h>
#include <stdatomic.h>
#include <stddef.h>
#include <stdlib.h>
#include <sys/mman.h>
#include <unistd.h>
extern void *__libc_malloc(size_t), *__libc_calloc(size_t, size_t), *__libc_realloc(void *, size_t), *__libc_memalign(size_t, size_t);
/* the count lies in a file that is mapped, since a program may end without a word to its libraries */
static atomic_long early, *count = &early;
static long refused = -1;
__attribute__((constructor)) static void begin(void) {
    const char *path = getenv("COUNT_OF_ALLOCATIONS"), *at = getenv("REFUSED_ALLOCATION");
    int f = path ? open(path, O_RDWR) : -1;
    void *map = f < 0 ? MAP_FAILED : mmap(0, sizeof *count, PROT_READ | PROT_WRITE, MAP_SHARED, f, 0);
    if (map == MAP_FAILED) _exit(99);
    close(f);
    count = map;
    if (at) refused = strtol(at, 0, 10);
}
static int is_refused(void) {
    if (atomic_fetch_add(count, 1) + 1 != refused) return 0;
    errno = ENOMEM;
    return 1;
}
void *malloc(size_t n) { return is_refused() ? 0 : __libc_malloc(n); }
void *calloc(size_t n, size_t m) { return is_refused() ? 0 : __libc_calloc(n, m); }
void *realloc(void *p, size_t n) { return is_refused() ? 0 : __libc_realloc(p, n); }
void *memalign(size_t a, size_t n) { return is_refused() ? 0 : __libc_memalign(a, n); }
void *aligned_alloc(size_t a, size_t n) { return is_refused() ? 0 : __libc_memalign(a, n); }
int posix_memalign(void **p, size_t a, size_t n) {
    if (is_refused()) return ENOMEM;
    *p = __libc_memalign(a, n);
    return *p ? 0 : ENOMEM;
}
"""

NO_MEMORY = 7
SECONDS = 60
ABC = b"\x03abc"

# three rounds of one Put
THREE_ROUNDS = b"".join(frame(1, 1, number, ABC) + GO for number in (1, 2, 3))
# a Put, a Drop and the zero query in one round
PUT_DROP_ASK = frame(1, 1, 1, ABC) + frame(2, 1, 2, ABC) + frame(3, 1, 3, ZERO_QUERY)
# Puts, a query and a Repack of two sessions, on several workers
MIXED = frame(1, 1, 1, ABC) + frame(1, 2, 1, b"\x03xyz") + frame(3, 2, 2, ZERO_QUERY) + frame(4, 1, 2, b"\0") + GO + frame(3, 1, 3, ZERO_QUERY)
# more items than one row has bins
CROWDED = b"".join(b"line %d\n" % number for number in range(820))

# the name, the words, the input, and whether each run without a refusal writes the same
PROGRAMS = [
    ("three rounds", ["serve", "1", "1", "0", "1", "0"], THREE_ROUNDS, True),
    ("put, drop and ask", ["serve", "1", "1", "0", "1", "0"], PUT_DROP_ASK, True),
    ("a builder beside one worker", ["serve", "1", "1", "0", "1", "1"], PUT_DROP_ASK + GO + PUT_DROP_ASK, True),
    ("four workers and two builders", ["serve", "1", "1", "0", "4", "2"], MIXED, False),
    ("replay", ["replay", "1", "1", "0"], MIXED, True),
    ("a crowded list", ["ask", "1", "1", "0", "0" * 64, "1", "1"], CROWDED, True),
    ("the demonstration", ["demo", "7", "4"], b"", True),
]


def rounds_sizes(data):
    """The numbers of replies behind none, one, two and all rounds of an input."""
    frames, _ = frames_of(data)
    sizes, replies = [0], 0
    for one in frames:
        if one[4] == 5:
            sizes.append(replies)
        else:
            replies += 1
    return set(sizes + [replies])


class Runs:
    def __init__(self, program, shim, folder):
        self.program, self.shim, self.folder = program, shim, folder

    def run(self, words, data, refused):
        path = os.path.join(self.folder, f"count-{refused}")
        with open(path, "wb") as file:
            file.write(bytes(8))
        env = dict(os.environ, LD_PRELOAD=self.shim, REFUSED_ALLOCATION=str(refused), COUNT_OF_ALLOCATIONS=path)
        ran = subprocess.run([self.program] + words, input=data, capture_output=True, env=env, timeout=SECONDS)
        with open(path, "rb") as file:
            count = int.from_bytes(file.read(), sys.byteorder)
        os.remove(path)
        return ran.returncode, ran.stdout, count

    def finding(self, words, data, same, want, refused):
        """What is wrong with the run in which this allocation is refused, or None; and whether it was refused at all."""
        try:
            status, text, count = self.run(words, data, refused)
        except subprocess.TimeoutExpired:
            return "it does not end", True
        reached = refused <= count
        if status == want[0]:
            if same and text != want[1]:
                return "another text with the status of a run without the refusal", reached
            return None, reached
        if status != NO_MEMORY:
            return f"status {status}", reached
        if words[0] not in ("serve", "replay"):
            return (None if text == b"" else "a text with status 7"), reached
        frames, whole = frames_of(text)
        if not whole or len(frames) not in rounds_sizes(data):
            return f"{len(frames)} replies with status 7", reached
        if same and not want[1].startswith(text):
            return "with status 7 another text", reached
        return None, reached


def numbers(limit, all_of):
    """The allocations to refuse: each up to the limit, then in steps, and one behind the last."""
    step = max(1, (all_of - limit) // limit)
    return list(range(1, min(limit, all_of) + 1)) + list(range(limit + 1, all_of + 1, step)) + [all_of + 1]


def try_program(runs, name, words, data, same, limit):
    status, text, count = runs.run(words, data, 0)
    if status == 2:
        print(f"{name}: no such command, passed over")
        return 0
    failed = refusals = 0
    with concurrent.futures.ThreadPoolExecutor(os.cpu_count()) as pool:
        tried = numbers(limit, count)
        for number, (found, reached) in zip(tried, pool.map(lambda n: runs.finding(words, data, same, (status, text), n), tried)):
            refusals += reached
            if found:
                failed += 1
                print(f"{name}, allocation {number}: {found}")
    print(f"{name}: status {status}, {count} allocations, {refusals} refused: {failed} findings")
    return failed


def main(program, limit="2000"):
    with tempfile.TemporaryDirectory() as folder:
        source, shim = os.path.join(folder, "refuse.c"), os.path.join(folder, "refuse.so")
        with open(source, "w") as file:
            file.write(SHIM)
        subprocess.run(["cc", "-O1", "-shared", "-fPIC", "-fno-builtin", "-o", shim, source], check=True)
        runs = Runs(os.path.abspath(program), shim, folder)
        failed = sum(try_program(runs, *one, int(limit)) for one in PROGRAMS)
    return 1 if failed else 0


if __name__ == "__main__":
    sys.exit(main(*sys.argv[1:]))
