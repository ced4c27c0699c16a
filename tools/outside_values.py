#!/usr/bin/env python3
"""Computes, from the definitions and not from the program, what the program's commands write, and compares.

Nothing here is taken from the program: tags, frames and polynomials are those of definitions.py, and the block function is that of RFC
8439 as outside_sampler.py has it.
Usage:
  outside_values.py PROGRAM   runs the program on several inputs and compares all its output
  outside_values.py --write FOLDER   writes the stored run's stdin and stdout into a folder
"""
import random
import subprocess
import sys
import tempfile

from definitions import (
    ABSENT, ADDED, ANSWER, BINS, CIPHERTEXT, DELTA, FULL, N, Q, Q1, Q2, REFUSED, REMOVED, REPACKED, REPLACED, REST, T,
    ZERO_QUERY, Params, frame, packed, padded, positions, product, residue_bytes, roots_polynomial, slot_values, spelled,
    tag_of, through, unpacked,
)
from outside_sampler import block

SEED = bytes(32)


# ---- requests and words

def serve(p, workers=1, builders=0):
    return ["serve"] + p.words() + [str(workers), str(builders)]


# Requests: a kind, a session, a number and what the kind takes.
def put(session, number, item, label=b""):
    return ("put", session, number, (item, label))


def drop(session, number, item):
    return ("drop", session, number, item)


def ask(session, number, query):
    return ("ask", session, number, query)


def repack(session, number, row):
    return ("repack", session, number, row)


GO = ("go", 0, 0, None)


def request_frame(request):
    kind, session, number, value = request
    if kind == "put":
        return frame(1, session, number, spelled(value[0]) + value[1])
    if kind == "drop":
        return frame(2, session, number, spelled(value))
    if kind == "ask":
        return frame(3, session, number, value)
    if kind == "repack":
        return frame(4, session, number, bytes([value]))
    return frame(5, session, number, b"")


def request_bytes(requests):
    return b"".join(map(request_frame, requests))


def plane(bins, p, number):
    """P_0 to P_capacity of one plane of a bundle: its root plane, or that of a label unit."""
    slots = []
    for members in bins:
        for j in range(5):
            if number == 0:
                slots.append(roots_polynomial([slot_values(tag)[j] for tag, _ in members]))
            else:
                at = 2 * (5 * (number - 1) + j)
                slots.append(through([(slot_values(tag)[j], int.from_bytes(label[at:at + 2], "big")) for tag, label in members]))
    slots = [padded(slot, p.capacity) for slot in slots + [[1]]]
    return [packed([slot[k] for slot in slots]) for k in range(p.capacity + 1)]


# ---- the set

class Set:
    """The one-thread sender's set: labels by tag, and for each row bundles, each a stamp and 819 bins of members."""

    def __init__(self, p):
        self.p, self.labels, self.rows = p, {}, [[] for _ in range(p.rows)]

    def accepts(self, bins, bin_, tag):
        members = bins[bin_]
        return len(members) < self.p.capacity and not any(a == b for m, _ in members for a, b in zip(slot_values(m), slot_values(tag)))

    def fit(self, row, bin_, member, stamp):
        """First fit into a row's bundles, which are changed."""
        found = next((b for b in row if self.accepts(b[1], bin_, member[0])), None)
        if found is None:
            found = [0, [[] for _ in range(BINS)]]
            row.append(found)
        found[1][bin_].append(member)
        found[0] = stamp

    def size(self, rows):
        bundles = sum(map(len, rows))
        return bundles * (1 + self.p.units), bundles * (1 + self.p.units) * (self.p.capacity + 1)

    def put(self, place, tag, label):
        if tag in self.labels:
            for bundle in (b for row in self.rows for b in row):
                for members in bundle[1]:
                    for i, (t, _) in enumerate(members):
                        if t == tag:
                            members[i] = (tag, label)
                            bundle[0] = place + 1
            self.labels[tag] = label
            return REPLACED, b""
        rows = [[[stamp, [list(members) for members in bins]] for stamp, bins in row] for row in self.rows]
        for position in positions(tag, self.p.rows):
            self.fit(rows[position // BINS], position % BINS, (tag, label), place + 1)
        planes, cells = self.size(rows)
        if planes > 64 or cells > 4096:
            return FULL, planes.to_bytes(4, "big") + cells.to_bytes(4, "big")
        self.rows, self.labels[tag] = rows, label
        return ADDED, b""

    def drop(self, place, tag):
        if tag not in self.labels:
            return ABSENT, b""
        del self.labels[tag]
        for bundle in (b for row in self.rows for b in row):
            if any(t == tag for members in bundle[1] for t, _ in members):
                bundle[0] = place + 1
                bundle[1] = [[m for m in members if m[0] != tag] for members in bundle[1]]
        return REMOVED, b""

    def ask(self, query):
        p = self.p
        body = p.bytes() + b"".join(len(row).to_bytes(2, "big") for row in self.rows)
        for r, row in enumerate(self.rows):
            for _, bins in row:
                for number in range(1 + p.units):
                    ps = plane(bins, p, number)
                    for index, (of_c0, m) in enumerate([(True, Q1), (True, Q2), (False, Q1), (False, Q2)]):
                        out = [DELTA * c % m for c in ps[0]] if of_c0 else [0] * N
                        for k in range(p.capacity):
                            start = 8 + CIPHERTEXT * (r * p.capacity + k) + 20480 * index
                            c = [int.from_bytes(query[start + 5 * i:start + 5 * i + 5], "big") for i in range(N)]
                            if any(c):
                                out = [(o + q) % m for o, q in zip(out, product(ps[k + 1], c, m))]
                        body += residue_bytes(out)
        return ANSWER, body

    def repack(self, place, number):
        row = self.rows[number]
        before, out = len(row), []
        for _, bins in row:
            for bin_, members in enumerate(bins):
                for member in members:
                    self.fit(out, bin_, member, place + 1)
        self.rows[number] = out
        return REPACKED, place.to_bytes(8, "big") + before.to_bytes(2, "big") + len(out).to_bytes(2, "big")


# ---- the one-thread sender

def query_code(p, body):
    count = p.rows * p.capacity
    if len(body) != 8 + CIPHERTEXT * count:
        return 1
    if body[:8] != p.bytes():
        return 3
    for i in range(4 * N * count):
        at = 8 + 5 * i
        if body[at:at + 5] != bytes(5) and int.from_bytes(body[at:at + 5], "big") >= (Q1, Q2)[i // N % 2]:
            return 2
    return None


def code_of(p, request):
    kind, _, _, value = request
    if kind == "put":
        return None if len(value[1]) == 10 * p.units else 4
    if kind == "ask":
        return query_code(p, value)
    if kind == "repack":
        return None if value < p.rows else 5
    return None


def rounds_of(requests):
    out, held = [], []
    for request in requests:
        held.append(request)
        if request[0] == "go" or len(held) == 4096:
            out.append(held)
            held = []
    return out + [held] if held else out


def expected(p, requests):
    """The replies of a sender that takes one request after another, round by round."""
    held, out, place = Set(p), b"", 0
    for round_ in rounds_of(requests):
        asks = 0
        for request in round_:
            kind, session, number, value = request
            if kind == "go":
                continue
            code = code_of(p, request)
            if kind == "ask":
                code = 6 if code is None and asks >= 32 else code
                asks += 1
            if code is not None:
                out += frame(REFUSED, session, number, bytes([code]))
                continue
            if kind == "put":
                reply, more = held.put(place, tag_of(value[0]), value[1])
            elif kind == "drop":
                reply, more = held.drop(place, tag_of(value))
            elif kind == "ask":
                reply, more = held.ask(value)
            else:
                reply, more = held.repack(place, value)
            out += frame(reply, session, number, place.to_bytes(8, "big") + more)
            place += 1
    return out


# ---- the receiver

def stream(seed, number, words):
    nonce = bytes(4) + number.to_bytes(8, "little")
    text = b"".join(block(seed, counter, nonce) for counter in range((words + 15) // 16))
    return [int.from_bytes(text[4 * i:4 * i + 4], "little") for i in range(words)]


def secret(seed):
    return [w % 3 - 1 for w in stream(seed, 0, N)]


def ones(w):
    return bin(w & (2**21 - 1)).count("1")


def encrypted(seed, key, c, plain):
    w, v = stream(seed, 1 + 2 * c, 4 * N), stream(seed, 2 + 2 * c, 2 * N)
    error = [ones(v[2 * i]) - ones(v[2 * i + 1]) for i in range(N)]
    first, second = [], []
    for m, at in ((Q1, 0), (Q2, 2)):
        mask = [(w[4 * i + at] + 2**32 * w[4 * i + at + 1]) % m for i in range(N)]
        masked = product(mask, [s % m for s in key], m)
        first.append([(e + DELTA * a - x) % m for e, a, x in zip(error, plain, masked)])
        second.append(mask)
    return residue_bytes(first[0] + first[1] + second[0] + second[1])


def opening(key, body):
    lists = [[int.from_bytes(body[20480 * k + 5 * i:20480 * k + 5 * i + 5], "big") for i in range(N)] for k in range(4)]
    x1 = [(a + b) % Q1 for a, b in zip(lists[0], product(lists[2], [s % Q1 for s in key], Q1))]
    x2 = [(a + b) % Q2 for a, b in zip(lists[1], product(lists[3], [s % Q2 for s in key], Q2))]
    inverse = pow(Q1, -1, Q2)
    xs = [a + Q1 * ((b - a) * inverse % Q2) for a, b in zip(x1, x2)]
    return [(2 * T * x + Q) // (2 * Q) % T for x in xs]


def can_place(sets, taken):
    """Whether the sets have a placement that leaves out the taken positions."""
    owner = {}

    def place(i, seen):
        for position in sets[i]:
            if position in taken or position in seen:
                continue
            seen.add(position)
            if position not in owner or place(owner[position], seen):
                owner[position] = i
                return True
        return False

    return all(place(i, set()) for i in range(len(sets)))


def first_placement(sets):
    out = []
    for i, own in enumerate(sets):
        out.append(next(q for q in own if q not in out and can_place(sets[i + 1:], set(out) | {q})))
    return out


def query_of(p, seed, items):
    tags = [tag_of(item) for item in items]
    places = first_placement([positions(tag, p.rows) for tag in tags])
    key, body = secret(seed), p.bytes()
    for row in range(p.rows):
        values = [65536] * N
        for tag, position in zip(tags, places):
            if position // BINS == row:
                for j, v in enumerate(slot_values(tag)):
                    values[5 * (position % BINS) + j] = v
        for k in range(1, p.capacity + 1):
            body += encrypted(seed, key, row * p.capacity + k - 1, packed([pow(v, k, T) for v in values]))
    return body


def found_lines(p, seed, items, body):
    tags = [tag_of(item) for item in items]
    places = first_placement([positions(tag, p.rows) for tag in tags])
    counts = [int.from_bytes(body[8 + 2 * r:10 + 2 * r], "big") for r in range(p.rows)]
    rest, key, planes = body[8 + 2 * p.rows:], secret(seed), {}

    def slots(number):
        if number not in planes:
            planes[number] = unpacked(opening(key, rest[CIPHERTEXT * number:CIPHERTEXT * (number + 1)]))
        return planes[number]

    text = b""
    for item, position in zip(items, places):
        row, bin_ = divmod(position, BINS)
        for u in range(counts[row]):
            first = (sum(counts[:row]) + u) * (1 + p.units)
            if any(slots(first)[5 * bin_:5 * bin_ + 5]):
                continue
            label = b"".join((slots(first + 1 + unit)[5 * bin_ + j] % 65536).to_bytes(2, "big") for unit in range(p.units) for j in range(5))
            text += b"%s %d %s\n" % (shown(item), u, shown(label))
    return text


def shown(data):
    return data.hex().encode() or b"-"


# ---- what `params` and `help` write

def ledger(capacity):
    carry = (capacity * 2**44 + 65536) // T + 1
    noise = REST * carry + 21 * capacity * 2**28
    return carry, noise, 2 * (T * noise + REST * 65536)


def params_text(p):
    carry, noise, used = ledger(p.capacity)
    count = p.rows * p.capacity
    rows = [("ciphertexts", count), ("query", 8 + CIPHERTEXT * count), ("carry", carry), ("noise", noise), ("used", used), ("modulus", Q)]
    return "".join(f"{name} {value}\n" for name, value in rows).encode()


HELP = b"""serve ROWS CAPACITY UNITS WORKERS BUILDERS
replay ROWS CAPACITY UNITS
params ROWS CAPACITY UNITS
ask ROWS CAPACITY UNITS SEED SESSION NUMBER
open ROWS CAPACITY UNITS SEED FILE
demo NUMBER WORKERS
help
"""


# ---- the inputs

ONE = Params()
STORED = [put(1, 1, b"abc"), ask(1, 2, ZERO_QUERY)]


def random_query(seed, p=ONE):
    source = random.Random(seed)
    return p.bytes() + b"".join(residue_bytes([source.randrange(m) for _ in range(N)]) for m in (Q1, Q2, Q1, Q2) * (p.rows * p.capacity))


def collide(a, b):
    return bool(set(positions(tag_of(a))) & set(positions(tag_of(b))))


def at_position(position, count):
    """Items that have this position."""
    items, i = [], 0
    while len(items) < count:
        item = b"at-%d" % i
        if position in positions(tag_of(item)):
            items.append(item)
        i += 1
    return items


def served_inputs():
    """Whole inputs, by their parameters: all are answered."""
    far = [b"item-%d" % i for i in range(400)]
    apart = [b"abc"]
    for item in far:
        if len(apart) < 40 and not any(collide(item, other) for other in apart):
            apart.append(item)
    near = [item for item in far if collide(item, b"abc") and item not in apart][:2]
    greatest = ONE.bytes() + b"".join(residue_bytes([m - 1] * N) for m in (Q1, Q2, Q1, Q2))
    high = bytearray(ZERO_QUERY)
    high[8:13] = Q1.to_bytes(5, "big")
    full = at_position(300, 65)
    four, nine, labelled, rows = Params(1, 4), Params(1, 9), Params(1, 2, 1), Params(2, 3, 2)
    label = [bytes([i]) * 10 for i in range(9)]
    wide = [item + bytes([i]) for i, item in enumerate(far[:12])]
    return {
        "nothing": (ONE, []),
        "the stored run": (ONE, STORED),
        "an ask of no bundle": (ONE, [ask(1, 1, ZERO_QUERY)]),
        "a random query": (ONE, [put(1, 1, b"abc"), ask(2, 1, random_query(1))]),
        "the greatest residues": (ONE, [put(9, 7, b""), ask(9, 8, greatest)]),
        "many puts and two asks": (ONE, [put(i % 3, i, item) for i, item in enumerate(apart)] + [ask(65535, 2**32 - 1, random_query(2)), put(1, 5, b"abc"), ask(1, 6, random_query(3))]),
        "a put, a drop and an ask": (ONE, [put(1, 1, b"abc"), drop(1, 2, b"abc"), ask(1, 3, ZERO_QUERY)]),
        "a drop of an absent item": (ONE, [drop(1, 1, b"abc"), put(1, 2, b"abc"), drop(1, 3, b"abc"), drop(1, 4, b"abc")]),
        "several bundles": (ONE, [put(1, i, item) for i, item in enumerate([b"abc"] + near)] + [ask(1, 5, random_query(4)), drop(1, 6, near[0]), ask(1, 7, random_query(5))]),
        "64 bundles, and one too many": (ONE, [put(1, i, item) for i, item in enumerate(full)] + [put(1, 99, full[64]), drop(1, 100, full[3]), put(1, 101, full[64])]),
        "a capacity of 4": (four, [put(1, i, item) for i, item in enumerate([b"abc"] + near + far[:30])] + [ask(1, 50, random_query(6, four)), drop(2, 51, near[1]), ask(1, 52, random_query(7, four))]),
        "a capacity of 9": (nine, [put(1, i, item) for i, item in enumerate(full[:12])] + [ask(1, 50, random_query(8, nine))]),
        "a label replaced": (labelled, [put(1, 1, b"abc", label[1]), put(1, 2, b"abc", label[2]), ask(1, 3, random_query(9, labelled))]),
        "two rows and two units": (rows, [put(1, i, item, label[i % 9] + label[(i + 1) % 9]) for i, item in enumerate(wide)] + [ask(1, 50, random_query(10, rows))]),
        "33 asks in a round, and one behind": (ONE, [ask(1, i, ZERO_QUERY) for i in range(33)] + [GO, ask(1, 33, ZERO_QUERY)]),
        "each code": (ONE, [ask(1, 1, bytes(high)), ask(1, 2, ZERO_QUERY[:-1]), ask(1, 3, Params(1, 2).bytes() + ZERO_QUERY[8:]), put(1, 4, b"abc", b"d"), repack(1, 5, 1), put(1, 6, b"abc")]),
        "a repack": (ONE, [put(1, 1, b"abc"), repack(1, 2, 0)]),
        "a repack of nothing": (ONE, [repack(1, 2, 0)]),
        "a repack that makes a row shorter": (ONE, [put(1, i, item) for i, item in enumerate(full[:4])] + [drop(1, 5, full[0]), drop(1, 6, full[2]), repack(1, 7, 0), ask(1, 8, random_query(11))]),
        "rounds and empty rounds": (ONE, [GO, put(1, 1, b"abc"), GO, GO, put(2, 1, b"abc"), GO]),
        "4097 frames": (ONE, [put(1, i, b"abc") for i in range(4097)]),
    }


def broken_inputs():
    """Inputs with a bad frame, or cut within one: the frames before it are answered."""
    one = [put(1, i, b"item-%d" % i) for i in range(5)]
    first = request_bytes(one[:2])
    return {
        "a frame cut": (one[:4], request_bytes(one)[:-1]),
        "a kind that is none": (one[:2], first + frame(9, 1, 1, b"")),
        "a kind 0": (one[:2], first + frame(0, 1, 1, b"")),
        "a length word cut": (one[:2], first + bytes(3)),
        "a length below 7": (one[:2], first + bytes.fromhex("00000006010001000000")),
        "a length above the greatest": (one[:2], first + (196608016).to_bytes(4, "big") + bytes(9)),
        "a Go frame with a body": (one[:2], first + frame(5, 0, 0, b"x")),
    }


def item_texts():
    """Texts, and the items that they have."""
    return {
        "no text": (b"", []),
        "one line": (b"abc\n", [b"abc"]),
        "no end": (b"abc", [b"abc"]),
        "a carriage return, and none": (b"abc\r\ndef\r", [b"abc", b"def"]),
        "one carriage return of two": (b"abc\r\r\n", [b"abc\r"]),
        "the empty item": (b"\nabc\n\n", [b"", b"abc"]),
        "repeats": (b"b\na\nb\r\na\nc", [b"b", b"a", b"c"]),
        "a long item": (b"x" * 255 + b"\r\n", [b"x" * 255]),
    }


# ---- runs

LINES = {0: b"", 2: b"psi: words not understood\n", 3: b"psi: parameters refused\n", 4: b"psi: bad input\n", 5: b"psi: read fault\n", 8: b"psi: items crowded\n"}


class Checks:
    def __init__(self, program):
        self.program, self.count, self.failed = program, 0, 0

    def run(self, command, data):
        return subprocess.run([self.program] + command, input=data, capture_output=True)

    def tell(self, name, good, told):
        self.count += 1
        if not good:
            self.failed += 1
            print(f"outside values: {name}: {told}")

    def same(self, name, command, data, status, text):
        run = self.run(command, data)
        good = (run.returncode, run.stdout, run.stderr) == (status, text, LINES[status])
        self.tell(name, good, f"status {run.returncode}, {len(run.stdout)} bytes, wanted {status}, {len(text)} bytes")


def check_serving(checks):
    for name, (p, requests) in served_inputs().items():
        data, text = request_bytes(requests), expected(p, requests)
        checks.same(name, serve(p), data, 0, text)
        checks.same(name + ", replayed", ["replay"] + p.words(), data, 0, text)
    one_session = [put(4, i, b"item-%d" % i) for i in range(9)] + [GO, ask(4, 9, ZERO_QUERY), drop(4, 10, b"item-3")]
    checks.same("one session on four lanes", serve(ONE, 4), request_bytes(one_session), 0, expected(ONE, one_session))
    for name, (requests, data) in broken_inputs().items():
        checks.same(name, serve(ONE), data, 4, expected(ONE, requests))


def check_words(checks):
    seed = SEED.hex()
    others = [[], ["serve", "1", "1", "0"], ["serve", "1", "1", "0", "9", "0"], ["serve", "1", "1", "0", "1", "0", "0"], ["find", "1"], ["serve", "1", "65536", "0", "1", "0"],
              ["serve", "1", "01", "0", "1", "0"], ["serve", "1", "+1", "0", "1", "0"], ["replay", "1", "1", "0", "1"], ["params", "1", "1"], ["ask", "1", "1", "0", seed[1:], "1", "1"],
              ["ask", "1", "1", "0", seed, "65536", "1"], ["open", "1", "1", "0", seed, ""], ["help", "1"], ["counted", "help"], ["form2", "256", "params", "1", "1", "0"]]
    for words in others:
        checks.same("other words", words, b"", 2, b"")
    for capacity in (0, 2245, 2401, 4096, 65535):
        checks.same("a capacity that is refused", serve(Params(1, capacity)), b"", 3, b"")
        checks.same("a capacity that is refused to ask", ["ask"] + Params(1, capacity).words() + [seed, "1", "1"], b"", 3, b"")
    checks.same("no rows", serve(Params(0)), b"", 3, b"")
    checks.same("help", ["help"], b"", 0, HELP)


def check_params(checks):
    for p in (Params(1, 2244), ONE, Params(4, 600), Params(2, 100, 4), Params(4, 203, 4)):
        checks.same("parameters that pass", ["params"] + p.words(), b"", 0, params_text(p))
    refused = [
        (["params", "1", "2245", "0"], "noise 4722747273476240663100"),
        (["params", "1", "2401", "0"], "size 2401 2402"),
        (["params", "4", "204", "4"], "size 816 4100"),
        (["params", "1", "4096", "0"], "range 2"),
        (["params", "5", "4096", "0"], "range 1"),
        (["params", "1", "1", "5"], "range 4"),
        (["form2", "0", "params", "1", "1", "0"], "range 0"),
        (["counted", "params", "1", "1", "1"], "range 6"),
    ]
    for words, why in refused:
        checks.same("parameters that are refused", words, b"", 3, f"refused {why}\n".encode())


def check_asking(checks):
    seed = SEED.hex()
    for name, (text, items) in item_texts().items():
        checks.same("ask: " + name, ["ask"] + ONE.words() + [seed, "7", "4294967295"], text, 0, frame(3, 7, 2**32 - 1, query_of(ONE, SEED, items)))
    p, other = Params(2, 2, 1), bytes(range(160, 192))
    items = [b"item-%d" % i for i in range(40)]
    checks.same("ask: two rows", ["ask"] + p.words() + [other.hex().upper(), "0", "0"], b"\n".join(items), 0, frame(3, 0, 0, query_of(p, other, items)))
    checks.same("ask: an item too long", ["ask"] + ONE.words() + [seed, "1", "1"], b"abc\n" + b"x" * 256, 4, b"")
    checks.same("ask: a text too long", ["ask"] + ONE.words() + [seed, "1", "1"], b"\n" * (2**20 + 1), 4, b"")
    crowd = [b"crowd-%d" % i for i in range(820)]
    run = checks.run(["ask"] + ONE.words() + [seed, "1", "1"], b"\n".join(crowd))
    lines = run.stdout.split(b"\n")
    named = [bytes.fromhex(line[8:].decode()) for line in lines[:-1]]
    numbers = [crowd.index(item) for item in named]
    together = {q for item in named for q in positions(tag_of(item))}
    good = run.returncode == 8 and run.stderr == LINES[8] and all(line.startswith(b"crowded ") for line in lines[:-1]) and lines[-1] == b""
    good = good and numbers == sorted(set(numbers)) and len(together) < len(named)
    checks.tell("ask: 820 items over one row", good, f"status {run.returncode}, {len(lines) - 1} lines")


def check_opening(checks):
    seed, label = SEED.hex(), [bytes([i]) * 10 for i in range(4)]
    p = Params(2, 2, 1)
    items = [b"item-%d" % i for i in range(8)] + [b""]
    requests = [put(1, i, item, label[i % 4]) for i, item in enumerate(items[4:])] + [put(1, 9, b"item-5", label[3]), ask(1, 10, query_of(p, SEED, items))]
    reply = expected(p, requests)[-(4 + 7 + 8 + 8 + 4 + CIPHERTEXT * 2 * 2):]
    # the last reply, whatever the number of bundles
    text = expected(p, requests)
    at = 0
    while at < len(text):
        size = 4 + int.from_bytes(text[at:at + 4], "big")
        reply, at = text[at:at + size], at + size
    asked = b"\n".join(items[:8]) + b"\n\n"
    with tempfile.NamedTemporaryFile() as file:
        def opens(name, data, command, status, text, given=asked):
            file.seek(0)
            file.truncate()
            file.write(data)
            file.flush()
            checks.same("open: " + name, command + [file.name], given, status, text)

        command = ["open"] + p.words() + [seed]
        opens("an answer", reply, command, 0, found_lines(p, SEED, items, reply[19:]))
        opens("no items", reply, command, 0, b"", b"")
        opens("a frame cut", reply[:-1], command, 4, b"")
        opens("a byte behind the frame", reply + b"x", command, 4, b"")
        opens("two frames", reply + reply, command, 4, b"")
        opens("another reply", frame(ADDED, 1, 1, bytes(8)), command, 4, b"")
        opens("no frame", b"", command, 4, b"")
        opens("other parameters", reply, ["open"] + Params(1, 2, 1).words() + [seed], 4, b"")
        opens("a residue too many", reply[:19 + 8 + 4] + bytes.fromhex("ffffffffff") + reply[19 + 8 + 9:], command, 4, b"")
        opens("a file too long", bytes(5242916), command, 4, b"")
        opens("an item too long", b"", command, 4, b"", b"x" * 256)
        crowd = b"\n".join(b"crowd-%d" % i for i in range(1700))
        file.seek(0)
        file.truncate()
        file.write(frame(ANSWER, 1, 1, bytes(8) + b"no body"))
        file.flush()
        run = checks.run(command + [file.name], crowd)
        checks.tell("open: crowded items come before the body", run.returncode == 8 and run.stdout.startswith(b"crowded "), f"status {run.returncode}")
        opens("a body that is none", frame(ANSWER, 1, 1, bytes(8) + b"no body"), command, 4, b"")
    checks.same("open: a missing file", ["open"] + p.words() + [seed, "/nonexistent/reply"], asked, 5, b"")


def last_frame(text):
    """The last whole frame of a text."""
    at = last = 0
    while at < len(text):
        last, at = at, at + 4 + int.from_bytes(text[at:at + 4], "big")
    return text[last:]


def check_many_workers(checks):
    """A thousand items on four workers with two builders: the receiver finds all of the set's that it asks for, with their labels."""
    p = Params(1, 16, 1)
    named = [b"item-%d" % i for i in range(120)]
    labels = {item: b"%010d" % i for i, item in enumerate(named)}
    puts = [put(1 + i % 4, i, b"item-%d" % i, b"%010d" % i) for i in range(1000)]
    asked = b"\n".join(named + [b"other-%d" % i for i in range(80)])
    query = checks.run(["ask"] + p.words() + [SEED.hex(), "5", "1000"], asked)
    run = checks.run(serve(p, 4, 2), request_bytes(puts + [GO]) + query.stdout)
    with tempfile.NamedTemporaryFile() as file:
        file.write(last_frame(run.stdout))
        file.flush()
        opened = checks.run(["open"] + p.words() + [SEED.hex(), file.name], asked)
    found = {bytes.fromhex(item): bytes.fromhex(label) for item, _, label in (line.split() for line in opened.stdout.decode().splitlines())}
    good = (query.returncode, run.returncode, opened.returncode) == (0, 0, 0)
    checks.tell("many workers: all are found with their labels", good and labels.items() <= found.items(), f"{len(found)} found")
    checks.tell("many workers: no others are", good and found.keys() == labels.keys(), f"{len(found)} found")


def check_greatest(checks):
    """The greatest capacities without label units and with four, and four rows: what is put is found with its label, and no more."""
    for p, number in ((Params(1, 2244), 1), (Params(1, 818, 4), 1), (Params(4, 3), 12)):
        items, label = [b"item-%d" % i for i in range(number)], bytes(range(10 * p.units))
        asked = b"\n".join(items + [b"other"])
        query = checks.run(["ask"] + p.words() + [SEED.hex(), "1", "100"], asked)
        run = checks.run(serve(p), request_bytes([put(1, i, item, label) for i, item in enumerate(items)]) + query.stdout)
        want = "".join(f"{item.hex()} 0 {label.hex() or '-'}\n" for item in items)
        with tempfile.NamedTemporaryFile() as file:
            file.write(last_frame(run.stdout))
            file.flush()
            checks.same(f"found at {p.words()}", ["open"] + p.words() + [SEED.hex(), file.name], asked, 0, want.encode())


def check_demo(checks):
    text = b"demo 7\nreplies 441\nadded 400\nremoved 37\nasks 3\nstable 38 38 38\n"
    for workers in ("1", "2", "4", "8", "4"):
        checks.same(f"demo by {workers} workers", ["demo", "7", workers], b"", 0, text)


def main(program):
    checks = Checks(program)
    check_words(checks)
    check_params(checks)
    check_serving(checks)
    check_asking(checks)
    check_opening(checks)
    check_many_workers(checks)
    check_greatest(checks)
    check_demo(checks)
    print(f"outside values: {checks.count - checks.failed} agree, {checks.failed} differ")
    return 1 if checks.failed else 0


if __name__ == "__main__":
    if sys.argv[1] == "--write":
        for name, data in (("stdin", request_bytes(STORED)), ("stdout", expected(ONE, STORED))):
            with open(f"{sys.argv[2]}/{name}", "wb") as out:
                out.write(data)
    else:
        sys.exit(main(sys.argv[1]))
