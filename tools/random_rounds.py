#!/usr/bin/env python3
"""Serves rounds of random requests on many workers and builders, and checks the replies' bytes against the definitions.

Nothing here is taken from the program. Tags, frames, polynomials and packing are those of definitions.py, which outside_values.py has
too; sets, histories and the seven points are read here anew. The history is read off requests and replies: the entry at a place
has the call of the request whose reply has that place. Then the seven points are checked, one by one: (1) one reply for each request, in order, with
its session and number; (2) a request whose bytes have a code is refused with it; (3) in each round the places follow on, each
once, and as no journal here is full, each request without a code has one; (4) in a session they rise; (5) each answer is the
step's; (6) a Repack's `from` is no less than its round's first place, behind its session's earlier places, and no more than its
own place; (7) the body of an Answer is the evaluation of the set at its place.

Usage: random_rounds.py PROGRAM [RUNS [SEED [WORKERS [BUILDERS]]]]
"""
import random
import subprocess
import sys

from definitions import (
    DELTA, GO_FRAME, N, Q1, Q2, Params, frame, frames_of, packed, padded, positions, product, residue_bytes,
    roots_polynomial, slot_values, spelled, tag_of, through,
)

MODULI = (Q1, Q2, Q1, Q2)
ASKS = 32


class Bundle:
    def __init__(self):
        self.stamp, self.bins = 0, {}

    def copy(self):
        other = Bundle()
        other.stamp, other.bins = self.stamp, {b: list(ms) for b, ms in self.bins.items()}
        return other

    def accepts(self, b, tag, capacity):
        members = self.bins.get(b, [])
        return len(members) < capacity and not any(x == y for t, _ in members for x, y in zip(slot_values(t), slot_values(tag)))


def fit(row, b, tag, label, stamp, capacity):
    """First fit of one member in a row, which is changed."""
    for bundle in row:
        if bundle.accepts(b, tag, capacity):
            break
    else:
        bundle = Bundle()
        row.append(bundle)
    bundle.bins.setdefault(b, []).append((tag, label))
    bundle.stamp = stamp


class Version:
    """The sender's set, by the definitions: a map from tags to labels, and rows of bundles."""

    def __init__(self, params):
        self.params, self.map, self.rows = params, {}, [[] for _ in range(params.rows)]

    def step(self, call, place):
        kind = call[0]
        if kind == "ask":
            return ("seen",)
        if kind == "repack":
            return self.repack(call[1], call[2], place)
        tag = call[1]
        there = tag in self.map
        if kind == "drop" and not there:
            return ("absent",)
        if kind == "put" and not there:
            return self.add(tag, call[2], place)
        for row in self.rows:
            for bundle in row:
                for b, members in bundle.bins.items():
                    if any(t == tag for t, _ in members):
                        changed = [(t, call[2] if kind == "put" and t == tag else l) for t, l in members if kind == "put" or t != tag]
                        bundle.bins[b], bundle.stamp = changed, place + 1
        if kind == "put":
            self.map[tag] = call[2]
            return ("replaced",)
        del self.map[tag]
        return ("removed",)

    def add(self, tag, label, place):
        rows = [[bundle.copy() for bundle in row] for row in self.rows]
        for position in positions(tag, self.params.rows):
            fit(rows[position // 819], position % 819, tag, label, place + 1, self.params.capacity)
        planes = sum(len(row) for row in rows) * (1 + self.params.units)
        cells = planes * (self.params.capacity + 1)
        if planes > 64 or cells > 4096:
            return ("full", planes, cells)
        self.rows, self.map[tag] = rows, label
        return ("added",)

    def repack(self, r, since, place):
        row = self.rows[r]
        greatest = max((bundle.stamp for bundle in row), default=0)
        if greatest > since:
            return ("moved", greatest)
        new = []
        for bundle in row:
            for b in sorted(bundle.bins):
                for tag, label in bundle.bins[b]:
                    fit(new, b, tag, label, place + 1, self.params.capacity)
        for bundle in new:
            bundle.stamp = place + 1
        self.rows[r] = new
        return ("done", len(row), len(new))

    def body(self, query):
        """The body of the answer to a query: its ciphertexts as lists of residues, or None for the query of zeros."""
        params = self.params
        out = params.bytes() + b"".join(len(row).to_bytes(2, "big") for row in self.rows)
        for r, row in enumerate(self.rows):
            for bundle in row:
                for plane in range(1 + params.units):
                    out += self.ciphertext(bundle, plane, r, query)
        return out

    def ciphertext(self, bundle, plane, r, query):
        capacity = self.params.capacity
        columns = [coefficients(bundle, plane, slot, capacity) for slot in range(N)]
        count = 1 if query is None else capacity + 1
        factors = [packed([column[k] for column in columns]) for k in range(count)]
        out = b""
        for index, m in enumerate(MODULI):
            total = [DELTA * p % m for p in factors[0]] if index < 2 else [0] * N
            for k in range(1, count):
                ct = query[r * capacity + k - 1][index]
                total = [(a + b) % m for a, b in zip(total, product(factors[k], ct, m))]
            out += residue_bytes(total)
        return out


def coefficients(bundle, plane, slot, capacity):
    if slot == N - 1:
        poly = [1]
    else:
        b, part = divmod(slot, 5)
        members = bundle.bins.get(b, [])
        if plane == 0:
            poly = roots_polynomial([slot_values(tag)[part] for tag, _ in members])
        else:
            at = 2 * (5 * (plane - 1) + part)
            poly = through([(slot_values(tag)[part], int.from_bytes(label[at:at + 2], "big")) for tag, label in members])
    return padded(poly, capacity)


class Request:
    def __init__(self, kind, session, number, body, call, code=None, query=None):
        self.kind, self.session, self.number, self.body, self.call, self.code, self.query = kind, session, number, body, call, code, query

    def bytes(self):
        return frame(self.kind, self.session, self.number, self.body)


def random_request(source, params, number, items):
    session = source.randrange(12)
    item = source.choice(items)
    named = spelled(item)
    what = source.random()
    if what < 0.5:
        label = source.randbytes(10 * params.units)
        if source.random() < 0.03:
            return Request(1, session, number, named + label + b"x", None, code=4)
        return Request(1, session, number, named + label, ("put", tag_of(item), label))
    if what < 0.75:
        if source.random() < 0.03:
            return Request(2, session, number, b"", None, code=1)
        return Request(2, session, number, named, ("drop", tag_of(item)))
    if what < 0.87:
        row = source.randrange(params.rows + 1)
        if row == params.rows:
            return Request(4, session, number, bytes([row]), None, code=5)
        return Request(4, session, number, bytes([row]), ("repack", row))
    count = params.rows * params.capacity
    if source.random() < 0.1:
        return Request(3, session, number, params.bytes() + bytes(81920 * count - 1), None, code=1)
    if source.random() < 0.1:
        cts = [[[source.randrange(m) for _ in range(N)] for m in MODULI] for _ in range(count)]
        body = params.bytes() + b"".join(residue_bytes(residues) for ct in cts for residues in ct)
        return Request(3, session, number, body, ("ask",), query=cts)
    return Request(3, session, number, params.bytes() + bytes(81920 * count), ("ask",))


def random_rounds(source, params):
    items = [b"item-%d" % source.randrange(40) for _ in range(12)]
    rounds, number = [], 0
    for _ in range(source.randrange(1, 5)):
        requests, asks = [], 0
        for _ in range(source.randrange(1, 25)):
            request = random_request(source, params, number, items)
            if request.kind == 3:
                if asks >= ASKS:
                    request.call, request.code = None, 6
                asks += 1
            requests.append(request)
            number += 1
        rounds.append(requests)
    return rounds


def read_replies(text):
    """The frames of a text: kind, session, number, body."""
    frames, is_whole = frames_of(text)
    assert is_whole and all(len(it) >= 12 for it in frames), "a frame is cut"
    return [(it[4], int.from_bytes(it[5:7], "big"), int.from_bytes(it[7:11], "big"), it[11:]) for it in frames]


def told(kind, body):
    """What a reply says: its place, its `from`, and the answer."""
    word = lambda at, size: int.from_bytes(body[at:at + size], "big")
    if kind == 137:
        assert len(body) == 1
        return None, None, ("refused", body[0])
    sizes = {129: 8, 130: 8, 131: 8, 132: 8, 133: 16, 135: 20, 136: 24}
    assert kind == 134 or len(body) == sizes[kind], f"kind {kind} with {len(body)} bytes"
    place = word(0, 8)
    if kind in (135, 136):
        return place, word(8, 8), ("done", word(16, 2), word(18, 2)) if kind == 135 else ("moved", word(16, 8))
    answers = {129: ("added",), 130: ("replaced",), 131: ("removed",), 132: ("absent",), 134: ("seen",)}
    return place, None, ("full", word(8, 4), word(12, 4)) if kind == 133 else answers[kind]


def check(params, rounds, text):
    requests = [(k, request) for k, round_ in enumerate(rounds) for request in round_]
    replies = read_replies(text)
    assert len(replies) == len(requests), "1: one reply each"
    places_by_round, history, first = [[] for _ in rounds], {}, 0
    last_of_session, told_all = {}, []
    for (k, request), (kind, session, number, body) in zip(requests, replies):
        assert (session, number) == (request.session, request.number), "1: the address"
        place, since, answer = told(kind, body)
        if request.code is not None:
            assert answer == ("refused", request.code), f"2: code {request.code} answered by {answer}"
            continue
        assert place is not None, "3: a place"
        places_by_round[k].append(place)
        assert place > last_of_session.get(session, -1), "4: places rise"
        told_all.append((k, request, place, since, answer, body, last_of_session.get(session, -1)))
        last_of_session[session] = place
        history[place] = told_all[-1]
    firsts = []
    for places in places_by_round:
        firsts.append(first)
        assert sorted(places) == list(range(first, first + len(places))), "3: places follow on"
        first += len(places)
    version = Version(params)
    for place in range(first):
        k, request, _, since, answer, body, before = history[place]
        call = request.call
        if call[0] == "repack":
            assert answer[0] in ("done", "moved"), "5: a Repack's answer"
            assert firsts[k] <= since <= place and before < since, "6: from"
            call = (*call, since)
        if call[0] == "ask":
            assert body[8:] == version.body(request.query), f"7: the body at place {place}"
        want = version.step(call, place)
        assert want == answer, f"5: {call[0]} at place {place}: {answer}, and not {want}"
    return first


def main(program, runs=300, seed=1, workers=8, builders=4):
    places = served = 0
    for run in range(runs):
        source = random.Random(seed * 1000003 + run)
        params = Params(source.choice([1, 1, 2]), source.choice([1, 2, 3]), source.choice([0, 0, 1]))
        rounds = random_rounds(source, params)
        text = GO_FRAME.join(b"".join(request.bytes() for request in round_) for round_ in rounds)
        words = ["serve", params.rows, params.capacity, params.units, workers, builders]
        ran = subprocess.run([program, *map(str, words)], input=text, capture_output=True)
        try:
            assert ran.returncode == 0, f"status {ran.returncode}: {ran.stderr!r}"
            places += check(params, rounds, ran.stdout)
        except AssertionError as why:
            print(f"run {run} of seed {seed} ({words}): {why}")
            return 1
        served += len(rounds)
    print(f"{served} rounds in {runs} runs, {places} places: all seven points hold")
    return 0


if __name__ == "__main__":
    sys.exit(main(sys.argv[1], *map(int, sys.argv[2:])))
