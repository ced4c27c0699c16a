#!/usr/bin/env python3
"""A lasting sender behind FIFOs, with one writer at a time, and a door on the loopback address that lets queries alone through.

    tools/service.py start DIR PROGRAM ROWS CAPACITY UNITS WORKERS BUILDERS
        runs `PROGRAM serve ..` in the foreground, with DIR/requests as its input and DIR/replies as its output, until it is
        interrupted (SIGTERM or SIGINT): then its input ends, and its status is this one's
    tools/service.py send DIR [--queries]
        reads request frames to the end of its input, waits for its turn (a lock on DIR/lock), sends them with a Go behind, and writes
        their replies; with --queries frames of another kind than Ask are refused, and nothing is sent
    tools/service.py door DIR PORT
        the same for clients of 127.0.0.1:PORT, queries alone, by socat
    tools/service.py try [PROGRAM]
        tries all of it in a folder of its own; it is skipped where socat or the program is missing

docs/SERVICE.md says what to know of it.
"""

import fcntl
import os
import shutil
import signal
import socket
import subprocess
import sys
import tempfile
import threading
import time

from definitions import ANSWER, GO_FRAME, frame, frames_of, spelled

PUT, ASK, GO = 1, 3, 5
LEAST, GREATEST = 7, 196608015
ROUND_FRAMES, ROUND_ASKS, ROUND_BYTES = 4096, 32, 1 << 28
PATIENCE = "600"
HERE = os.path.abspath(__file__)
PROGRAM = os.path.join(os.path.dirname(os.path.dirname(HERE)), "crates", "psi_cli", "out", "psi_cli")


def take(file, count):
    """So many bytes of a file, or fewer at its end."""
    parts = []
    while count > 0:
        part = file.read(count)
        if not part:
            break
        parts.append(part)
        count -= len(part)
    return b"".join(parts)


def next_frame(file):
    """The next whole frame, or None at the end. A frame that is cut off or has a bad length is a ValueError."""
    head = take(file, 4)
    if not head:
        return None
    length = int.from_bytes(head, "big")
    if len(head) < 4 or not LEAST <= length <= GREATEST:
        raise ValueError("no frame")
    rest = take(file, length)
    if len(rest) < length:
        raise ValueError("a frame that is cut off")
    return head + rest


def all_frames(file, kinds):
    frames = []
    while True:
        one = next_frame(file)
        if one is None:
            return frames
        if one[4] not in kinds:
            raise ValueError("a frame of another kind")
        frames.append(one)


def in_rounds(frames):
    """Frames by round: each within what one round answers, so that its Go ends it."""
    rounds, size, asks = [[]], 0, 0
    for one in frames:
        full = len(rounds[-1]) + 2 > ROUND_FRAMES or size + len(one) >= ROUND_BYTES or asks + (one[4] == ASK) > ROUND_ASKS
        if rounds[-1] and full:
            rounds.append([])
            size, asks = 0, 0
        rounds[-1].append(one)
        size, asks = size + len(one), asks + (one[4] == ASK)
    return rounds


def start(folder, program, words):
    """The sender, as long as it is wanted. This process keeps both FIFOs open, so that neither ends as clients come and go."""
    requests, replies = os.path.join(folder, "requests"), os.path.join(folder, "replies")
    for path in (requests, replies):
        os.mkfifo(path, 0o600)
    open(os.path.join(folder, "lock"), "w").close()
    input_end = os.open(requests, os.O_RDWR)
    reader = os.open(requests, os.O_RDONLY)
    writer = os.open(requests, os.O_WRONLY)
    os.close(input_end)
    output = os.open(replies, os.O_RDWR)
    sender = subprocess.Popen([program, "serve"] + words, stdin=reader, stdout=output, start_new_session=True)
    os.close(reader)
    signal.signal(signal.SIGTERM, lambda *_: os.close(writer))
    signal.signal(signal.SIGINT, lambda *_: os.close(writer))
    status = sender.wait()
    for path in (requests, replies):
        os.remove(path)
    return status


def send(folder, kinds, source, sink):
    """Passes the frames of a source to the sender, a round at a time, and its replies to a sink. Once a round is begun nothing stops it
    before its replies are read, so that no one else finds them."""
    frames, replies = all_frames(source, kinds), []
    with open(os.path.join(folder, "lock")) as lock:
        fcntl.flock(lock, fcntl.LOCK_EX)
        for it in (signal.SIGTERM, signal.SIGINT, signal.SIGHUP, signal.SIGPIPE):
            signal.signal(it, signal.SIG_IGN)
        with open(os.path.join(folder, "requests"), "wb") as into, open(os.path.join(folder, "replies"), "rb", buffering=0) as out:
            for one in in_rounds(frames):
                replies += exchange(one, into, out)
    try:
        sink.write(b"".join(replies))
        sink.flush()
    except BrokenPipeError:
        os._exit(1)


def exchange(frames, into, out):
    """One round: its frames and a Go in, and as many replies out as there are requests, read while the frames are written."""
    def write():
        for one in frames + [GO_FRAME]:
            into.write(one)
        into.flush()

    writing = threading.Thread(target=write)
    writing.start()
    replies = [next_frame(out) for one in frames if one[4] != GO]
    writing.join()
    return replies


def door(folder, port):
    """A server of connections: each gives its frames, ends its side, and reads its replies."""
    command = sys.executable + " " + HERE + " send " + folder + " --queries"
    os.execvp("socat", ["socat", "-t", PATIENCE, "TCP-LISTEN:" + port + ",bind=127.0.0.1,reuseaddr,fork", "EXEC:" + command])


# ---- the trying

def free_port():
    with socket.socket() as it:
        it.bind(("127.0.0.1", 0))
        return str(it.getsockname()[1])


def run(words, data):
    return subprocess.run(words, input=data, stdout=subprocess.PIPE, check=False)


def wait_for(test):
    for _ in range(200):
        if test():
            return True
        time.sleep(0.05)
    return False


def is_open(port):
    with socket.socket() as it:
        return it.connect_ex(("127.0.0.1", int(port))) == 0


def check(what, is_right):
    print(("right: " if is_right else "WRONG: ") + what)
    return is_right


def replies_of(text):
    """The kinds and numbers of the frames of a text."""
    return [(it[4], int.from_bytes(it[7:11], "big")) for it in frames_of(text)[0]]


def try_all(program):
    if not shutil.which("socat") or not os.access(program, os.X_OK):
        print("service.py: skipped (socat or the program is missing)")
        return 0
    sizes, seed = ["1", "4", "1"], "%064x" % int.from_bytes(os.urandom(32), "big")
    own, right = [], True
    with tempfile.TemporaryDirectory() as folder:
        try:
            own.append(subprocess.Popen([sys.executable, HERE, "start", folder, program] + sizes + ["4", "1"]))
            right &= check("the sender stands", wait_for(lambda: os.path.exists(os.path.join(folder, "lock"))))
            puts = b"".join(frame(PUT, 1, n, spelled(b"i%02d" % n) + b"label %04d" % n) for n in range(40))
            sent = run([sys.executable, HERE, "send", folder], puts)
            right &= check("40 Puts are answered, in order", [it[1] for it in replies_of(sent.stdout)] == list(range(40)))
            query = run([program, "ask"] + sizes + [seed, "2", "7"], b"i03\ni39\nnone\n").stdout
            port = free_port()
            own.append(subprocess.Popen([sys.executable, HERE, "door", folder, port]))
            right &= check("the door is open", wait_for(lambda: is_open(port)))
            client = ["socat", "-t", PATIENCE, "-", "TCP:127.0.0.1:" + port]
            asked = [subprocess.Popen(client, stdin=subprocess.PIPE, stdout=subprocess.PIPE) for _ in range(3)]
            own += asked
            waits = [threading.Thread(target=lambda it=it: setattr(it, "told", it.communicate(query)[0])) for it in asked]
            for it in waits:
                it.start()
            for it in waits:
                it.join()
            right &= check("three clients at once have an Answer each", all(replies_of(it.told) == [(ANSWER, 7)] for it in asked))
            answer = os.path.join(folder, "answer")
            with open(answer, "wb") as file:
                file.write(asked[0].told)
            opened = run([program, "open"] + sizes + [seed, answer], b"i03\ni39\nnone\n").stdout.split(b"\n")
            wanted = [(b"i%02d" % n).hex().encode() + b" 0 " + (b"label %04d" % n).hex().encode() for n in (3, 39)]
            right &= check("it opens to the two items with their labels", opened[:-1] == wanted)
            refused = run(client, frame(PUT, 1, 99, spelled(b"x") + b"0123456789")).stdout
            right &= check("the door lets no Put through", refused == b"")
            again = run([sys.executable, HERE, "send", folder], frame(PUT, 1, 41, spelled(b"i99") + b"label 0099"))
            right &= check("the sender goes on behind it", [it[1] for it in replies_of(again.stdout)] == [41])
            own[0].terminate()
            right &= check("its input ends, and its status is 0", own[0].wait(60) == 0)
        finally:
            for it in own:
                if it.poll() is None:
                    it.terminate()
                    it.wait()
    return 0 if right else 1


def main():
    words = sys.argv[1:]
    if words[:1] == ["start"] and len(words) == 8:
        return start(words[1], words[2], words[3:])
    if words[:1] == ["send"] and (len(words) == 2 or words[2:] == ["--queries"]):
        try:
            send(words[1], {ASK} if len(words) == 3 else set(range(PUT, GO + 1)), sys.stdin.buffer, sys.stdout.buffer)
        except ValueError as why:
            print("service.py: " + str(why) + "; nothing was sent", file=sys.stderr)
            return 1
        return 0
    if words[:1] == ["door"] and len(words) == 3:
        return door(words[1], words[2])
    if words[:1] == ["try"] and len(words) <= 2:
        return try_all(words[1] if len(words) == 2 else PROGRAM)
    print(__doc__, file=sys.stderr)
    return 2


if __name__ == "__main__":
    sys.exit(main())
