#!/usr/bin/env python3
"""potcount beside the independent one, on random inputs: python3 tests/potcount.py POTCOUNT PEER

Three kinds of input: evenings of many lines, each in a process of its own; long inputs around the pieces in which
potcount reads and writes; and short ones through a pipe, in pieces of every length, each written when the one before
has been read. Each input has a seed. Where the answers differ, the seed and an input that was cut down are printed.
"""

import collections
import fcntl
import math
import random
import struct
import subprocess
import sys
import termios
import time

EVENINGS = range(1, 3001)
LONG = range(10001, 10041)
PIECES = range(20001, 20071)  # the last digits are the length of the pieces
# What has to come up among the answers: otherwise the inputs show too little.
ANSWERS = ("K", "E exact", "E about", "C", "N", "N none", "R 1", "R 2", "R 3", "R 4", "R 9")
PIECE = 65536  # bytes that potcount reads at a time
WORD = 2**32


def text(words):
    return " ".join(map(str, words)).encode()


class Evening:
    """Lines drawn for the settings of the last S line, good or not."""

    def __init__(self, seed):
        self.draw = random.Random(seed)
        self.n, self.p = 10, 101

    def whole(self, most):
        """A number from 0 to most, with as many small ones as large ones."""
        return min(most, self.draw.getrandbits(self.draw.randint(0, max(most, 1).bit_length())))

    def near(self, value):
        return max(0, value + self.draw.randint(-1, 1))

    def settings(self):
        d = self.draw
        n = d.choice((d.randint(1, 40), d.randint(1, 5000), 1 + self.whole(199_999_999), 200_000_000))
        p = d.choice((10 * n, 20 * n, d.randint(10 * n, 20 * n)))
        a = d.choice((1, p - 1, d.randint(1, p - 1), d.randint(1, p - 1)))
        while math.gcd(a, p) > 1:
            a = d.randint(1, p - 1)
        b = d.choice((0, p - 1, d.randint(0, p - 1)))
        capacity = d.choice((1, 15, 16, 504, d.randint(1, 16), d.randint(16, 40), d.randint(16, 504)))
        chosen = [n, p, a, b, capacity]
        if d.random() < 0.2:
            bad = ((0, 200_000_001), (10 * n - 1, 20 * n + 1), (0, p, p // 2, self.whole(p)), (p, WORD - 1), (0, 505))
            place = d.randrange(5)
            chosen[place] = d.choice(bad[place])
        self.n, self.p = n, p
        return ["S"] + chosen

    def stretch(self):
        d = self.draw
        lo = d.choice((1, d.randint(1, self.n), self.n - self.whole(self.n - 1)))
        hi = d.choice((self.n, lo, min(self.n, lo + self.whole(self.n))))
        if d.random() < 0.1:
            lo, hi = d.choice(((0, hi), (lo, self.n + 1), (hi, lo), (self.near(lo), self.near(hi)), (lo, WORD - 1)))
        return [lo, hi]

    def level(self):
        top = self.p.bit_length() - 1
        return self.draw.choice((0, 1, top, top + 1, self.draw.randint(0, top), self.draw.randint(0, top), self.whole(WORD - 1)))

    def command(self):
        letter = self.draw.choice("AAAAAAECCNNNN")
        if letter == "A":
            return ["A"] + self.stretch()
        if letter == "E":
            return ["E"]
        if letter == "C":
            return ["C", self.level()] + self.stretch()
        # with a last cell too
        return ["N", self.level()] + self.stretch()[: self.draw.choice((1, 1, 2))]

    def mistaken(self, line):
        """One slip in a line."""
        d = self.draw
        at = d.randint(0, len(line))
        odd = d.choice((b" ", b"  ", b"0", b"00", b"+", b"-", b"\t", b"\r", b"\0", b"\x80", b"9", b"E", b"/", b":", bytes([d.randrange(256)])))
        return d.choice((line[:at] + odd + line[at:], line[:at] + odd + line[at + 1 :], line[:at] + line[at + 1 :], line + odd, odd + line, line.lower()))

    def rubbish(self):
        d = self.draw
        letter = d.choice((b"S", b"A", b"E", b"C", b"N", b"K", b"R", b"s", b"", b" ", b"SA"))
        numbers = [d.choice((self.whole(WORD), WORD - 1, WORD, WORD + 1, self.whole(2**70), 2**64 + 1)) for _ in range(d.randint(0, 6))]
        return d.choice((letter + b"".join(b" %d" % x for x in numbers), d.randbytes(d.randint(0, 12)), b""))

    def overlong(self, line, lengths=(64, 65, 66, 128, 256, 4096, 8192)):
        """A line made longer, around 64 bytes and around the places where a count or a row of bytes might begin again."""
        d = self.draw
        length = max(len(line) + 1, d.choice(lengths) + d.choice((0, len(line))) + d.randint(-2, 2))
        filler = d.choice((b" ", b"0", b"\0", b"E", b"9")) * (length - len(line))
        return d.choice((line + filler, filler + line))

    def line(self):
        chance = self.draw.random()
        words = self.settings() if chance < 0.06 else self.command()
        line = text(words)
        if chance > 0.95:
            return self.overlong(line)
        if chance > 0.90:
            return self.rubbish()
        if chance > 0.80:
            return self.mistaken(line)
        return line

    def lines(self, count):
        return b"".join(self.line().replace(b"\n", b"") + b"\n" for _ in range(count))

    def ended(self, data):
        """With or without the last newline."""
        return data if self.draw.random() < 0.5 else data[:-1]


def evening(seed, most=150):
    """Lines after settings, or, now and then, after none."""
    e = Evening(seed)
    start = b"" if e.draw.random() < 0.1 else text(e.settings()) + b"\n"
    return e.ended(start + e.lines(e.draw.randint(0, most)))


def long_input(seed):
    """Lines across the ends of pieces; answers that fill the room for them many times; lines of many thousands of bytes."""
    e = Evening(seed)
    data = text(e.settings()) + b"\n" + e.lines(300)
    for border in range(1, 4):
        short = e.draw.choice((b"\n", b"E\n", b"A 1 1\n", b"N 0 1\n", b"x" * 63 + b"\n", b"x" * 64 + b"\n", b"x" * 65 + b"\n", b""))
        missing = max(0, border * PIECE - len(data) - e.draw.randint(0, 70))
        data += short * (missing // len(short)) if short else b"x" * missing + e.draw.choice((b"E\n", b"\n"))
        data += e.lines(30)
    data += e.overlong(text(e.command()), (PIECE, 2 * PIECE)) + b"\n" + e.lines(30)
    return e.ended(data)


def whole(program, data):
    """All of the input at once."""
    try:
        ran = subprocess.run([program], input=data, capture_output=True, timeout=20)
    except subprocess.TimeoutExpired:
        return ("no end", b"", b"")
    return (ran.returncode, ran.stdout, ran.stderr)


def in_pieces(length):
    """The input in pieces of a length, each when the one before has been read."""

    def run(program, data):
        with subprocess.Popen([program], bufsize=0, stdin=subprocess.PIPE, stdout=subprocess.PIPE, stderr=subprocess.PIPE) as child:
            for at in range(0, len(data), length):
                try:
                    child.stdin.write(data[at : at + length])
                except BrokenPipeError:
                    break
                late = time.monotonic() + 5
                while struct.unpack("i", fcntl.ioctl(child.stdin, termios.FIONREAD, b"\0" * 4))[0] and time.monotonic() < late:
                    time.sleep(0.00005)
            try:
                out, err = child.communicate(timeout=20)
            except subprocess.TimeoutExpired:
                child.kill()
                return ("no end", b"", b"")
            return (child.returncode, out, err)

    return run


def fault(data, ours, theirs):
    """What is wrong with the two runs on an input, or nothing."""
    lines = data.count(b"\n") + (data[-1:] not in (b"", b"\n"))
    if ours != theirs:
        return f"potcount: {shown(ours)}\n    peer: {shown(theirs)}"
    if ours[0] != 0 or ours[2] or ours[1].count(b"\n") != lines:
        return f"both: {shown(ours)}, for {lines} lines"
    return None


def shown(told):
    status, out, err = told
    return f"status {status}, {len(out)} bytes {out[-200:]!r}, said {err[-200:]!r}"


def cut_down(bad, data):
    """A smaller input with a fault: parts are left out, halves first, down to single bytes, while the time for it lasts."""
    late = time.monotonic() + 20
    size = len(data) // 2
    while size and time.monotonic() < late:
        at = 0
        while at < len(data) and time.monotonic() < late:
            less = data[:at] + data[at + size :]
            if bad(less):
                data = less
            else:
                at += size
        size //= 2
    return data


def compared(potcount, peer, name, seeds, made, runner):
    """The answers to each seed's input, by kind; none where the two programs differ."""
    told = collections.Counter()
    for seed in seeds:
        data, run = made(seed), runner(seed)
        ours, theirs = run(potcount, data), whole(peer, data)
        if fault(data, ours, theirs):
            tried = lambda less: fault(less, run(potcount, less), whole(peer, less))
            small = cut_down(tried, data)
            print(f"seed {seed} ({name}): the answers differ. Cut down from {len(data)} to {len(small)} bytes:")
            print(f"    {small[:2000]!r}\n{tried(small)}")
            return None
        told.update(map(kind_of, ours[1].decode().splitlines()))
    print(f"{name}, seeds {seeds[0]} to {seeds[-1]}: the same answers:", ", ".join(f"{told[kind]} {kind}" for kind in sorted(told)), flush=True)
    return told


def kind_of(answer):
    """The answer without its numbers, but for a refusal's."""
    words = answer.split(" ")
    return " ".join(words[:2]) if words[0] in ("E", "R") or words[1] == "none" else words[0]


def main(potcount, peer):
    told = compared(potcount, peer, "evenings", EVENINGS, evening, lambda seed: whole)
    if told is None:
        return 1
    missing = [kind for kind in ANSWERS if told[kind] < 1000]
    if missing:
        print("the inputs show too little: too few answers", ", ".join(missing))
        return 1
    if compared(potcount, peer, "long inputs", LONG, long_input, lambda seed: whole) is None:
        return 1
    pieces = compared(potcount, peer, "inputs in pieces", PIECES, lambda seed: evening(seed, 20), lambda seed: in_pieces(seed % 1000))
    return 1 if pieces is None else 0


if __name__ == "__main__":
    sys.exit(main(*sys.argv[1:]))
