#!/usr/bin/env python3
"""large.py FOLDER: writes large inputs of the listing program and what the paper says that it must answer.

most.in, most.out: every table of the pool filled, each cell with another right than the cell before it. So many runs
are the most that a pool of this shape can have, 163,264.
mixed.in, mixed.out: some megabytes of lines of every kind, short, long, refused and not of the form.
"""
import random
import re
import sys

BLOCK, PAGE, PART, SMALL_PART = 1 << 22, 1 << 12, 1 << 19, 1 << 9


def write(folder, name, lines, answers):
    """An input, with no newline after its last line, and its output: a number for each line, then the runs."""
    open(f"{folder}/{name}.in", "wb").write(b"\n".join(lines))
    open(f"{folder}/{name}.out", "w").write("".join(f"{answer}\n" for answer in answers))


def cells():
    """Words in 64 pages, 512 bytes in the other pages of eight blocks, 512 KB elsewhere: domain, start, length."""
    for domain in range(4):
        for start in range(0, 1 << 32, BLOCK):
            if start >= 2 * BLOCK:
                yield from ((domain, start + part, PART) for part in range(0, BLOCK, PART))
                continue
            for page in range(start, start + BLOCK, PAGE):
                size = 4 if page < 16 * PAGE else SMALL_PART
                yield from ((domain, page + part, size) for part in range(0, PAGE, size))


def most():
    lines, runs = [], []
    for number, (domain, start, length) in enumerate(cells()):
        right = 1 + number % 2
        lines.append(f"S {domain} {start} {length} {right}".encode())
        runs.append(f"{domain} {start} {start + length - 1} {right}")
    return lines, [0] * len(lines) + runs


class Rights:
    """Of each domain, the rights of its parts of 512 KB. The first part of domain 0 is kept word by word."""

    def __init__(self):
        self.words = bytearray(PART // 4)
        self.parts = [bytearray((1 << 32) // PART) for _ in range(4)]

    def change(self, domain, start, length, right):
        """The number for a change: within the first part, or of whole parts, so that there is always room."""
        if domain > 3:
            return 2
        if right > 3:
            return 3
        if length == 0:
            return 4
        start, end = start // 4 * 4, start // 4 * 4 + (start % 4 + length + 3) // 4 * 4
        if end > 1 << 32:
            return 5
        if domain == 0 and start < PART:
            past = min(end, PART)
            self.words[start // 4:past // 4] = bytes([right]) * ((past - start) // 4)
            start = PART
        if start < end:
            assert start % PART == 0 and end % PART == 0
            self.parts[domain][start // PART:end // PART] = bytes([right]) * ((end - start) // PART)
        return 0

    def stretches(self, domain):
        """From the first address on: start, length, right."""
        if domain == 0:
            yield from ((4 * i, 4, right) for i, right in enumerate(self.words))
        yield from ((PART * i, PART, right) for i, right in enumerate(self.parts[domain]) if i > 0 or domain > 0)

    def runs(self):
        for domain in range(4):
            first, past, same = 0, 0, 0
            for start, length, right in [*self.stretches(domain), (1 << 32, 0, 4)]:
                if right != same:
                    if same != 0:
                        yield f"{domain} {first} {past - 1} {same}"
                    first, same = start, right
                past = start + length


def request(rng):
    """Numbers of a request, most of them in order."""
    right = rng.choice((0, 1, 1, 2, 2, 3, 3, 4))
    if rng.random() < 0.7:
        start = rng.randrange(1 << 16)
        return rng.choice((0,) * 9 + (4,)), start, rng.randrange(400), right
    part, parts = rng.randrange(8192), rng.randrange(4) if rng.random() < 0.9 else rng.randrange(8192)
    low = rng.randrange(4)
    return rng.randrange(4), part * PART + low, max(parts * PART - low - rng.randrange(4), 0), right


def line(rng):
    """A line of any kind."""
    text = b"S %d %d %d %d" % request(rng)
    kind = rng.randrange(40)
    if kind == 0:
        return bytes(rng.choice(b"S 0123456789\t\r\0\xff") for _ in range(rng.randrange(70)))
    if kind == 1:
        return text.replace(b" ", b"  ", 1)
    if kind == 2:
        return text + rng.choice((b" ", b"\r", b"\0", b" 1"))
    if kind == 3:
        return text.replace(b"S ", b"S " + b"0" * (rng.randrange(59, 63) - len(text)), 1)
    if kind == 4:
        return text + b" " * rng.randrange(5000)
    if kind == 5 and rng.random() < 0.05:
        return b"S 1 0 4 1" + b"1" * rng.randrange(200000)
    return text


FORM = re.compile(rb"S ([0-9]+) ([0-9]+) ([0-9]+) ([0-9]+)")


def answer(rights, text):
    form = FORM.fullmatch(text)
    numbers = [int(number) for number in form.groups()] if form and len(text) <= 60 else [1 << 32]
    return 99 if max(numbers) >= 1 << 32 else rights.change(*numbers)


def mixed():
    rng, rights = random.Random(3), Rights()
    lines = [line(rng) for _ in range(60000)] + [b"S 3 0 524288 1"]
    answers = [answer(rights, text) for text in lines]
    return lines, answers + list(rights.runs())


write(sys.argv[1], "most", *most())
write(sys.argv[1], "mixed", *mixed())
