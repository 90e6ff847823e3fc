#!/usr/bin/env python3
"""A plain model of `sheetmark`, written from 01's text alone and not from the port.

    oracle/model.py < COMMANDS

The set is one whole number, bit i for position i; the standing calls are a list, each with the runs that it changed. It shares
no code, no storage layout and no journal encoding with the library.
"""
import re
import sys

COMMAND = re.compile(rb"(new|mark|clear|count|one|zero) ([0-9]{1,10}) ([0-9]{1,10})")
LARGEST_JOURNAL = 16384
CAPACITIES = {64 * 2**k for k in range(13)}  # 64 x W, W a power of two from 1 to 4,096


class Refused(Exception):
    """A call that is declined, with 01's number."""

    def __init__(self, number):
        self.number = number


def ones(n):
    return (1 << n) - 1


def lowest(x):
    """The place of the lowest bit that is 1 in x, which is not 0."""
    return (x & -x).bit_length() - 1


def runs_of(x, base):
    """The longest stretches of 1 bits in x, as (start, end), ascending."""
    runs = []
    while x:
        skip = lowest(x)
        base += skip
        x >>= skip
        length = lowest(x + 1)
        runs.append((base, base + length))
        base += length
        x >>= length
    return runs


def run_count(x):
    return (x & ~(x << 1)).bit_count()


class Ledger:
    def __init__(self, capacity, journal):
        if capacity not in CAPACITIES or journal > LARGEST_JOURNAL:
            raise Refused(1)
        self.capacity = capacity
        self.free = journal  # journal numbers that no standing call needs
        self.set = 0
        self.calls = []  # standing calls, newest last: (runs changed, how many positions, numbers needed)

    def part(self, start, end):
        """The bits of start..end, which is none where start is not below end."""
        if end > self.capacity:
            raise Refused(4)
        if start >= end:
            return 0, 0
        return self.set >> start & ones(end - start), end - start

    def assign(self, start, end, value):
        bits, length = self.part(start, end)
        changed = bits ^ ones(length) if value else bits
        if changed == 0:  # it does not stand and needs no number
            return 0
        needed = 1 + 2 * run_count(changed)
        if needed > self.free:
            raise Refused(6)
        self.free -= needed
        self.calls.append((runs_of(changed, start), changed.bit_count(), needed))
        self.set ^= changed << start
        return self.calls[-1][1]

    def back(self):
        if not self.calls:
            raise Refused(5)
        runs, positions, needed = self.calls.pop()
        for start, end in runs:
            self.set ^= ones(end - start) << start
        self.free += needed
        return positions

    def wipe(self):
        population = self.set.bit_count()
        self.free += sum(needed for _, _, needed in self.calls)
        self.set = 0
        self.calls = []
        return population

    def count(self, start, end):
        return self.part(start, end)[0].bit_count()

    def first(self, start, end, value):
        bits, length = self.part(start, end)
        if not value:
            bits ^= ones(length)
        return start + lowest(bits) if bits else None


def lines_of(data):
    """A line ends at a newline or at the input's end; nothing after the last newline is no line."""
    lines = data.split(b"\n")
    if lines[-1] == b"":
        lines.pop()
    return lines


class Sheetmark:
    """What the program prints for each line."""

    def __init__(self):
        self.ledger = None

    def perform(self, line):
        """A number, None for `none`, or "bad line"."""
        ledger = self.ledger
        if line == b"back" or line == b"wipe":
            if ledger is None:
                return "bad line"
            return ledger.back() if line == b"back" else ledger.wipe()
        m = COMMAND.fullmatch(line)
        if m is None:
            return "bad line"
        word, first, second = m[1], int(m[2]), int(m[3])
        if first >= 2**32 or second >= 2**32:
            return "bad line"
        if word == b"new":
            self.ledger = Ledger(first, second)
            return 0
        if ledger is None:
            return "bad line"
        if word == b"mark" or word == b"clear":
            return ledger.assign(first, second, word == b"mark")
        if word == b"count":
            return ledger.count(first, second)
        return ledger.first(first, second, word == b"one")

    def answer(self, line):
        try:
            result = self.perform(line)
        except Refused as refusal:
            return "refused %d" % refusal.number
        return "none" if result is None else str(result)


def main():
    program = Sheetmark()
    out = "".join(program.answer(line) + "\n" for line in lines_of(sys.stdin.buffer.read()))
    sys.stdout.write(out)


if __name__ == "__main__":
    main()
