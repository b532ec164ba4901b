#!/usr/bin/env python3
"""An independent simulator of the player: reads a session file from standard input and prints what the player must print.

Written from the rules alone. Every port, agent or adapter, is an object with the same face: numbers, refuse(cmd), clock(cmd).
Each port keeps the state of the port machine (memory, open, held, owed, r, s) as a book of its own, and asserts that what it
answers agrees with it, that its bounds are kept, and that no part put below is refused.
"""
import sys

BOUND = 100_000_000

IDLE, READ, WRITE = "idle", "read", "write"


class Fault(Exception):
    def __init__(self, n, section, record, byte):
        self.line = "fault %d section %d record %d byte %d" % (n, section, record, byte)


class Port:
    """The port machine. A make of port gives `move(cmd)`: the answer and the word of a clocked call."""

    def reset(self, image):
        self.mem = bytearray(image)
        self.open = None      # (next offset, beats left)
        self.held = None
        self.owed = []        # bursts, each a list of words
        self.r = 0
        self.s = 0

    def words_owed(self):
        return sum(len(b) for b in self.owed)

    def refuse_opening(self, cmd, o, c):
        if self.held is not None and self.held != cmd:
            return 11
        if c == 0 or c > self.B:
            return 5
        if o + c > self.N:
            return 6
        return None

    def refuse(self, cmd):
        """The number of the refusal of a command in word offsets, or None."""
        kind = cmd[0]
        if kind == IDLE:
            return 11 if self.held is not None else None
        if kind == READ:
            _, o, c = cmd
            if self.open is not None:
                return 11 if self.held is not None else 12
            return self.refuse_opening(cmd, o, c)
        _, o, c, m, d = cmd
        if self.open is not None:
            if self.held is not None and (self.held[3], self.held[4]) != (m, d):
                return 11
        else:
            refused = self.refuse_opening(cmd, o, c)
            if refused is not None:
                return refused
        if m >= 1 << self.w or d >= 1 << (8 * self.w):
            return 8
        return None

    def word_at(self, o):
        return int.from_bytes(self.mem[o * self.w:(o + 1) * self.w], "little")

    def clock(self, cmd):
        assert self.refuse(cmd) is None, (type(self).__name__, cmd)
        answer, word = self.move(cmd)
        # the port machine's own moves
        owed_before = self.words_owed()
        if word is not None:
            assert owed_before > 0
            first = self.owed[0].pop(0)
            assert first == word, (type(self).__name__, first, word)
            if not self.owed[0]:
                self.owed.pop(0)
        self.s = 0 if word is not None or owed_before == 0 else self.s + 1
        if answer == "wait":
            self.held = cmd
            self.r += 1
        elif answer == "take":
            self.held = None
            self.r = 0
            if cmd[0] == READ:
                _, o, c = cmd
                self.owed.append([self.word_at(o + i) for i in range(c)])
            else:
                _, o, c, m, d = cmd
                if self.open is None:
                    left = c - 1
                else:
                    o, left = self.open[0], self.open[1] - 1
                for i in range(self.w):
                    if m >> i & 1:
                        self.mem[o * self.w + i] = d >> (8 * i) & 255
                self.open = (o + 1, left) if left > 0 else None
        else:
            assert cmd[0] == IDLE
        assert len(self.owed) <= self.P and self.r <= self.A and self.s <= self.L, type(self).__name__
        return answer, word


class Memory(Port):
    def __init__(self, w, B, P, waits, gaps, image):
        self.w, self.N, self.B, self.P = w, len(image) // w, B, P
        self.waits, self.gaps = waits, gaps
        self.wi = self.gi = 0
        self.L = max(gaps)
        self.A = max(waits) + B * (self.L + 1)
        self.reset(image)

    def move(self, cmd):
        word = None
        if self.owed and self.s >= self.gaps[self.gi % len(self.gaps)]:
            word = self.owed[0][0]
            self.gi += 1
        if cmd[0] == IDLE:
            return "idle", word
        if self.r < self.waits[self.wi % len(self.waits)] or (cmd[0] == READ and len(self.owed) >= self.P):
            return "wait", word
        self.wi += 1
        return "take", word


class Adapter(Port):
    """Over a port below. The makes give the parts of a command, and the words of host words."""
    k = 1

    def __init__(self, below, P):
        self.below, self.P = below, P
        self.slot = None      # parts that are not taken yet
        self.got = []         # words from below that make no host word yet
        self.L = below.A + 1 + self.k * (below.L + 1)
        self.A = self.k * self.B * (below.A + 1) + self.B * (self.L + 1)
        self.reset(below.mem)

    def move(self, cmd):
        full = self.slot is not None
        part = self.slot[0] if full else (IDLE,)
        answer_below, word_below = self.below.clock(part)
        word = None
        if word_below is not None:
            self.got.append(word_below)
            if len(self.got) == self.k:
                word = self.join(self.got)
                self.got = []
        if full and answer_below == "take":
            self.slot = self.slot[1:] or None
        if cmd[0] == IDLE:
            return "idle", word
        if full or (cmd[0] == READ and len(self.owed) >= self.P):
            return "wait", word
        self.slot = self.parts(cmd)
        return "take", word


class Narrower(Adapter):
    def __init__(self, below, k, P):
        self.k = k
        self.w, self.N, self.B = below.w * k, below.N // k, below.B // k
        super().__init__(below, P)

    def parts(self, cmd):
        k, w = self.k, self.below.w
        if cmd[0] == READ:
            return [(READ, cmd[1] * k, cmd[2] * k)]
        _, o, c, m, d = cmd
        return [(WRITE, o * k, c * k, m >> (w * i) & ((1 << w) - 1), d >> (8 * w * i) & ((1 << 8 * w) - 1)) for i in range(k)]

    def join(self, words):
        return sum(x << (8 * self.below.w * i) for i, x in enumerate(words))


class Splitter(Adapter):
    def __init__(self, below, B, P):
        self.w, self.N, self.B = below.w, below.N, B
        super().__init__(below, P)
        self.start = None     # start and count of the write burst that is open here

    def parts(self, cmd):
        most = self.below.B
        if cmd[0] == READ:
            _, o, c = cmd
            return [(READ, o + i, min(most, c - i)) for i in range(0, c, most)]
        _, o, c, m, d = cmd
        if self.open is None:
            self.start = (o, c)
            at = 0
        else:
            at = self.open[0] - self.start[0]
        o, c = self.start
        first = at - at % most
        return [(WRITE, o + first, min(most, c - first), m, d)]

    def join(self, words):
        return words[0]


class Widener(Adapter):
    def __init__(self, below, f, B, P):
        self.f = f
        self.w, self.N, self.B = below.w // f, below.N * f, B
        super().__init__(below, P)
        self.lanes = []       # which lanes each word that is owed stands in

    def parts(self, cmd):
        f, w = self.f, self.w
        if cmd[0] == READ:
            _, o, c = cmd
            self.lanes += [(o + i) % f for i in range(c)]
            return [(READ, (o + i) // f, 1) for i in range(c)]
        _, o, c, m, d = cmd
        if self.open is not None:
            o = self.open[0]
        up = (o % f) * w
        return [(WRITE, o // f, 1, m << up, d << (8 * up))]

    def join(self, words):
        up = self.lanes.pop(0) * self.w
        return words[0] >> (8 * up) & ((1 << 8 * self.w) - 1)


# pile number: width of the memory, and the adapters from the bottom up, with k or f
PILES = {
    2: (4, []),
    3: (4, [("narrower", 2)]),
    4: (8, [("widener", 4)]),
    5: (2, [("splitter", 1), ("narrower", 4)]),
    7: (8, [("widener", 2), ("splitter", 1)]),
}


class Reader:
    def __init__(self, data):
        self.data, self.at = data, 0

    def section(self, number, size, allowed, judge):
        """The records of a section, with their places."""
        data = self.data
        if self.at + 2 > len(data):
            raise Fault(1, number, 0, len(data))
        count = data[self.at] + 256 * data[self.at + 1]
        if not allowed(count):
            raise Fault(2, number, 0, self.at)
        self.at += 2
        records = []
        for i in range(count):
            if self.at + size > len(data):
                raise Fault(1, number, i + 1, len(data))
            record = data[self.at:self.at + size]
            wrong = judge(i, record)
            if wrong:
                raise Fault(wrong, number, i + 1, self.at)
            records.append((self.at, record))
            self.at += size
        return records


def read_session(data):
    reader = Reader(data)
    none = lambda i, x: 0
    pile = reader.section(1, 3, lambda n: n == 1,
                          lambda i, x: 0 if x[0] in PILES and 1 <= x[1] <= 64 and 1 <= x[2] <= 16 else 2)
    number, B, P = pile[0][1]
    adapters = PILES[number][1]

    def adapter(i, x):
        ok = (x[0] == 0 if adapters[i][0] == "narrower" else 1 <= x[0] <= 64) and 1 <= x[1] <= 16
        return 0 if ok else 2
    settings = reader.section(2, 2, lambda n: n == len(adapters), adapter)
    waits = reader.section(3, 1, lambda n: 1 <= n <= 256, none)
    gaps = reader.section(4, 1, lambda n: 1 <= n <= 256, none)
    memory = reader.section(5, 1, lambda n: 8 <= n <= 32768 and n % 8 == 0, none)
    commands = reader.section(6, 16, lambda n: n <= 1024, lambda i, x: 1 if x[0] > 3 else 0)
    if reader.at < len(data):
        raise Fault(1, 6, len(commands), reader.at)
    return (number, B, P, settings, [x[0] for _, x in waits], [x[0] for _, x in gaps],
            bytes(x[0] for _, x in memory), [x for _, x in commands])


def build(number, B, P, settings, waits, gaps, image):
    w, adapters = PILES[number]
    top = Memory(w, B, P, waits, gaps, image)
    for i, ((kind, factor), (place, (b, p))) in enumerate(zip(adapters, settings)):
        if kind == "narrower":
            if top.B < factor:
                raise Fault(3, 2, i + 1, place)
            top = Narrower(top, factor, p)
        elif kind == "splitter":
            top = Splitter(top, b, p)
        else:
            top = Widener(top, factor, b, p)
        if top.A > BOUND or top.L > BOUND:
            raise Fault(4, 2, i + 1, place)
    return top


def call(top, record):
    """The answer to a command of the file: a refusal's number, or the answer and the word."""
    flags, mask = record[0], record[1]
    count = int.from_bytes(record[2:4], "little")
    address = int.from_bytes(record[4:8], "little")
    data = int.from_bytes(record[8:16], "little")
    if flags == 3:
        return 9, None
    if flags == 0:
        cmd = (IDLE,)
    else:
        if top.open is None and address % top.w != 0:
            return 7, None
        offset = address // top.w
        cmd = (READ, offset, count) if flags == 1 else (WRITE, offset, count, mask, data)
    refused = top.refuse(cmd)
    if refused is None and flags == 1 and mask != (1 << top.w) - 1:
        refused = 8
    if refused is not None:
        return refused, None
    return top.clock(cmd)


def play(data, out):
    number, B, P, settings, waits, gaps, image, commands = read_session(data)
    top = build(number, B, P, settings, waits, gaps, image)
    out.append("pile %d width %d words %d A %d L %d" % (number, top.w, top.N, top.A, top.L))
    taken = 0
    for i, record in enumerate(commands):
        answer, word = call(top, record)
        if answer == "take":
            taken += 1
        shown = "-" if word is None else "%0*x" % (2 * top.w, word)
        out.append("%d %s %s" % (i, answer if isinstance(answer, str) else "no%d" % answer, shown))
    out.append("end taken %d owed %d" % (taken, top.words_owed()))


def main():
    data = sys.stdin.buffer.read()
    out = []
    status = 0
    try:
        play(data, out)
    except Fault as fault:
        out, status = [fault.line], 1
    sys.stdout.write("\n".join(out) + "\n")
    return status


if __name__ == "__main__":
    sys.exit(main())
