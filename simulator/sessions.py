#!/usr/bin/env python3
"""A random session file on standard output: sessions.py SEED [PILES], PILES as 2,3 (default: all five)."""
import random
import sys

sys.path.insert(0, __file__.rsplit("/", 1)[0])
from simulate import PILES, Fault, build, call  # noqa: E402


def le(n, size):
    return (n % (1 << 8 * size)).to_bytes(size, "little")


def limit(rng, low=1):
    return rng.choice([rng.randint(low, 4), rng.randint(low, 4), rng.randint(low, 9), rng.randint(low, 64)])


def script(rng):
    kind = rng.random()
    n = rng.choice([1, 1, 2, 3, rng.randint(1, 8)])
    if kind < 0.35:
        return [0] * n if rng.random() < 0.5 else [rng.randint(0, 1) for _ in range(n)]
    if kind < 0.95:
        return [rng.randint(0, 3) for _ in range(n)]
    return [rng.randint(0, 12) for _ in range(rng.randint(1, 256))]


def settings(rng, adapters, bad):
    out = []
    for kind, _ in adapters:
        b = 0 if kind == "narrower" else limit(rng)
        p = rng.choice([1, 1, 2, 3, rng.randint(1, 16)])
        out.append([b, p])
    if bad and out:
        i = rng.randrange(len(out))
        kind = adapters[i][0]
        if rng.random() < 0.5:
            out[i][0] = rng.choice([1, 255, 64]) if kind == "narrower" else rng.choice([0, 65, 255])
        else:
            out[i][1] = rng.choice([0, 17, 255])
    return [bytes(x) for x in out]


def command(flags, mask=0, count=0, address=0, data=0):
    return bytes([flags, mask]) + le(count, 2) + le(address, 4) + le(data, 8)


class Host:
    """Makes commands, looking at a simulated pile to know what is held, open and owed."""

    def __init__(self, rng, top):
        self.rng, self.top = rng, top
        self.last = None
        self.idle = rng.choice([0.02, 0.1, 0.3])
        self.mess = rng.choice([0.0, 0.05, 0.15])
        self.reads = rng.choice([0.2, 0.5, 0.8])
        self.narrow = rng.random() < 0.5

    def mask(self):
        rng, full = self.rng, (1 << self.top.w) - 1
        return rng.choice([full, full, 0, 1 << rng.randrange(self.top.w), rng.randint(0, full), rng.randint(0, full)])

    def data(self):
        return self.rng.getrandbits(8 * self.top.w)

    def opening(self):
        rng, top = self.rng, self.top
        most = min(top.B, top.N)
        count = rng.choice([1, rng.randint(1, most), rng.randint(1, most), most, min(2, most), min(5, most)])
        offset = rng.randint(0, top.N - count)
        if self.narrow:
            offset = min(offset, rng.randint(0, 8), top.N - count)
        return offset, count

    def good(self):
        rng, top = self.rng, self.top
        if rng.random() < self.idle:
            return command(0)
        if top.open is not None:
            junk = rng.getrandbits(32) if rng.random() < 0.5 else 0
            return command(2, self.mask(), junk % 65536, junk, self.data())
        offset, count = self.opening()
        if rng.random() < self.reads:
            return command(1, (1 << top.w) - 1, count, offset * top.w, rng.getrandbits(64) if rng.random() < 0.3 else 0)
        return command(2, self.mask(), count, offset * top.w, self.data())

    def messy(self):
        rng, top = self.rng, self.top
        base = bytearray(self.last or self.good())
        what = rng.randrange(12)
        if what >= 10:
            # a read, mostly where one is refused because a write burst is open
            offset, count = self.opening()
            return command(1, (1 << top.w) - 1, count, offset * top.w + (rng.random() < 0.1))
        if what == 0:
            base[0] = rng.randint(0, 3)
        elif what == 1:
            base[1] = rng.randrange(256)
        elif what == 2:
            base[2:4] = le(rng.choice([0, top.B + 1, top.B, rng.getrandbits(16)]), 2)
        elif what == 3:
            base[4:8] = le(rng.choice([top.N * top.w, top.N * top.w - top.w, 1, top.w - 1, rng.getrandbits(32)]), 4)
        elif what == 4:
            base[8:16] = le(rng.getrandbits(64), 8)
        elif what == 5:
            base[8 + rng.randrange(8)] ^= 1 << rng.randrange(8)
        elif what == 6:
            base[1] ^= 1 << rng.randrange(8)
        elif what == 7:
            base[4] ^= 1 << rng.randrange(3)
        elif what == 8:
            return bytes([rng.randint(0, 3)]) + bytes(rng.randrange(256) for _ in range(15))
        else:
            return command(0)
        return bytes(base)

    def next(self):
        if self.rng.random() < self.mess:
            return self.messy()
        if self.top.held is not None and self.last is not None:
            return self.last
        return self.good()

    def put(self, record):
        call(self.top, record)
        if self.top.held is None:
            self.last = None
        elif record[0] in (1, 2):
            self.last = self.last if self.last is not None else record


def session(rng, piles):
    number = rng.choice(piles)
    w, adapters = PILES[number]
    B = limit(rng)
    narrower = [f for kind, f in adapters if kind == "narrower"]
    if narrower and adapters[0][0] == "narrower" and B < narrower[0] and rng.random() < 0.8:
        B = narrower[0] + rng.randint(0, 9)
    P = rng.choice([1, 1, 2, 3, rng.randint(1, 16)])
    fault = rng.random()
    sets = settings(rng, adapters, fault < 0.03)
    if len(adapters) == 2 and adapters[1][0] == "narrower" and sets[0][0] in (1, 2, 3) and rng.random() < 0.8:
        sets[0] = bytes([4 + rng.randint(0, 12), sets[0][1]])
    waits, gaps = script(rng), script(rng)
    if rng.random() < 0.08:
        # numbers towards bounds that are too great
        B = 64
        waits, gaps = [rng.choice([0, 255])], [rng.choice([100, 255, rng.randint(0, 255)])]
        sets = [bytes([0 if kind == "narrower" else rng.choice([16, 33, 48, 64]), s[1]]) for (kind, _), s in zip(adapters, sets)]
    size = 8 * rng.choice([1, 1, 2, 3, 4, 8, rng.randint(1, 40), rng.choice([128, 4096])])
    image = bytes(rng.randrange(256) for _ in range(size)) if rng.random() < 0.7 else bytes(i % 256 for i in range(size))
    head = bytes([number, B, P])
    if 0.03 <= fault < 0.05:
        head = bytes(rng.choice([[rng.choice([0, 1, 6, 8, 255]), B, P], [number, rng.choice([0, 65, 255]), P], [number, B, rng.choice([0, 17])]]))
    try:
        top = build(number, B, P, [(0, s) for s in sets], waits, gaps, image)
    except (Fault, ValueError, ZeroDivisionError):
        top = None
    commands = []
    count = rng.choice([rng.randint(0, 20), rng.randint(20, 120), rng.randint(100, 400), rng.randint(400, 1024) if rng.random() < 0.2 else 50])
    if top is None or top.B == 0 or fault < 0.05:
        commands = [command(rng.randint(0, 2)) for _ in range(rng.randint(0, 4))]
    else:
        host = Host(rng, top)
        for _ in range(count):
            record = host.next()
            host.put(record)
            commands.append(record)
    sections = [[head], sets, [bytes([x]) for x in waits], [bytes([x]) for x in gaps], [bytes([x]) for x in image], commands]
    counts = [len(s) for s in sections]
    if 0.05 <= fault < 0.08:
        i = rng.randrange(6)
        counts[i] = max(0, rng.choice([counts[i] + 1, counts[i] - 1, counts[i] + 8, 0, 257, 1025, 32776, 65535])) % 65536
    if 0.08 <= fault < 0.11 and commands:
        for _ in range(rng.randint(1, 2)):
            i = rng.randrange(len(commands))
            commands[i] = bytes([rng.choice([4, 5, 8, 16, 128, 255])]) + commands[i][1:]
    data = b"".join(le(n, 2) + b"".join(s) for n, s in zip(counts, sections))
    if 0.10 <= fault < 0.14:
        data = data[:rng.randint(0, len(data))]
    elif 0.14 <= fault < 0.15:
        data = data[:rng.randint(0, 20)]
    elif 0.15 <= fault < 0.17:
        data += bytes(rng.randrange(256) for _ in range(rng.choice([1, 2, 16, 300])))
    elif 0.17 <= fault < 0.19 and data:
        at = rng.randrange(min(len(data), rng.choice([12, 40, 1 << 20])))
        data = data[:at] + bytes([rng.randrange(256)]) + data[at + 1:]
    return data


def main():
    rng = random.Random(int(sys.argv[1]))
    piles = [int(x) for x in sys.argv[2].split(",")] if len(sys.argv) > 2 else sorted(PILES)
    sys.stdout.buffer.write(session(rng, piles))


if __name__ == "__main__":
    main()
