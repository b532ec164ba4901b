#!/usr/bin/env python3
"""compare.py PLAYER N [FIRST [PILES]]: plays N random sessions, from the random seed FIRST (default 1) on, by PLAYER and by the
simulator, and stops at the first one at which what they print or their status differs. PILES, as 2,3, are the piles that the
player builds (default: 2); every other pile is out of range for the simulator too."""
import collections
import random
import subprocess
import sys

sys.path.insert(0, __file__.rsplit("/", 1)[0])
from sessions import session  # noqa: E402
from simulate import PILES, Fault, play  # noqa: E402


def simulated(data):
    out = []
    try:
        play(data, out)
    except Fault as fault:
        return [fault.line], 1
    return out, 0


def main():
    player, count = sys.argv[1], int(sys.argv[2])
    first = int(sys.argv[3]) if len(sys.argv) > 3 else 1
    built = {int(x) for x in (sys.argv[4] if len(sys.argv) > 4 else "2").split(",")}
    for pile in set(PILES) - built:
        del PILES[pile]
    kinds = collections.Counter()
    for seed in range(first, first + count):
        data = session(random.Random(seed), sorted(PILES))
        lines, status = simulated(data)
        played = subprocess.run([player], input=data, stdout=subprocess.PIPE, stderr=subprocess.DEVNULL)
        if played.stdout.decode() != "\n".join(lines) + "\n" or played.returncode != status:
            print("the random seed %d gives a session at which they differ" % seed)
            return 1
        kinds[" ".join(lines[0].split()[:2])] += 1
    print("%d sessions, no difference:" % count, ", ".join("%s: %d" % x for x in sorted(kinds.items())))
    return 0


if __name__ == "__main__":
    sys.exit(main())
