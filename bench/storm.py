#!/usr/bin/env python3
"""The text of the script that the generator makes, by a second program: `storm.py COUNT START`.

The words are those of the crate rand_pcg's Lcg64Xsh32 made by `seed_from_u64`, written anew from that crate's description.
"""
import sys

MULTIPLIER = 6364136223846793005
MASK = 2**64 - 1


def xsh_rr(state):
    word = (((state >> 18) ^ state) >> 27) & 0xFFFFFFFF
    turn = state >> 59
    return ((word >> turn) | (word << (32 - turn))) & 0xFFFFFFFF if turn else word


def seed_bytes(number):
    """The 16 bytes that `seed_from_u64` expands a number to."""
    state, out = number, b""
    for _ in range(4):
        state = (state * MULTIPLIER + 11634580027462260723) & MASK
        out += xsh_rr(state).to_bytes(4, "little")
    return out


class Lcg64Xsh32:
    def __init__(self, number):
        seed = seed_bytes(number)
        state = int.from_bytes(seed[:8], "little")
        self.increment = int.from_bytes(seed[8:], "little") | 1
        self.state = (state + self.increment) & MASK
        self.step()

    def step(self):
        self.state = (self.state * MULTIPLIER + self.increment) & MASK

    def next_word(self):
        word = xsh_rr(self.state)
        self.step()
        return word


def operation(k, c):
    x, name = "tml"[c], ["Top", "Mid", "Low"][c]
    rows = [
        f"new {x}0 {name}",
        f"new {x}1 {name}",
        f"copy {x}1 {x}0",
        f"drop {x}0",
        f"unown {x}u {x}0",
        f"weak {x}w {x}0",
        f"load {x}1 {x}u",
        f"load {x}1 {x}w",
        f"get {x}0 @g{x}",
        f"set @g{x} {x}1",
        ["set t0.kid m0", "set m0.kid l0", "set l0.peer tu"][c],
        f"set {x}0.seen tw",
        ["get m1 t0.kid", "get l1 m0.kid", "get tu l0.peer"][c],
        f"drop {x}1",
    ]
    return rows[k]


HEADING = """arc 1
slots 4096
entries 4096
caps 1073741823 2147483647 4294967295
class Top kid:strong:Mid peer:unowned:Top seen:weak:Top
class Mid kid:strong:Low peer:unowned:Top seen:weak:Top
class Low peer:unowned:Top seen:weak:Top
global gt strong Top
global gm strong Mid
global gl strong Low
"""


def storm(count, start):
    rng = Lcg64Xsh32(start)
    threads = [[] for _ in range(16)]
    for i in range(count):
        k = rng.next_word() % 14
        c = rng.next_word() % 3
        threads[i % 16].append(operation(k, c))
    places = [1 + rng.next_word() % 16 for _ in range(4 * count)]
    out = [HEADING]
    for number, ops in enumerate(threads, 1):
        out.append(f"thread {number}\n")
        for x, name in zip("tml", ["Top", "Mid", "Low"]):
            for suffix, kind in [("0", "strong"), ("1", "strong"), ("u", "unowned"), ("w", "weak")]:
                out.append(f"var {x}{suffix} {kind} {name}\n")
        out.extend(op + "\n" for op in ops)
    for at in range(0, len(places), 32):
        out.append("schedule " + " ".join(map(str, places[at:at + 32])) + "\n")
    out.append("done\n")
    return "".join(out)


if __name__ == "__main__":
    sys.stdout.write(storm(int(sys.argv[1]), int(sys.argv[2])))
