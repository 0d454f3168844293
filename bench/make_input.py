#!/usr/bin/python3
"""Writes the inputs of the benchmark into a folder: sheets, and a file of questions, one to a line, all numbers:

    class R m targets c n k start blocks  (length node ..) for each block

In an offer the last block is the offered one and the others are its stripe's; in a seal all blocks are the stripe's.
The same file comes out on every machine."""
import sys

RACKS, EACH, COPIES, K, N = 32, 8, 8, 16, 24


class Numbers:
    """A 64-bit linear congruential generator, so that the file does not depend on a library's."""

    def __init__(self, seed):
        self.state = seed

    def below(self, n):
        self.state = (self.state * 6364136223846793005 + 1442695040888963407) % 2**64
        return (self.state >> 33) % n

    def some(self, items, count):
        items = list(items)
        for i in range(count):
            j = i + self.below(len(items) - i)
            items[i], items[j] = items[j], items[i]
        return items[:count]


def block(numbers, core, racks):
    """One node of the core rack and seven others of the given racks."""
    others = [r * EACH + i for r in racks if r != core for i in range(EACH)]
    return [core * EACH + numbers.below(EACH)] + numbers.some(others, COPIES - 1)


def tight_set(blocks, c):
    """The least tight set when the last block has no seat: a plain search, used to pick inputs; None where all sit."""
    seat = {}

    def place(x, seen):
        for v in blocks[x]:
            rack = v // EACH
            here = [y for y in seat if seat[y] == v]
            if not here:
                here = [y for y in seat if seat[y] // EACH == rack]
                if len(here) < c:
                    seat[x] = v
                    return True
            for y in here:
                if y not in seen:
                    seen.add(y)
                    old = seat.pop(y)
                    seat[x] = v
                    if place(y, seen):
                        return True
                    del seat[x]
                    seat[y] = old
        return False

    for x in range(len(blocks)):
        seen = {x}
        if not place(x, seen):
            return x, seen
    return None


def line(name, c, n, k, start, blocks, out):
    words = [name, RACKS, EACH, 2**32 - 1, c, n, k, start, len(blocks)]
    for b in blocks:
        words += [len(b)] + b
    print(*words, file=out)


def admitted(numbers, count, racks):
    while True:
        core = numbers.below(RACKS)
        others = [r for r in range(RACKS) if r != core]
        allowed = [core] + numbers.some(others, racks - 1)
        blocks = [block(numbers, core, allowed) for _ in range(count)]
        if tight_set(blocks, 1) is None:
            return blocks


def refused(numbers, count, size):
    """Sixteen blocks of which the last is refused, with a tight set of this many."""
    while True:
        core = numbers.below(RACKS)
        others = [r for r in range(RACKS) if r != core]
        few = [core] + numbers.some(others, size - 2)
        blocks = [block(numbers, core, few) for _ in range(size - 1)]
        blocks += [block(numbers, core, range(RACKS)) for _ in range(count - size)]
        blocks = numbers.some(blocks, len(blocks)) + [block(numbers, core, few)]
        found = tight_set(blocks, 1)
        if found and found[0] == count - 1 and len(found[1]) == size:
            return blocks


def questions(numbers, each, out):
    for _ in range(each // K + 1):
        blocks = admitted(numbers, K, RACKS)
        for i in range(K):
            line("filling", 1, N, K, 0, blocks[: i + 1], out)
    for _ in range(each):
        line("admitted", 1, N, K, 0, admitted(numbers, K, RACKS), out)
    for _ in range(each):
        line("admitted_crowded", 1, N, K, 0, admitted(numbers, K, K), out)
    for size in (9, 16):
        for _ in range(each):
            line(f"refused_{size}", 1, N, K, 0, refused(numbers, K, size), out)
    for _ in range(each):
        line("seal", 1, N, K, numbers.below(RACKS * EACH), admitted(numbers, K, RACKS), out)
    for _ in range(each):
        line("seal_crowded", 1, N, K, numbers.below(RACKS * EACH), admitted(numbers, K, K), out)
    for k in (4, 8, 12):
        for _ in range(each):
            line(f"admitted_k{k}", 1, k + 8, k, 0, admitted(numbers, k, RACKS), out)
    for k in (4, 8, 12):
        for _ in range(each):
            line(f"refused_k{k}", 1, k + 8, k, 0, refused(numbers, k, k), out)
    for k in (4, 8, 12):
        for _ in range(each):
            line(f"seal_k{k}", 1, k + 8, k, numbers.below(RACKS * EACH), admitted(numbers, k, RACKS), out)


def call_lines(numbers):
    """Blocks for all racks in turn, most with lists over the whole site and some within few racks; a full stripe is sealed,
    planned and released, so that the store stays about half full."""
    number = 0
    held = [0] * RACKS
    few = [[core] + numbers.some([r for r in range(RACKS) if r != core], 9) for core in range(RACKS)]
    while True:
        core = numbers.below(RACKS)
        number += 1
        nodes = block(numbers, core, few[core] if numbers.below(4) == 0 else range(RACKS))
        yield f"o,{number},{' '.join(map(str, nodes))}\n"
        held[core] += 1
        if held[core] >= K + 2:
            held[core] = 0
            yield f"s,{core},{numbers.below(RACKS * EACH)}\n"
            yield f"p,{core},\n"
            yield f"d,{core},\n"
            yield f"r,{core},\n"


def sheet(numbers, size):
    """A sheet of as many call lines as this many bytes have room for."""
    text = f"n,k,c,targets\n{N},{K},1,{2**32 - 1}\n\nracks,each\n{RACKS},{EACH}\n\ncall,first,rest\n"
    for call in call_lines(numbers):
        if len(text) + len(call) > size:
            return text
        text += call


def main():
    folder, each = sys.argv[1], int(sys.argv[2])
    numbers = Numbers(20)
    with open(f"{folder}/questions", "w") as out:
        questions(numbers, each, out)
    for kibibytes in (8, 16, 32, 64):
        for i in range(8):
            with open(f"{folder}/sheet_{kibibytes}_{i}", "w") as out:
                out.write(sheet(numbers, 1024 * kibibytes))


main()
