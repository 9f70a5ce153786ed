#!/usr/bin/env python3
"""Pairs of calls on the shared heap beside the same pairs of another program, by turns.

The other program writes a line `NAME PAIR MODE THREADS LEAST MEDIAN COUNT` a row (tabs; nanoseconds a pair); it is stopped once the rows that are
asked for are there, and has to pin its threads itself. Ours are pinned here, each to a core of its own, and what a run of one pair takes (the start
of the threads, and the objects that stay) is taken off. A run takes a few milliseconds at most, and there are many, so that some find the machine
free, as short repetitions of the other program do. Of mode own the least time counts, of shared the median.

    bench/pairs.py [--rows WORD,..] [--program FILE] ROUNDS COMMAND [WORD ..]

The words of rows are own, shared, lives and behind, each with all its numbers of threads; without them all rows are taken.
"""

import argparse
import os
import statistics
import subprocess
import sys
import time

TOP = os.path.dirname(os.path.dirname(os.path.abspath(__file__)))
CRATE = os.path.join(TOP, "crates", "arc_pairs")
PROGRAM = os.path.join(CRATE, "out", "arc_pairs")
BEHIND = "new+release behind 1000 live"
# By word: the other program's pair and mode, and by number of threads how many pairs a run of ours makes. Of several threads the start weighs
# more, and they are pinned while they run already, so their runs are longer.
ROWS = {
    "own": ("retain+release", "own", {1: 20_000, 2: 200_000, 4: 200_000}),
    "shared": ("retain+release", "shared", {1: 20_000, 2: 20_000, 4: 20_000}),
    "lives": ("new+release", "own", {1: 10_000, 2: 50_000, 4: 50_000}),
    "behind": (BEHIND, "own", {1: 5_000}),
}
# How many runs of each length a round makes, as many as the other program's repetitions of a row.
RUNS = 120


def pin(child, threads):
    """Gives each thread a core, as soon as all are there. The main thread is one of those that work, where there are so many."""
    folder = "/proc/%d/task" % child.pid
    while child.poll() is None:
        try:
            tasks = sorted(map(int, os.listdir(folder)))
            if len(tasks) >= threads:
                for i, task in enumerate(tasks):
                    os.sched_setaffinity(task, {i % threads})
                return
        except (FileNotFoundError, ProcessLookupError):
            return
        time.sleep(0.0002)


def once(program, word, threads, times):
    """Nanoseconds of one run, whose threads are pinned."""
    cores = set(range(min(threads, os.cpu_count())))
    words = [program, word, str(threads), str(times), "timed"]
    child = subprocess.Popen(words, stdout=subprocess.PIPE, text=True, preexec_fn=lambda: os.sched_setaffinity(0, cores))
    if threads > 1:
        pin(child, threads)
    out, _ = child.communicate()
    if child.returncode:
        sys.exit("%s ended with %d" % (" ".join(words), child.returncode))
    return int(out.splitlines()[1].split()[0])


def ours(program, word, threads, chosen):
    """Nanoseconds a pair of each of some runs, without what a run of one pair takes."""
    times = ROWS[word][2][threads]
    start = chosen([once(program, word, threads, 1) for _ in range(RUNS)])
    return [(once(program, word, threads, times) - start) / (times - 1) for _ in range(RUNS)]


def theirs(command, wanted):
    """Nanoseconds a pair by row, the least and the median of one run, which is stopped once the wanted rows are there."""
    rows = {}
    child = subprocess.Popen(command, stdout=subprocess.PIPE, text=True)
    for line in child.stdout:
        words = line.split("\t")
        if len(words) == 7:
            rows[words[1], words[2], int(words[3])] = (float(words[4]), float(words[5]))
        if wanted <= rows.keys():
            break
    child.kill()
    child.communicate()
    if not wanted <= rows.keys():
        sys.exit("%s has no row %s" % (" ".join(command), sorted(wanted - rows.keys())[0]))
    return rows


def row_of(word, threads):
    """The other program's row. One thread that shares an object is one with an object of its own."""
    pair, mode, _ = ROWS[word]
    return pair, "own" if threads == 1 else mode, threads


def show(word, threads, mine, other):
    pair, mode, _ = ROWS[word]
    own = mode == "own"
    there = min(least for least, _ in other) if own else statistics.median(median for _, median in other)
    here = min(mine) if own else statistics.median(mine)
    print("| %s | %s | %d | %.1f | %.1f | %.2f |" % (pair, mode, threads, there, here, here / there), flush=True)


def main():
    parser = argparse.ArgumentParser(description="Pairs of calls on the shared heap beside another program's.")
    parser.add_argument("--rows", default=",".join(ROWS))
    parser.add_argument("--program", default=PROGRAM)
    parser.add_argument("rounds", type=int)
    parser.add_argument("command", nargs=argparse.REMAINDER)
    asked = parser.parse_args()
    if not os.path.exists(asked.program):
        subprocess.run(["rt", "run"], cwd=CRATE, capture_output=True, check=False)
    rows = [(word, threads) for word in asked.rows.split(",") for threads in ROWS[word][2] if threads <= os.cpu_count()]
    mine = {row: [] for row in rows}
    other = {row: [] for row in rows}
    for _ in range(asked.rounds):
        table = theirs(asked.command, {row_of(*row) for row in rows})
        for row in rows:
            chosen = min if ROWS[row[0]][1] == "own" else statistics.median
            mine[row] += ours(asked.program, *row, chosen)
            other[row].append(table[row_of(*row)])
    print("| Pair | Mode | Threads | Other, ns | arc, ns | Ratio |")
    print("|---|---|---|---|---|---|")
    for row in rows:
        show(*row, mine[row], other[row])


main()
