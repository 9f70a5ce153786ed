#!/usr/bin/env python3
"""Time of `arc replay` against the length of the script, and against the number of its threads.

Prints nanoseconds a step at 10,000 and at 100,000 operations of one thread and of sixteen threads, whose schedule draws every step's
thread, the ratio of the two lengths and that of sixteen threads to one (wanted: at most 1.3 each), and the peak memory of each run. Of the
runs of one script the fastest counts.

    bench/replay.py [RUNS]
"""

import random
import sys

import timing

CYCLE = ["new a Node", "copy b a", "drop a", "new c Node", "copy a c", "drop b", "drop c", "drop a"]


def script(operations, threads):
    """A chain of lives in each thread: objects are made, copied and dropped, two at a time."""
    lines = ["arc 1", "slots %d" % (8 * threads), "entries 1", "class Node"]
    for thread in range(1, threads + 1):
        lines += ["thread %d" % thread] + ["var %s strong Node" % name for name in "abc"]
        lines += [CYCLE[i % len(CYCLE)] for i in range(operations // threads)]
    if threads > 1:
        places = random.Random(1)
        count = min(1_000_000, 4 * operations)
        drawn = [str(places.randint(1, threads)) for _ in range(count)]
        lines += ["schedule " + " ".join(drawn[i : i + 32]) for i in range(0, count, 32)]
    lines.append("done")
    return ("\n".join(lines) + "\n").encode()


def steps_of(output):
    """The number of the last step that has an event."""
    return int(output.decode().splitlines()[-2].split()[0])


def main():
    runs = int(sys.argv[1]) if len(sys.argv) > 1 else 25
    timing.build()
    longest = []
    for threads in (1, 16):
        figures = []
        for operations in (10_000, 100_000):
            seconds, peak, output = timing.fastest(["replay"], script(operations, threads), runs)
            steps = steps_of(output)
            figures.append(seconds / steps * 1e9)
            print("%2d threads  %7d operations  %8d steps  %7.1f ns a step  %8d KiB peak" % (threads, operations, steps, figures[-1], peak))
        timing.ratio(*figures)
        longest.append(figures[-1])
    print("sixteen threads beside one:", end=" ")
    timing.ratio(*longest)


main()
