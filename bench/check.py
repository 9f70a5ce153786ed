#!/usr/bin/env python3
"""Time and peak memory of `arc check` against the length of the history.

Prints nanoseconds an event at 10,000 and at 1,000,000 events of 64 threads with `full` and `noentry` often, their ratio
(wanted: at most 1.3), and then the time of a text of some 60 MB and its peak memory, in times the length of the text
(wanted: at most 4). Of the runs of one length the fastest counts. The texts are made by another process and read from a
file, so that the peak is that of `arc` alone.

    bench/check.py [RUNS]
"""

import os
import subprocess
import sys
import tempfile
import time

import timing

SLOTS = 1024


def write(events, path):
    """Lives of objects in a heap that is full of them: each thread retains, drops and looks for room in turn."""
    with open(path, "w") as out:
        out.write("history 1\nslots %d\nentries 1\ncaps 1073741823 2147483647 4294967295\nclass Node\nthreads 64\nevents\n" % SLOTS)
        hands = [0] * 65
        told = 0

        def tell(thread, text):
            nonlocal told
            told += 1
            out.write("%d %d %s\n" % (told, thread, text))

        def hand(thread):
            hands[thread] += 1
            return hands[thread]

        held = []
        for slot in range(SLOTS):
            thread = 1 + slot % 64
            held.append((thread, hand(thread)))
            tell(thread, "new %d Node %d" % (held[-1][1], slot))
        tell(1, "claim 0")
        slot = 0
        while told < events:
            thread, last = held[slot]
            first = hand(thread)
            tell(thread, "copy %d %d" % (last, first))
            tell(thread, "drop %d more" % last)
            tell(thread, "noentry")
            tell(thread, "full")
            tell(thread, "drop %d last" % first)
            tell(thread, "finish %d last" % slot)
            tell(thread, "vacate %d" % slot)
            held[slot] = (thread, hand(thread))
            tell(thread, "new %d Node %d" % (held[slot][1], slot))
            slot = (slot + 1) % SLOTS
        out.write("done\n")


def once(path):
    with open(path, "rb") as text:
        start = time.perf_counter()
        child = subprocess.Popen([timing.PROGRAM, "check"], stdin=text, stdout=subprocess.PIPE)
        output = child.stdout.read()
        _, _, usage = os.wait4(child.pid, 0)
    return time.perf_counter() - start, usage.ru_maxrss, output


def judged(events, runs):
    path = os.path.join(tempfile.mkdtemp(), "history")
    subprocess.run([sys.executable, os.path.abspath(__file__), "write", str(events), path], check=True)
    size = os.path.getsize(path)
    samples = [once(path) for _ in range(runs)]
    os.remove(path)
    seconds, peak = min(s[0] for s in samples), max(s[1] for s in samples)
    word, told = samples[0][2].split()
    assert word == b"legal", samples[0][2]
    told = int(told)
    print("%8d events  %9d bytes  %7.1f ns an event  %8d KiB peak, %.1f times the text"
          % (told, size, seconds / told * 1e9, peak, peak * 1024 / size))
    return seconds / told * 1e9


def main():
    if sys.argv[1:2] == ["write"]:
        write(int(sys.argv[2]), sys.argv[3])
        return
    runs = int(sys.argv[1]) if len(sys.argv) > 1 else 10
    timing.build()
    figures = [judged(events, runs) for events in (10_000, 1_000_000)]
    timing.ratio(*figures)
    judged(2_800_000, 1)


main()
