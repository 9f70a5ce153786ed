"""Runs of the program `arc` with their time and peak memory."""

import os
import subprocess
import sys
import time

TOP = os.path.dirname(os.path.dirname(os.path.abspath(__file__)))
PROGRAM = os.path.join(TOP, "crates", "arc", "out", "arc")


def build():
    """The start script proves the program where it isn't there."""
    if not os.path.exists(PROGRAM):
        subprocess.run([os.path.join(TOP, "arc"), "--prove"], stdin=subprocess.DEVNULL, check=True)


def once(words, text, wanted):
    """Seconds, peak memory in KiB and output of one run, which has to end with the wanted status."""
    start = time.perf_counter()
    child = subprocess.Popen([PROGRAM] + words, stdin=subprocess.PIPE, stdout=subprocess.PIPE)
    child.stdin.write(text)
    child.stdin.close()
    output = child.stdout.read()
    _, status, usage = os.wait4(child.pid, 0)
    seconds = time.perf_counter() - start
    if os.WEXITSTATUS(status) != wanted:
        sys.exit("arc %s ended with %d" % (" ".join(words), os.WEXITSTATUS(status)))
    return seconds, usage.ru_maxrss, output


def fastest(words, text, runs, wanted=0):
    """The least time of some runs, the greatest peak memory, and the output."""
    samples = [once(words, text, wanted) for _ in range(runs)]
    return min(s[0] for s in samples), max(s[1] for s in samples), samples[0][2]


def ratio(small, large):
    print("ratio %.2f (wanted: at most 1.3)" % (large / small))
