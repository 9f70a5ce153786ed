#!/usr/bin/env python3
"""Time of reading a script against its length.

The text is that of `arc script N 1`. `arc replay` reads all of it and then says that the script isn't served yet, so
the time is that of reading. Prints nanoseconds a line at 10,000 and at 100,000 operations, their ratio (wanted: at
most 1.3) and lines a minute (wanted: at least 5 million). Of the runs of one length the fastest counts.

    bench/read.py [RUNS]
"""

import sys

import timing


def main():
    runs = int(sys.argv[1]) if len(sys.argv) > 1 else 25
    timing.build()
    figures = []
    for operations in (10_000, 100_000):
        _, _, text = timing.fastest(["script", str(operations), "1"], b"", 1)
        seconds, peak, _ = timing.fastest(["replay"], text, runs, wanted=5)
        lines = text.count(b"\n")
        figures.append(seconds / lines * 1e9)
        print("%7d operations  %8d lines  %7.1f ns a line  %6.1f million lines a minute  %8d KiB peak"
              % (operations, lines, figures[-1], lines / seconds * 60 / 1e6, peak))
    timing.ratio(*figures)


main()
