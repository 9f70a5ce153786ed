#!/usr/bin/env python3
"""What must not compile, doesn't: each misuse of a token, a pass or a heap is refused by the compiler.

For each case a function is added to a copy of arc_table's tests, and `rt try --test` has to refuse it at that function with the
error that is named. The kit has no test of this kind of its own: an edit in must-fail/ counts only where the prover refuses it.

    checks/misuse.py
"""

import os
import re
import shutil
import subprocess
import sys
import tempfile

TOP = os.path.dirname(os.path.dirname(os.path.abspath(__file__)))
TESTS = os.path.join("crates", "arc_table", "src", "tests.rt")

# name, the error's code, the function
CASES = [
    ("a reference used twice", "borrow-e0382", """
fn misused(heap: &Heap, pass: &mut Pass, held: Strong) -> (Release, Release) {
    (heap.release(pass, held), heap.release(pass, held))
}
"""),
    ("a reference left", "linear-value-let-go", """
fn misused(held: Strong) {
    let _left = held;
}
"""),
    ("a reference copied from a borrowed one", "move-out-of-place", """
fn misused(held: &Strong) -> Strong {
    *held
}
"""),
    ("a duty to deinit left", "linear-value-let-go", """
fn misused(dying: Dying) {
    let _left = dying;
}
"""),
    ("a duty to vacate left", "linear-value-let-go", """
fn misused(freed: crate::Freed) {
    let _left = freed;
}
"""),
    ("an answer with a reference left", "linear-value-let-go", """
fn misused(heap: &Heap, pass: &mut Pass) {
    heap.new_object(pass, 0);
}
"""),
    ("a note left", "linear-value-let-go", """
fn misused(note: crate::Note) {
    let _left = note;
}
"""),
    ("a note met twice", "borrow-e0382", """
fn misused(heap: &Heap, pass: &mut Pass, note: crate::Note) {
    heap.meet(pass, note);
    heap.meet(pass, note);
}
"""),
    ("a heap closed while it is lent", "borrow-e0505", """
fn misused(heap: Heap, first: Pass, second: &mut Pass, note: crate::Note) -> crate::Closed {
    let lent = &heap;
    let closed = heap.close(first);
    lent.meet(second, note);
    closed
}
"""),
    ("a heap closed while a thread uses it", "borrow-e0505", """
fn misused<R: std::thread::Threads + Sync>(rt: &R, heap: Heap, first: Pass, second: Pass) -> (Pass, crate::Closed) {
    let lent = &heap;
    std::thread::join(
        rt,
        move || -> Pass {
            let mut pass = second;
            lent.step(&mut pass, Step::Load { place: 0 }, Intent::Look);
            pass
        },
        move || -> crate::Closed { heap.close(first) },
    )
}
"""),
    ("a heap closed twice", "borrow-e0382", """
fn misused(heap: Heap, first: Pass, second: Pass) -> (crate::Closed, crate::Closed) {
    (heap.close(first), heap.close(second))
}
"""),
    ("a pass taken in twice", "borrow-e0382", """
fn misused(heap: &Heap, first: &mut Pass, second: Pass) {
    heap.join(first, second);
    heap.join(first, second);
}
"""),
    ("a step under a lock", "unsatisfied-bound", """
fn misused<R>(rt: &R, gate: &std::sync::Mutex<u64>, heap: &Heap, pass: &mut Pass) -> u64 {
    let _held = gate.lock(rt);
    heap.step(pass, Step::Load { place: 0 }, Intent::Look)
}
"""),
    ("a pass used by two threads", "borrow-e0499", """
fn misused<R: std::thread::Threads + Sync>(rt: &R, heap: &Heap, pass: &mut Pass) -> (u64, u64) {
    std::thread::join(
        rt,
        || -> u64 { heap.step(pass, Step::Load { place: 0 }, Intent::Look) },
        || -> u64 { heap.step(pass, Step::Load { place: 0 }, Intent::Look) },
    )
}
"""),
]


def copy(to):
    """The sources of this checkout."""
    for name in ("crates.txt", "HANDLES"):
        shutil.copy(os.path.join(TOP, name), to)
    shutil.copytree(os.path.join(TOP, "crates"), os.path.join(to, "crates"), ignore=shutil.ignore_patterns("out"))


def refusal(top, code):
    """The errors in the tests' file when the function is added, as (line, code), and the first line of the function."""
    path = os.path.join(top, TESTS)
    with open(path, encoding="utf-8") as file:
        before = file.read()
    with open(path, "w", encoding="utf-8") as file:
        file.write(before + code)
    run = subprocess.run(["rt", "try", "--test"], cwd=os.path.join(top, "crates", "arc_table"), capture_output=True, text=True)
    with open(path, "w", encoding="utf-8") as file:
        file.write(before)
    found = re.findall(r"src/tests\.rt:(\d+):\d+: error\[([a-z0-9-]+)\]", run.stdout + run.stderr)
    return [(int(line), name) for line, name in found], before.count("\n") + 1


def main():
    wrong = 0
    with tempfile.TemporaryDirectory() as top:
        copy(top)
        for name, wanted, code in CASES:
            errors, first = refusal(top, code)
            good = bool(errors) and all(line >= first for line, _ in errors) and wanted in [found for _, found in errors]
            wrong += not good
            print("%s: %s" % (name, "refused, " + wanted if good else "NOT REFUSED as wanted: %s" % errors), flush=True)
    print("%d misuses, %d not refused" % (len(CASES), wrong))
    sys.exit(1 if wrong else 0)


main()
