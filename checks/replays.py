#!/usr/bin/env python3
"""Random scripts of both versions, of many threads, phases and places, with strong and unowned variables, globals and fields: a second program says what `replay` must print,
byte for byte, and `check` must call it legal. Objects may refer to each other in cycles, and immortal ones to others, so that some leak; a deinit may bring about others, in chains.
There are no weak references and no side table entries.

    checks/replays.py FIRST LAST [PROGRAM]     seeds FIRST to LAST; PROGRAM is crates/arc/out/arc where it isn't given
"""
import collections
import os
import random
import subprocess
import sys

TOP = os.path.dirname(os.path.dirname(os.path.abspath(__file__)))
CAPS = "caps 1073741823 2147483647 4294967295"
PHASE_END = object()
IMMORTAL = object()
BLOCKS = ("ifnil", "ifsome")
CELLS = ("get", "set")
VERSIONS = [1, 1, 2]
DEEPEST = 8  # how deep blocks lie in blocks
NIL, ACCESSED = 0, 1  # words of a cell; another one is 2 more than the slot of the object that it refers to


def script_of(seed):
    """A script as plain data: version, slots, classes (name, immortal, fields), globals and threads (variables; phases of operations) and the places of the
    schedule. A field, a global and a variable: name, kind, class."""
    r = random.Random(seed)
    version = r.choice(VERSIONS)
    names = ["Node", "Leaf", "Root"][: r.randint(1, 3)]
    most = r.choice([0, 1, 2, 3, 8])  # fields of a class
    classes = [(name, version == 2 and r.random() < 0.3, declared(r, "f", r.randint(most // 2, most), names)) for name in names]
    cells = declared(r, "g", r.choice([0, 0, 1, 2, 3]), classes)
    count = r.choice([0, 1, 2, 2, 3, 3, 4, 5, 8, 16, 64])
    threads = []
    for _ in range(count):
        names = declared(r, "v", r.randint(1, 6), classes)
        named = reached(classes, cells, names)
        threads.append((names, [ops_of(r, version, names, named, r.choice([0, 1, 3, 6, 12, 30])) for _ in range(r.choice([1, 1, 2, 3, 5]))]))
    places = [r.randint(1, count) for _ in range(r.choice([0, 5, 40, 200, 1000]))] if count else []
    if r.random() < 0.3 and count > 1:  # turn about, so that every step meets another's
        places = [1 + i % count for i in range(len(places))]
    # a slot bit word holds 64 slots: the last ones lie in a second or a third word
    return version, r.choice([1, 1, 2, 3, 8, 63, 64, 65, 130]), classes, cells, threads, places


def declared(r, letter, count, classes):
    return [(f"{letter}{i}", r.choice(["strong", "strong", "unowned"]), r.randrange(len(classes))) for i in range(count)]


def reached(classes, cells, names):
    """The cells that operations may name, with the kind and class of their references: an owner and a place, fields of strong variables, and globals without an owner."""
    fields = [((v, f), there) for v, (_, kind, of) in enumerate(names) if kind == "strong" for f, (_, *there) in enumerate(classes[of][2])]
    return [((None, g), there) for g, (_, *there) in enumerate(cells)] + fields


def ops_of(r, version, names, named, count, depth=0):
    """Operations of a phase; a block is an operation that holds a list of others."""
    out = []
    for _ in range(count):
        if version == 2 and depth < DEEPEST and r.random() < 0.2:
            out.append((r.choice(BLOCKS), r.randrange(len(names)), ops_of(r, version, names, named, r.choice([0, 1, 3]), depth + 1)))
        elif r.random() < 0.2:
            out += link_of(r, names, named)
        else:
            out.append(op_of(r, names, named, r.randrange(len(names))))
    return [op for op in out if op]


def link_of(r, names, named):
    """A new object's field gets what a variable has, which may have the object then: again and again this makes a chain, and by a copy of the object a cycle."""
    fields = [(cell, v) for cell, there in named if cell[0] is not None for v, (_, *its) in enumerate(names) if its == there and v != cell[0]]
    if not fields:
        return []
    (owner, place), v = r.choice(fields)
    first = r.choice([None, op_of(r, names, named, v)])
    if names[owner][1:] != names[v][1:]:
        return [("new", owner, None), first, ("set", v, (owner, place))]
    last = r.choice([("move", v, owner), ("move", v, owner), ("copy", v, owner)])
    return [first, *[("new", owner, None), ("set", v, (owner, place)), last] * r.choice([1, 2, 5]), *[("set", v, (owner, place))] * r.choice([0, 0, 1])]


def op_of(r, names, named, to):
    """An operation: its word, this variable, and another variable or a cell; None where there is none of the kind and class that it needs."""
    kind, of = names[to][1:]
    gains = ["new", "new", "load"] if kind == "strong" else ["unown", "unown"]
    word = r.choice(["copy", "copy", "drop", "move", *gains, *["get", "get", "set", "set", "set"] * bool(named)])
    if word in ("new", "drop"):
        return (word, to, None)
    if word in CELLS:  # only a read may go through the variable itself
        others = [cell for cell, there in named if there == [kind, of] and (word == "get" or cell[0] != to)]
    else:
        wanted = {"unown": "strong", "load": "unowned"}.get(word, kind)
        others = [i for i, (_, *there) in enumerate(names) if there == [wanted, of] and i != to]
    return (word, to, r.choice(others)) if others else None


def heading_of(slots, classes, cells):
    out = [f"slots {slots}", "entries 1", CAPS]
    for name, immortal, fields in classes:
        out.append(" ".join(["immortal" if immortal else "class", name, *[f"{field}:{kind}:{classes[of][0]}" for field, kind, of in fields]]))
    return out + [f"global {name} {kind} {classes[of][0]}" for name, kind, of in cells]


def lines_of(classes, names, cells, ops):
    def spelled(owner, place):
        return f"@{cells[place][0]}" if owner is None else f"{names[owner][0]}.{classes[names[owner][2]][2][place][0]}"

    for word, to, other in ops:
        name = names[to][0]
        if word in BLOCKS:
            yield f"{word} {name}"
            yield from lines_of(classes, names, cells, other)
            yield "end"
        elif word == "new":
            yield f"new {name} {classes[names[to][2]][0]}"
        elif word == "get":
            yield f"get {name} {spelled(*other)}"
        elif word == "set":
            yield f"set {spelled(*other)} {name}"
        else:
            yield f"{word} {name}" if other is None else f"{word} {name} {names[other][0]}"


def text_of(script):
    version, slots, classes, cells, threads, places = script
    out = [f"arc {version}", *heading_of(slots, classes, cells)]
    for number, (names, phases) in enumerate(threads, 1):
        out.append(f"thread {number}")
        out += [f"var {name} {kind} {classes[of][0]}" for name, kind, of in names]
        for at, ops in enumerate(phases):
            out += ["phase"] if at else []
            out += lines_of(classes, names, cells, ops)
    out += [f"schedule {' '.join(map(str, places[i : i + 32]))}" for i in range(0, len(places), 32)]
    return "\n".join([*out, "done"]) + "\n"


class Heap:
    """The slots' bits in words of 64, and the other words of each slot: its count, which is (strong holders, unowned holders, in its deinit) or
    IMMORTAL, and its object's name. Those of a free slot keep what they were. And the words of cells: slot and field, or None and a global."""

    def __init__(self, slots, classes, cells):
        self.slots = slots
        self.classes = classes
        self.cells = cells
        self.words = collections.defaultdict(lambda: NIL)
        self.bits = [0] * ((slots + 63) // 64)
        self.count = [None] * slots
        self.name = [None] * slots
        self.step = 0
        self.events = []

    def tell(self, thread, event):
        self.events.append(f"{self.step} {thread} {event}")

    def named(self, slot):
        of, thread, number = self.name[slot]
        return f"{self.classes[of][0]}#{thread}.{number}"

    def shown(self, cell):
        slot, place = cell
        return f"@{self.cells[place][0]}" if slot is None else f"{slot}.{place}"

    def is_taken(self, slot):
        return self.bits[slot // 64] >> slot % 64 & 1

    def free_in(self, word, bits):
        """The first slot of this bit word that is free by these bits."""
        return next((slot for slot in range(64 * word, min(64 * word + 64, self.slots)) if not bits >> slot % 64 & 1), None)


class Thread:
    """A thread of the script; thread 0 has no variables and clears the globals. A reference is its hand, its kind and its slot."""

    def __init__(self, heap, number, names, phases):
        self.heap, self.number, self.names, self.phases = heap, number, names, phases
        self.vars = [None] * len(names)
        self.lines, self.hands, self.made, self.at = [], 0, 0, 0
        self.inside = False  # an access to a cell
        self.begun = 0  # operations, and drops at the end of the scope

    def says(self, at, answer):
        self.lines.append(f"{at} {answer}" if self.number else answer)

    def steps(self):
        """Yields before each atomic step, which is made as it goes on, and the mark of a phase's end."""
        for last, ops in enumerate(self.phases, 1):
            yield from self.runs(ops)
            if last < len(self.phases):
                yield PHASE_END
        for v, held in enumerate(self.vars):
            if held:
                self.begun += 1
                self.vars[v] = None
                yield from self.drops("end", held)

    def clears(self):
        """The end section."""
        for place, (_, kind, _) in enumerate(self.heap.cells):
            there = yield from self.swaps((None, place), None, kind)
            if there:
                yield from self.drops(None, there)

    def runs(self, ops):
        """The operations that are run; one that is skipped keeps its number, and a block has none."""
        for word, to, other in ops:
            if word not in BLOCKS:
                self.at += 1
                self.begun += 1
                yield from self.does(self.at, word, to, other)
            elif (self.vars[to] is None) == (word == "ifnil"):
                yield from self.runs(other)
            else:
                self.at += numbers_in(other)

    def does(self, at, word, to, other):
        """An operation: its steps, its line, and the drop of what goes last."""
        if word == "set":
            cell = self.cell(*other)
            if cell is None:
                return self.says(at, "nil")
            old = yield from self.swaps(cell, self.vars[to], self.names[to][1])
            self.vars[to] = None
            self.says(at, "ok")
        elif word == "drop":
            old, self.vars[to] = self.vars[to], None
            self.says(at, "ok" if old else "nil")
        else:
            answer, new, goes = yield from self.brings(word, to, other)
            old = self.vars[to] if goes else None
            self.vars[to] = new if goes else self.vars[to]
            self.says(at, answer)
        if old:
            yield from self.drops(at, old)

    def cell(self, owner, place):
        """The cell that an operation names; None where its owner is nil."""
        if owner is None:
            return None, place
        return (self.vars[owner][2], place) if self.vars[owner] else None

    def brings(self, word, to, other):
        """The answer of an operation that brings a reference into a variable, the reference or None, and whether the variable changes."""
        if word == "new":
            return (yield from self.makes(to))
        if word == "get":
            cell = self.cell(*other)
            return (yield from self.gets(cell, self.names[to][1])) if cell else ("nil", None, True)
        held = self.vars[other]
        if held is None:
            return "nil", None, True
        if word == "move":
            self.vars[other] = None
            return "ok", held, True
        if word == "load":
            return (yield from self.loads(held))
        kind = "unowned" if word == "unown" else held[1]
        return "ok", (yield from self.gains(f"{word} {held[0]}", kind, held[2])), True

    def gains(self, told, kind, slot):
        """Another reference of this kind to the object in the slot."""
        yield from self.counts(slot, one_more(kind))
        self.hands += 1
        self.heap.tell(self.number, f"{told} {self.hands}")
        return self.hands, kind, slot

    def loads(self, held):
        hand, _, slot = held
        seen = yield from self.counts(slot, one_more("strong"), lambda c: c[2])
        if seen is not IMMORTAL and seen[2]:
            self.heap.tell(self.number, f"load {hand} dead")
            return "dead", None, True
        self.hands += 1
        self.heap.tell(self.number, f"load {hand} {self.hands}")
        new = self.hands, "strong", slot
        yield  # the name
        self.heap.step += 1
        return f"got {self.heap.named(slot)}", new, True

    def gets(self, cell, kind):
        """The cell's reference is copied while its word says that it is accessed."""
        heap = self.heap
        word = yield from self.exchanges(cell, lambda seen: ACCESSED, lambda seen: seen == NIL)
        if word == NIL:
            heap.tell(self.number, f"look {heap.shown(cell)}")
            return "nil", None, True
        self.inside = True
        new = yield from self.gains(f"copy {heap.shown(cell)}", kind, word - 2)
        yield
        heap.step += 1
        heap.words[cell] = word
        self.inside = False
        return "ok", new, True

    def swaps(self, cell, put, kind):
        """A reference, or nil, goes into the cell; what was there, in the thread's next hand, or None."""
        word = yield from self.exchanges(cell, lambda seen: put[2] + 2 if put else NIL, lambda seen: False)
        there = None
        if word != NIL:
            self.hands += 1
            there = self.hands, kind, word - 2
        self.heap.tell(self.number, f"swap {self.heap.shown(cell)} {put[0] if put else 'nil'} {there[0] if there else 'nil'}")
        return there

    def exchanges(self, cell, new, stops):
        """Loads the word of a cell, again while another thread accesses it, and exchanges it but where its load is all; all over where another changed it
        in between. The word that was there."""
        heap = self.heap
        while True:
            yield
            heap.step += 1
            seen = heap.words[cell]
            if seen == ACCESSED:
                continue
            if stops(seen):
                return seen
            yield
            heap.step += 1
            if heap.words[cell] == seen:
                heap.words[cell] = new(seen)
                return seen

    def takes_slot(self, class_name):
        """Loads bit words until one has a clear bit, and sets it; all over where another set it in between. The slot, or None."""
        heap = self.heap
        while True:
            free = None
            for word in range(len(heap.bits)):
                yield
                heap.step += 1
                free = heap.free_in(word, heap.bits[word])
                if free is not None:
                    break
            if free is None:
                heap.tell(self.number, "full")
                return None
            yield
            heap.step += 1
            if not heap.bits[word] >> free % 64 & 1:
                heap.bits[word] |= 1 << free % 64
                self.hands += 1
                heap.tell(self.number, f"new {self.hands} {class_name} {free}")
                return free

    def makes(self, to):
        heap, of = self.heap, self.names[to][2]
        class_name, immortal, _ = heap.classes[of]
        slot = yield from self.takes_slot(class_name)
        if slot is None:
            return "full", None, False
        new = self.hands, "strong", slot
        self.made += 1
        yield
        heap.step += 1
        heap.count[slot] = IMMORTAL if immortal else (1, 1, False)
        yield
        heap.step += 1
        heap.name[slot] = (of, self.number, self.made)
        return f"new {heap.named(slot)}", new, True

    def counts(self, slot, change, stops=lambda c: False):
        """Loads a count and exchanges it, again where another changed it in between; the count that was seen. An immortal object's is only loaded, and so is one
        that stops it."""
        heap = self.heap
        while True:
            yield
            heap.step += 1
            seen = heap.count[slot]
            if seen is IMMORTAL or stops(seen):
                return seen
            yield
            heap.step += 1
            if heap.count[slot] == seen:
                heap.count[slot] = change(seen)
                return seen

    def drops(self, at, held):
        """A reference is given up; whether that brought about a deinit."""
        hand, kind, slot = held
        seen = yield from self.counts(slot, one_fewer(kind))
        last = seen is not IMMORTAL and seen[kind == "unowned"] == 1
        self.heap.tell(self.number, f"drop {hand} {'last' if last else 'more'}")
        if last and kind == "strong":
            yield from self.deinits(at, slot)
        elif last:
            yield from self.vacates(slot)
        return last and kind == "strong"

    def deinits(self, at, slot):
        """The deinit of an object, which waits while what a field referred to is given up. Its next word, which says which deinit waits for it, isn't shown."""
        heap = self.heap
        yield  # the next word
        heap.step += 1
        yield  # the name
        heap.step += 1
        self.says(at, f"deinit {heap.named(slot)}")
        for field, (_, kind, _) in enumerate(heap.classes[heap.name[slot][0]][2]):
            yield
            heap.step += 1
            word = heap.words[slot, field]
            if word == NIL:
                continue
            yield
            heap.step += 1
            heap.words[slot, field] = NIL
            self.hands += 1
            heap.tell(self.number, f"take {slot}.{field} {self.hands}")
            if (yield from self.drops(at, (self.hands, kind, word - 2))):
                yield  # the name again
                heap.step += 1
        yield  # the next word again
        heap.step += 1
        seen = yield from self.counts(slot, one_fewer("unowned"))
        heap.tell(self.number, f"finish {slot} {'last' if seen[1] == 1 else 'more'}")
        if seen[1] == 1:
            yield from self.vacates(slot)

    def vacates(self, slot):
        yield
        self.heap.step += 1
        self.heap.bits[slot // 64] &= ~(1 << slot % 64)
        self.heap.tell(self.number, f"vacate {slot}")


def one_more(kind):
    return lambda c: (c[0] + 1, c[1], c[2]) if kind == "strong" else (c[0], c[1] + 1, c[2])


def one_fewer(kind):
    return lambda c: (c[0] - 1, c[1], c[0] == 1) if kind == "strong" else (c[0], c[1] - 1, c[2])


def numbers_in(ops):
    return sum(numbers_in(other) if word in BLOCKS else 1 for word, _, other in ops)


def left_in(heap):
    """The lines of the objects that still have a slot, by thread and number."""
    for slot in sorted(filter(heap.is_taken, range(heap.slots)), key=lambda slot: heap.name[slot][1:]):
        if heap.count[slot] is IMMORTAL:
            yield f"immortal {heap.named(slot)}"
        else:
            strong, unowned, dying = heap.count[slot]
            word = 2 * unowned + (2**32 if dying else 2**33 * (strong - 1))
            yield f"leak {heap.named(slot)} {'deinited' if dying else 'live'} {word:016x}"


def replayed(script):
    version, slots, classes, cells, decls, places = script
    heap = Heap(slots, classes, cells)
    threads = [Thread(heap, number, names, phases) for number, (names, phases) in enumerate(decls, 1)]
    runs = [thread.steps() for thread in threads]
    asks = [PHASE_END] * len(threads)  # None: a step; PHASE_END; or False: ended

    def go(i):
        asks[i] = next(runs[i], False)

    def busy():
        return any(ask is None for ask in asks)

    at = 0
    while PHASE_END in asks:
        for i, ask in enumerate(asks):
            if ask is PHASE_END:
                go(i)
        while at < len(places) and busy():
            i = places[at] - 1
            at += 1
            if asks[i] is None:
                go(i)
        for i, thread in enumerate(threads):
            begun = thread.begun if thread.inside else None
            while asks[i] is None and thread.begun == begun:
                go(i)
        for i in range(len(threads)):
            while asks[i] is None:
                go(i)
    first = Thread(heap, 0, [], [])
    for _ in first.clears():
        pass
    out = ["report 1"]
    for thread in threads:
        out += [f"thread {thread.number}", *thread.lines]
    deinits = sum("deinit " in line for thread in [first, *threads] for line in thread.lines)
    left = list(left_in(heap))
    out += ["end", *first.lines, *left]
    out += [f"objects {sum(thread.made for thread in threads)} deinits {deinits} leaks {sum(line.startswith('leak ') for line in left)}"]
    out += [f"history {version}", *heading_of(slots, classes, cells), f"threads {len(threads)}", "events", *heap.events, "done"]
    return "\n".join(out) + "\n", len(heap.events)


def main():
    first, last = int(sys.argv[1]), int(sys.argv[2])
    program = sys.argv[3] if len(sys.argv) > 3 else os.path.join(TOP, "crates/arc/out/arc")
    again = events = 0
    for seed in range(first, last + 1):
        script = script_of(seed)
        text = text_of(script)
        wanted, count = replayed(script)
        said = subprocess.run([program, "replay"], input=text.encode(), capture_output=True)
        if said.returncode or said.stdout.decode() != wanted:
            sys.exit(f"seed {seed}: replay (status {said.returncode}) says otherwise\n{text}\n--- said\n{said.stdout.decode()}\n--- wanted\n{wanted}")
        judged = subprocess.run([program, "check"], input=said.stdout, capture_output=True)
        if judged.returncode or judged.stdout.decode() != f"legal {count}\n":
            sys.exit(f"seed {seed}: check (status {judged.returncode}) says {judged.stdout.decode()!r}, wanted legal {count}\n{text}")
        events += count
        again += 1
    print(f"seeds {first} to {last}: {again} replays as the second program has them, each legal; {events} events")


if __name__ == "__main__":
    main()
