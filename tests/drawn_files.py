#!/usr/bin/env python3
"""tests/drawn_files.py PROGRAM [SEED]: 2,000 commands on files, drawn from a seed, over one image in ten runs, against a model.

The model keeps of each word the values that may be read, and those that a cut may leave. A command that was stopped may leave
several worlds; each reply must fit one of them at least. Prints what does not fit, and nothing else.
"""
import os
import random
import subprocess
import sys
import tempfile

SIZES = {"f0": 8, "f1": 6, "f2": 4}  # pages; of 32 units 16 may be used
ROOM = 16
ZERO = frozenset([bytes(8)])
# Whether the line is bad and whether it is weak (None: not known), and of each word what may be read, and what a cut may leave, None
# where that is what is read.
GOOD = (False, False, ((ZERO, None),) * 8)
HOLE = None


def over(value, at, data, place):
    """The word at this place once data are stored at an offset."""
    return bytes(data[place + i - at] if at <= place + i < at + len(data) else value[i] for i in range(8))


def covers(at, length, n):
    return at <= 64 * n and 64 * n + 64 <= at + length


def touched(at, length):
    return range(at // 64, (at + length - 1) // 64 + 1)


def put(line, n, at, data, whole=True):
    """Line n with data stored there; of a store that was stopped any word may have its old value."""
    bad, weak, words = line
    if bad:
        if not covers(at, len(data), n):
            return line
        bad, weak, words = (False if whole else None), False, GOOD[2]
    new = []
    for w, (last, kept) in enumerate(words):
        stored = frozenset(over(v, at, data, 64 * n + 8 * w) for v in last)
        new.append((stored if whole else last | stored, (kept or last) | stored))
    return bad, weak, tuple(new)


def flushed(line):
    bad, weak, words = line
    if bad or weak:
        return True, weak, words
    return False, False, tuple((last, None) for last, _ in words)


def rested(line, choice):
    """A line after a restart that kept its last values, or any; a recovery leaves it."""
    bad, weak, words = line
    if choice == "recover":
        return line
    return bad, weak, tuple((last if choice == "all" else kept or last, None) for last, kept in words)


def lines_of(pages):
    for p, page in enumerate(pages):
        if page is not HOLE:
            for k, line in enumerate(page):
                yield 64 * p + k, line


def changed(pages, numbers, f):
    """The pages with each of these lines that is there changed."""
    pages = [page if page is HOLE else list(page) for page in pages]
    for n in numbers:
        if pages[n // 64] is not HOLE:
            pages[n // 64][n % 64] = f(n, pages[n // 64][n % 64])
    return tuple(page if page is HOLE else tuple(page) for page in pages)


def filled(pages, numbers):
    return tuple((GOOD,) * 64 if page is HOLE and p in numbers else page for p, page in enumerate(pages))


def poisoned(pages, numbers, spared=lambda n: False):
    """The lowest bad line of these."""
    for n in numbers:
        page = pages[n // 64]
        if page is not HOLE and page[n % 64][0] and not spared(n):
            return n
    return None


class World:
    """Files, the shared mapping of f0, the events to be told (None: not known) and the mode."""

    def __init__(self, files, handles=(), next_handle=0, queue=(), mode="on"):
        self.files, self.handles, self.next_handle, self.queue, self.mode = files, handles, next_handle, queue, mode

    def key(self):
        return tuple(sorted(self.files.items())), self.handles, self.next_handle, self.queue, self.mode

    def with_(self, **new):
        return World(**{**vars(self), **new})

    def with_file(self, name, pages, **new):
        return self.with_(files={**self.files, name: pages}, **new)

    def event(self, name, n):
        mapped = "mapped" if name == "f0" and self.handles else "unmapped"
        return f"event {name} {64 * n} 64 {mapped} live"

    def mounted(self, choice):
        files = {f: changed(p, range(64 * len(p)), lambda n, line: rested(line, choice)) for f, p in self.files.items()}
        return World(files, queue=None).told()

    def told(self):
        """With an event of each bad line, once it is known which are bad."""
        bad = [(f, n, line[0]) for f in sorted(self.files) for n, line in lines_of(self.files[f]) if line[0] is not False]
        if self.queue is not None or any(b is None for _, _, b in bad):
            return self
        return self.with_(queue=tuple(f"event {f} {64 * n} 64 unmapped restart" for f, n, _ in bad))

    def full(self, pages, numbers):
        used = sum(page is not HOLE for p in self.files.values() for page in p)
        return used + sum(pages[i] is HOLE for i in numbers) > ROOM


def ends(world, reply, done, wanted="ok", stopped=()):
    """The worlds that this reply leaves: the one where it was done, or those where it was stopped."""
    if reply == wanted:
        return [done]
    mode = {"power lost": "off", "refused device": "unsettled"}.get(reply)
    return [w.with_(mode=mode) for w in stopped] if mode else []


def only(world, reply, wanted):
    return [world] if reply == wanted else []


def store(world, reply, name, at, data):
    pages = world.files[name]
    if at + len(data) > 4096 * len(pages):
        return only(world, reply, "refused range")
    numbers = range(at // 4096, (at + len(data) - 1) // 4096 + 1)
    if world.full(pages, numbers):
        return only(world, reply, "refused full")
    n = poisoned(pages, touched(at, len(data)), lambda n: covers(at, len(data), n))
    if n is not None:
        return only(world, reply, f"poison file {name} {64 * n} 64")
    there = filled(pages, numbers)
    new, part = (changed(there, touched(at, len(data)), lambda n, line: put(line, n, at, data, w)) for w in (True, False))
    return ends(world, reply, world.with_file(name, new), stopped=[world, world.with_file(name, part)])


def write_together(world, reply, name, ranges):
    pages = world.files[name]
    spans = [(at, len(data)) for at, data in ranges]
    if any(at + size > 4096 * len(pages) for at, size in spans):
        return only(world, reply, "refused range")
    if any(a < b + m and b < a + k for i, (a, k) in enumerate(spans) for b, m in spans[:i]):
        return only(world, reply, "refused overlap")
    numbers = {p for at, size in spans for p in range(at // 4096, (at + size - 1) // 4096 + 1)}
    if world.full(pages, numbers):
        return only(world, reply, "refused full")
    lines = [n for p in sorted(numbers) for n in range(64 * p, 64 * p + 64)]
    n = poisoned(pages, lines, lambda n: any(covers(at, size, n) for at, size in spans))
    if n is not None:
        return only(world, reply, f"poison file {name} {64 * n} 64")
    new = filled(pages, numbers)
    for at, data in ranges:
        new = changed(new, touched(at, len(data)), lambda n, line: put(line, n, at, data))
    new = changed(new, lines, lambda n, line: (False, False, tuple((last, None) for last, _ in line[2])))
    return ends(world, reply, world.with_file(name, new), stopped=[world, world.with_file(name, new)])


def flush(world, reply, name, lines, look):
    pages = world.files[name]
    n = poisoned(pages, lines)
    if n is not None:
        return only(world, reply, f"poison file {name} {64 * n} 64")
    new = changed(pages, lines, lambda n, line: flushed(line))
    lost = [n for n, line in lines_of(new) if n in lines and line[0]]
    wanted = f"verify file {name} {64 * lost[0]} 64" if look and lost else "ok"
    part = changed(pages, lines, lambda n, line: ((None, True, line[2]) if line[1] else line))
    queue = world.queue + tuple(world.event(name, n) for n in lost)
    return ends(world, reply, world.with_file(name, new, queue=queue), wanted, [world.with_file(name, part)])


def read(world, reply, name, at, size):
    pages = world.files[name]
    n = poisoned(pages, touched(at, size))
    if n is not None:
        return only(world, reply, f"poison file {name} {64 * n} 64")
    if not reply.startswith("data "):
        return ends(world, reply, world, "", [world])
    data = b"".join(bytes([int(i[:2], 16)]) * int(i[3:] or 1) if "*" in i else bytes.fromhex(i) for i in reply[5:].split(","))
    seen = lambda n, w: data[64 * n + 8 * w - at:64 * n + 8 * w - at + 8]
    for n in touched(at, size):
        page = pages[n // 64]
        words = GOOD[2] if page is HOLE else page[n % 64][2]
        if any(seen(n, w) not in last for w, (last, _) in enumerate(words)):
            return []

    def narrowed(n, line):
        return line[0], line[1], tuple((frozenset([seen(n, w)]), kept) for w, (_, kept) in enumerate(line[2]))

    return [world.with_file(name, changed(pages, touched(at, size), narrowed))]


def check(world, reply, name):
    """Which lines are bad is known then."""
    told = {int(word) // 64 for word in reply.split()[2:]}
    pages = world.files[name]
    if any(line[0] is not None and line[0] != (n in told) for n, line in lines_of(pages)) or not told <= {n for n, _ in lines_of(pages)}:
        return []
    known = changed(pages, range(64 * len(pages)), lambda n, line: (n in told, line[1], line[2]))
    return [world.with_file(name, known).told()]


def mark(world, reply, word, name, at):
    pages, n = world.files[name], at // 64
    if pages[n // 64] is HOLE:
        return only(world, reply, "refused nothing")
    bad, weak, words = pages[n // 64][n % 64]
    if word == "poison":
        queue = world.queue if bad else world.queue + (world.event(name, n),)
        return only(world.with_file(name, changed(pages, [n], lambda n, line: (True, False, words)), queue=queue), reply, "ok")
    if word == "weaken":
        return only(world if bad else world.with_file(name, changed(pages, [n], lambda n, line: (False, True, words))), reply, "ok")
    if not bad:
        return only(world, reply, "refused notpoisoned")
    cleared = world.with_file(name, changed(pages, [n], lambda n, line: GOOD))
    return ends(world, reply, cleared, stopped=[world, cleared])


def mount(world, reply, choice):
    """A restart or a recovery: the count of bad lines must fit."""
    bad = [line[0] for p in world.files.values() for _, line in lines_of(p)]
    if not reply.startswith("ok bad ") or not bad.count(True) <= int(reply[7:]) <= bad.count(True) + bad.count(None):
        return []
    return [world.mounted(choice)]


def power(world, words, reply):
    word = words[0]
    if word == "cut" and len(words) == 1:
        return only(world, reply, "refused off") if world.mode == "off" else only(world.with_(mode="off"), reply, "ok")
    if word == "restart":
        return mount(world, reply, words[1]) if world.mode == "off" else only(world, reply, "refused on")
    if word == "recover":
        return mount(world, reply, "recover") if world.mode == "unsettled" else only(world, reply, f"refused {world.mode}")
    return only(world, reply, "ok")


def data_of(text):
    return b"".join(bytes.fromhex(i.split("*")[0]) * int(i.partition("*")[2] or 1) for i in text.split(","))


def step(world, command, reply):
    """The worlds that a command may leave which was answered so."""
    words = command.split()
    word = words[0]
    if word in ("cut", "fail", "restart", "recover"):
        return power(world, words, reply)
    if world.mode != "on":
        return only(world, reply, {"off": "refused off", "unsettled": "refused recover"}[world.mode])
    if word in ("store", "flush", "flushv"):
        if int(words[1]) not in world.handles:
            return only(world, reply, "refused handle")
        if word == "store":
            return store(world, reply, "f0", int(words[2]), data_of(words[3]))
        spans = zip(map(int, words[2::2]), map(int, words[3::2]))
        return flush(world, reply, "f0", sorted({n for at, size in spans for n in touched(at, size)}), word == "flushv")
    if word == "event":
        first = world.queue[0] if world.queue else "none"
        return only(world.with_(queue=world.queue[1:]), reply, first)
    if word == "map":
        handle = world.next_handle
        return only(world.with_(handles=world.handles + (handle,), next_handle=handle + 1), reply, f"handle {handle}")
    if word in ("poison", "weaken", "clear"):
        return mark(world, reply, word, words[2], int(words[3]))
    name = words[1]
    if word == "create":
        return only(world.with_file(name, (HOLE,) * int(words[2])), reply, "ok")
    pages = world.files[name]
    if word == "fread":
        return read(world, reply, name, int(words[2]), int(words[3]))
    if word == "fwrite":
        return store(world, reply, name, int(words[2]), data_of(words[3]))
    if word in ("fatomic", "fmulti"):
        return write_together(world, reply, name, [(int(at), data_of(data)) for at, data in zip(words[2::2], words[3::2])])
    if word == "fsync":
        return flush(world, reply, name, range(64 * len(pages)), False)
    if word == "check":
        return check(world, reply, name)
    first, count = int(words[2]), int(words[3])  # fdiscard
    if first + count > len(pages):
        return only(world, reply, "refused range")
    left = world.with_file(name, tuple(HOLE if first <= i < first + count else page for i, page in enumerate(pages)))
    return ends(world, reply, left, stopped=[world, left])


def span(draw, name):
    size = 4096 * SIZES[name]
    at = 8 * draw.randrange(size // 8 + 2) + draw.choice((0, 0, 3))
    return at, draw.choice((1, 8, 64, 130, 4096))


def action(draw):
    """One command on a file, or through the mapping of f0."""
    name = draw.choice(sorted(SIZES))
    at, size = span(draw, name)
    inside = at % (4096 * SIZES[name])
    kind = draw.choice(("fwrite", "fwrite", "store", "store", "flush", "flushv", "fatomic", "fmulti", "fmulti", "fsync", "fdiscard", "clear"))
    if kind in ("fwrite", "fatomic"):
        return f"{kind} {name} {at} {draw.randrange(256):02x}*{size}"
    if kind == "store":
        return f"store 0 {at} {draw.randrange(256):02x}*{size}"
    if kind in ("flush", "flushv"):
        return f"{kind} 0 {8 * draw.randrange(2048)} {size} {8 * draw.randrange(2048)} {size}"
    if kind == "fmulti":
        other, length = span(draw, name)
        return f"fmulti {name} {at} {draw.randrange(256):02x}*{size} {other} {draw.randrange(256):02x}*{length}"
    if kind == "fdiscard":
        return f"fdiscard {name} {draw.randrange(SIZES[name])} {draw.choice((1, 1, 2))}"
    return f"clear file {name} {inside}" if kind == "clear" else f"fsync {name}"


def looked_over():
    """What tells the worlds apart, and a mapping where they end at a mount."""
    for name, pages in SIZES.items():
        yield f"check {name} 0 {4096 * pages}"
        yield from (f"fread {name} {at} 1024" for at in range(0, 4096 * pages, 1024))


def drawn(draw, count):
    for _ in range(count):
        pick = draw.randrange(100)
        name = draw.choice(sorted(SIZES))
        at = 64 * draw.randrange(64 * SIZES[name])
        if pick < 60:
            yield action(draw)
        elif pick < 70:
            yield f"fread {name} {at} 64"
        elif pick < 80:
            yield f"{draw.choice(('poison', 'weaken', 'weaken'))} file {name} {at}"
        elif pick < 88:
            yield "event"
        else:
            stop, mend = ("cut", ["cut", f"restart {draw.choice(('all', 'none', 'seed 5'))}"]) if pick < 94 else ("fail", ["recover"])
            yield f"{stop} in {draw.choice((1, 2, 9, 70, draw.randrange(1, 700)))}"
            yield action(draw)
            yield f"{stop} in 4294967295"
            yield from mend
            yield from looked_over()
            yield "map f0 0 32768 shared"


def main():
    program, seed = sys.argv[1], int(sys.argv[2]) if len(sys.argv) > 2 else 1
    draw = random.Random(seed)
    program = os.path.abspath(program)
    worlds = [World({})]
    with tempfile.TemporaryDirectory() as room:
        subprocess.run([program, "new", "img", "8", "2", "32"], cwd=room, check=True, stdout=subprocess.DEVNULL)
        for run in range(10):
            script = [f"create {f} {n}" for f, n in SIZES.items()] if run == 0 else []
            script += ["map f0 0 32768 shared", *drawn(draw, 200)]
            text = "".join(line + "\n" for line in script)
            done = subprocess.run([program, "run", "img", "img"], cwd=room, input=text, capture_output=True, text=True)
            replies = done.stdout.splitlines()
            if done.returncode or len(replies) != len(script):
                sys.exit(f"seed {seed}, run {run}: status {done.returncode}, {len(replies)} replies to {len(script)} commands")
            for k, (command, reply) in enumerate(zip(script, replies)):
                left = [w for world in worlds for w in step(world, command, reply)]
                if not left:
                    sys.exit(f"seed {seed}, run {run}, line {k + 1}: {command[:80]} was answered {reply[:80]}")
                worlds = left if len(left) == 1 else list({w.key(): w for w in left}.values())
            worlds = [w.mounted("all") for w in worlds]


if __name__ == "__main__":
    main()
