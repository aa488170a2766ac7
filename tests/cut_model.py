"""What a power cut may leave of a volume, of blocks and of files, for tests/drawn_questions.py: after docs/model.md, not after the
definitions.

Of each word it keeps the values that it had since it was durable, of each block what it holds, and of files what file_model.py says. A
cut inside a command may leave several worlds, each of which tells of some units what they may be then, or of all files together.
"""
import itertools

import file_model
from line_model import CLEAN, covers, data_of, first_fault, overlaps, printed, put, rested, span_fault, spelled, synced, touched

BLOCKS, PAGES = 8, 3
SIZE = 4096 * PAGES
# A block is one of these, or its bytes and which of its lines are bad.
ABSENT, SCARRED = "absent", "scarred"


class State:
    """Which pages are there, their lines, the blocks, the files and the mappings. A unit is `line` or `block` and its number, or `file`,
    the name and the number of a line."""

    def __init__(self, there=frozenset(), lines=None, blocks=(ABSENT,) * BLOCKS, files=None, maps=file_model.NO_MAPS):
        self.there, self.lines, self.blocks, self.files, self.maps = there, lines or {}, blocks, files or {}, maps

    def unit(self, unit, files=None):
        """What it holds, where the files are these or those of the state; None where there is no such line of a file."""
        if unit[0] == "file":
            return file_model.line_of(self.files if files is None else files, *unit[1:])
        return self.lines.get(unit[1], CLEAN) if unit[0] == "line" else self.blocks[unit[1]]

    def with_(self, **new):
        return State(**{**vars(self), **new})

    def with_lines(self, lines):
        return self.with_(there=self.there | {n // 64 for n in lines}, lines={**self.lines, **lines})

    def with_blocks(self, blocks):
        return self.with_(blocks=tuple(blocks.get(b, old) for b, old in enumerate(self.blocks)))

    def without(self, pages):
        return self.with_(there=self.there - pages, lines={n: line for n, line in self.lines.items() if n // 64 not in pages})

    def settled(self):
        """As the next run finds it: each word has its last value, and no file is mapped."""
        lines = {n: rested(line) for n, line in self.lines.items()}
        return State(self.there, lines, self.blocks, file_model.settled(self.files))


def lowest_bad(state, lines):
    return next((f"poison volume {64 * n} 64" for n in lines if state.unit(("line", n))[0]), None)


# Each command below gives its reply, the state after it, and the worlds that a cut inside it may leave; none where it is refused.


def refused(state, reply):
    return reply, state, None


def lines_changed(state, new):
    """Each line, and of a line each word, for itself."""
    return "ok", state.with_lines(new), [{("line", n): (state.unit(("line", n)), line) for n, line in new.items()}]


def vstore(state, at, data):
    lines = touched(at, len(data))
    fault = span_fault(at, len(data), SIZE) or lowest_bad(state, [n for n in lines if not covers(at, len(data), n)])
    return refused(state, fault) if fault else lines_changed(state, {n: put(state.unit(("line", n)), n, at, data) for n in lines})


def vsync(state, at, size, fault):
    lines = touched(at, size)
    fault = fault or lowest_bad(state, lines)
    return refused(state, fault) if fault else lines_changed(state, {n: synced(state.lines[n]) for n in lines if n in state.lines})


def vdiscard(state, first, count, together):
    fault = span_fault(first, count, PAGES)
    if fault:
        return refused(state, fault)
    pages = range(first, first + count)
    gone = [{("line", n): (CLEAN,) for n in range(64 * p, 64 * p + 64)} for p in pages]
    chosen = [[{}] * count, gone] if together else itertools.product(*(({}, page) for page in gone))
    return "ok", state.without(set(pages)), [{unit: line for page in some for unit, line in page.items()} for some in chosen]


def mark(state, word, at):
    n = at // 64
    if at >= SIZE or n // 64 not in state.there:
        return refused(state, "refused range" if at >= SIZE else "refused nothing")
    bad, _, words = state.unit(("line", n))
    if word == "clear":
        return ("ok", state.with_lines({n: CLEAN}), [{}, {("line", n): (CLEAN,)}]) if bad else refused(state, "refused notpoisoned")
    return "ok", state if bad else state.with_lines({n: (word == "poison", True, words)}), [{}]


def poison_block(state, b, k):
    if b >= BLOCKS or state.blocks[b] in (ABSENT, SCARRED):
        return refused(state, "refused range" if b >= BLOCKS else "refused nothing")
    data, bad = state.blocks[b]
    return "ok", state.with_blocks({b: (data, bad | {k})}), [{}]


def blocks_changed(state, spans, faults, new, together):
    """Blocks that become others: all or none, or each for itself. Each fault is looked for in all spans before the next."""
    fault = first_fault(spans, BLOCKS, faults + overlaps(spans))
    if fault:
        return refused(state, fault)
    worlds = [{}, {("block", b): (block,) for b, block in new.items()}] if together else [
        {("block", b): (state.blocks[b], block) for b, block in new.items()}]
    return "ok", state.with_blocks(new), worlds


def write(state, pairs, together):
    spans = [(b, (len(data) + 511) // 512) for b, data in pairs]
    new = {b + i: (data[512 * i:512 * i + 512], frozenset()) for b, data in pairs for i in range(len(data) // 512)}
    return blocks_changed(state, spans, ["refused length" for _, data in pairs if len(data) % 512], new, together)


def step(state, ranges, command):
    """What a command does; the reply is None where it isn't looked at. `ranges` are those of the volume, as `vranges` tells them."""
    word, *words = command.split()
    of_files = file_model.step(state, word, words)
    if of_files:
        return of_files
    if word in ("vload", "bread"):
        reply = shown(command, state.files, lambda unit: sight(unit, state.unit(unit)))
        return reply, state, [{}] if reply.startswith("data") else None
    if word == "vstore":
        return vstore(state, int(words[0]), data_of(words[1]))
    if word in ("bwrite", "batomic", "bmulti"):
        return write(state, [(int(b), data_of(data)) for b, data in zip(words[::2], words[1::2])], word != "bwrite")
    if word in ("poison", "weaken", "clear") and words[0] == "volume":
        return mark(state, word, int(words[1]))
    if word == "poison" and words[0] == "block":
        return poison_block(state, int(words[1]), int(words[2]))
    if word not in ("vsync", "vpsync", "vdiscard", "vdiscardif", "bdiscard", "bdiscardif", "bscar"):
        return None, state, [{}]
    spans = list(zip(map(int, words[::2]), map(int, words[1::2])))
    at, size = spans[0]
    if word == "vsync":
        return vsync(state, at, size, span_fault(at, size, SIZE))
    if word == "vpsync":
        inside = [offset + at - address for offset, address, length in ranges if address <= at and at + size <= address + length]
        return vsync(state, (inside or [0])[0], size, "refused length" if size == 0 else None if inside else "refused address")
    if word in ("vdiscard", "vdiscardif"):
        return vdiscard(state, at, size, word == "vdiscard")
    new = {b + i: SCARRED if word == "bscar" else ABSENT for b, n in spans for i in range(n)}
    return blocks_changed(state, spans, [], new, word != "bdiscardif")


def is_command(line):
    return bool(line.strip()) and not line.startswith("#")


def places_of(state, ranges, program):
    """The places of a cut, by line, each with its state and worlds; the replies; and the state at the end."""
    places, replies = [], []
    for n, command in enumerate(program, 1):
        if is_command(command):
            places.append((f"before {n}", state, [{}]))
            reply, after, worlds = step(state, ranges, command)
            if worlds is not None:
                places.append((f"inside {n}", state, worlds))
            replies.append(reply)
            state = after
    return places + [(f"before {len(program) + 1}", state, [{}])], replies, state


def parts_of(read, files):
    """Why a read is refused, where it begins, how many bytes it gives, and the units that it looks at, where the files are these."""
    word, *words = read.split()
    if word == "fread" and words[0] not in files:
        return "refused missing", 0, 0, []
    first, count = map(int, words[-2:])
    if word == "bread":
        fault = span_fault(first, count, BLOCKS, 128)
        return fault, 512 * first, 512 * count, [] if fault else [("block", first + i) for i in range(count)]
    fault = span_fault(first, count, SIZE if word == "vload" else 4096 * files[words[0]].pages, 65536)
    space = ("line",) if word == "vload" else ("file", words[0])
    return fault, first, count, [] if fault else [(*space, n) for n in touched(first, count)]


def sight(unit, holds):
    """What a read sees of a unit, where it has its last values: its bytes, SCARRED, or the number of a bad line."""
    if unit[0] != "block":
        bad, _, words = holds
        return unit[-1] if bad else b"".join(last for last, _ in words)
    if holds in (ABSENT, SCARRED):
        return bytes(512) if holds == ABSENT else SCARRED
    data, bad = holds
    return min(bad) if bad else data


def told_bad(unit, what):
    """The reply to a read that meets a unit which is seen so."""
    if unit[0] == "block":
        return f"scarred {unit[1]}" if what == SCARRED else f"poison block {unit[1]} {what}"
    return file_model.told_bad(*unit[1:]) if unit[0] == "file" else f"poison volume {64 * unit[1]} 64"


def unit_told(words):
    """The unit that such a reply names, and what is seen of it; None where no line begins there."""
    kind, *numbers = words[1:] if words[0] == "poison" else words
    name, numbers = numbers[:1] if kind == "file" else [], [int(word) for word in numbers[kind == "file":]]
    if kind in ("block", SCARRED):
        return ("block", numbers[0]), SCARRED if kind == SCARRED else numbers[1]
    unit = ("file", *name, numbers[0] // 64) if name else ("line", numbers[0] // 64)
    return (unit, unit[-1]) if numbers[0] % 64 == 0 else None


def shown(read, files, seen):
    """The reply to a read of which each unit is seen so."""
    fault, first, size, units = parts_of(read, files)
    found = [(unit, seen(unit)) for unit in units]
    for unit, what in found:
        if not isinstance(what, bytes):
            return told_bad(unit, what)
    return fault or printed(b"".join(what for _, what in found)[first % 64:first % 64 + size])


def outcome(draw, state, world):
    """The files of this world, and some sight of each unit that it allows, the same whenever it is asked for."""
    files, kept = world.get("files", state.files), {}

    def seen(unit):
        if unit not in kept:
            holds = draw.choice(world.get(unit) or (state.unit(unit, files),))
            of_words = unit[0] != "block" and not holds[0]
            kept[unit] = b"".join(draw.choice(values) for _, values in holds[2]) if of_words else sight(unit, holds)
        return kept[unit]

    return files, seen


def wants_of(reads, replies, files):
    """What replies want of each unit, where the files are these: to be `good`, bytes from a place on, or what can't be read; None where
    no device says them."""
    wants = {}
    for read, reply in zip(reads, replies):
        fault, first, size, units = parts_of(read, files)
        kind, *words = reply.split()
        if kind == "_":
            continue
        if fault or kind == "refused":
            if fault != reply:
                return None
        elif kind == "data":
            data = data_of(words[0])
            if len(data) != size:
                return None
            for unit in units:
                wants.setdefault(unit, []).append((first, data))
        else:
            named = unit_told([kind, *words])
            if not named or named[0] not in units:
                return None
            for unit in units[:units.index(named[0])]:
                wants.setdefault(unit, []).append("good")
            wants.setdefault(named[0], []).append(named[1])
    return wants


def agrees(value, place, first, data):
    """The value at this place is that of the data from there on, as far as they go."""
    low, high = max(place, first), min(place + len(value), first + len(data))
    return low >= high or value[low - place:high - place] == data[low - first:high - first]


def suits(unit, holds, wants):
    """Whether the unit, if it is so, may be all that is wanted of it."""
    seen = sight(unit, holds)
    if not isinstance(seen, bytes):
        return all(want == seen for want in wants)
    windows = [want for want in wants if want != "good"]
    if not all(isinstance(window, tuple) for window in windows):
        return False
    if unit[0] == "block":
        return all(agrees(seen, 512 * unit[1], *window) for window in windows)
    words = enumerate(holds[2], 8 * unit[-1])
    return all(any(all(agrees(value, 8 * w, *window) for window in windows) for value in values) for w, (_, values) in words)


def first_place(places, reads, replies):
    """The number of the first place where the replies may be found, None where there is none."""
    wanted, known = {}, {}
    names = [read.split()[1] for read in reads if read.startswith("fread")]

    def wants(files):
        sizes = tuple(files[name].pages if name in files else None for name in names)
        if sizes not in wanted:
            wanted[sizes] = wants_of(reads, replies, files)
        return wanted[sizes]

    def fits(unit, holds, windows):
        if (unit, id(holds), id(windows)) not in known:
            known[unit, id(holds), id(windows)] = suits(unit, holds, windows)
        return known[unit, id(holds), id(windows)]

    def may_be(state, world):
        files = world.get("files", state.files)
        some = wants(files)
        return some is not None and all(
            any(fits(unit, holds, some[unit]) for holds in world.get(unit) or (state.unit(unit, files),)) for unit in some)

    return next((i for i, (_, state, worlds) in enumerate(places) if any(may_be(state, world) for world in worlds)), None)


def first_agreed(values, place, windows):
    return next(value for value in values if all(agrees(value, place, *window) for window in windows))


def kept_line(unit, holds, others, windows, asked):
    """What is told of a line that is left so, where it could be as each of the others, None where it is not there: what of it that
    could be otherwise."""
    first, what = 64 * unit[-1], f"file {unit[1]}" if unit[0] == "file" else "volume"
    if holds[0]:
        return f" | {what} {first} poison" if any(not other or not other[0] for other in others) else ""
    told = ""
    for w, (_, values) in enumerate(holds[2]):
        place = first + 8 * w
        value = first_agreed(values, place, windows)
        free = any(not other or other[0] or any(v != value for v in other[2][w][1]) for other in others)
        if free and any(at < place + 8 and place < at + size for at, size in asked):
            told += f" | {what} {place} {spelled(value)}"
    return told


def kept_block(unit, holds, others):
    seen = sight(unit, holds)
    if all(sight(unit, other) == seen for other in others):
        return ""
    what = spelled(seen) if isinstance(seen, bytes) else seen if seen == SCARRED else f"poison {seen}"
    return f" | block {unit[1]} {what}"


def looked_at(read):
    """The space that a read looks at, where it begins and how many bytes it has, and the numbers of its lines or blocks; None where it
    is refused whatever is stored."""
    word, *words = read.split()
    first, count = map(int, words[-2:])
    if word == "bread":
        return None if span_fault(first, count, BLOCKS, 128) else (("block",), first, count, range(first, first + count))
    if span_fault(first, count, SIZE if word == "vload" else first + count, 65536):
        return None
    return ("line",) if word == "vload" else ("file", words[0]), first, count, touched(first, count)


def pages_of(files, name):
    return files[name].pages if name in files else None


def kept_sizes(looks, files, others):
    """Of each file that is read and could be otherwise there, or of another length, how it is left."""
    told = ""
    for name in dict.fromkeys(space[1] for space, *_ in looks if space[0] == "file"):
        pages = pages_of(files, name)
        if any(pages_of(other, name) != pages for other in others):
            told += f" | file {name} " + ("missing" if pages is None else f"pages {pages}")
    return told


def kept_text(place, reads, replies):
    """What is told behind the answer of that place, of all that the reads look at: each unit is left as it was where it suits so, and
    else as the command makes it, and so are all files where they change together."""
    _, state, worlds = place
    looks = [look for look in map(looked_at, reads) if look]

    def options(world, unit):
        return world.get(unit) or (state.unit(unit, world.get("files")),)

    def left(world):
        """The files, what is wanted, and what each unit holds that is there and looked at."""
        files = world.get("files", state.files)
        wants = wants_of(reads, replies, files)
        if wants is None:
            return None
        units = dict.fromkeys((*space, n) for space, _, _, numbers in looks for n in numbers)
        units = [unit for unit in units if state.unit(unit, files) is not None]
        suiting = {unit: [holds for holds in options(world, unit) if suits(unit, holds, wants.get(unit, []))] for unit in units}
        return (files, wants, {unit: some[0] for unit, some in suiting.items()}) if all(suiting.values()) else None

    files, wants, chosen = next(filter(None, map(left, worlds)))
    told = {"line": "", "block": "", "file": kept_sizes(looks, files, [state.files, *(world.get("files", state.files) for world in worlds)])}
    for unit, holds in chosen.items():
        others = [state.unit(unit), *(other for world in worlds for other in options(world, unit))]
        if unit[0] == "block":
            told["block"] += kept_block(unit, holds, others)
        else:
            windows = [want for want in wants.get(unit, []) if isinstance(want, tuple)]
            asked = [(first, size) for space, first, size, _ in looks if space == unit[:-1]]
            told[unit[0]] += kept_line(unit, holds, others, windows, asked)
    return "".join(told.values())
