"""What `# table` prints, for tests/drawn_questions.py: by the model of tests/cut_model.py, at each place the rows that are new."""
from cut_model import BLOCKS, SCARRED, SIZE, sight
from file_model import ends_before
from line_model import span_fault, spelled, touched


def refusal(read):
    """Why a read is refused, whatever is stored; it may be that there is no such file, or that it ends before, which is of the rows."""
    word, *words = read.split()
    first, count = map(int, words[-2:])
    return span_fault(first, count, {"vload": SIZE, "bread": BLOCKS}.get(word, first + count), 128 if word == "bread" else 65536)


def words_of(read):
    """What the rows of a read begin with, the unit of each, and the number of a word in it, None of a block."""
    word, *name, first, count = read.split()
    at, size = int(first), int(count)
    if word == "bread":
        return [(f"block {b}", ("block", b), None) for b in range(at, at + size)]
    space = ("file", *name) if name else ("line",)
    what = f"file {name[0]}" if name else "volume"
    return [(f"{what} {64 * n + 8 * w}", (*space, n), w) for n in touched(at, size) for w in range(8)
            if at < 64 * n + 8 * w + 8 and 64 * n + 8 * w < at + size]


def sides_in(state, world, unit):
    """What may be found of a unit in one world: no such file, the end of one, or what the unit holds."""
    files = world.get("files", state.files)
    if unit[0] == "file" and unit[1] not in files:
        return ["missing"]
    if unit[0] == "file" and ends_before(files[unit[1]], unit[2]):
        return ["range"]
    return world.get(unit) or [state.unit(unit, files)]


def sides_of(state, worlds, unit):
    """The same in several worlds, the old one first."""
    return [side for world in ({}, *worlds) for side in sides_in(state, world, unit)]


def values_of(sides, w):
    """The words of a row, each once."""
    holds = [side for side in sides if not isinstance(side, str)]
    marks = [mark for mark in ("missing", "range") if mark in sides] + (["poison"] if any(line[0] for line in holds) else [])
    return marks + list(dict.fromkeys(spelled(value) for bad, _, words in holds if not bad for value in words[w][1]))


def sights_of(unit, sides):
    seen = [sight(unit, side) for side in sides]
    return list(dict.fromkeys(spelled(what) if isinstance(what, bytes) else what if what == SCARRED else f"poison {what}" for what in seen))


def texts_of(unit, sides, w):
    """How a word of a unit, or a block, may be found, each once."""
    return sights_of(unit, sides) if w is None else values_of(sides, w)


def table_of(places, reads):
    """The lines of a table."""
    lines, before = [], None
    for name, state, worlds in places:
        rows = []
        for k, read in enumerate(reads, 1):
            fault = refusal(read)
            for begins, unit, w in [] if fault else words_of(read):
                rows.append(" ".join([str(k), begins, *texts_of(unit, sides_of(state, worlds, unit), w)]))
            rows += [f"{k} {fault}"] if fault else []
        new = [row for i, row in enumerate(rows) if before is None or row != before[i]]
        lines += [name, *new] if new else []
        before = rows
    return lines
