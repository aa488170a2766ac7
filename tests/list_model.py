"""What `# list` prints, for tests/drawn_questions.py: by the model of tests/cut_model.py, each mixture that some place leaves.

A look's parts are words and blocks, each once. Of an outcome it keeps the number of each part's text, among all that the part has as the
program goes on.
"""
import itertools
import math

from table_model import refusal, sides_in, texts_of, words_of

LINES = 1 << 26  # of 4 GiB: no file has more


def numbered(sides, unit, parts, texts):
    """For each side of a unit its parts, and for each of these its texts there: the number of the part and that of the text."""
    return [[[(i, texts[i].index(text)) for text in texts_of(unit, [side], w)] for i, w in parts] for side in sides]


def outcomes_of(places, parts, texts, most):
    """The first place of each outcome, None where a world has more of them than `most`."""
    units = {}
    for i, (_, unit, w) in enumerate(parts):
        units.setdefault(unit, []).append((i, w))
    first, known = {}, []
    for name, state, worlds in places:
        for world in worlds:
            left = [numbered(sides_in(state, world, unit), unit, some, texts) for unit, some in units.items()]
            if left in known:
                continue
            known.append(left)
            if math.prod(max(math.prod(map(len, side)) for side in sides) for sides in left) > most:
                return None
            for some in itertools.product(*({way for side in sides for way in itertools.product(*side)} for sides in left)):
                first.setdefault(tuple(number for _, number in sorted(itertools.chain(*some))), name)
            if len(first) > most:
                return None
    return first


def in_order(part):
    """Words of the volume stand before blocks, and these before words of files, which stand by name; each by its address."""
    _, (kind, *where), w = part
    return ("line", "block", "file").index(kind), where, w or 0


def parts_of(reads):
    """What the parts begin with, the unit of each, and the number of a word in it, None of a block."""
    return sorted({part for read in reads if not refusal(read) for part in words_of(read) if part[1][-1] < LINES}, key=in_order)


def list_of(places, parts, most):
    """The lines of a list, None where it has more outcomes than `most`."""
    states = [state for name, state, _ in places if name.startswith("before")]
    texts = [texts_of(unit, [side for state in states for side in sides_in(state, {}, unit)], w) for _, unit, w in parts]
    first = outcomes_of(places, parts, texts, most)
    if first is None:
        return None
    told = [first[some] + "".join(f" | {parts[i][0]} {texts[i][n]}" for i, n in enumerate(some)) for some in sorted(first)]
    return [*told, f"outcomes {len(first)}"]
