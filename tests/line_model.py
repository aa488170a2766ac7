"""Lines and words for tests/cut_model.py and tests/file_model.py: after docs/model.md, not after the definitions.

Of each word it keeps the values that it had since it was durable.
"""
import itertools

ZERO = bytes(8)
# Of a line whether it is bad and whether it is weak, and of each word its last value, and all that a cut may leave, as they came.
CLEAN = (False, False, ((ZERO, (ZERO,)),) * 8)
FAULTS = ("refused range", "refused length", "refused limit", "refused overlap")


def durable(words):
    return tuple((last, (last,)) for last, _ in words)


def touched(at, size):
    return range(at // 64, (at + size - 1) // 64 + 1)


def covers(at, size, n):
    return at <= 64 * n and 64 * n + 64 <= at + size


def put(line, n, at, data):
    """Line n with data stored at an offset; a bad one is made zeros before."""
    bad, weak, words = line
    if bad:
        weak, words = False, CLEAN[2]
    new = []
    for place, (last, values) in zip(range(64 * n, 64 * n + 64, 8), words):
        if at < place + 8 and place < at + len(data):
            last = bytes(data[i - at] if at <= i < at + len(data) else last[i - place] for i in range(place, place + 8))
        new.append((last, values if last in values else (*values, last)))
    return False, weak, tuple(new)


def synced(line):
    bad, weak, words = line
    return (True, weak, words) if bad or weak else (False, False, durable(words))


def rested(line):
    """As the next run finds it: each word has its last value."""
    bad, weak, words = line
    return bad, weak, durable(words)


def lasts(line):
    return b"".join(last for last, _ in line[2])


def span_fault(first, count, most, limit=1 << 32):
    return "refused range" if first + count > most else "refused length" if count == 0 else "refused limit" if count > limit else None


def first_fault(spans, most, others=()):
    """Each fault is looked for in all spans before the next; there may be others of them."""
    told = [fault for fault in (span_fault(at, size, most) for at, size in spans) if fault] + list(others)
    return min(told, key=FAULTS.index, default=None)


def overlaps(spans):
    return ["refused overlap" for i, (a, n) in enumerate(spans) for b, m in spans[:i] if a < b + m and b < a + n]


def data_of(text):
    return b"".join(bytes.fromhex(i.split("*")[0]) * int(i.partition("*")[2] or 1) for i in text.split(","))


def spelled(data):
    runs = [(byte, len(list(run))) for byte, run in itertools.groupby(data)]
    return ",".join(f"{byte:02x}" if n == 1 else f"{byte:02x}*{n}" for byte, n in runs)


def printed(data):
    return "data " + spelled(data)
