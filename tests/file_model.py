"""Files and mappings for tests/cut_model.py: what a command is answered, the state after it, and what a cut inside it may leave.

Each command gives its reply, None where that isn't looked at, the state after it, and the worlds that a cut inside it may leave; none
where it is refused. A world tells of some lines what they may be then, or of all files together.
"""
from collections import namedtuple

from line_model import CLEAN, covers, data_of, durable, first_fault, lasts, overlaps, printed, put, rested, span_fault, synced, touched

ROOM = 16  # pages of all files together that may be no holes
# How many pages it has, which of them are no holes, and its lines by number.
File = namedtuple("File", "pages there lines")
# Of which file it shows bytes, or has them copied.
Mapping = namedtuple("Mapping", "name start size shared")
NO_MAPS = (0, {})  # the next handle, and the mappings by handle


def ends_before(file, n):
    return 64 * n >= 4096 * file.pages


def line_of(files, name, n):
    """Line n of a file, None where it ends before, or there is none."""
    return files[name].lines.get(n, CLEAN) if name in files and not ends_before(files[name], n) else None


def told_bad(name, n):
    return f"poison file {name} {64 * n} 64"


def settled(files):
    return {name: file._replace(lines={n: rested(line) for n, line in file.lines.items()}) for name, file in files.items()}


def refused(state, reply):
    return reply, state, None


def as_one(state, files, reply="ok"):
    """All files are as they were, or as they are to be."""
    return reply, state.with_(files=files), [{}, {"files": files}]


def by_line(state, name, new, pages=frozenset(), reply="ok"):
    """Each of these lines is as it was, or as it is to be."""
    file = state.files[name]
    after = file._replace(there=file.there | pages, lines={**file.lines, **new})
    worlds = [{("file", name, n): (line_of(state.files, name, n), line) for n, line in new.items()}]
    return reply, state.with_(files={**state.files, name: after}), worlds


def lowest_bad(file, name, lines):
    return next((told_bad(name, n) for n in sorted(lines) if file.lines.get(n, CLEAN)[0]), None)


def full(files, name, pages):
    used = sum(len(file.there) for file in files.values()) + len(pages - files[name].there)
    return "refused full" if used > ROOM else None


def read(state, name, at, size):
    file = state.files[name]
    fault = span_fault(at, size, 4096 * file.pages, 65536) or lowest_bad(file, name, touched(at, size))
    if fault:
        return refused(state, fault)
    data = b"".join(lasts(line_of(state.files, name, n)) for n in touched(at, size))
    return printed(data[at % 64:at % 64 + size]), state, [{}]


def store(state, name, at, data):
    file, lines = state.files[name], touched(at, len(data))
    pages = frozenset(n // 64 for n in lines)
    fault = span_fault(at, len(data), 4096 * file.pages) or full(state.files, name, pages)
    fault = fault or lowest_bad(file, name, [n for n in lines if not covers(at, len(data), n)])
    if fault:
        return refused(state, fault)
    return by_line(state, name, {n: put(line_of(state.files, name, n), n, at, data) for n in lines}, pages)


def write_together(state, name, pairs):
    """The pages that ranges touch are written anew, and all of their lines are durable."""
    file, spans = state.files[name], [(at, len(data)) for at, data in pairs]
    pages = frozenset(n // 64 for at, size in spans for n in touched(at, size))
    lines = [n for page in sorted(pages) for n in range(64 * page, 64 * page + 64)]
    fault = first_fault(spans, 4096 * file.pages, ["refused limit"] * (len(pages) > 16 or len(pairs) > 8) + overlaps(spans))
    fault = fault or full(state.files, name, pages)
    fault = fault or lowest_bad(file, name, [n for n in lines if not any(covers(at, size, n) for at, size in spans)])
    if fault:
        return refused(state, fault)
    new = dict(file.lines)
    for n in lines:
        line = new.get(n, CLEAN)
        for at, data in pairs:
            line = put(line, n, at, data)
        new[n] = (False, False, durable(line[2]))
    return as_one(state, {**state.files, name: File(file.pages, file.there | pages, new)})


def without(file, pages):
    """The file with these pages made holes."""
    return file._replace(there=file.there - pages, lines={n: line for n, line in file.lines.items() if n // 64 not in pages})


def discard(state, name, first, count):
    file = state.files[name]
    fault = span_fault(first, count, file.pages)
    if fault:
        return refused(state, fault)
    return as_one(state, {**state.files, name: without(file, frozenset(range(first, first + count)))})


def flush(state, name, lines, looks=False):
    """Lines of holes are passed over; what is lost is told only where it is looked for."""
    file = state.files[name]
    fault = lowest_bad(file, name, lines)
    if fault:
        return refused(state, fault)
    new = {n: synced(file.lines[n]) for n in sorted(lines) if n in file.lines}
    lost = [n for n, line in new.items() if line[0]]
    return by_line(state, name, new, reply=f"verify file {name} {64 * lost[0]} 64" if looks and lost else "ok")


def mark(state, word, name, at):
    file, n = state.files[name], at // 64
    if at >= 4096 * file.pages or n // 64 not in file.there:
        return refused(state, "refused range" if at >= 4096 * file.pages else "refused nothing")
    bad, _, words = line_of(state.files, name, n)
    if word == "clear" and not bad:
        return refused(state, "refused notpoisoned")
    new = CLEAN if word == "clear" else (True, True, words) if bad or word == "poison" else (False, True, words)
    after = {**state.files, name: file._replace(lines={**file.lines, n: new})}
    return as_one(state, after) if word == "clear" else ("ok", state.with_(files=after), [{}])


def change_names(state, word, name, words):
    """create, delete, rename and resize."""
    files, pages = dict(state.files), int(words[0]) if word in ("create", "resize") else 0
    exists = name in files if word == "create" else word == "rename" and words[0] in files
    fault = "refused exists" if exists else None
    if not fault and word != "create" and any(mapping.name == name for mapping in state.maps[1].values()):
        fault = "refused mapped"
    fault = fault or ("refused limit" if pages > 256 else None)
    if fault:
        return refused(state, fault)
    old = files.pop(name, None)
    if word == "create":
        files[name] = File(pages, frozenset(), {})
    elif word == "rename":
        files[words[0]] = old
    elif word == "resize":
        files[name] = without(old, frozenset(range(pages, old.pages)))._replace(pages=pages)
    return as_one(state, files)


def map_file(state, name, at, size, kind):
    fault = span_fault(at, size, 4096 * state.files[name].pages)
    if not fault and kind == "private":
        fault = lowest_bad(state.files[name], name, touched(at, size))
    if fault:
        return refused(state, fault)
    handle, maps = state.maps
    mapping = Mapping(name, at, size, kind == "shared")
    return f"handle {handle}", state.with_(maps=(handle + 1, {**maps, handle: mapping})), [{}]


def by_handle(state, word, handle, words):
    """What is done through a mapping. A private one changes no file, and the bytes of its copy are not kept."""
    following, maps = state.maps
    if handle not in maps:
        return refused(state, "refused handle")
    if word == "unmap":
        return "ok", state.with_(maps=(following, {h: mapping for h, mapping in maps.items() if h != handle})), [{}]
    mapping = maps[handle]
    data = data_of(words[1]) if word == "store" else b""
    spans = [(int(words[0]), len(data))] if word == "store" else list(zip(map(int, words[::2]), map(int, words[1::2])))
    fault = first_fault(spans, mapping.size)
    if fault:
        return refused(state, fault)
    if not mapping.shared:
        return None if word == "load" else "ok", state, [{}]
    if word == "load":
        return read(state, mapping.name, mapping.start + spans[0][0], spans[0][1])
    if word == "store":
        return store(state, mapping.name, mapping.start + spans[0][0], data)
    lines = {n for at, size in spans for n in touched(mapping.start + at, size)}
    return flush(state, mapping.name, lines, word == "flushv")


def check(state, name, at, size):
    fault = span_fault(at, size, 4096 * state.files[name].pages)
    if fault:
        return refused(state, fault)
    bad = [64 * n for n in touched(at, size) if line_of(state.files, name, n)[0]]
    return " ".join(map(str, ["bad", len(bad), *bad])), state, [{}]


def by_name(state, word, name, words):
    """All that is done to a file by its name."""
    if word != "create" and name not in state.files:
        return refused(state, "refused missing")
    if word in ("create", "delete", "rename", "resize"):
        return change_names(state, word, name, words)
    if word == "fwrite":
        return store(state, name, int(words[0]), data_of(words[1]))
    if word in ("fatomic", "fmulti"):
        return write_together(state, name, [(int(at), data_of(data)) for at, data in zip(words[::2], words[1::2])])
    if word == "fsync":
        return flush(state, name, state.files[name].lines)
    if word in ("poison", "weaken", "clear"):
        return mark(state, word, name, int(words[0]))
    at, size = int(words[0]), int(words[1])
    if word == "map":
        return map_file(state, name, at, size, words[2])
    return {"fread": read, "fdiscard": discard, "check": check}[word](state, name, at, size)


def step(state, word, words):
    """What a command on files or through a mapping does, None of any other command."""
    if word == "list":
        return " ".join(["files", *(f"{name}:{state.files[name].pages}" for name in sorted(state.files))]), state, [{}]
    if word in ("unmap", "load", "store", "sync", "flush", "flushv", "deepflush"):
        return by_handle(state, word, int(words[0]), words[1:])
    if word in ("poison", "weaken", "clear") and words[0] == "file":
        return by_name(state, word, words[1], words[2:])
    named = ("create", "delete", "rename", "resize", "fread", "fwrite", "fatomic", "fmulti", "fdiscard", "fsync", "map", "check")
    return by_name(state, word, words[0], words[1:]) if word in named else None
