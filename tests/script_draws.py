"""Lines of scripts, drawn for tests/drawn_questions.py."""
from cut_model import BLOCKS, PAGES
from line_model import data_of, printed

HOMES = (0, 1, 2, 62, 63, 64, 65, 127, 128, 129, 191)  # lines of the volume, and from the number eight on blocks anew
FEW = ("vstore", "vstore", "vstore", "vsync", "bwrite", "batomic")
FIRST = ("vstore", "vstore", "vsync", "bwrite")
ALL = FEW + (  # `cut in` is last here and below: lines that leave an image have all but that
    "vstore", "vsync", "vpsync", "vdiscard", "vdiscardif", "bmulti", "bdiscard", "bdiscardif", "bscar", "poison volume", "weaken volume",
    "weaken volume", "clear volume", "poison block", "vload", "bread", "evict", "other", "cut in")
OTHERS = ("event", "list", "vranges", "vexists 1", "bexists 1", "attr block.count", "", "# a comment")
NAMES = ("f", "f", "f", "g", "log-2")
OF_FILES = (
    "fwrite", "fwrite", "fwrite", "store", "store", "store", "fsync", "sync", "sync", "flush", "flushv", "deepflush", "fatomic", "fatomic",
    "fmulti", "fdiscard", "create", "delete", "rename", "rename", "resize", "map", "map", "unmap", "load", "fread", "check", "poison file",
    "weaken file", "weaken file", "clear file", "evict", "other", "cut in")
MIXED = ALL + OF_FILES
LEFT = FIRST * 6 + ALL[:-1] + OF_FILES[:-1]


def near(draw, homes):
    return max(0, 64 * draw.choice(homes) + draw.choice((0, 0, 0, 8, 8, 16, 60, -4, draw.randrange(64))))


def data_drawn(draw, size):
    first = draw.randrange(9)
    return ",".join(f"{first + i:02x}" for i in range(size)) if size < 25 and draw.randrange(4) == 0 else f"{first:02x}*{size}"


def blocks_drawn(draw, count):
    return data_drawn(draw, 512 * count) if draw.randrange(3) == 0 else ",".join(data_drawn(draw, 256) for _ in range(2 * count))


def order(draw, homes, ranges, kinds):
    """One line of a program."""
    kind = draw.choice(kinds)
    if kind in OF_FILES and kind not in ALL:
        return order_of_file(draw, homes, kind)
    at, size = near(draw, homes), draw.choice((1, 8, 64, 70, 130, draw.randrange(200)))
    block, count = draw.choice(homes) % BLOCKS, draw.choice((1, 1, 2, 2, 3))
    other = (block + draw.choice((1, 3, 4, 6))) % BLOCKS
    if kind == "vstore":
        small = (1, 8, 8, 16, 24, draw.randrange(1, 25), draw.randrange(1, 25))
        return f"vstore {at} {data_drawn(draw, draw.choice(small if kinds is FEW else small + (64, 140, 140)))}"
    if kind in ("vsync", "vload"):
        return f"{kind} {at} {size}"
    if kind == "vpsync":
        offset, address, length = ranges[at >= ranges[1][0]]
        return f"vpsync {address + (at - offset if draw.randrange(5) else length - draw.randrange(90))} {size}"
    if kind in ("bwrite", "batomic"):
        return f"{kind} {block} {blocks_drawn(draw, count) if draw.randrange(20) else '05*100'}"
    if kind == "bmulti":
        return f"bmulti {block} {blocks_drawn(draw, count)} {other} {blocks_drawn(draw, 1)}"
    if kind == "bscar":
        return f"bscar {block} {count}" + draw.choice(("", f" {other} 1"))
    if kind in ("bdiscard", "bdiscardif", "bread"):
        return f"{kind} {block} {count}"
    if kind in ("vdiscard", "vdiscardif"):
        return f"{kind} {draw.randrange(PAGES)} {draw.choice((0, 1, 1, 1, 2, 2, 3))}"
    if kind == "poison block":
        return f"poison block {block} {draw.choice((0, 3, 7))}"
    if kind in ("evict", "cut in"):
        return f"{kind} {draw.randrange(1, 30)}"
    return draw.choice(OTHERS) if kind == "other" else f"{kind} {at}"


def order_of_file(draw, homes, kind):
    """One that names a file or a mapping."""
    name, pages, handle = draw.choice(NAMES), draw.choice((0, 1, 1, 2, 2, 3, 3, 257)), draw.choice((0, 0, 0, 0, 1, 1, 2))
    at, size = near(draw, homes), draw.choice((1, 8, 8, 16, 64, 70, 140, draw.randrange(200)))
    data, page = data_drawn(draw, size or 8), draw.randrange(3)
    if kind in ("create", "resize"):
        return f"{kind} {name} {pages}"
    if kind == "map":
        how = draw.choice(("shared", "shared", "private"))
        return f"map {name} {draw.choice((0, 0, 0, 4096))} {draw.choice((4096, 8192, 12288))} {how}"
    if kind == "store":
        return f"store {handle} {at} {data}"
    if kind in ("sync", "load", "flush", "flushv", "deepflush"):
        more = f" {near(draw, homes)} 8" if kind in ("flush", "flushv", "deepflush") and draw.randrange(2) else ""
        return f"{kind} {handle} {at} {size}{more}"
    if kind in ("fwrite", "fatomic"):
        return f"{kind} {name} {at} {data}"
    if kind == "fmulti":
        return f"fmulti {name} {at} {data} {near(draw, homes)} {data_drawn(draw, 9)}"
    if kind in ("fread", "check"):
        return f"{kind} {name} {at} {size}"
    words = {"unmap": handle, "rename": f"{name} {draw.choice(NAMES)}", "fdiscard": f"{name} {page} {draw.choice((0, 1, 1, 2))}"}
    return f"{kind} {words.get(kind, name)}" + (f" {at}" if kind.endswith(" file") else "")


def files_drawn(draw):
    """Lines that make files and mappings."""
    lines = ("create f 3", "create g 2", "map f 0 12288 shared", "map g 4096 4096 shared", "map f 4096 8192 private", "unmap 0")
    full = ["create log-2 15", "fwrite log-2 0 05*61440"] if draw.randrange(12) == 0 else []
    return full + [line for line, most in zip(lines, (9, 5, 7, 3, 2, 1)) if draw.randrange(10) < most]


def story_of_files(draw, homes):
    """Lines that change two lines of a file by one command, or heal one, or rename a file before it is durable; and reads of these."""
    at, v, page = 64 * draw.choice(homes) % 8192, draw.randrange(1, 8), draw.randrange(2)
    kind = draw.randrange(5)
    reads = [f"fread f {at} {draw.choice((8, 128))}", f"fread f {at + 64} 8"]
    if kind == 0:
        weakened = [f"fwrite f {at} 0{v}*128", f"weaken file f {at}", f"weaken file f {at + 64}"]
        lines = [*weakened, draw.choice(("fsync f", f"flushv 0 {at} 65"))]
    elif kind == 1:
        healed = draw.choice((f"fwrite f {at} 08*64", f"clear file f {at}", f"fatomic f {at} 08*64"))
        lines = [f"fwrite f {at} 0{v}*8", f"poison file f {at}", healed, f"store 0 {at} 0{v}", f"sync 0 {at} 1"]
    elif kind == 2:
        last, first = 4096 * page + 4088, 4096 * page + 4096
        both = f"fatomic f {last} 08*16", f"fmulti f {first} 08*8 {last} 08*8", f"fdiscard f {page} 2", f"resize f {page}"
        lines = ["unmap 0", f"fwrite f {last} 0{v}*16", "fsync f", draw.choice((*both, f"fwrite f {last} 08*16"))]
        reads = [f"fread f {last} 8", f"fread f {first} 8"]
    elif kind == 3:
        synced = draw.choice(([], ["fsync f"]))
        lines = ["unmap 0", f"fwrite f {at} 0{v}*8", *synced, *draw.choice((["rename f g"], ["delete g", "rename f g"], ["delete f"]))]
        reads = [f"fread f {at} 8", f"fread g {at} 8"]
    else:
        lines = [f"store 0 {at} 0{v}*128", f"store 0 {at} 08*8", f"flush 0 {at} 8 {at + 64} 8", "unmap 0"]
    return ["create f 3", "map f 0 12288 shared", *lines, "create mark 1", "fatomic mark 0 09"], [*reads, "fread mark 0 1"]


def story(draw, homes):
    """Lines that change two units by one command, or heal one, and then write a block; and reads of these."""
    at, block, v = 64 * min(draw.choice(homes), 190), draw.choice(homes) % (BLOCKS - 1), draw.randrange(1, 8)
    kind = draw.randrange(4)
    if kind == 0:
        lines = [f"vstore {at} 0{v}*128", f"weaken volume {at}", f"weaken volume {at + 64}", f"vsync {at} 65"]
        reads = [f"vload {at} {draw.choice((8, 128))}", f"vload {at + 64} 8"]
    elif kind == 1:
        healed = draw.choice((f"vstore {at} 08*64", f"clear volume {at}"))
        lines = [f"vstore {at} 0{v}*8", f"weaken volume {at}", f"poison volume {at}", healed, f"vstore {at} 0{v}", f"vsync {at} 1"]
        reads = [f"vload {at} {draw.choice((8, 64))}"]
    elif kind == 2:
        page = draw.randrange(PAGES - 1)
        last, first = 4096 * page + 4088, 4096 * page + 4096
        lines = [f"vstore {last} 0{v}*8", f"vsync {last} 8", f"vstore {first} 0{v}*8", f"vsync {first} 8"]
        lines.append(f"{draw.choice(('vdiscard', 'vdiscardif'))} {page} 2")
        reads = [f"vload {last} 8", f"vload {first} 8"]
    else:
        change = draw.choice((f"bwrite {block} 08*1024", f"batomic {block} 08*1024", f"bmulti {block} 08*512 {block + 1} 08*512"))
        lines = [f"bwrite {block} 0{v}*1024", change, f"{draw.choice(('bdiscard', 'bdiscardif', 'bscar'))} {block} 2"]
        reads = [f"bread {block} {draw.choice((1, 2))}", f"bread {block + 1} 1"]
    other = (block + 4) % BLOCKS
    return [*lines, f"bwrite {other} 09*512"], [*reads, f"bread {other} 1"]


def read_drawn(draw, homes, of_files):
    if of_files and draw.randrange(4):
        return f"fread {draw.choice(NAMES)} {near(draw, homes)} {draw.choice((1, 8, 8, 16, 64, 72, 130, draw.choice((0, 300, 8000))))}"
    if draw.randrange(3) == 0:
        return f"bread {draw.choice(homes) % BLOCKS} {draw.choice((1, 1, 2, 3, draw.randrange(9)))}"
    return f"vload {near(draw, homes)} {draw.choice((1, 8, 8, 16, 64, 72, 130, draw.randrange(150), draw.choice((0, 300, 8000))))}"


def altered(draw, read, reply):
    """Another reply: one word of its bytes is drawn, or one byte of it, or it is too long or too short, or of another kind."""
    pick = draw.randrange(12)
    if pick < 2 or not reply.startswith("data"):
        *name, first, count = read.split()[1:]
        n = int(first) + draw.randrange(int(count) + 1)
        where = f"file {name[0]}" if name else "volume"
        of_lines = (f"poison {where} {n // 64 * 64} 64", f"poison {where} {n // 64 * 64 + 8} 64")
        of_blocks = (f"scarred {n}", f"poison block {n} {draw.choice((0, 3, 7, 8))}")
        return draw.choice(("refused range", "refused length", "refused missing", *(of_blocks if read.startswith("bread") else of_lines)))
    data = data_of(reply.split()[1])
    if pick == 2:
        return printed(data[1:] if len(data) > 1 and draw.randrange(2) else data + b"\0")
    at = draw.randrange(len(data)) if pick < 6 else draw.randrange(len(data)) // 8 * 8
    drawn = bytes([draw.randrange(10)]) * (1 if pick < 6 else 8)
    return printed((data[:at] + drawn + data[at + len(drawn):])[:len(data)])
