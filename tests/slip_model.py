"""What is wrong with a reply that is asked of a read, on an image of the sizes of cut_model."""
from cut_model import BLOCKS, PAGES
from line_model import data_of

MOST_BYTES, MOST_BLOCKS = 65536, 128


def refusal_of(name, first, count):
    """By which word the sizes refuse a read of the volume or of blocks, if they do."""
    size, most = (BLOCKS, MOST_BLOCKS) if name == "bread" else (4096 * PAGES, MOST_BYTES)
    if first + count > size:
        return "range"
    return "length" if count == 0 else "limit" if count > most else None


def may_be_refused(name, first, count, why):
    if name != "fread":
        return why == refusal_of(name, first, count)
    whys = {"missing": True, "range": first or count, "length": count == 0, "limit": count > MOST_BYTES}
    return bool(whys.get(why))


def may_be_given(name, first, count):
    return 0 < count <= MOST_BYTES if name == "fread" else refusal_of(name, first, count) is None


def place_is_wrong(first, count, words):
    """Whether a line or a block that is named is none of the read's."""
    if "volume" in words[:2] or "file" in words[:2]:
        at = int(words[-2])
        return at % 64 != 0 or first // 64 > at // 64 or at >= first + count and at >= first
    block, *line = map(int, words[-1:] if words[0] == "scarred" else words[2:])
    return not first <= block < first + count or any(n > 7 for n in line)


def slip_of(read, reply):
    """`kind`, `length`, `place` or `refusal`, or None where the read may be answered so."""
    name, *file, first, count = read.split()
    first, count, words = int(first), int(count), reply.split()
    if words[0] == "_":
        return None
    if words[0] == "refused":
        return None if may_be_refused(name, first, count, words[1]) else "refusal"
    if words[0] == "data":
        if len(data_of(words[1])) != count * (512 if name == "bread" else 1):
            return "length"
    else:
        of_blocks = words[0] == "scarred" or words[1] == "block"
        if of_blocks != (name == "bread") or not of_blocks and words[1:-2] != (["file", *file] if file else ["volume"]):
            return "kind"
        if place_is_wrong(first, count, words):
            return "place"
    return None if may_be_given(name, first, count) else "refusal"


def first_slip(reads, replies):
    """The reason for which a question of these replies is not taken, if any."""
    slips = ((k, slip_of(read, reply)) for k, (read, reply) in enumerate(zip(reads, replies), 1))
    return next((f"reply {k} {slip}" for k, slip in slips if slip), None)
