#!/usr/bin/env python3
"""tests/changed_images.py PROGRAM: a fresh image, and what `check` says of it once it is changed in one place.

Prints what does not fit, and nothing else.
"""
import os
import subprocess
import sys
import tempfile

HEAD = 24  # magic, unit and number of lines
LINE = 65  # a tag, and the 64 bytes of a line that is not bad


def number(*values):
    return b"".join(value.to_bytes(8, "little") for value in values)


def tag(line):
    """Where its tag stands."""
    return HEAD + LINE * line


def put(image, at, new):
    return image[:at] + new + image[at + len(new):]


def word(image, place, value):
    return put(image, tag(place // 8) + 1 + 8 * (place % 8), number(value))


def bad(image, line):
    """That line with its tag alone."""
    return image[:tag(line)] + b"\2" + image[tag(line + 1):]


# Head, superblock, and zeros.
FRESH = b"NVMIMG01" + number(8, 5056) + b"\0NVMPMH01" + number(1, 8, 2, 32, 2304, 5056, 8) + bytes(LINE * 5055)

# How many bytes are left, and where the first field begins that is cut short or missing.
CUTS = ((0, 0), (7, 0), (8, 8), (15, 8), (16, 16), (23, 16), (24, 24), (25, 25), (88, 25), (89, 89))


def weak(image):
    """Its first line is weak."""
    return put(image, tag(0), b"\1")


def weak_and_bad(image):
    """Two lines."""
    return put(weak(image), 16, number(2))[:tag(1)] + b"\2"


CHANGES = (
    ("nothing", lambda image: image, "ok 5056 bad 0"),
    ("the first byte is 00", lambda image: put(image, 0, b"\0"), "error image 0"),
    ("the eighth byte is 2", lambda image: put(image, 7, b"2"), "error image 0"),
    ("the unit is 9", lambda image: put(image, 8, number(9)), "error image 8"),
    ("the first 16 bytes alone", lambda image: image[:16], "error image 16"),
    ("0 lines", lambda image: put(image, 16, number(0)), "error image 16"),
    ("118,017 lines", lambda image: put(image, 16, number(118_017)), "error image 16"),
    ("118,016 lines are told", lambda image: put(image, 16, number(118_016)), "error image 328664"),
    ("5,055 lines are told", lambda image: put(image, 16, number(5055)), "error image 328599"),
    ("the tag of line 0 is 3", lambda image: put(image, tag(0), b"\3"), "error image 24"),
    ("the tag of line 0 is 2, with its 64 bytes", lambda image: put(image, tag(0), b"\2"), "error image 25"),
    ("line 0 is weak, and its bytes are cut short", lambda image: put(image, tag(0), b"\1")[:tag(0) + 11], "error image 25"),
    ("the tag of line 3 is 3", lambda image: put(image, tag(3), b"\3"), "error image 219"),
    ("the tag of line 3 is 2, with its 64 bytes", lambda image: put(image, tag(3), b"\2"), "error image 328600"),
    *((f"the first {left} bytes", lambda image, left=left: image[:left], f"error image {at}") for left, at in CUTS),
    *((f"the first {left} bytes, and line 0 is weak", lambda image, left=left: weak(image)[:left], f"error image {at}") for left, at in CUTS[6:]),
    ("a weak line and a bad one", weak_and_bad, "error layout 6"),
    ("a weak line, a bad one and 64 bytes", lambda image: weak_and_bad(image) + bytes(64), "error image 90"),
    ("line 0 is bad", lambda image: bad(image, 0), "error meta 0"),
    ("one byte is missing", lambda image: image[:-1], "error image 328600"),
    ("one byte after the end", lambda image: image + b"\0", "error image 328664"),
    ("words 0 and 1 are 0", lambda image: word(word(image, 0, 0), 1, 0), "error layout 0"),
    ("word 2 is 9", lambda image: word(image, 2, 9), "error layout 2"),
    ("5,055 lines", lambda image: put(image, 16, number(5055))[:-LINE], "error layout 6"),
    ("line 3 is weak", lambda image: put(image, tag(3), b"\1"), "error layout 24"),
    ("word 8 is 2", lambda image: word(image, 8, 2), "error layout 8"),
    ("word 8 is 1, word 9 is 0", lambda image: word(word(image, 8, 1), 9, 0), "error layout 9"),
    ("word 144 is 74", lambda image: word(image, 144, 74), "error layout 144"),
    ("words 144 and 145 are 2", lambda image: word(word(image, 144, 2), 145, 2), "error layout 145"),
    ("word 144 is 74, word 145 is 2", lambda image: word(word(image, 144, 74), 145, 2), "error layout 144"),
    ("word 152 is 2", lambda image: word(image, 152, 2), "error layout 152"),
    ("word 673 is 2", lambda image: word(image, 673, 2), "error layout 673"),
    ("word 674 is 2", lambda image: word(image, 674, 2), "ok 5056 bad 0"),
    ("word 680 is 2", lambda image: word(image, 680, 2), "error layout 680"),
    ("word 1232 is 1", lambda image: word(image, 1232, 1), "error layout 1233"),
    ("word 1744 is 1", lambda image: word(image, 1744, 1), "error layout 1744"),
)


def main():
    program = os.path.abspath(sys.argv[1])
    with tempfile.TemporaryDirectory() as room:
        subprocess.run([program, "new", "img", "8", "2", "32"], cwd=room, check=True, stdout=subprocess.DEVNULL)
        with open(f"{room}/img", "rb") as file:
            fresh = file.read()
        if fresh != FRESH:
            print(f"a fresh image of {len(fresh)} bytes begins with {fresh[:tag(1)]!r}")
        for change, made, line in CHANGES:
            with open(f"{room}/changed", "wb") as file:
                file.write(made(fresh))
            done = subprocess.run([program, "check", "changed"], cwd=room, stdin=subprocess.DEVNULL, capture_output=True, text=True, timeout=60)
            if (done.returncode, done.stdout) != (0 if line.startswith("ok") else 3, line + "\n"):
                print(f"{change}: {done.returncode} {done.stdout!r}")


if __name__ == "__main__":
    main()
