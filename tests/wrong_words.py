#!/usr/bin/env python3
"""tests/wrong_words.py PROGRAM: words that are of no form: status 2, the usage line, and nothing done.

Prints what does not fit, and nothing else.
"""
import os
import subprocess
import sys
import tempfile

USAGE = "usage: new IMAGE BLOCKS VPAGES FPAGES, run IN OUT, check IN, bench SEED N, newbyte IMAGE BLOCKS VPAGES FPAGES\n"

LINES = (
    # each line as words that blanks part; '' is an empty word
    "",
    "''",
    "-",
    "--",
    "help",
    "--help",
    "-h",
    "--version",
    "-V",
    "help run",
    "new",
    "new made",
    "new made 8 2",
    "new made 8 2 32 1",
    "new '' 8 2 32",
    "new -made 8 2 32",
    "new made 0 2 32",
    "new made 7 2 32",
    "new made 9 2 32",
    "new made 12 2 32",
    "new made 4104 2 32",
    "new made 8 1 32",
    "new made 8 257 32",
    "new made 8 2 31",
    "new made 8 2 1025",
    "new made -8 2 32",
    "new made 8 +2 32",
    "new made 8 2 x",
    "new made 8 2 0x20",
    "new made 00000000008 2 32",
    "newbyte",
    "newbyte made 8 2",
    "newbyte made 8 2 32 1",
    "newbyte made 12 2 32",
    "newbyte made 8 2 31",
    "new made 4294967304 2 32",
    "New made 8 2 32",
    "run",
    "run img",
    "run img made made",
    "run 8 2 32",
    "Run img made",
    "runs img made",
    "ru img made",
    "run img ''",
    "run -- img made",
    "run img -made",
    "check",
    "check img img",
    "check ''",
    "check -",
    "check --",
    "check -img",
    "check img --help",
    "ch img",
    "img",
    "8 2 32",
    "bench",
    "bench 1",
    "bench 1 0",
    "bench 1 100001",
    "bench 1 1 1",
    "bench x 1",
    "bench 1 x",
    "bench 4294967296 1",
    "bench 1 ''",
    "bench 1 -1",
    "bench '' 1",
)


def main():
    program = os.path.abspath(sys.argv[1])
    with tempfile.TemporaryDirectory() as room:
        subprocess.run([program, "new", "img", "8", "2", "32"], cwd=room, check=True, stdout=subprocess.DEVNULL)
        with open(f"{room}/img", "rb") as file:
            fresh = file.read()
        for line in LINES:
            words = ["" if word == "''" else word for word in line.split()]
            done = subprocess.run([program, *words], cwd=room, input="bwrite 0 11*512\n", capture_output=True, text=True, timeout=60)
            if (done.returncode, done.stdout, os.listdir(room)) != (2, USAGE, ["img"]):
                print(f"{line}: {done.returncode} {done.stdout!r}, and there are {os.listdir(room)}")
        with open(f"{room}/img", "rb") as file:
            if file.read() != fresh:
                print("img has changed")


if __name__ == "__main__":
    main()
