#!/usr/bin/env python3
"""tests/ends_of_runs.py PROGRAM: runs one after another over images of 8 2 32: each is stored whatever state it ends in, and what the next
run and `check` find then; and three runs leave what one run of all their lines leaves.

Prints what does not fit, and nothing else.
"""
import os
import subprocess
import sys
import tempfile

# Words, script, status and what is written, the lines of both with `; ` between them.
RUNS = (
    # without power
    ("run img dark", "bwrite 1 07*512; vstore 0 01; vstore 0 02; fail in 1; cut in 9; cut", 0, "ok; ok; ok; ok; ok; ok"),
    ("run dark dark", "vload 0 2; bread 1 1; bread 0 1", 0, "data 02,00; data 07*512; data 00*512"),
    ("check dark", "", 0, "ok 5056 bad 0"),
    # after a failed call, with one more to come
    ("run img failed", "vstore 0 01; vstore 0 02; fail in 1; vsync 0 1; fail in 1", 0, "ok; ok; ok; refused device; ok"),
    ("run failed failed", "vload 0 2; recover", 0, "data 02,00; refused on"),
    ("check failed", "", 0, "ok 5056 bad 0"),
    # stopped by bad metadata
    ("run img stopped", "vstore 0 01; poison meta 9; cut; restart all", 0, "ok; ok; ok; stopped meta 9"),
    ("check stopped", "", 3, "error meta 9"),
    ("run stopped out", "vload 0 1", 3, "error meta 9"),
    # with bad metadata that no mount has found yet
    ("run img on", "vstore 0 01; poison meta 0; vload 0 1", 0, "ok; ok; data 01"),
    ("check on", "", 3, "error meta 0"),
    ("run img off", "poison meta 2303; poison meta 18; cut", 0, "ok; ok; ok"),
    ("check off", "", 3, "error meta 18"),
    ("run img unsettled", "vstore 0 01; fail in 1; vsync 0 1; poison meta 2303", 0, "ok; ok; refused device; ok"),
    ("check unsettled", "", 3, "error meta 2303"),
    # with files, the second time in a change that was cut
    ("run img files", "create b 2; create a 1", 0, "ok; ok"),
    ("run files files", "list; rename b c; cut in 2; delete a", 0, "files a:1 b:2; ok; ok; power lost"),
    ("run files files", "list", 0, "files a:1 c:2"),
    # with a bad line of a file and a weak one, and an event that nobody took
    ("run img worn", "create a 1; fwrite a 0 01*128; weaken file a 0; poison file a 64", 0, "ok; ok; ok; ok"),
    ("run worn worn", "event; event; map a 0 64 shared; sync 0 0 1; event",
     0, "event a 64 64 unmapped restart; none; handle 0; ok; event a 0 64 mapped live"),
    ("check worn", "", 0, "ok 5056 bad 2"),
    ("check img", "", 0, "ok 5056 bad 0"),
    # what was stored and not synced, and then a cut: the next run has all of it, and so has one after a failed call
    ("run img settled", "vstore 60 aa*8", 0, "ok"),
    ("run settled settled", "cut", 0, "ok"),
    ("run settled settled", "vload 58 12; fail in 2; vstore 60 bb*8", 0, "data 00*2,aa*8,00*2; ok; refused device"),
    ("run settled settled", "vload 58 12", 0, "data 00*2,bb*4,aa*4,00*2"),
)

# Five commands, so many times; and how many bytes are written.
PART = "vstore 4090 01*9; bwrite 3 05*1024; vdiscard 1 1; vsync 0 64; bdiscard 4 1"
THREE_AND_ONE = (
    ("run img first", 200, 3000),
    ("run first second", 200, 3000),
    ("run second three", 200, 3000),
    ("run img once", 600, 9000),
)


def lines(text):
    return text.replace("; ", "\n") + "\n" if text else ""


def main():
    program = os.path.abspath(sys.argv[1])
    with tempfile.TemporaryDirectory() as room:

        def ran(words, script=""):
            done = subprocess.run([program, *words.split()], cwd=room, input=script, capture_output=True, text=True, timeout=60)
            return done.returncode, done.stdout

        ran("new img 8 2 32")
        for words, script, status, text in RUNS:
            found = ran(words, lines(script))
            if found != (status, lines(text)):
                print(f"{words}, {script}: {found}")
        for words, times, size in THREE_AND_ONE:
            status, said = ran(words, lines(PART) * times)
            if (status, len(said)) != (0, size):
                print(f"{words}: {status}, and {len(said)} bytes")
        with open(f"{room}/once", "rb") as one, open(f"{room}/three", "rb") as three:
            if one.read() != three.read():
                print("three runs leave another image than one")


if __name__ == "__main__":
    main()
