#!/usr/bin/env python3
"""tests/short_questions.py NVMHOST NVMEXPLORE: questions of few lines, each on a fresh image of 8 2 32, and their answers.

Prints what does not fit, and nothing else.
"""
import os
import subprocess
import sys
import tempfile

# Each script with its answers, the lines of both with `; ` between them, and the status.
QUESTIONS = (
    # a record is durable before its flag is stored
    (
        "vstore 64 07*8; vsync 64 8; vstore 0 01; vsync 0 1; # look; vload 0 1; vload 64 8; # never data 01 | data 00*8; "
        "# may data 00 | _",
        "never; may before 1",
        0,
    ),
    # one sync makes both durable, line by line; but the flag may be written back before it
    (
        "vstore 64 07*8; vstore 0 01; vsync 0 72; # look; vload 0 1; vload 64 8; # may data 01 | data 00*8",
        "may inside 2 | volume 0 01,00*7 | volume 64 00*8",
        0,
    ),
    # each value that a word had since its sync may be kept, and no part of one
    (
        "vstore 0 0101; vstore 0 0202; vstore 0 0303; vsync 0 1; # look; vload 0 2; # may data 02,02; # never data 02,03",
        "may inside 2 | volume 0 02*2,00*6; never",
        0,
    ),
    # two blocks are written together, or one by one
    ("batomic 0 01*1024; # look; bread 0 1; bread 1 1; # never data 01*512 | data 00*512", "never", 0),
    (
        "bwrite 0 01*1024; # look; bread 0 1; bread 1 1; # never data 01*512 | data 00*512",
        "may inside 1 | block 0 01*512 | block 1 00*512",
        1,
    ),
    # a worn out line goes bad in the sync, and a lost one at once
    (
        "vstore 0 01; vsync 0 1; weaken volume 0; vsync 0 1; # look; vload 0 1; # never poison volume 0 64",
        "may inside 4 | volume 0 poison",
        1,
    ),
    ("vstore 0 01; ; poison volume 0; # look; vload 0 1; # never poison volume 0 64", "may before 4", 1),
    # a question that has to be found is not
    ("vstore 0 01; vsync 0 1; # look; vload 0 1; # may data 02", "never", 1),
    # a line that is no command is none that could be refused
    ("# refused; vstor 0 01; # look; vload 0 1; # never data 02", "error script 1 no-command", 7),
    # a command that is refused is told, and one that is to be refused and is done
    ("vstore 9999 01; # look; vload 0 1; # never data 01", "refused 1 range; never", 1),
    ("# refused; vstore 9999 01; # look; vload 0 1; # never data 01", "never", 0),
    ("# refused; vstore 0 01; # look; vload 0 1; # never data 02", "not refused 2; never", 1),
    # the program's own cut in some calls is one of those that are asked about
    ("vstore 0 01; cut in 1; vsync 0 1; # look; vload 0 1; # never data 02", "never", 0),
    # a script that asks nothing says nothing of its program
    ("vstore 0 01; # look; vload 0 1", "error script 4 nothing-asked", 7),
    # the values of a word come with the places at which they change
    (
        "vstore 0 01; vsync 0 1; # look; vload 0 1; # table; # never data 02",
        "before 1; 1 volume 0 00*8; inside 1; 1 volume 0 00*8 01,00*7; before 3; 1 volume 0 01,00*7; never",
        0,
    ),
    # what two words may be together: the record comes with the flag, or before it
    (
        "vstore 64 07*8; vsync 64 8; vstore 0 01; vsync 0 1; # look; vload 0 1; vload 64 8; # list",
        "before 1 | volume 0 00*8 | volume 64 00*8; inside 1 | volume 0 00*8 | volume 64 07*8; "
        "inside 3 | volume 0 01,00*7 | volume 64 07*8; outcomes 3",
        0,
    ),
)


def main():
    program, explorer = (os.path.abspath(word) for word in sys.argv[1:])
    with tempfile.TemporaryDirectory() as room:
        subprocess.run([program, "new", "img", "8", "2", "32"], cwd=room, check=True, stdout=subprocess.DEVNULL)
        for script, answers, status in QUESTIONS:
            lines = script.replace("; ", "\n") + "\n"
            done = subprocess.run([explorer, "img"], cwd=room, input=lines, capture_output=True, text=True, timeout=60)
            said = done.stdout.removesuffix("\n").replace("\n", "; ")
            if (done.returncode, said) != (status, answers):
                print(f"{script}: {done.returncode} {said}")


if __name__ == "__main__":
    main()
