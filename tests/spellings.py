#!/usr/bin/env python3
"""tests/spellings.py PROGRAM: each command in its shortest and its longest spelling, with blanks and tabs, and with a word too few or
too many.

A row has what comes before, the command and its reply. F and G are names, and DATA has a `*` there. Prints what does not fit, and nothing
else.
"""
import os
import re
import subprocess
import sys
import tempfile

MOST = 65_536  # bytes of a line
SHORT = {"F": "f", "G": "g"}
LONG = {"F": "abcdefghijklmnopqrstuvwxyz01234.", "G": "-_.56789abcdefghijklmnopqrstuvwx"}

FILE = "create F 1"
BYTE = "create F 1;fwrite F 0 11*1"
MAPPED = "create F 1;map F 0 64 shared"
EIGHT = " ".join(f"{n} 1" for n in range(8))
EIGHT_BLOCKS = " ".join(f"{n} 11*512" for n in range(8))
EIGHT_BYTES = " ".join(f"{n} 11*1" for n in range(8))

COMMANDS = (
    ("", "bread 0 1", "data 00*512"),
    ("", "bwrite 0 11*512", "ok"),
    ("", "batomic 0 11*512", "ok"),
    ("", "bmulti 0 11*512", "ok"),
    ("", f"bmulti {EIGHT_BLOCKS}", "ok"),
    ("", "bdiscard 0 1", "ok"),
    ("", "bdiscardif 0 1", "ok"),
    ("", "bexists 0", "no"),
    ("", "bscar 0 1", "ok"),
    ("", f"bscar {EIGHT}", "ok"),
    ("", "vranges", "ranges 0 147456 4096 4096 188416 4096"),
    ("", "vload 0 1", "data 00"),
    ("", "vstore 0 11*1", "ok"),
    ("", "vsync 0 1", "ok"),
    ("", "vpsync 147456 1", "ok"),
    ("", "vdiscard 0 1", "ok"),
    ("", "vdiscardif 0 1", "ok"),
    ("", "vexists 0", "no"),
    ("", "create F 0", "ok"),
    (FILE, "delete F", "ok"),
    (FILE, "rename F G", "ok"),
    (FILE, "resize F 0", "ok"),
    (FILE, "list", "files F:1"),
    (BYTE, "fread F 0 1", "data 11"),
    (FILE, "fwrite F 0 11*1", "ok"),
    (FILE, "fatomic F 0 11*1", "ok"),
    (FILE, "fmulti F 0 11*1", "ok"),
    (FILE, f"fmulti F {EIGHT_BYTES}", "ok"),
    (FILE, "fdiscard F 0 1", "ok"),
    (FILE, "fsync F", "ok"),
    (FILE, "map F 0 1 shared", "handle 0"),
    (FILE, "map F 0 1 private", "handle 0"),
    (MAPPED, "unmap 0", "ok"),
    (MAPPED, "load 0 0 1", "data 00"),
    (MAPPED, "store 0 0 11*1", "ok"),
    (MAPPED, "sync 0 0 1", "ok"),
    (MAPPED, "flush 0 0 1", "ok"),
    (MAPPED, f"flush 0 {EIGHT}", "ok"),
    (MAPPED, "flushv 0 0 1", "ok"),
    (MAPPED, f"flushv 0 {EIGHT}", "ok"),
    (MAPPED, "deepflush 0 0 1", "ok"),
    (MAPPED, f"deepflush 0 {EIGHT}", "ok"),
    ("bwrite 0 11*512", "poison block 0 0", "ok"),
    (BYTE, "poison file F 0", "ok"),
    ("vstore 0 11*1", "poison volume 0", "ok"),
    ("", "poison meta 0", "ok"),
    (BYTE, "weaken file F 0", "ok"),
    ("vstore 0 11*1", "weaken volume 0", "ok"),
    (f"{BYTE};poison file F 0", "clear file F 0", "ok"),
    ("vstore 0 11*1;poison volume 0", "clear volume 0", "ok"),
    (f"{BYTE};poison file F 0", "event", "event F 0 64 unmapped live"),
    (f"{BYTE};poison file F 0", "check F 0 1", "bad 1 0"),
    ("", "cut", "ok"),
    ("", "cut in 1", "ok"),
    ("", "fail in 1", "ok"),
    ("cut", "restart none", "ok bad 0"),
    ("cut", "restart all", "ok bad 0"),
    ("cut", "restart seed 0", "ok bad 0"),
    ("fail in 1;bwrite 0 11*512", "recover", "ok bad 0"),
    ("", "evict 0", "ok"),
    ("", "attr block.size", "attr 512"),
)


def named(text, names):
    return re.sub(r"\b[FG]\b", lambda found: names[found[0]], text)


def longest(word):
    """A number of ten digits; each byte of DATA as an item of its own, counted by ten digits."""
    byte, _, count = word.partition("*")
    if count:
        return ",".join([f"{byte}*0000000001"] * int(count))
    return word.zfill(10) if word.isdigit() else word


def spellings(command):
    """Each with the names in it."""
    words = command.split(" ")
    yield SHORT, " ".join(word.removesuffix("*1") for word in words)
    yield SHORT, "\t  " + " \t\t".join(words) + "\t \r"
    spelled = [named(word, LONG) if word in LONG else longest(word) for word in words]
    room = MOST - sum(map(len, spelled))
    yield LONG, (" " * (room // len(words))).join(["", *spelled])


def wrong(command):
    """Spellings that are of no form: a word too few or too many, and a capital."""
    fewer = command.rpartition(" ")[0]
    return [*filter(None, [fewer]), f"{command} 0", f"{command} cut", command.capitalize()]


def main():
    program = os.path.abspath(sys.argv[1])
    with tempfile.TemporaryDirectory() as room:
        subprocess.run([program, "new", "img", "8", "2", "32"], cwd=room, check=True, stdout=subprocess.DEVNULL)
        for before, command, reply in COMMANDS:
            refused = wrong(command)
            for names, spelled in spellings(command):
                lines = [*(before.split(";") if before else []), *refused, spelled]
                script = named("".join(line + "\n" for line in lines), names)
                done = subprocess.run([program, "run", "img", "out"], cwd=room, input=script, capture_output=True, text=True, timeout=60)
                said = done.stdout.splitlines()[len(lines) - len(refused) - 1:]
                wanted = ["refused syntax"] * len(refused) + [named(reply, names)]
                if done.returncode or said != wanted:
                    print(f"{before};{spelled[:60]!r}, {len(spelled)} bytes: {done.returncode} {said}")


if __name__ == "__main__":
    main()
