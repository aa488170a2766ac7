#!/usr/bin/env python3
"""tests/script_lines.py PROGRAM: lines of scripts at the edges of the language, each on a fresh image of 8 2 32, and their replies.

Prints what does not fit, and nothing else.
"""
import os
import subprocess
import sys
import tempfile

MOST = 65_536  # bytes of a line, and of its DATA
NINE = b" 0 1" * 9
FILE = b"create a 1\n"
MAPPED = FILE + b"map a 0 4096 shared\n"

SCRIPTS = (
    # lengths of lines
    (b"a" * MOST + b"\n", "refused syntax"),
    (b"a" * MOST, "refused syntax"),
    (b"a" * (MOST + 1) + b"\n", "refused toolong"),
    (b"a" * (MOST + 1), "refused toolong"),
    (b"a" * (MOST - 1) + b"\r\n", "refused syntax"),
    (b"a" * MOST + b"\r\n", "refused toolong"),
    (b" " * MOST + b"\n", ""),
    (b" " * (MOST + 1) + b"\n", "refused toolong"),
    (b"#" * MOST + b"\n", ""),
    (b"#" * (MOST + 1) + b"\n", "refused toolong"),
    (b"a" * 1_000_000 + b"\nbexists 0\n", "refused toolong\nno"),
    (b"attr " + b"a" * (MOST - 5) + b"\n", "refused unknown"),
    (b"attr " + b"a" * (MOST - 4) + b"\n", "refused toolong"),
    (b"attr a " + b"b" * (MOST - 7) + b"\n", "refused syntax"),
    (b"attr a " + b"b" * (MOST - 6) + b"\n", "refused toolong"),
    (b"bexists 0" + b" " * (MOST - 9) + b"\n", "no"),
    (b"cut" + b"\t" * (MOST - 3) + b"\n", "ok"),
    (b"cut" + b"\t" * (MOST - 2) + b"\n", "refused toolong"),
    (b"\r" * MOST + b"\n", "refused syntax"),
    (b"\r" * (MOST + 1) + b"\n", "refused toolong"),
    (b"#" * (MOST - 1) + b"\r\n", ""),
    (b"#" * (MOST - 1) + b"\r\r\n", "refused toolong"),
    # ends of lines
    (b"", ""),
    (b"\n\n\r\n", ""),
    (b"\r", ""),
    (b"bread 0 1\r", "data 00*512"),
    (b"bread 0 1\r\n", "data 00*512"),
    (b"bread 0 1\r\r\n", "refused syntax"),
    (b"bread 0\r1\n", "refused syntax"),
    (b"bexists 0\n\nbexists 1", "no\nno"),
    # bytes that are no blanks
    (b"bread 0 1\0", "refused syntax"),
    (b"\0\n", "refused syntax"),
    (b"bread\x0b0 1\n", "refused syntax"),
    (b"bread\xa00 1\n", "refused syntax"),
    (b"\xef\xbb\xbfbread 0 1\n", "refused syntax"),
    (b"attr \0\n", "refused unknown"),
    (b"attr \xff\n", "refused unknown"),
    # comments
    (b"#bread 0 1\n", ""),
    (b" \t# bread 0 1\n", ""),
    (b"bread 0 1 #\n", "refused syntax"),
    # numbers
    (b"bread 4294967295 1\n", "refused range"),
    (b"bread 4294967296 1\n", "refused syntax"),
    (b"bread 9999999999 1\n", "refused syntax"),
    (b"bread 0000000000 0000000001\n", "data 00*512"),
    (b"bread 00000000000 1\n", "refused syntax"),
    (b"bread 0 +1\n", "refused syntax"),
    (b"bread 0 -1\n", "refused syntax"),
    (b"bread 0 0x1\n", "refused syntax"),
    (b"bread 0 1.\n", "refused syntax"),
    # DATA
    (b"bwrite 0 00*65536\n", "refused range"),
    (b"bwrite 0 00*65537\n", "refused syntax"),
    (b"bwrite 0 00*4294967296\n", "refused syntax"),
    (b"bwrite 0 00*65535,0001\n", "refused syntax"),
    (b"bmulti 0 00*32768 64 00*32768\n", "refused range"),
    (b"bmulti 0 00*32768 64 00*32769\n", "refused syntax"),
    (b"vstore 0 aB,Cd*2,eF01\nvload 0 5\n", "ok\ndata ab,cd*2,ef,01"),
    (b"vstore 0 00*0\n", "refused syntax"),
    (b"vstore 0 0102*3\n", "refused syntax"),
    (b"vstore 0 0\n", "refused syntax"),
    (b"vstore 0 000\n", "refused syntax"),
    (b"vstore 0 00,\n", "refused syntax"),
    (b"vstore 0 ,00\n", "refused syntax"),
    (b"vstore 0 00,,00\n", "refused syntax"),
    (b"vstore 0 00*\n", "refused syntax"),
    (b"vstore 0 0g\n", "refused syntax"),
    # names
    (b"create " + b"a" * 32 + b" 1\nlist\n", "ok\nfiles " + "a" * 32 + ":1"),
    (b"create " + b"a" * 33 + b" 1\n", "refused syntax"),
    (b"create . 0\ncreate - 0\ncreate _ 0\ncreate 0 0\nlist\n", "ok\nok\nok\nok\nfiles -:0 .:0 0:0 _:0"),
    (b"create A 1\n", "refused syntax"),
    (b"create a/b 1\n", "refused syntax"),
    # nine pairs where eight are the most
    (b"bscar" + NINE + b"\n", "refused limit"),
    (b"bmulti" + b" 0 00*512" * 9 + b"\n", "refused limit"),
    (FILE + b"fmulti a" + b" 0 00" * 9 + b"\n", "ok\nrefused limit"),
    (MAPPED + b"flush 0" + NINE + b"\n", "ok\nhandle 0\nrefused limit"),
    (MAPPED + b"flushv 0" + NINE + b"\n", "ok\nhandle 0\nrefused limit"),
    (MAPPED + b"deepflush 0" + NINE + b"\n", "ok\nhandle 0\nrefused limit"),
)


def main():
    program = os.path.abspath(sys.argv[1])
    with tempfile.TemporaryDirectory() as room:
        subprocess.run([program, "new", "img", "8", "2", "32"], cwd=room, check=True, stdout=subprocess.DEVNULL)
        for script, replies in SCRIPTS:
            done = subprocess.run([program, "run", "img", "out"], cwd=room, input=script, capture_output=True, timeout=60)
            said = done.stdout.decode(errors="replace").removesuffix("\n")
            if (done.returncode, said) != (0, replies):
                print(f"{script[:80]!r}, {len(script)} bytes: {done.returncode} {said[:200]!r}")


if __name__ == "__main__":
    main()
