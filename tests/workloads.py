#!/usr/bin/env python3
"""tests/workloads.py PROGRAM: what `bench SEED N` says.

Of the longer ones the same lines are drawn here and run as a script, on an image as large, and its replies are summed up. Prints what
does not fit, and nothing else.
"""
import os
import subprocess
import sys
import tempfile

CASES = (
    # seed, rounds, and the line where it was worked out by hand: the first draw of seed 1 is 908834774, so its one round is a store
    (1, 1, "bench commands 4 ok 3 data 0 cuts 0 sum 0"),
    (1, 20_000, None),
    (2, 1_000, None),
    (4_294_967_295, 100_000, None),
)
MAP = "map f0 0 65536 shared"


def draws(x):
    while True:
        x = (x * 6364136223846793005 + 1442695040888963407) % 2**64
        yield x >> 33


def round_of(k, a, b):
    byte = f"{b % 256:02x}"
    return (
        [f"bwrite {a % 64} {byte}*512"],
        [f"batomic {a % 63} {byte}*1024"],
        [f"bread {a % 64} 1"],
        [f"bdiscard {a % 64} 1"],
        [f"vstore {8 * (a % 4096)} {byte}*8"],
        [f"vsync {64 * (a % 512)} 64"],
        [f"store 0 {8 * (a % 8192)} {byte}*8"],
        [f"flush 0 {64 * (a % 1024)} 64"],
        [f"fatomic f1 {64 * (a % 1024)} {byte}*64"],
        ["cut", f"restart seed {b}", MAP] if b % 2 else [f"fread f0 {64 * (a % 1024)} 64"],
    )[k % 10]


def drawn(seed, rounds):
    x = draws(seed)
    lines = ["create f0 16", "create f1 16", MAP]
    for _ in range(rounds):
        lines += round_of(next(x), next(x), next(x))
    return lines


def bytes_of(reply):
    """The sum of the bytes that DATA spells."""
    return sum(int(item[:2], 16) * int(item[3:] or 1) for item in reply.removeprefix("data ").split(","))


def summary(lines, replies):
    data = [reply for reply in replies if reply.startswith("data ")]
    ok = sum(reply == "ok" or reply.startswith("ok ") for reply in replies)
    return f"bench commands {len(lines)} ok {ok} data {len(data)} cuts {lines.count('cut')} sum {sum(map(bytes_of, data)) % 2**64}"


def main():
    program = os.path.abspath(sys.argv[1])
    with tempfile.TemporaryDirectory() as room:

        def said(*words, script=""):
            done = subprocess.run([program, *words], cwd=room, input=script, capture_output=True, text=True, timeout=60)
            return done.stdout if done.returncode == 0 else f"status {done.returncode}: {done.stdout}"

        said("new", "img", "64", "8", "64")
        for seed, rounds, line in CASES:
            lines = drawn(seed, rounds)
            replies = said("run", "img", "out", script="".join(f"{line}\n" for line in lines)).splitlines()
            told = summary(lines, replies)
            if line not in (None, told) or any(reply.startswith("refused") for reply in replies):
                print(f"the lines of bench {seed} {rounds}: {told}")
            for _ in range(2):
                found = said("bench", str(seed), str(rounds))
                if found != told + "\n":
                    print(f"bench {seed} {rounds}: {found!r} in place of {told}")
        if sorted(os.listdir(room)) != ["img", "out"]:
            print(f"there are {os.listdir(room)}")


if __name__ == "__main__":
    main()
