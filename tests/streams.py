#!/usr/bin/env python3
"""tests/streams.py PROGRAM: a script at a pipe: each reply comes before the next line is written; and a long one takes little memory.

Prints what does not fit, and nothing else.
"""
import os
import select
import subprocess
import sys
import tempfile

WAIT = 20  # seconds for a reply, and for the end
TALK = (
    ("create log 4", "ok"),
    ("map log 0 16384 shared", "handle 0"),
    ("store 0 0 7265632031", "ok"),
    ("flush 0 0 5", "ok"),
    ("# no reply\n\nfatomic log 4096 01,00*7", "ok"),
    ("store 0 64 7265632032", "ok"),
    ("load 0 64 5", "data 72,65,63,20,32"),
    ("vload 0", "refused syntax"),
    ("vload 8192 1", "refused range"),
    ("bwrite 3 aa*512", "ok"),
    ("bread 2 2", "data 00*512,aa*512"),
    ("bread 0 " + "0" * 65_600, "refused toolong"),
    ("cut", "ok"),
    ("bread 0 1", "refused off"),
    ("restart none", "ok bad 0"),
    ("fread log 0 5", "data 72,65,63,20,31"),
    ("fread log 64 5", "data 00*5"),
    ("fread log 4096 8", "data 01,00*7"),
    ("bexists 3", "yes"),
    ("list", "files log:4"),
)
# a megabyte of comments, long and short, with a command behind each
COMMENTS = ((b"#" + b"x" * 65_000 + b"\nbexists 0\n") * 15 + (b"# a short comment\n" * 3 + b"bexists 0\n") * 100)
MEGABYTES = 200
ROOM = 64 * 1024  # kilobytes


def answered(pipe):
    """A line of the pipe, or what came of it in the time."""
    line = b""
    while not line.endswith(b"\n"):
        ready, _, _ = select.select([pipe], [], [], WAIT)
        piece = os.read(pipe.fileno(), 65_536) if ready else b""
        if not piece:
            return line + b"(and no more)"
        line += piece
    return line


def talk(program, room):
    with subprocess.Popen([program, "run", "img", "talked"], cwd=room, stdin=subprocess.PIPE, stdout=subprocess.PIPE) as running:
        try:
            for line, reply in TALK:
                running.stdin.write(line.encode() + b"\n")
                running.stdin.flush()
                found = answered(running.stdout)
                if found != reply.encode() + b"\n":
                    return print(f"{line[:60]} was answered {found!r}")
            if os.path.exists(f"{room}/talked"):
                print("the image is there before the end")
            running.stdin.close()
            if (running.wait(WAIT), os.path.exists(f"{room}/talked")) != (0, True):
                print(f"status {running.returncode}, and there are {os.listdir(room)}")
        finally:
            running.kill()


def peak(program, room, pieces):
    """The most memory that a run took, in kilobytes, and how many replies it gave."""
    with open(f"{room}/said", "w+b") as said:
        running = subprocess.Popen([program, "run", "img", "out"], cwd=room, stdin=subprocess.PIPE, stdout=said)
        try:
            for piece in pieces:
                running.stdin.write(piece)
            running.stdin.close()
        except BrokenPipeError:
            pass
        _, status, used = os.wait4(running.pid, 0)
        running.returncode = os.waitstatus_to_exitcode(status)
        said.seek(0)
        return running.returncode, sum(line == b"no\n" for line in said), used.ru_maxrss


def main():
    program = os.path.abspath(sys.argv[1])
    with tempfile.TemporaryDirectory() as room:
        subprocess.run([program, "new", "img", "8", "2", "32"], cwd=room, check=True, stdout=subprocess.DEVNULL)
        talk(program, room)
        _, _, least = peak(program, room, [])
        status, replies, most = peak(program, room, [COMMENTS] * MEGABYTES)
        if (status, replies) != (0, MEGABYTES * COMMENTS.count(b"bexists")) or most > least + ROOM:
            print(f"{MEGABYTES} megabytes of script: status {status}, {replies} replies, {most} kilobytes, of an empty one {least}")


if __name__ == "__main__":
    main()
