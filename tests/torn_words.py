"""Two words of zeros that are synced, ff stored over them, and a restart by each seed from 0 to 255: what each unit keeps of them."""
import subprocess
import sys

from line_model import data_of

STORY = "vstore 0 00*16\nvsync 0 16\nvstore 0 ff*16\ncut\nrestart seed {}\nvload 0 16\n"
OLD, NEW = bytes(8), b"\xff" * 8


def outcomes(form):
    program = sys.argv[1]
    subprocess.run([program, form, "img", "8", "2", "32"], stdout=subprocess.DEVNULL, check=True)
    script = "".join(STORY.format(seed) for seed in range(256))
    run = subprocess.run([program, "run", "img", "out"], input=script, capture_output=True, text=True, check=True)
    return {data_of(line.split()[1]) for line in run.stdout.splitlines() if line.startswith("data")}


whole = outcomes("new")
if whole != {one + other for one in (OLD, NEW) for other in (OLD, NEW)}:
    print(f"unit 8: {len(whole)} outcomes")
torn = outcomes("newbyte")
if len(torn) != 32:
    print(f"unit 1: {len(torn)} outcomes")
if any({word[i] for word in torn} != {0, 255} for i in range(16)):
    print("unit 1: a byte that is always old, or always new")
if any(word[:8] in (OLD, NEW) or word[8:] in (OLD, NEW) for word in torn):
    print("unit 1: a whole word")
