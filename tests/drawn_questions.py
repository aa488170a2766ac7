#!/usr/bin/env python3
"""tests/drawn_questions.py PROGRAM EXPLORER [SEED [COUNT]]: 500 scripts with questions, drawn from a seed, against a model and runs.

The model (cut_model.py) tells the first place of a cut after which a look may be as it is asked, a table (table_model.py), and all outcomes
(list_model.py), where they are few. What PROGRAM, an nvmhost, shows after a cut somewhere in a script is asked too, and EXPLORER must
answer that place or one before it; which commands are refused PROGRAM tells. Prints what does not fit, and nothing else.
"""
import os
import random
import resource
import subprocess
import sys
import tempfile

from cut_model import BLOCKS, PAGES, State, first_place, is_command, kept_text, outcome, places_of, shown
from list_model import list_of, parts_of
from script_draws import ALL, FEW, FIRST, HOMES, LEFT, MIXED, NAMES, OF_FILES
from script_draws import altered, files_drawn, order, read_drawn, story, story_of_files
from slip_model import first_slip
from table_model import table_of

BY_IMAGE = 20  # scripts: the first ones are of four commands alone, and they and the next ones begin on a fresh image
ASKED, CUT = 12, 3  # questions drawn for each, and runs of it that are cut
PARTS, LISTED = 12, 300  # the most of a list, and its outcomes at most
AT_ONCE = 10  # seconds of a processor, for questions of many words
MARKED, BEGUN = 12, 3  # one command in so many is to be refused, and one script in so many has a line from which cuts are asked about


def question(draw, places, turns, reads):
    """Replies that some outcome shows, here and there one of these places; or that two show, or one of them altered."""
    def replies(i):
        _, state, worlds = places[i]
        files, seen = outcome(draw, state, draw.choice(worlds))
        return [shown(read, files, seen) for read in reads]

    i = draw.choice(turns) if turns and draw.randrange(2) else max(draw.randrange(len(places)) for _ in range(2))
    asked = replies(i)
    pick = draw.randrange(4)
    if pick == 0:
        asked = [draw.choice(pair) for pair in zip(asked, replies(draw.choice((max(0, i - 2), draw.randrange(len(places))))))]
    elif pick == 1:
        i = draw.randrange(len(reads))
        asked[i] = altered(draw, reads[i], asked[i])
    return " | ".join(draw.choice((reply, reply, reply, "_")) for reply in asked)


class Image:
    """An image that some lines left, and the state that is in it."""

    def __init__(self, name, lines, ranges):
        self.name, self.lines = name, lines
        self.state = places_of(State(), ranges, lines)[2].settled()

    def again(self):
        """Lines that bring any other state to this one."""
        gone = [f"delete {name}" for name in sorted({*NAMES, "mark"})]
        return [f"vdiscard 0 {PAGES}", f"bdiscard 0 {BLOCKS}", *gone, *self.lines, "cut", "restart all"]


def with_marks(draw, lines, begins):
    """The program with `# refused` before some commands, and with `# begin` behind these lines or later, here and there."""
    begin = draw.randrange(begins, len(lines) + 1) if draw.randrange(BEGUN) == 0 else None
    marked = []
    for i, line in enumerate(lines):
        marked += ["# begin"] * (i == begin) + ["# refused"] * (is_command(line) and draw.randrange(MARKED) == 0) + [line]
    return marked + ["# begin"] * (begin == len(lines))


class Script:
    """A program on an image, its look, and questions, each with the place where a run showed it (None where none did)."""

    def __init__(self, draw, image, ranges, kinds):
        homes = draw.sample(HOMES, draw.choice((1, 2, 3)))
        self.image = image
        of_files = kinds is OF_FILES or kinds is MIXED and draw.randrange(2) == 0
        told, looks = (story_of_files if of_files else story)(draw, homes) if kinds is not FEW and draw.randrange(2) else ([], [])
        first = files_drawn(draw) if of_files and not told else []
        first += [order(draw, homes, ranges, FIRST) for _ in range(0 if kinds is FEW else draw.randrange(5))]
        told = with_marks(draw, told, 0)
        rest = [order(draw, homes, ranges, kinds) for _ in range(draw.randrange(1, 14))]
        self.program = first + told + (rest if "# begin" in told else with_marks(draw, rest, 0))
        self.begin = self.program.index("# begin") + 1 if "# begin" in self.program else 0
        self.numbers = [n for n, line in enumerate(self.program, 1) if is_command(line)]
        self.reads = looks + [read_drawn(draw, homes, of_files) for _ in range(0 if looks else draw.choice((1, 2, 3)))]
        places, self.replies, _ = places_of(image.state, ranges, self.program)
        self.places = [place for place in places if int(place[0].split()[1]) > self.begin]
        turns = [i for i, (name, _, _) in enumerate(self.places) if len(first) < int(name.split()[1]) <= len(first + told) + 1 and told]
        drawn = dict.fromkeys(question(draw, self.places, turns, self.reads) for _ in range(ASKED))
        self.slips = {asked: why for asked in drawn if (why := first_slip(self.reads, asked.split(" | ")))}
        self.questions = {asked: None for asked in drawn if asked not in self.slips}
        self.draw = draw
        self.tables = draw.choice(([], [], ["# table"]))
        parts = parts_of(self.reads)
        self.listed = list_of(self.places, parts, LISTED) if len(parts) <= PARTS else None

    def text(self, questions, wanted=()):
        """The script of these questions, with what is wanted of each, `never` where nothing is said."""
        wanted = [*wanted, *["never"] * (len(questions) - len(wanted))]
        asked = [f"# {word} {asked}" for word, asked in zip(wanted, questions)]
        lists = ["# list"] if self.listed else []
        return "".join(line + "\n" for line in [*self.program, "# look", *self.reads, *lists, *self.tables, *asked])

    def refusals(self, replies):
        """What is told of the program's commands, which were answered so."""
        told = []
        for n, reply in zip(self.numbers, replies):
            refused = reply.split()[0] in ("refused", "poison", "scarred")
            if refused != self.is_marked(n):
                told.append(f"refused {n} {reply.removeprefix('refused ')}" if refused else f"not refused {n}")
        return told

    def is_marked(self, n):
        """Whether the command on this line is to be refused."""
        before = [line for line in self.program[:n - 1] if is_command(line) or line == "# refused"]
        return before[-1:] == ["# refused"]

    def run_cut(self, draw):
        """Before which line a cut comes or is armed, the lines of such a run, and its look's."""
        end = len(self.program) + 1
        at = draw.choice([*(n for n in self.numbers if n > self.begin), end])
        calls = draw.choice((1, 2, 3, 5, draw.randrange(1, 20), draw.randrange(1, 90), draw.randrange(1, 300)))
        stop = ["cut"] if at == end or draw.randrange(3) == 0 else [f"cut in {calls}", *self.program[at - 1:]]
        choice = draw.choice(("none", "all", *[f"seed {draw.randrange(1 << 32)}"] * 2))
        return at, [*self.program[:at - 1], *stop], ["cut in 4294967295", "cut", f"restart {choice}", *self.reads]

    def take(self, at, lines, replies):
        """What a run showed is one question more; or it is told why the run does not fit."""
        before = sum(n < at for n in self.numbers)
        said = replies[:before] + replies[before + 1:-len(self.reads) - 3]
        lost = said.index("power lost") if "power lost" in said else None
        for n, got, wanted in zip(self.numbers, said[:lost], self.replies):
            if wanted not in (None, got):
                return f"line {n} was answered {got[:80]}, and by the model {wanted[:80]}"
        where = f"inside {self.numbers[lost]}" if lost is not None else f"before {at if lines[-1] == 'cut' else len(self.program) + 1}"
        if int(where.split()[1]) <= self.begin:  # the program's own cut came before the cuts that are asked about
            return None
        place = [name for name, _, _ in self.places].index(where)
        looked = " | ".join(replies[-len(self.reads):])
        known = self.questions.get(looked)
        self.questions[looked] = place if known is None else min(place, known)
        return None


def replies_to(program, room, images, lines):
    done = subprocess.run([program, "run", *images], cwd=room, input="".join(line + "\n" for line in lines), capture_output=True, text=True)
    replies = done.stdout.splitlines()
    if done.returncode or len(replies) != sum(map(is_command, lines)):
        sys.exit(f"status {done.returncode}, {len(replies)} replies to {len(lines)} lines")
    return replies


def run_all(program, room, draw, image, scripts):
    """Each script is run and cut, some times, and what is shown is asked too."""
    runs = [(script, *script.run_cut(draw)) for script in scripts for _ in range(CUT)]
    again = image.again()
    replies = iter(replies_to(program, room, ["img", "out"], [line for _, _, lines, looks in runs for line in again + lines + looks]))
    for script, at, lines, looks in runs:
        _, said = ([next(replies) for line in part if is_command(line)] for part in (again, lines + looks))
        why = script.take(at, lines, said)
        if why:
            sys.exit("\n".join([f"{why}, on the image that {image.lines} leaves:", *lines, *looks]))


def explored(explorer, room, image, text, rows=0):
    """So many lines before the answers, the answers to a script's questions, and the status."""
    done = subprocess.run([explorer, image], cwd=room, input=text, capture_output=True, text=True)
    lines = done.stdout.splitlines()
    return lines[:rows], lines[rows:], done.returncode


def status_of(refusals, wanted, answers):
    return int(bool(refusals) or any((word == "may") == (answer == "never") for word, answer in zip(wanted, answers)))


def refuse(explorer, room, script):
    """One question is asked behind the others that no read answers so, if one was drawn."""
    for asked, why in [*script.slips.items()][:1]:
        text = script.text([*script.questions, asked])
        done = subprocess.run([explorer, script.image.name], cwd=room, input=text, capture_output=True, text=True)
        if (done.returncode, done.stdout) != (7, f"error script {text.count(chr(10))} {why}\n"):
            sys.exit(f"status {done.returncode}, {done.stdout[:200]} in place of {why}:\n{text}")


def compare(program, explorer, room, script):
    refuse(explorer, room, script)
    if not (script.questions or script.tables or script.listed):
        return
    # The program's own cut comes in no run of EXPLORER's.
    whole = ["cut in 4294967295" if line.startswith("cut in ") and line != "cut in 0" else line for line in script.program]
    replies = replies_to(program, room, [script.image.name, "out"], whole)
    told = script.refusals(replies)
    status, wanted = bool(told), [script.draw.choice(("never", "may")) if set(asked) - set("_| ") else "never" for asked in script.questions]
    told += (table_of(script.places, script.reads) if script.tables else []) + (script.listed or [])
    rows, answers, ended = explored(explorer, room, script.image.name, script.text(script.questions, wanted), len(told))
    right = ended == status_of(status, wanted, answers)
    for row, wanted in zip(rows, told):
        if row != wanted:
            sys.exit(f"{row} of what is listed, by the model {wanted}, on the image that {script.image.lines} leaves:\n{script.text([])}")
    if not right or len(answers) != len(script.questions):
        sys.exit(f"the status or the number of these answers is wrong: {answers}\n{script.text(script.questions)}")
    for answer, (asked, shown_at) in zip(answers, script.questions.items()):
        replies = asked.split(" | ")
        place = first_place(script.places, script.reads, replies)
        wanted = "never" if place is None else f"may {script.places[place][0]}{kept_text(script.places[place], script.reads, replies)}"
        if answer != wanted or shown_at is not None and (place is None or place > shown_at):
            found = "" if shown_at is None else f", and shown {script.places[shown_at][0]}"
            sys.exit(f"{answer}, by the model {wanted}{found}, on the image that {script.image.lines} leaves:\n{script.text([asked])}")


def at_once(explorer, room, made, store, load, sync):
    """Many words of several values in one look: eight of four, twenty of two; each word of two pages; and one of thirty."""
    some, other = (",".join(f"{v:02x}*8" for v in values) for values in ((0, 1, 2, 3, 0, 1, 2, 3), (0, 1, 2, 3, 0, 1, 2, 4)))
    either = ",".join(f"{w % 2:02x}*8" for w in range(1023))
    for program, reads, questions in (
        ([f"{store} {8 * w} {v:02x}*8" for w in range(8) for v in (1, 2, 3)] + [f"{store} {4096 + 8 * w} 01*8" for w in range(20)],
         [f"{load} 0 64", f"{load} 4096 160", f"{load} 0 64"],
         {f"data {some} | data 01*152,00*8 | data {some}": "may inside 43", f"data {some} | data 01*152,00*8 | data {other}": "never",
          f"data {some} | data 01*152,02*8 | _": "never", "data 03*64 | data 01*160 | data 03*64": "may inside 44"}),
        ([f"{store} 0 01*8192"], [f"{load} 0 8192"], {f"data {either},01*8": "may inside 1", f"data {either},02*8": "never"}),
        ([f"{store} 0 {v:02x}*8" for v in range(1, 30)], [f"{load} 0 8"], {"data 01*8": "may inside 1", "data 1d*8": "may inside 29"}),
        ([f"{store} 0 01", sync], [f"{load} 0 1"], {"data 02": "never"}),
    ):
        text = "".join(line + "\n" for line in [*program, "# look", *reads, *(f"# never {asked}" for asked in questions)])
        began = resource.getrusage(resource.RUSAGE_CHILDREN).ru_utime
        _, answers, ended = explored(explorer, room, made, text)
        took = resource.getrusage(resource.RUSAGE_CHILDREN).ru_utime - began
        places = [answer.split(" |")[0] for answer in answers]
        if ended != status_of([], ["never"] * len(answers), answers) or places != list(questions.values()) or took > AT_ONCE:
            sys.exit(f"{answers} after {took:.1f} seconds to\n{text}")


def main():
    program, explorer = map(os.path.abspath, sys.argv[1:3])
    seed, count = [int(word) for word in sys.argv[3:]] + [1, 500][len(sys.argv) - 3:]
    draw = random.Random(seed)
    with tempfile.TemporaryDirectory() as room:
        subprocess.run([program, "new", "img", str(BLOCKS), str(PAGES), "32"], cwd=room, check=True, stdout=subprocess.DEVNULL)
        told = [int(word) for word in replies_to(program, room, ["img", "out"], ["vranges"])[0].split()[1:]]
        ranges = list(zip(told[::3], told[1::3], told[2::3]))
        for i in range(0, count, BY_IMAGE):
            lines = [] if i <= BY_IMAGE else files_drawn(draw) + [order(draw, HOMES, ranges, LEFT) for _ in range(draw.randrange(50))]
            image = Image(f"img{i}", lines, ranges)
            replies_to(program, room, ["img", image.name], lines)
            kinds = (ALL, OF_FILES, OF_FILES, MIXED) if i else (FEW,)
            scripts = [Script(draw, image, ranges, draw.choice(kinds)) for _ in range(min(BY_IMAGE, count - i))]
            run_all(program, room, draw, image, scripts)
            for script in scripts:
                compare(program, explorer, room, script)
        replies_to(program, room, ["img", "made"], ["create f 2"])
        at_once(explorer, room, "img", "vstore", "vload", "vsync 0 1")
        at_once(explorer, room, "made", "fwrite f", "fread f", "fsync f")


if __name__ == "__main__":
    main()
