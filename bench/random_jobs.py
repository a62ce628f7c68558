#!/usr/bin/env python3
"""Compares random jobs with real e-TeX: definitions, calls, groups, names, messages, and what goes wrong with them.

    bench/random_jobs.py [COUNT] [SEED] [PROGRAM]     500 jobs from seed 1 with crates/etx/out/etx, where nothing else is given

Each job is run by the program and by real e-TeX (`reftex.py` of the folder `shared`, as tests/run_jobs.py finds it). What both
say has to be the same, and whether an error came; where the program ends at what isn't built yet, what it said before has to
be the beginning of what real e-TeX says. Not compared are the texts of errors, which are the project's own (where each comes
is compared), the groups that e-TeX lists at the end as open, and spaces at the edges of lines. A job that differs is kept as
differs-SEED-N.tex in the folder where the script is run. A job that real e-TeX doesn't end in some seconds, or
ends at a limit (it has 255 groups at most), is left out and counted. It is no part of the gate.
"""
import concurrent.futures
import os
import random
import signal
import subprocess
import sys
import tempfile

sys.path.insert(0, os.path.join(os.path.dirname(os.path.dirname(os.path.abspath(__file__))), "tests"))
import run_jobs  # noqa: E402

SECONDS = 10
NAMES = ["\\a", "\\b", "\\c", "\\d", "\\e", "\\f", "\\aa", "\\ab"]
LETTERS = "xyz"
MARKS = ".,;:"
HEAD = "\\catcode`\\{=1 \\catcode`\\}=2 \\catcode`\\#=6 \\catcode`\\~=13\n"


class Writer:
    """Writes the pieces of one job."""

    def __init__(self, seed):
        self.pick = random.Random(seed)
        self.depth = 0

    def one(self, choices):
        return self.pick.choice(choices)

    def chance(self, share):
        return self.pick.random() < share

    def name(self):
        return self.one(NAMES)

    def character(self):
        return self.one(LETTERS + MARKS + " " + LETTERS)

    def parameters(self):
        """A parameter text, and how many parameters it has."""
        count = self.one([0, 0, 0, 1, 1, 1, 2, 2, 3])
        text = self.one(["", "", "", self.one(MARKS), self.one(LETTERS)])
        for number in range(1, count + 1):
            text += f"#{number}" + self.one(["", "", "", self.one(MARKS), self.one(LETTERS) + self.one(MARKS), self.name()])
        if self.chance(0.03):
            text += self.one(["#", "#9", "##", "}"])
        elif self.chance(0.05):
            text += "#"
        return text, count

    def item(self, count):
        """A piece of a text: expanded, or not."""
        self.depth += 1
        try:
            what = self.pick.randrange(14) if self.depth < 5 else 0
            if what < 4:
                return self.character()
            if what < 7:
                return f"#{self.pick.randint(1, count)}" if count else self.character()
            if what == 7:
                return self.name() + " "
            if what == 8:
                return "{" + self.text(count) + "}"
            if what == 9:
                return "\\string" + self.one([self.name() + " ", self.character(), "\\relax "])
            if what == 10:
                return "\\noexpand" + self.name() + " "
            if what == 11:
                return "\\csname " + self.one(["a", "b", "ab", "q", "x" + self.one(LETTERS)]) + self.one(["", self.name() + " "]) + "\\endcsname "
            if what == 12:
                return "\\expandafter" + self.one([self.name() + " ", self.character(), "\\string"]) + self.item(count)
            return self.one(["\\relax ", "\\par ", "~"])
        finally:
            self.depth -= 1

    def text(self, count):
        return "".join(self.item(count) for _ in range(self.pick.randrange(5)))

    def arguments(self):
        return "".join(
            self.one([self.character(), self.character(), "{" + self.text(0) + "}", self.name() + " ", self.one(MARKS)])
            for _ in range(self.pick.randrange(4))
        )

    def body(self, count):
        """A body whose pieces main control can carry out, most of the time."""
        pieces = []
        for _ in range(self.pick.randrange(4)):
            pieces.append(self.one([
                lambda: "\\message{" + self.text(count) + "}",
                lambda: "\\message{<" + (f"#{self.pick.randint(1, count)}" if count else "") + ">}",
                lambda: self.name() + self.one([" ", "{" + self.text(count) + "}"]),
                lambda: "\\let" + self.name() + self.one(["=", "= ", " "]) + self.one([self.name() + " ", self.character()]),
                lambda: self.one(["\\relax ", "\\par ", " "]),
                lambda: "{" + self.body(count) + "}",
            ])())
        return "".join(pieces)

    def prefixes(self):
        return "".join(self.one(["\\long", "\\global", "\\protected", "\\outer", "\\global", "\\long"]) + self.one(["", " "])
                       for _ in range(self.one([0, 0, 0, 1, 1, 2])))

    def statement(self):
        what = self.pick.randrange(20)
        if what < 5:
            parameters, count = self.parameters()
            if self.chance(0.04):
                count += 1
            return self.prefixes() + self.one(["\\def", "\\def", "\\gdef", "\\edef", "\\xdef"]) + self.name() + parameters + "{" + self.body(count) + "}"
        if what < 8:
            return "\\message{" + self.text(0) + "}"
        if what < 11:
            return self.name() + self.one([" ", "", ""]) + self.arguments()
        if what == 11:
            return self.prefixes() + "\\let" + self.name() + self.one(["=", "= ", " ", "=  "]) + self.one([self.name() + " ", self.character()])
        if what == 12:
            return "\\futurelet" + self.name() + self.one([self.name() + " ", "\\relax"]) + self.one([self.name() + " ", "\\par "])
        if what == 13:
            return self.one(["{", "}", "\\begingroup ", "\\endgroup "])
        if what == 14:
            return self.one(["{", "\\begingroup "]) + self.statement() + self.statement() + self.one(["}", "\\endgroup ", "}"])
        if what == 15:
            return "\\aftergroup" + self.name() + " "
        if what == 16:
            return "\\afterassignment" + self.name() + " " + self.statement()
        if what == 17:
            return "\\expandafter" + self.name() + self.one(["", " "]) + self.item(0)
        if what == 18:
            return "\\csname " + self.one(["a", "b", "c", "xy"]) + "\\endcsname" + self.one([" ", self.arguments()])
        return self.one(["", "\\global"]) + f"\\catcode`\\{self.one(LETTERS + MARKS)}={self.one([11, 12, 12, 12, 10, 9, 14, 3, 15, 6])} "

    def job(self):
        lines = [HEAD.rstrip("\n")]
        for name in NAMES:
            if self.chance(0.7):
                parameters, count = self.parameters()
                lines.append("\\def" + name + parameters + "{" + self.body(count) + "}")
        for _ in range(self.pick.randint(2, 14)):
            lines.append(self.statement())
        return "\n".join(lines) + "\n" + self.one(["\\end\n", "\\end\n", "\\end\n", ""])


def said_by(program, folder):
    done = subprocess.run([program, "alone", "--steps", "200000", "job.tex"], cwd=folder, stdin=subprocess.DEVNULL, capture_output=True, timeout=60, check=False)
    return done.returncode, done.stdout


def said_by_tex(reftex, folder, text):
    words = [sys.executable, reftex, os.path.join(folder, "job.tex")]
    asked = subprocess.Popen(words, stdout=subprocess.PIPE, stderr=subprocess.PIPE, start_new_session=True)
    try:
        said, notes = asked.communicate(timeout=SECONDS)
    except subprocess.TimeoutExpired:
        # real e-TeX runs below it
        os.killpg(asked.pid, signal.SIGKILL)
        asked.communicate()
        raise
    return b"ended with status 0" in notes, run_jobs.number_lines(said, text)


def plain(said):
    """What is compared of a transcript."""
    lines = [line.strip() for line in said.split(b"\n") if not line.startswith(b"### ")]
    return b"\n".join(b"!" if line.startswith(b"! ") else line for line in lines if line)


def compare(program, reftex, text):
    """How the two compare: same, begins the same, left out, or how they differ."""
    with tempfile.TemporaryDirectory() as folder:
        with open(os.path.join(folder, "job.tex"), "wb") as file:
            file.write(text)
        status, ours = said_by(program, folder)
        try:
            clean, real = said_by_tex(reftex, folder, text)
        except subprocess.TimeoutExpired:
            return "left out"
    if b"capacity exceeded" in real:
        return "left out"
    if run_jobs.UNBUILT in ours:
        begin = plain(ours[: ours.index(run_jobs.UNBUILT)]).rstrip(b"\n")
        return "begins the same" if plain(real).startswith(begin) else run_jobs.shown_difference(real, ours)
    if status == 3:
        return "left out"
    same = plain(real) == plain(ours) and clean == (status == 0)
    return "same" if same else run_jobs.shown_difference(real, ours)


def main():
    words = sys.argv[1:]
    count = int(words[0]) if words else 500
    seed = int(words[1]) if len(words) > 1 else 1
    program = os.path.abspath(words[2]) if len(words) > 2 else run_jobs.PROGRAM
    reftex = next((it for it in run_jobs.REFTEX if os.path.isfile(it)), None)
    if not reftex or not run_jobs.shutil.which("pdftex"):
        print("real e-TeX is not there: nothing is compared")
        return 0
    counts = {}

    def one(number):
        text = Writer(f"{seed}-{number}").job().encode("ascii")
        return number, text, compare(program, reftex, text)

    with concurrent.futures.ThreadPoolExecutor(2) as pool:
        for number, text, outcome in pool.map(one, range(count)):
            kind = outcome if outcome in ("same", "begins the same", "left out") else "differs"
            counts[kind] = counts.get(kind, 0) + 1
            if kind == "differs":
                with open(f"differs-{seed}-{number}.tex", "wb") as file:
                    file.write(text)
                print(f"job {number}:\n{outcome}", flush=True)
    print(", ".join(f"{kind}: {number}" for kind, number in sorted(counts.items())))
    return 1 if "differs" in counts else 0


if __name__ == "__main__":
    sys.exit(main())
