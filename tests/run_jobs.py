#!/usr/bin/env python3
"""Runs the jobs of tests/jobs on the program that `rt ci` built, and says which differ from their stored answers.

    tests/run_jobs.py [NAME ..]             runs all jobs, or those whose path in tests/jobs begins with a NAME
    tests/run_jobs.py --real [NAME ..]      compares the answers with real e-TeX instead
    tests/run_jobs.py --write NAME ..       writes what the program does now as the answers of these jobs

A job NAME, in tests/jobs or a folder of it, is

    NAME.tex       its main file, or
    NAME.made      a Python program that prints it, where it would be large
    NAME.answer    `status N`, a line `wrote FILE` for each file that it made or changed, an empty line, and then what it
                   said on the terminal, byte by byte; a FILE that ends in .log has to hold the same bytes
    NAME.words     the words behind `etx`, a line a run, quoted as in a shell: each run has this answer; without this file
                   there is one run, `alone NAME.tex`
    NAME.files/    further files that lie beside the main file

`--program FILE` runs another program than crates/etx/out/etx. `--real` asks `--reftex FILE`, a program that runs real e-TeX
as INITEX on a file and prints its terminal text in the layout of `etx`; without it, tools/reftex.py of a folder `shared`
beside the repository, or beside the folder that the repository is in, is taken. It leaves out jobs with words of their own,
those that end at what isn't built, and those with a status that `etx` alone has. Where that program or real e-TeX is missing
it says so, and its exit status is 0.

Otherwise the exit status is 1 where an answer differs or is missing, or where there is no job or no program.
"""
import argparse
import concurrent.futures
import difflib
import os
import re
import shlex
import shutil
import subprocess
import sys
import tempfile

ROOT = os.path.dirname(os.path.dirname(os.path.abspath(__file__)))
JOBS = os.path.join(ROOT, "tests", "jobs")
PROGRAM = os.path.join(ROOT, "crates", "etx", "out", "etx")
REFTEX = [os.path.join(ROOT, above, "shared", "tools", "reftex.py") for above in ("..", os.path.join("..", ".."))]
UNBUILT = b"*** (not built yet)\n"
ENDINGS_OF_TEX = (b"status 0\n", b"status 1\n", b"status 2\n")
ENDINGS = (".tex", ".made", ".words", ".answer")
SECONDS = 60
MOST_LINES = 14


def read(path):
    """A file's bytes, or None where there is none."""
    if not os.path.isfile(path):
        return None
    with open(path, "rb") as file:
        return file.read()


def find_jobs(names):
    """The paths of the jobs without their endings, in order."""
    found = set()
    for folder, folders, files in os.walk(JOBS):
        folders[:] = [it for it in folders if not it.endswith(".files")]
        for file in files:
            stem, ending = os.path.splitext(os.path.join(folder, file))
            if ending not in ENDINGS:
                sys.exit("run_jobs.py: %s is no file of a job" % os.path.join(folder, file))
            found.add(os.path.relpath(stem, JOBS))
    return sorted(it for it in found if not names or it.startswith(tuple(names)))


def runs_of(job):
    """The words of each run of a job."""
    text = read(os.path.join(JOBS, job + ".words"))
    if text is None:
        return [["alone", os.path.basename(job) + ".tex"]]
    return [shlex.split(line) for line in text.decode().splitlines()]


def lay_out(job, folder):
    """Puts the files of a job into a folder."""
    further = os.path.join(JOBS, job + ".files")
    if os.path.isdir(further):
        shutil.copytree(further, folder, dirs_exist_ok=True)
    main, made = os.path.join(JOBS, job + ".tex"), os.path.join(JOBS, job + ".made")
    if os.path.isfile(main):
        shutil.copy(main, folder)
    if os.path.isfile(made):
        with open(os.path.join(folder, os.path.basename(main)), "wb") as file:
            subprocess.run([sys.executable, made], stdout=file, check=True)


def files_in(folder):
    """What each file of a folder holds."""
    return {name: read(os.path.join(folder, name)) for name in sorted(os.listdir(folder))}


def answer_of(status, wrote, said):
    """An answer as it is stored."""
    lines = ["status %d" % status] + ["wrote " + it for it in wrote]
    return "".join(line + "\n" for line in lines).encode() + b"\n" + said


def run(program, job, words):
    """The answer of one run of a job."""
    with tempfile.TemporaryDirectory() as folder:
        lay_out(job, folder)
        before = files_in(folder)
        how = {"cwd": folder, "stdin": subprocess.DEVNULL, "capture_output": True, "timeout": SECONDS}
        done = subprocess.run([program, *words], check=False, **how)
        after = files_in(folder)
    wrote = [it for it in after if after[it] != before.get(it)]
    lost = [it for it in before if it not in after]
    said = done.stdout + done.stderr
    others = [it for it in wrote if it.endswith(".log") and after[it] != said]
    notes = ["(removed %s)\n" % it for it in lost]
    notes += ["(%s holds something else than was said)\n" % it for it in others]
    return answer_of(done.returncode, wrote, said + "".join(notes).encode())


def shown_difference(wanted, got):
    """A small difference of two answers, indented."""
    sides = [it.decode("latin-1").splitlines() for it in (wanted, got)]
    lines = list(difflib.unified_diff(*sides, "wanted", "got", n=1, lineterm=""))
    more = ["(%d lines more)" % (len(lines) - MOST_LINES)] if len(lines) > MOST_LINES else []
    return "\n".join("    " + line for line in lines[:MOST_LINES] + more)


def check(program, job):
    """What is wrong with a job, or None."""
    wanted = read(os.path.join(JOBS, job + ".answer"))
    if wanted is None:
        return "%s: has no answer (--write makes one)" % job
    for words in runs_of(job):
        got = run(program, job, words)
        if got != wanted:
            return "%s: etx %s\n%s" % (job, shlex.join(words), shown_difference(wanted, got))
    return None


def write(program, job):
    """Stores what the program does; what is wrong, or None."""
    answers = {run(program, job, words) for words in runs_of(job)}
    if len(answers) != 1:
        return "%s: its runs don't all have the same answer" % job
    with open(os.path.join(JOBS, job + ".answer"), "wb") as file:
        file.write(answers.pop())
    return None


def number_lines(said, source):
    """Behind the end of the main file real e-TeX names no line in its errors: there the last line's number is put in."""
    line = source.count(b"\n") + (0 if not source or source.endswith(b"\n") else 1)
    return re.sub(rb"(?m)^(! .*\.)\n(?!l\.\d)", lambda error: b"%s\nl.%d\n" % (error.group(1), line), said)


def ask(reftex, job):
    """Whether real e-TeX ended without an error, and what it said."""
    with tempfile.TemporaryDirectory() as folder:
        lay_out(job, folder)
        main = os.path.join(folder, os.path.basename(job) + ".tex")
        done = subprocess.run([sys.executable, reftex, main], capture_output=True, check=True)
    status = int(re.search(rb"ended with status (\d+)", done.stderr).group(1))
    return status == 0, number_lines(done.stdout, read(os.path.join(JOBS, job + ".tex")))


def compare(reftex, job):
    """How a job's answer differs from what real e-TeX says, or None."""
    head, _, said = read(os.path.join(JOBS, job + ".answer")).partition(b"\n\n")
    clean, real = ask(reftex, job)
    if real == said and clean == head.startswith(b"status 0"):
        return None
    return "%s: real e-TeX ended %s error\n%s" % (job, "without" if clean else "with an", shown_difference(said, real))


def can_be_asked(job):
    """Whether real e-TeX can tell the answer of a job."""
    answer = read(os.path.join(JOBS, job + ".answer")) or b""
    has_main, has_words = (os.path.isfile(os.path.join(JOBS, job + it)) for it in (".tex", ".words"))
    return answer.startswith(ENDINGS_OF_TEX) and has_main and not has_words and UNBUILT not in answer


def do_all(what, tool, jobs):
    """Does this with all jobs, and prints what is wrong."""
    with concurrent.futures.ThreadPoolExecutor(os.cpu_count()) as threads:
        wrong = [it for it in threads.map(lambda job: what(tool, job), jobs) if it]
    for it in wrong:
        print(it)
    print("%d jobs, %d differ" % (len(jobs), len(wrong)))
    return 1 if wrong or not jobs else 0


def main():
    """Does what the words ask for."""
    parser = argparse.ArgumentParser(description="runs the jobs of tests/jobs")
    parser.add_argument("--real", action="store_true", help="compare the answers with real e-TeX")
    parser.add_argument("--write", action="store_true", help="write the answers of the jobs that are named")
    parser.add_argument("--program", default=PROGRAM, help="another program than the one that rt ci built")
    parser.add_argument("--reftex", help="a program that runs real e-TeX in the layout of etx")
    parser.add_argument("names", nargs="*", metavar="NAME", help="the beginning of a job's path in tests/jobs")
    words = parser.parse_args()
    jobs = find_jobs(words.names)
    if words.real:
        reftex = next((it for it in ([words.reftex] if words.reftex else REFTEX) if os.path.isfile(it)), None)
        if not reftex or not shutil.which("pdftex"):
            print("run_jobs.py: skipped, since there is no %s here" % ("pdftex" if reftex else "program that runs real e-TeX"))
            return 0
        return do_all(compare, os.path.abspath(reftex), [it for it in jobs if can_be_asked(it)])
    if not os.access(words.program, os.X_OK):
        print("run_jobs.py: there is no program %s: `rt ci` builds it" % os.path.relpath(words.program))
        return 1
    if words.write and not words.names:
        parser.error("--write wants the names of jobs")
    return do_all(write if words.write else check, os.path.abspath(words.program), jobs)


if __name__ == "__main__":
    sys.exit(main())
