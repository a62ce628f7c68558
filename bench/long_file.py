#!/usr/bin/env python3
"""Times `etx alone` on the longest file that it loads, and on one that is a byte longer.

    bench/long_file.py [PROGRAM]        PROGRAM is crates/etx/out/etx, as `./demo` builds it

It asks for at most 2 seconds on one processor and for at most 12 times the file's size in memory, and for the fatal
end on the longer file. It is no part of the gate. Exit status 1 where something is not as asked.
"""
import os
import subprocess
import sys
import tempfile

import common

LONGEST = 16777216
NO_PAGES = b"No pages of output.\n"
FATAL = b"! Emergency stop.\nl.0\n*** (job aborted, file error in nonstop mode)\n" + NO_PAGES


def comments(length, line):
    """So many bytes of comment lines, with an end at the end."""
    end = b"%\n\\end"
    lines = (length - len(end)) // len(line)
    rest = length - len(end) - lines * len(line)
    return line * lines + (b"%" * (rest - 1) + b"\n" if rest else b"") + end


def measure(program, name):
    """Runs the program here. What it said goes on; the figures are the last line."""
    process = subprocess.Popen([program, "alone", name], stdout=subprocess.PIPE)
    said = process.stdout.read()
    _, status, usage = os.wait4(process.pid, 0)
    sys.stdout.buffer.write(said)
    sys.stdout.write(f"{os.waitstatus_to_exitcode(status)} {usage.ru_utime + usage.ru_stime} {usage.ru_maxrss * 1024}\n")


def run(program, name, source):
    """The exit status, what was said, the seconds of the processor and the greatest memory in bytes.

    A process of its own measures: a child begins with the memory of the one that started it.
    """
    with tempfile.TemporaryDirectory() as folder:
        with open(os.path.join(folder, name + ".tex"), "wb") as file:
            file.write(source)
        command = [sys.executable, os.path.abspath(__file__), "--measure", program, name]
        output = subprocess.run(command, cwd=folder, stdout=subprocess.PIPE, check=True).stdout
        said, _, figures = output.rstrip(b"\n").rpartition(b"\n")
        status, seconds, memory = figures.split()
        return int(status), said + b"\n", float(seconds), int(memory)


def main():
    if sys.argv[1:2] == ["--measure"]:
        measure(sys.argv[2], sys.argv[3])
        return 0
    program = os.path.abspath(sys.argv[1] if len(sys.argv) > 1 else os.path.join(common.ROOT, "crates/etx/out/etx"))
    if not os.access(program, os.X_OK):
        print(f"{program} is not there: run ./demo first")
        return 1
    good = True
    for title, line in [("lines of 80 bytes", b"%" + b"x" * 78 + b"\n"), ("one line", b"%" * (LONGEST - 6) + b"\n"), ("empty comments", b"%\n")]:
        source = comments(LONGEST, line if len(line) < LONGEST - 6 else b"%")
        assert len(source) == LONGEST
        status, said, seconds, memory = run(program, "job", source)
        good &= status == 0 and said == NO_PAGES and seconds <= 2 and memory <= 12 * LONGEST
        print(f"{title}: status {status}, {seconds:.2f} s, {memory / LONGEST:.2f} times its size")
    status, said, seconds, memory = run(program, "job", comments(LONGEST + 1, b"%\n"))
    good &= status == 2 and said == FATAL
    print(f"one byte more: status {status}, {'the fatal end' if said == FATAL else 'NOT the fatal end'}, {seconds:.2f} s")
    print("as asked" if good else "NOT as asked")
    return 0 if good else 1


if __name__ == "__main__":
    sys.exit(main())
