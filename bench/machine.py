#!/usr/bin/env python3
"""Measures the machine beside real e-TeX: instructions of the processor for single commands and calls, as ratios.

    bench/machine.py [PROGRAM] [WORD]..   PROGRAM is crates/etx/out/etx, as `rt ci` builds it; WORD: only rows whose name has it

Each row is a piece of TeX that a macro's body has a hundred times. A tower of macros above it makes the body be read
10 and then 100 times over, and `valgrind --tool=callgrind` counts the instructions of both runs: the difference,
divided by the number of pieces, is the price of one piece, without what a program does once. (The tower itself adds
about a hundredth of a call to each piece.) `token from a file` reads lines in place of a tower. The limits are those
that the project set itself; a row above its limit is marked. It is no part of the gate, and does nothing where `pdftex`
or `valgrind` is missing.
"""
import os
import re
import shutil
import subprocess
import sys
import tempfile
from concurrent.futures import ThreadPoolExecutor

import common

CATEGORIES = "\\catcode`\\{=1 \\catcode`\\}=2 \\catcode`\\#=6 "
PIECES = 100
LETTERS = "abcdefghijklmnopqrstuvwxyz"


def names(count):
    """Definitions of so many names, four letters each."""
    texts = []
    for number in range(count):
        name = "".join(LETTERS[number // 26**place % 26] for place in range(4))
        texts.append(f"\\def\\{name}{{}}")
    return "\n".join("".join(texts[at : at + 8]) for at in range(0, count, 8))


# name: (what stands before, the piece, the most times real e-TeX's price that it may take)
ROWS = {
    "relax": ("", "\\relax", 2.0),
    "empty call": ("\\def\\e{}", "\\e", 1.5),
    "call with a body of three": ("\\def\\e{\\relax\\relax\\relax}", "\\e", 2.0),
    "one undelimited argument": ("\\def\\e#1{}", "\\e x", 3.0),
    "two undelimited arguments": ("\\def\\e#1#2{}", "\\e xy", 3.0),
    "delimited argument": ("\\def\\e#1.{}", "\\e x.", 3.0),
    "argument of 24 tokens in braces": ("\\def\\e#1{}", "\\e{" + "x" * 24 + "}", 3.0),
    "expandafter": ("\\def\\e{}", "\\expandafter\\relax\\e", 3.0),
    "csname": ("\\let\\abc\\relax", "\\csname abc\\endcsname", 3.0),
    "edef of ten macros": ("\\def\\e{}", "\\edef\\x{" + "\\e" * 10 + "}", 3.0),
    "let": ("", "\\let\\x\\relax", 4.0),
    "let in a group": ("", "{\\let\\x\\relax}", 4.0),
    "empty group": ("", "{}", 4.0),
    "def with ten tokens": ("", "\\def\\x{" + "\\relax" * 10 + "}", 4.0),
    "catcode": ("", "\\catcode`\\~=12 ", 4.0),
    "count": ("", "\\count1=12345 ", 3.0),
    "advance": ("", "\\advance\\count1 by 3 ", 3.0),
    "number": ("", "\\edef\\x{\\number\\count1 }", 3.0),
    "ifnum": ("", "\\ifnum\\count1=1 \\fi", 3.0),
    "ifx": ("", "\\ifx\\relax\\relax\\fi", 3.0),
    "skipped text": ("", "\\iffalse" + "\\relax" * 20 + "\\fi", 3.0),
    "dimen": ("", "\\dimen1=1.5pt ", 3.0),
    "numexpr of five": ("", "\\count1=\\numexpr1+2*3-4/5\\relax", 3.0),
    "the tokens in edef": ("\\toks1={abcd}", "\\edef\\x{\\the\\toks1}", 3.0),
    "relax, 5000 more names": (names(5000), "\\relax", 2.0),
    "empty call, 5000 more names": (names(5000) + "\\def\\e{}", "\\e", 1.5),
    "let, 5000 more names": (names(5000), "\\let\\x\\relax", 4.0),
}
FROM_FILE = "token from a file"
LIMIT_FROM_FILE = 2.5
LINE = "\\relax" * 10


def tower(before, piece, floors):
    """The job that reads the body 10 times as often with each floor more."""
    lines = [CATEGORIES, before, f"\\def\\A{{{piece * PIECES}}}"]
    for floor in range(floors):
        calls = ("\\" + "ABCDEFG"[floor]) * 10
        lines.append(f"\\def\\{'BCDEFGH'[floor]}{{{calls}}}")
    lines.append("\\" + "ABCDEFGH"[floors])
    return "\n".join(lines + ["\\end", ""])


def commands(program):
    """How each of the two is called in a folder that has job.tex."""
    return {
        "etx": [program, "alone", "--steps", "1000000000000", "job"],
        "e-TeX": ["pdftex", "-ini", "-etex", "-interaction=batchmode", "*job"],
    }


def instructions(command, text):
    """How many instructions a run takes on a job of this text."""
    with tempfile.TemporaryDirectory() as folder:
        with open(os.path.join(folder, "job.tex"), "w", encoding="ascii") as file:
            file.write(text)
        tool = ["valgrind", "--tool=callgrind", "--callgrind-out-file=callgrind.out"]
        output = subprocess.run(tool + command, cwd=folder, stdout=subprocess.DEVNULL, stderr=subprocess.PIPE, check=False).stderr
        return int(re.search(rb"Collected : (\d+)", output).group(1))


def slope(command, few, many, pieces):
    return (instructions(command, many) - instructions(command, few)) / pieces


def price(program, name):
    """The price of a piece in each of the two."""
    if name == FROM_FILE:
        few, many = ("\n".join([CATEGORIES] + [LINE] * count + ["\\end", ""]) for count in (1000, 5000))
        pieces = 4000 * 10
    else:
        before, piece, _ = ROWS[name]
        few, many = (tower(before, piece, floors) for floors in (1, 2))
        pieces = 90 * PIECES
    return {engine: slope(command, few, many, pieces) for engine, command in commands(program).items()}


def main():
    words = sys.argv[1:]
    program = os.path.join(common.ROOT, "crates/etx/out/etx")
    if words and os.access(words[0], os.X_OK):
        program = os.path.abspath(words.pop(0))
    for tool in "pdftex", "valgrind":
        if not shutil.which(tool):
            print(f"{tool} is not there: nothing is compared")
            return 0
    if not os.access(program, os.X_OK):
        print(f"{program} is not there: run rt ci first")
        return 1
    limits = {name: row[2] for name, row in ROWS.items()} | {FROM_FILE: LIMIT_FROM_FILE}
    chosen = [name for name in limits if not words or any(word in name for word in words)]
    print("instructions of           etx    e-TeX   ratio  limit")
    with ThreadPoolExecutor(2) as pool:
        for name, each in zip(chosen, pool.map(lambda name: price(program, name), chosen)):
            ratio = each["etx"] / each["e-TeX"]
            mark = "" if ratio <= limits[name] else "  over"
            print(f"{name:32} {each['etx']:7.0f} {each['e-TeX']:7.0f} {ratio:7.2f} {limits[name]:6.1f}{mark}", flush=True)
    return 0


if __name__ == "__main__":
    sys.exit(main())
