#!/usr/bin/env python3
"""Reads every TFM file of the machine, and compares what `etx_tfm` makes of it with what `tftopl` says.

    bench/fonts.py [FOLDER ..]      without a folder: where TeX Live keeps its fonts
    bench/fonts.py --hostile        how long fonts take that are made to be slow to read: pairs that come to something by
                                    2^n steps, n up to 60, and ligatures that come round at once

It builds a small program over a copy of the crates in a folder of its own, with `rt`, which takes some minutes. Compared
are the widths, heights, depths and italic corrections of all characters, and what becomes of each pair of characters and
of each character at an edge of a word: characters, ligatures with their letters, and kerns. It says how many files there
were and how many differ. It is no part of the gate, and does nothing where there is no `tftopl`. Exit status 1 where
something differs.
"""
import os
import re
import shutil
import struct
import subprocess
import sys
import tempfile
import time

import common

FOLDERS = ["/usr/share/texlive", "/usr/share/texmf", "/usr/local/texlive", "/var/lib/texmf"]
PROGRAM = r"""//! What a font makes of its characters.
#![tactic(auto)]

use etx_matter::{Font, Node, Nodes, Size};
use etx_tfm::{FontFault, ligkern, read_font};
use std::alloc::Global;
use std::env;
use std::fs;
use std::rt::{Env, Files};

/// At this size, 16pt, a dimension in sp is the number of its word.
const UNIT: i32 = 1_048_576;

fn push_node(text: &mut String, node: &Node) -> anyhow::Result<()> {
    let alloc = *text.allocator();
    match node {
        Node::Char { code, .. } => text.push_str(&format!(in alloc; " c{code}")?)?,
        Node::Kern { width, .. } => text.push_str(&format!(in alloc; " k{width}")?)?,
        Node::Lig { code, parts, .. } => {
            let parts = parts.get();
            let (left, right) = (parts.left, parts.right);
            text.push_str(&format!(in alloc; " l{code},{left},{right}")?)?;
            for letter in parts.letters.as_slice() {
                text.push_str(&format!(in alloc; ",{letter}")?)?;
            }
        }
        _ => text.push_str(" other")?,
    }
    Ok(())
}

fn is_plain(nodes: &Nodes, count: usize) -> bool {
    for node in nodes.as_slice() {
        match node {
            Node::Char { .. } => {}
            _ => return false,
        }
    }
    nodes.len() == count
}

fn push_word(text: &mut String, font: &Font, word: &[u8], left: bool, right: bool) -> anyhow::Result<()> {
    let alloc = *text.allocator();
    let nodes = ligkern(alloc, font, word, left, right)?;
    if is_plain(&nodes, word.len()) {
        return Ok(());
    }
    text.push_str(&format!(in alloc; "w {left} {right}")?)?;
    for code in word {
        text.push_str(&format!(in alloc; " {code}")?)?;
    }
    text.push_str(" :")?;
    for node in nodes.as_slice() {
        push_node(text, node)?;
    }
    text.push_str("\n")?;
    Ok(())
}

fn push_sizes(text: &mut String, font: &Font, code: u8) -> anyhow::Result<()> {
    let alloc = *text.allocator();
    let nodes = ligkern(alloc, font, &[code], false, false)?;
    if let Some(Node::Char { size, .. }) = nodes.at(0) {
        text.push_str(&format!(in alloc; "c {code} {} {} {} {}\n", size.width, size.height, size.depth, size.italic)?)?;
    }
    Ok(())
}

fn push_row(text: &mut String, font: &Font, code: u8) -> anyhow::Result<()> {
    push_sizes(text, font, code)?;
    push_word(text, font, &[code], true, false)?;
    push_word(text, font, &[code], false, true)?;
    for next in 0..=255u8 {
        if font.info().has_character(next) {
            push_word(text, font, &[code, next], false, false)?;
        }
    }
    Ok(())
}

fn push_font(text: &mut String, font: &Font) -> anyhow::Result<()> {
    for code in 0..=255u8 {
        if font.info().has_character(code) {
            push_row(text, font, code)?;
        }
    }
    Ok(())
}

fn tell(rt: &HostRuntime, font: &Font, reads_alone: bool) -> anyhow::Result<()> {
    let mut text = String::new(rt.alloc());
    if !reads_alone {
        push_font(&mut text, font)?;
    }
    print!(rt; "{text}")?;
    Ok(())
}

fn read(rt: &HostRuntime, name: &str, reads_alone: bool) -> anyhow::Result<()> {
    let bytes = fs::read(rt, name)?;
    println!(rt; "f {name}")?;
    match read_font(rt.alloc(), bytes.as_slice(), Size::At(UNIT)) {
        Ok(font) => tell(rt, &font, reads_alone),
        Err(fault) => {
            println!(rt; "bad {fault:?}")?;
            Ok(())
        }
    }
}

fn main(rt: HostRuntime) -> anyhow::Result<()> {
    let mut reads_alone = false;
    for name in env::args(&rt)?.skip(1) {
        if name.as_str() == "--read" {
            reads_alone = true;
        } else {
            read(&rt, name.as_str(), reads_alone)?;
        }
    }
    Ok(())
}
"""


def tokens(text):
    return re.findall(r"[()]|[^\s()]+", text)


def tree(words):
    """Property lists as lists of words and lists."""
    stack = [[]]
    for word in words:
        if word == "(":
            stack.append([])
        elif word == ")":
            inner = stack.pop()
            stack[-1].append(inner)
        else:
            stack[-1].append(word)
    return stack[0]


def number(kind, word):
    """A code: C for a letter, O octal, D decimal."""
    return ord(word) if kind == "C" else int(word, 8 if kind == "O" else 10)


def real(word):
    return round(float(word) * 1048576)


OPERATIONS = {"LIG": (0, 0, 0), "LIG/": (0, 1, 0), "LIG/>": (0, 1, 1), "/LIG": (1, 0, 0), "/LIG>": (1, 0, 1),
              "/LIG/": (1, 1, 0), "/LIG/>": (1, 1, 1), "/LIG/>>": (1, 1, 2)}


class Metrics:
    """What tftopl says of a font."""

    def __init__(self, text):
        self.sizes, self.program, self.begin, self.boundary, self.rows = {}, [], {}, None, {}
        for item in tree(tokens(text)):
            if item[0] == "BOUNDARYCHAR":
                self.boundary = number(item[1], item[2])
            elif item[0] == "CHARACTER":
                size = {inner[0]: real(inner[2]) for inner in item[3:] if inner[0] in ("CHARWD", "CHARHT", "CHARDP", "CHARIC")}
                self.sizes[number(item[1], item[2])] = [size.get(key, 0) for key in ("CHARWD", "CHARHT", "CHARDP", "CHARIC")]
            elif item[0] == "LIGTABLE":
                self.read_program(item[1:])

    def read_program(self, steps):
        for step in steps:
            here = len(self.program)
            if step[0] == "LABEL":
                self.begin["edge" if step[1] == "BOUNDARYCHAR" else number(step[1], step[2])] = here
            elif step[0] == "KRN":
                self.program.append([number(step[1], step[2]), ("k", real(step[4])), 0])
            elif step[0] in OPERATIONS:
                self.program.append([number(step[1], step[2]), ("l", number(step[3], step[4]), OPERATIONS[step[0]]), 0])
            elif step[0] == "STOP":
                self.program[-1][2] = None
            elif step[0] == "SKIP":
                self.program[-1][2] = number(step[1], step[2])

    def row(self, left):
        """What is done behind a character or the edge, for each one that its program names."""
        if left not in self.rows:
            row, place = {}, self.begin.get(left)
            while place is not None:
                following, action, skip = self.program[place]
                row.setdefault(following, action)
                place = None if skip is None else place + skip + 1
            self.rows[left] = row
        return self.rows[left]

    def action(self, left, right):
        return self.row(left).get(self.boundary if right == "edge" else right)

    def word(self, word, left, right):
        """What becomes of a word, as the program prints it."""
        rest = [(code, [code], False, False, False) for code in word]
        rest = [("edge", [], True, False, False)] * left + rest + [("edge", [], False, True, False)] * right
        done = []
        while len(rest) > 1:
            x, y = rest[0], rest[1]
            action = self.action(x[0], y[0])
            if action is None:
                done.append(rest.pop(0))
            elif action[0] == "k":
                done += [rest.pop(0), action]
            else:
                keep, stay, passes = action[2]
                gone = ([] if keep else [x]) + ([] if stay else [y])
                made = (action[1], sum((item[1] for item in gone), []), any(item[2] for item in gone), any(item[3] for item in gone), True)
                rest[:2] = ([x] if keep else []) + [made] + ([y] if stay else [])
                done += rest[:passes]
                del rest[:passes]
        return "".join(self.shown(item) for item in done + rest)

    @staticmethod
    def shown(item):
        if item[0] == "k":
            return f" k{item[1]}"
        if item[4]:
            flags = [str(flag).lower() for flag in item[2:4]]
            return " l" + ",".join([str(item[0])] + flags + [str(letter) for letter in item[1]])
        return "" if item[0] == "edge" else f" c{item[0]}"

    def lines(self):
        """What the program ought to print."""
        for code, size in sorted(self.sizes.items()):
            yield "c " + " ".join(map(str, [code] + size))
            words = [([code], True, False), ([code], False, True)]
            words += [([code, following], False, False) for following in sorted(self.sizes) if following in self.row(code)]
            for word, left, right in words:
                shown = self.word(word, left, right)
                if shown != "".join(f" c{letter}" for letter in word):
                    yield f"w {str(left).lower()} {str(right).lower()} {' '.join(map(str, word))} :{shown}"


X = 127


def doubling(count):
    """Programs by which the pair (i, x) comes to something by that of (i + 1, x) twice, for i below count."""
    programs = {X: [(128 + i, 0, i + 1) for i in range(count)]}
    for i in range(count):
        programs[i] = [(X, 3, 128 + i), (128 + i, 1, i + 1)] + [(128 + i - 1, 3, X)] * (i > 0)
    programs[count] = [(X, 0, X), (128 + count - 1, 3, X)]
    return programs


def round_at_once():
    """Programs by which a pair leads to itself, and many more steps."""
    return {X: [(X, 3, X)] + [(code, 0, code) for code in range(200) if code != X]}


def metric_file(programs):
    """A TFM file with 256 characters and these programs, each a list of (next, operation, remainder)."""
    steps, begin = [], {}
    for code, program in sorted(programs.items()):
        begin[code] = len(steps)
        steps += [(0, *step) for step in program[:-1]] + [(128, *program[-1])]
    characters = b"".join(bytes((1, 0, code in begin, begin.get(code, 0))) for code in range(256))
    lengths = [6 + 2 + 256 + 2 + 3 + len(steps) + 7, 2, 0, 255, 2, 1, 1, 1, len(steps), 0, 0, 7]
    header = bytes(4) + struct.pack(">I", 10 << 20)
    tables = bytes(4) + struct.pack(">I", 1 << 19) + bytes(12) + b"".join(map(bytes, steps)) + bytes(28)
    return struct.pack(">12H", *lengths) + header + characters + tables


def time_hostile():
    fonts = {f"2^{count} steps": doubling(count) for count in (10, 16, 20, 24, 40, 60)}
    fonts["round at once"] = round_at_once()
    with tempfile.TemporaryDirectory() as folder:
        program = build(folder)
        name = os.path.join(folder, "hostile.tfm")
        for kind, programs in fonts.items():
            with open(name, "wb") as out:
                out.write(metric_file(programs))
            begin = time.time()
            try:
                ran = subprocess.run([program, "--read", name], stdout=subprocess.PIPE, text=True, timeout=20)
                said = ran.stdout.splitlines()[1:] or ["read"] if ran.returncode == 0 else [f"status {ran.returncode}"]
            except subprocess.TimeoutExpired:
                said = ["more than"]
            print(f"{kind}: {said[0]}, {time.time() - begin:.2f} s")
    return 0


def main():
    if sys.argv[1:] == ["--hostile"]:
        return time_hostile()
    if not shutil.which("tftopl"):
        print("no tftopl here: nothing to compare with")
        return 0
    folders = sys.argv[1:] or FOLDERS
    names = sorted(os.path.join(top, name) for folder in folders for top, _, files in os.walk(folder) for name in files if name.endswith(".tfm"))
    if not names:
        print("no TFM files here")
        return 0
    with tempfile.TemporaryDirectory() as folder:
        program = common.build_program(folder, "font_bench", PROGRAM, ["etx_tfm", "etx_matter", "etx_lists", "anyhow"])
        begin = time.time()
        subprocess.run([program, "--read"] + names, stdout=subprocess.DEVNULL)
        print(f"all fonts are read in {time.time() - begin:.2f} s")
        said = subprocess.run([program] + names, stdout=subprocess.PIPE, text=True).stdout
    ours = {}
    for line in said.splitlines():
        if line.startswith("f "):
            lines = ours.setdefault(line[2:], [])
        else:
            lines.append(line)
    bad = differing = compared = 0
    for name in names:
        told = subprocess.run(["tftopl", name], stdout=subprocess.PIPE, stderr=subprocess.PIPE, encoding="latin-1")
        got = ours.get(name, ["no answer"])
        if got and got[0].startswith("bad"):
            bad += 1
            print(f"{name}: {got[0]}; tftopl: {told.stderr.strip()[:100]}")
            continue
        wanted = list(Metrics(told.stdout).lines())
        compared += len(wanted)
        if got != wanted:
            differing += 1
            first = next((pair for pair in zip(got + [""], wanted + [""]) if pair[0] != pair[1]), None)
            print(f"{name}: {first}")
    print(f"{len(names)} files, of which {bad} were refused and {differing} differ; {compared} lines were compared")
    return 1 if differing else 0


if __name__ == "__main__":
    sys.exit(main())
