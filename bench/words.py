#!/usr/bin/env python3
"""Compares words with hyphens with those of real e-TeX.

    bench/words.py [COUNT [SEED [BY_CRATE]]]      300 paragraphs with the seed 1, and 3 by the crate, unless others are given

Each paragraph is set in two small fonts of its own, whose ligatures and kerns are drawn at random: of all eight kinds, also
with the boundaries of words. It has words of letters and other characters, groups between them that end a word and begin
another, kerns, penalties and changes of the font. Real e-TeX, as INITEX, breaks it into one line on its second pass and
shows the list; here it is hyphenated by the rules of the definitions, in Python (bench/words_by_rule.py). The first ones are
hyphenated by a small program over `etx_hyphen` as well, which `rt try` runs; it proves nothing, needs no proof, and is slow.

Two things are compared. Without the discretionaries and what they show the lists have to be the same, item by item. And
where both have a hyphen behind the same letters, a line that is broken there has to end and to begin with the same items.
Hyphens that only one of them has are counted: runs that overlap an earlier one are dropped here (docs/DECISIONS.md).

It is no part of the gate. Where `pdftex`, `pltotf` or `rt` is missing it says so, and its exit status is 0.
"""
import os
import random
import re
import shutil
import subprocess
import sys
import tempfile

import common
import words_by_rule

NEEDS = ["etx_hyphen", "etx_tfm", "etx_sealed", "etx_patterns", "etx_prims", "etx_matter", "etx_lists"]
LETTERS = "abcd"
OTHERS = "(,"
MADE = "xyz"
KINDS = ["LIG", "LIG/", "/LIG", "/LIG/", "LIG/>", "/LIG>", "/LIG/>", "/LIG/>>"]

PROGRAM = r"""//! Reads paragraphs as numbers and prints their lists with hyphens.
#![tactic(auto)]

use etx_hyphen::hyphenated;
use etx_lists::{Bytes, Listed};
use etx_matter::{Font, Glue, GlueOrder, KernKind, Limits, Node, Nodes, SharedFont, Size};
use etx_patterns::{Patterns, Step};
use etx_prims::InteractionKind;
use etx_sealed::{BreakParams, LineSkips, ParParams, ParShape, ParagraphPenalties, SealedFont};
use etx_tfm::{push_ligkern, read_font};
use std::alloc::{AllocError, Global};
use std::io;

#[derive(Drop)]
struct Numbers {
    all: Vec<i32>,
    at: usize,
}

impl Numbers {
    fn next(&mut self) -> i32 {
        let value = match self.all.get(self.at) {
            Some(it) => *it,
            None => 0,
        };
        if self.at < self.all.len() {
            self.at += 1;
        }
        value
    }

    fn is_done(&self) -> bool {
        self.at >= self.all.len()
    }
}

const NO_GLUE: Glue = Glue {
    width: 0,
    stretch: 0,
    shrink: 0,
    stretch_order: GlueOrder::Normal,
    shrink_order: GlueOrder::Normal,
};

fn bytes(alloc: Global, n: &mut Numbers) -> Result<Bytes, AllocError> {
    let mut out = Bytes::new(alloc);
    let count = n.next();
    for _ in 0..count {
        out.push(n.next() as u8)?;
    }
    Ok(out)
}

fn font_of(alloc: Global, number: u8, n: &mut Numbers) -> Result<Option<SharedFont>, AllocError> {
    let bytes = bytes(alloc, n)?;
    match read_font(alloc, bytes.as_slice(), Size::Design) {
        Ok(font) => {
            let mut font = font;
            font.set_number(number);
            Ok(Some(SharedFont::new(alloc, font)?))
        }
        Err(_) => Ok(None),
    }
}

fn lccode(alloc: Global) -> Result<Bytes, AllocError> {
    let mut codes = Bytes::with_room(alloc, 256)?;
    for code in 0..=255u8 {
        codes.push(if code >= b'a' && code <= b'd' { code } else { 0 })?;
    }
    Ok(codes)
}

fn tables(alloc: Global) -> Result<Patterns, AllocError> {
    let mut tables = Patterns::new(alloc)?;
    let _ = tables.add(0, &[Step::Digit(1), Step::Letter(b'b')]);
    let _ = tables.add(0, &[Step::Letter(b'c'), Step::Digit(1)]);
    let _ = tables.add(0, &[Step::Letter(b'a'), Step::Digit(1), Step::Letter(b'a')]);
    Ok(tables)
}

fn params(alloc: Global, first: &SharedFont, second: &SharedFont) -> Result<ParParams, AllocError> {
    let mut fonts = Listed::new(alloc);
    fonts.push(SealedFont {
        font: first.share()?,
        hyphen_char: 45,
    })?;
    fonts.push(SealedFont {
        font: second.share()?,
        hyphen_char: 45,
    })?;
    Ok(ParParams {
        prevgraf: 0,
        shape: ParShape::Hanging {
            width: 0,
            indent: 0,
            after: 1,
        },
        breaks: BreakParams {
            pretolerance: 0,
            tolerance: 0,
            line_penalty: 0,
            hyphen_penalty: 0,
            ex_hyphen_penalty: 0,
            double_hyphen_demerits: 0,
            final_hyphen_demerits: 0,
            adj_demerits: 0,
            looseness: 0,
            emergency_stretch: 0,
        },
        penalties: ParagraphPenalties {
            inter_line: 0,
            club: 0,
            widow: 0,
            display_widow: 0,
            broken: 0,
        },
        skips: LineSkips {
            left: NO_GLUE,
            right: NO_GLUE,
            par_fill: NO_GLUE,
            baseline: NO_GLUE,
            line: NO_GLUE,
            limit: 0,
        },
        limits: Limits {
            badness: 0,
            fuzz: 0,
            rule: 0,
        },
        uchyph: 0,
        lccode: lccode(alloc)?,
        fonts,
        tables: tables(alloc)?,
        mode: InteractionKind::Batch,
        first_line: 1,
        last_line: 1,
        active: false,
        display: false,
        language: 0,
        left: 1,
        right: 1,
    })
}

fn list_of(
    alloc: Global,
    n: &mut Numbers,
    first: &SharedFont,
    second: &SharedFont,
) -> Result<Nodes, AllocError> {
    let mut list = Nodes::new(alloc);
    while !n.is_done() {
        let what = n.next();
        match what {
            0 => list.push(Node::Glue(NO_GLUE))?,
            1 => {
                let chars = bytes(alloc, n)?;
                push_ligkern(alloc, first.get(), chars.as_slice(), true, true, &mut list)?;
            }
            2 => {
                let chars = bytes(alloc, n)?;
                push_ligkern(alloc, second.get(), chars.as_slice(), true, true, &mut list)?;
            }
            3 => list.push(Node::Kern {
                width: 1,
                kind: KernKind::Explicit,
            })?,
            _ => list.push(Node::Penalty(0))?,
        }
    }
    Ok(list)
}

fn show(rt: &HostRuntime, node: &Node) -> io::Result<()> {
    match node {
        Node::Glue(_) => print!(rt; " g"),
        Node::Penalty(_) => print!(rt; " p"),
        Node::Kern { width, kind } => match kind {
            KernKind::Normal => print!(rt; " k {width}"),
            _ => print!(rt; " K {width}"),
        },
        Node::Char { font, code, .. } => print!(rt; " c {font} {code}"),
        Node::Lig { font, code, parts, .. } => {
            let parts = parts.get();
            let left = u8::from(parts.left);
            let right = u8::from(parts.right);
            print!(rt; " l {font} {code} {left} {right}")?;
            for letter in parts.letters.as_slice() {
                print!(rt; " {letter}")?;
            }
            print!(rt; " .")
        }
        Node::Disc(disc) => {
            let disc = disc.get();
            let replaces = disc.replaces;
            print!(rt; " d {replaces}")?;
            for it in disc.pre.nodes.as_slice() {
                show(rt, it)?;
            }
            print!(rt; " |")?;
            for it in disc.post.nodes.as_slice() {
                show(rt, it)?;
            }
            print!(rt; " ;")
        }
        _ => print!(rt; " ?"),
    }
}

fn numbers_in(alloc: Global, line: &str) -> Result<Numbers, AllocError> {
    let mut all = Vec::new(alloc);
    for word in line.split(' ') {
        if let Ok(number) = word.parse::<i32>() {
            all.push(number)?;
        }
    }
    Ok(Numbers { all, at: 0 })
}

fn obey(rt: &HostRuntime, n: &mut Numbers) -> io::Result<()> {
    let first = font_of(rt.alloc(), 0, n)?;
    let second = font_of(rt.alloc(), 1, n)?;
    print!(rt; "W")?;
    if let (Some(first), Some(second)) = (&first, &second) {
        let list = list_of(rt.alloc(), n, first, second)?;
        let params = params(rt.alloc(), first, second)?;
        let nodes = hyphenated(rt.alloc(), &list, &params)?;
        for node in nodes.as_slice() {
            show(rt, node)?;
        }
    }
    println!(rt; "")
}

fn main(rt: HostRuntime) -> io::Result<()> {
    for line in rt.lines(rt.alloc()) {
        let line = line?;
        let mut n = numbers_in(rt.alloc(), line.as_str())?;
        obey(&rt, &mut n)?;
    }
    Ok(())
}
"""


def some_font(rnd, plain):
    """A property list. A plain font has ligatures of the common kind alone, and no kerns."""
    boundary = rnd.random() < 0.7
    lines = ["(FAMILY T)", "(DESIGNSIZE D 10)"]
    if boundary:
        lines.append("(BOUNDARYCHAR C !)")
    lines.append("(LIGTABLE")
    glyphs = LETTERS + OTHERS + MADE
    lefts = list(glyphs) + (["BOUNDARYCHAR"] if boundary else [])
    rights = list(glyphs) + ["-"] + (["!"] * 3 if boundary else [])
    for left in lefts:
        steps = []
        for _ in range(rnd.choice([0, 0, 1, 1, 2, 3])):
            right = rnd.choice(rights)
            if rnd.random() < 0.3 and not plain:
                steps.append(f"(KRN C {right} R {rnd.randint(1, 40) / 64})")
            else:
                kind = "LIG" if plain or rnd.random() < 0.4 else rnd.choice(KINDS)
                steps.append(f"({kind} C {right} C {rnd.choice(MADE * 3 + LETTERS)})")
        if steps:
            lines.append(f"(LABEL {left})" if left == "BOUNDARYCHAR" else f"(LABEL C {left})")
            lines += steps + ["(STOP)"]
    lines.append(")")
    for code in glyphs + "-":
        lines.append(f"(CHARACTER C {code} (CHARWD R 0.5) (CHARHT R 0.5))")
    return "\n".join(lines).replace("C (", "O 50").replace("C ,", "O 54") + "\n"


def some_items(rnd):
    items = [("glue",)]
    for _ in range(rnd.randint(2, 6)):
        for _ in range(rnd.choice([1, 1, 1, 1, 2, 2, 3])):
            shape = rnd.random()
            chars = "".join(rnd.choice(LETTERS) for _ in range(rnd.randint(1, 6)))
            if shape < 0.3:
                chars += rnd.choice(OTHERS)
            elif shape < 0.5:
                chars = rnd.choice(OTHERS) + chars
            elif shape < 0.55:
                chars = "".join(rnd.choice(LETTERS + OTHERS) for _ in range(rnd.randint(1, 6)))
            items.append(("run", 0 if rnd.random() < 0.85 else 1, chars))
            if rnd.random() < 0.1:
                items.append((rnd.choice(["kern", "penalty"]),))
        items.append(("glue",))
    return items


def numbers_of(fonts, items):
    told = []
    for font in fonts:
        told += [len(font)] + list(font)
    for item in items:
        if item[0] == "run":
            told += [item[1] + 1, len(item[2])] + list(item[2].encode())
        else:
            told.append({"glue": 0, "kern": 3, "penalty": 4}[item[0]])
    return " ".join(map(str, told))


def tex_of(number, items):
    body = []
    for item in items:
        if item[0] == "run":
            body.append(("{\\f " if item[1] == 0 else "{\\g ") + item[2] + "}")
        else:
            body.append({"glue": r"\hskip0pt\relax ", "kern": r"\kern1sp\relax ", "penalty": r"\penalty0\relax "}[item[0]])
    return (
        rf"{{\message{{PAR{number}}}\font\f=f{number} \hyphenchar\f=45 \font\g=g{number} \hyphenchar\g=45 "
        rf"\setbox0\vbox{{\noindent {''.join(body)}\par\global\setbox1\lastbox}}\showbox1 }}"
    )


def by_tex(paragraphs, folder):
    head = [
        r"\catcode`\{=1 \catcode`\}=2 \batchmode \hbadness=10000 \hfuzz=10000pt \hsize=10000pt \pretolerance=-1 \tolerance=10000",
        r"\showboxbreadth=10000 \showboxdepth=10 \parfillskip=0pt plus1fil \hyphenpenalty=10000 \exhyphenpenalty=10000",
        r"\lefthyphenmin=1 \righthyphenmin=1 \patterns{1b c1 a1a}",
    ] + [rf"\lccode`\{code}=0" for code in MADE]
    body = [tex_of(number, items) for number, (_, items) in enumerate(paragraphs)]
    with open(os.path.join(folder, "job.tex"), "w", encoding="ascii") as file:
        file.write("\n".join(head + body + [r"\end", ""]))
    subprocess.run(["pdftex", "-ini", "-etex", "job.tex"], cwd=folder, stdin=subprocess.DEVNULL, stdout=subprocess.DEVNULL, check=False, timeout=300)
    with open(os.path.join(folder, "job.log"), encoding="latin-1") as file:
        parts = re.split(r"PAR(\d+)", file.read())[1:]
    return {int(number): shown(text) for number, text in zip(parts[::2], parts[1::2])}


def scaled(text):
    return round(float(text) * 65536)


def glyph(text):
    """A character or a ligature as \\showbox has it."""
    made = re.match(r"^\\([fg]) (.) \(ligature (\|?)(.*?)(\|?)\)$", text)
    if made:
        font, code, left, letters, right = made.groups()
        return ("l", font == "g", code, bool(left), bool(right), letters)
    plain = re.match(r"^\\([fg]) (.)$", text)
    return ("c", plain.group(1) == "g", plain.group(2))


def shown(text):
    """The items of a list that \\showbox shows."""
    items = []
    for line in text.split("\n"):
        line = line.rstrip()
        if not line.startswith("."):
            continue
        if line.startswith("..") or line.startswith(".|"):
            side = 1 if line.startswith("..") else 2
            items[-1][side].append(item_of(line[2:]))
        elif line.startswith(r".\discretionary"):
            found = re.search(r"replacing (\d+)", line)
            items.append(("d", [], [], int(found.group(1)) if found else 0))
        else:
            items.append(item_of(line[1:]))
    return items


def item_of(line):
    if line.startswith(r"\kern "):
        return ("K",)
    if line.startswith(r"\kern"):
        return ("k", scaled(line[5:]))
    if line.startswith(r"\glue"):
        return ("g",)
    if line.startswith(r"\penalty"):
        return ("p",)
    return glyph(line)


def read(words):
    """The items that the program prints."""
    items = []
    while words and words[0] not in ("|", ";"):
        kind = words.pop(0)
        if kind in "gp?":
            items.append((kind,))
        elif kind == "k":
            items.append(("k", int(words.pop(0))))
        elif kind == "K":
            words.pop(0)
            items.append(("K",))
        elif kind == "c":
            font, code = words.pop(0), words.pop(0)
            items.append(("c", font == "1", chr(int(code))))
        elif kind == "l":
            font, code, left, right = (words.pop(0) for _ in range(4))
            letters = ""
            while words[0] != ".":
                letters += chr(int(words.pop(0)))
            words.pop(0)
            items.append(("l", font == "1", chr(int(code)), left == "1", right == "1", letters))
        else:
            replaces = int(words.pop(0))
            pre = read(words)
            words.pop(0)
            post = read(words)
            words.pop(0)
            items.append(("d", pre, post, replaces))
    return items


def by_crate(paragraphs, folder):
    crate = os.path.join(folder, "crates", "words")
    lines = common.copy_crates(folder, NEEDS)
    os.makedirs(os.path.join(crate, "src"))
    with open(os.path.join(crate, "src", "main.rt"), "w", encoding="utf-8") as file:
        file.write(PROGRAM)
    with open(os.path.join(folder, "crates.txt"), "w", encoding="utf-8") as file:
        file.writelines(lines + [f"words: {' '.join(NEEDS)}\n"])
    told = "\n".join(numbers_of(fonts, items) for fonts, items in paragraphs) + "\n"
    ran = subprocess.run(["rt", "try"], cwd=crate, input=told, stdout=subprocess.PIPE, stderr=subprocess.STDOUT, text=True, check=False)
    found = [read(line.split()[1:]) for line in ran.stdout.split("\n") if line.startswith("W")]
    if len(found) != len(paragraphs):
        sys.exit("the program could not be run:\n" + ran.stdout[-3000:])
    return found


def by_rule(fonts, items):
    """The list with hyphens by the rules of the definitions."""
    tables = [words_by_rule.Font(data, number) for number, data in enumerate(fonts)]
    nodes = []
    for item in items:
        if item[0] == "run":
            nodes += words_by_rule.reading(tables[item[1]], list(item[2].encode()), "boundary", "boundary")[0]
        else:
            nodes.append((item[0][0] if item[0] != "kern" else "K",))
    return as_shown(words_by_rule.hyphenated(tables, nodes))


def as_shown(nodes):
    found = []
    for node in nodes:
        if node[0] == "c":
            found.append(("c", node[1] == 1, chr(node[2])))
        elif node[0] == "l":
            found.append(("l", node[1] == 1, chr(node[2]), node[3], node[4], "".join(map(chr, node[5]))))
        elif node[0] == "d":
            found.append(("d", as_shown(node[1]), as_shown(node[2]), node[3]))
        else:
            found.append(node)
    return found


def rounded(items):
    """Widths as \\showbox tells them, and no marks of boundaries: e-TeX marks a ligature that a character behind the word made."""
    def one(item):
        if item[0] == "k":
            return ("k", round(item[1] / 65.536))
        if item[0] == "l":
            return ("l", item[1], item[2], item[5])
        return item
    return [one(item) for item in items]


def without_discs(items):
    return rounded([item for item in items if item[0] != "d"])


def letters_of(item):
    return item[2] if item[0] == "c" else item[5] if item[0] == "l" else ""


def hyphens_of(items):
    """For each discretionary what stands before the break from the last glue on, and what behind it up to the next one."""
    found = {}
    start = 0
    for at, item in enumerate(items):
        if item[0] == "g":
            start = at
        if item[0] != "d":
            continue
        letters = "".join(letters_of(it) for it in items[:at]) + "".join(letters_of(it) for it in item[1] if letters_of(it) != "-")
        before = [it for it in items[start:at] if it[0] != "d"] + item[1]
        behind = list(item[2])
        skipped = 0
        for it in items[at + 1:]:
            if it[0] == "g":
                break
            if it[0] == "d":
                continue
            skipped += 1
            if skipped > item[3]:
                behind.append(it)
        found[letters] = (rounded(before), rounded(behind))
    return found


def main():
    missing = [name for name in ("pdftex", "pltotf", "rt") if not shutil.which(name)]
    if missing:
        print("skipped: missing are " + ", ".join(missing))
        return 0
    count = int(sys.argv[1]) if len(sys.argv) > 1 else 300
    rnd = random.Random(int(sys.argv[2]) if len(sys.argv) > 2 else 1)
    by_program = int(sys.argv[3]) if len(sys.argv) > 3 else 3
    paragraphs = []
    with tempfile.TemporaryDirectory() as folder:
        for number in range(count):
            fonts = []
            for name in "fg":
                path = os.path.join(folder, f"{name}{number}")
                with open(path + ".pl", "w", encoding="ascii") as file:
                    file.write(some_font(rnd, number % 3 == 0))
                subprocess.run(["pltotf", path + ".pl", path + ".tfm"], stdout=subprocess.DEVNULL, stderr=subprocess.DEVNULL, check=False)
                with open(path + ".tfm", "rb") as file:
                    fonts.append(file.read())
            paragraphs.append((fonts, some_items(rnd)))
        theirs = by_tex(paragraphs, folder)
        ours = [by_rule(fonts, items) for fonts, items in paragraphs]
        wrong = 0
        for number, found in enumerate(by_crate(paragraphs[:by_program], folder) if by_program else []):
            if found and found != ours[number]:
                wrong += 1
                print(f"paragraph {number}: the program's list is\n    {found}\n  by the rules\n    {ours[number]}")
    lists = hyphens = others = ours_only = theirs_only = 0
    for number, (_, items) in enumerate(paragraphs):
        # the last glue of a paragraph goes, and a penalty and the glue at the end come instead
        our, their = ours[number][:-1], theirs.get(number, [])[:-3]
        told = "".join(item[2] if item[0] == "run" else " " for item in items)
        if without_discs(our) != without_discs(their):
            lists += 1
            print(f"paragraph {number}: {told}: the list is\n    {without_discs(our)}\n  by e-TeX\n    {without_discs(their)}")
            continue
        mine, other = hyphens_of(our), hyphens_of(their)
        ours_only += len(set(mine) - set(other))
        theirs_only += len(set(other) - set(mine))
        for letters in set(mine) & set(other):
            hyphens += 1
            if mine[letters] != other[letters]:
                others += 1
                print(f"paragraph {number}: {told}: a line broken behind {letters} is\n    {mine[letters]}\n  by e-TeX\n    {other[letters]}")
    print(f"{count} paragraphs: {lists} with other items where no line is broken, {wrong} of {by_program} by the program against the rules")
    print(f"{hyphens} hyphens at the same place, {others} with other items before or behind; {ours_only} here alone, {theirs_only} in e-TeX alone")
    return 1 if lists or others or wrong else 0


sys.exit(main())
