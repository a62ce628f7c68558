#!/usr/bin/env python3
"""Compares the breaks of random paragraphs with those of real e-TeX.

    bench/paragraphs.py [COUNT [SEED]]      300 paragraphs with the seed 1, unless others are given

A paragraph has boxes of widths that tell them apart, glue of all orders, kerns, penalties, discretionaries with and without
texts, and formulas; and parameters of all kinds: shapes, hanging, thresholds, demerits, `\\looseness`, skips at the sides,
`\\emergencystretch`. Real e-TeX breaks it as INITEX, and shows which boxes stand in each line. Here it is broken by a small
program over `etx_linebreak` that `rt try` runs, which proves nothing and needs no proof.

A third breaker, in Python and by the same rules, says why two results differ. It can go by either of two rules in which
this project differs from TeX (docs/DECISIONS.md): a line that ends among the items which its start leaves out is empty here,
while TeX goes on past its end; and totals of demerits are exact here, while TeX refuses those from 2^30 on. Each difference
has to go away where TeX's rules are taken.

It is no part of the gate. Where `pdftex` or `rt` is missing it says so, and its exit status is 0. Exit status 1 where a
difference is left, or where the program's breaks aren't those of the third breaker.
"""
import os
import random
import re
import shutil
import subprocess
import sys
import tempfile

import common

POINT = 65536
UNITS = ["pt", "fil", "fill", "filll"]
NEEDS = ["etx_linebreak", "etx_sealed", "etx_patterns", "etx_prims", "etx_matter", "etx_lists"]

PROGRAM = r"""//! Reads paragraphs as numbers and prints their breaks.
#![tactic(auto)]

use etx_linebreak::{first_breaks, later_breaks};
use etx_lists::{Bytes, Listed};
use etx_matter::{
    BoxNode, Boxed, Discretionary, Glue, GlueOrder, GlueSet, InnerList, KernKind, Limits, Node, Nodes,
};
use etx_patterns::Patterns;
use etx_prims::InteractionKind;
use etx_sealed::{
    BreakParams, LineShape, LineSkips, ParParams, ParShape, ParagraphPenalties, Sealed, SharedSealed,
};
use std::alloc::{AllocError, Global};
use std::io;

#[derive(Drop)]
struct Numbers {
    all: Vec<i32>,
    at: usize,
}

impl Numbers {
    fn next(&mut self) -> i32 {
        let value = match self.all.get(self.at) {
            Some(it) => *it,
            None => 0,
        };
        if self.at < self.all.len() {
            self.at += 1;
        }
        value
    }

    fn is_done(&self) -> bool {
        self.at >= self.all.len()
    }
}

fn order(number: i32) -> GlueOrder {
    match number {
        0 => GlueOrder::Normal,
        1 => GlueOrder::Fil,
        2 => GlueOrder::Fill,
        _ => GlueOrder::Filll,
    }
}

fn glue(n: &mut Numbers) -> Glue {
    let width = n.next();
    let stretch = n.next();
    let stretch_order = order(n.next());
    let shrink = n.next();
    let shrink_order = order(n.next());
    Glue {
        width,
        stretch,
        shrink,
        stretch_order,
        shrink_order,
    }
}

fn box_of(alloc: Global, width: i32) -> Result<Node, AllocError> {
    let it = BoxNode {
        vertical: false,
        width,
        height: 0,
        depth: 0,
        shift: 0,
        set: GlueSet::natural(),
        list: InnerList::new(Nodes::new(alloc)),
    };
    Ok(Node::Box(Boxed::new(alloc, it)?))
}

fn boxes(alloc: Global, n: &mut Numbers) -> Result<Nodes, AllocError> {
    let mut list = Nodes::new(alloc);
    let count = n.next();
    for _ in 0..count {
        list.push(box_of(alloc, n.next())?)?;
    }
    Ok(list)
}

fn item(alloc: Global, n: &mut Numbers) -> Result<Node, AllocError> {
    let code = n.next();
    match code {
        0 => box_of(alloc, n.next()),
        1 => Ok(Node::Glue(glue(n))),
        2 => {
            let width = n.next();
            let kind = match n.next() {
                0 => KernKind::Normal,
                1 => KernKind::Explicit,
                _ => KernKind::Accent,
            };
            Ok(Node::Kern { width, kind })
        }
        3 => Ok(Node::Penalty(n.next())),
        4 => {
            let on = n.next() > 0;
            Ok(Node::Math {
                on,
                width: n.next(),
            })
        }
        _ => {
            let pre = boxes(alloc, n)?;
            let post = boxes(alloc, n)?;
            let replaces = n.next() as u16;
            let it = Discretionary {
                pre: InnerList::new(pre),
                post: InnerList::new(post),
                replaces,
            };
            Ok(Node::Disc(Boxed::new(alloc, it)?))
        }
    }
}

fn shape(alloc: Global, n: &mut Numbers) -> Result<ParShape, AllocError> {
    let count = n.next();
    let width = n.next();
    let indent = n.next();
    let after = n.next();
    if count == 0 {
        return Ok(ParShape::Hanging {
            width,
            indent,
            after,
        });
    }
    let mut first = Listed::new(alloc);
    for _ in 0..count - 1 {
        let indent = n.next();
        let width = n.next();
        first.push(LineShape { indent, width })?;
    }
    let indent = n.next();
    let width = n.next();
    Ok(ParShape::Lines {
        first,
        rest: LineShape { indent, width },
    })
}

fn paragraph(alloc: Global, n: &mut Numbers) -> Result<SharedSealed, AllocError> {
    let shape = shape(alloc, n)?;
    let prevgraf = n.next() as u32;
    let breaks = BreakParams {
        pretolerance: n.next(),
        tolerance: n.next(),
        line_penalty: n.next(),
        hyphen_penalty: n.next(),
        ex_hyphen_penalty: n.next(),
        double_hyphen_demerits: n.next(),
        final_hyphen_demerits: n.next(),
        adj_demerits: n.next(),
        looseness: n.next(),
        emergency_stretch: n.next(),
    };
    let left = glue(n);
    let right = glue(n);
    let par_fill = glue(n);
    let mut list = Nodes::new(alloc);
    while !n.is_done() {
        list.push(item(alloc, n)?)?;
    }
    let params = ParParams {
        prevgraf,
        shape,
        breaks,
        penalties: ParagraphPenalties {
            inter_line: 0,
            club: 0,
            widow: 0,
            display_widow: 0,
            broken: 0,
        },
        skips: LineSkips {
            left,
            right,
            par_fill,
            baseline: left,
            line: left,
            limit: 0,
        },
        limits: Limits {
            badness: 10_000,
            fuzz: 0,
            rule: 0,
        },
        uchyph: 0,
        lccode: Bytes::new(alloc),
        fonts: Listed::new(alloc),
        tables: Patterns::new(alloc)?,
        mode: InteractionKind::ErrorStop,
        first_line: 2,
        last_line: 2,
        active: false,
        display: false,
        language: 0,
        left: 1,
        right: 1,
    };
    SharedSealed::new(alloc, Sealed::new(alloc, list, params)?)
}

fn numbers(alloc: Global, line: &str) -> Result<Numbers, AllocError> {
    let mut all = Vec::new(alloc);
    for word in line.split(' ') {
        if let Ok(number) = word.parse::<i32>() {
            all.push(number)?;
        }
    }
    Ok(Numbers { all, at: 0 })
}

fn main(rt: HostRuntime) -> io::Result<()> {
    for line in rt.lines(rt.alloc()) {
        let line = line?;
        let mut n = numbers(rt.alloc(), line.as_str())?;
        let sealed = paragraph(rt.alloc(), &mut n)?;
        let breaks = match first_breaks(rt.alloc(), &sealed)? {
            Some(breaks) => breaks,
            None => later_breaks(rt.alloc(), &sealed)?,
        };
        print!(rt; "B")?;
        for place in &breaks {
            print!(rt; " {place}")?;
        }
        println!(rt; "")?;
    }
    Ok(())
}
"""


class Paragraph:
    """Parameters, and a list of items: tuples whose first part is b, g, k, p, m or d."""


def some_glue(rnd):
    """Width, stretch and its order, shrink and its order."""
    width = rnd.choice([0, 2 * POINT, 5 * POINT, 10 * POINT, 3 * POINT + rnd.randrange(POINT)])
    stretch = rnd.choice([0, POINT, 2 * POINT, 3 * POINT, POINT])
    order = rnd.choice([1, 2, 3]) if rnd.random() < 0.06 else 0
    return [width, stretch, order, rnd.choice([0, POINT // 2, POINT, POINT]), 0]


def some_items(rnd):
    count = 0

    def width():
        nonlocal count
        count += 1
        return rnd.choice([4, 5, 6, 8]) * POINT + count

    items, formula = [], False
    for _ in range(rnd.randrange(3, 40)):
        choice = rnd.random()
        items += [("b", width()) for _ in range(rnd.randrange(1, 4))]
        if choice < 0.55:
            items.append(("g", some_glue(rnd)))
        elif choice < 0.63:
            items.append(("p", rnd.choice([-10000, -500, -50, 0, 50, 500, 9999, 10000, -20000])))
        elif choice < 0.70:
            items.append(("k", rnd.choice([POINT, 2 * POINT, -POINT, 0])))
        elif choice < 0.80 and not formula:
            sizes = [rnd.choice([0, 1, 1, 2]), rnd.choice([0, 0, 1]), rnd.choice([0, 0, 1, 2])]
            items.append(("d", *[[width() for _ in range(size)] for size in sizes]))
        elif choice < 0.86:
            formula = not formula
            items.append(("m", formula, rnd.choice([0, POINT])))
        if rnd.random() < 0.25:
            for _ in range(rnd.randrange(1, 3)):
                choice = rnd.random()
                if choice < 0.4:
                    items.append(("g", some_glue(rnd)))
                elif choice < 0.7:
                    items.append(("k", rnd.choice([POINT, -POINT])))
                else:
                    items.append(("p", rnd.choice([0, 10000, 100, -100])))
    if formula:
        items += [("b", width()), ("m", False, 0)]
    # \mathsurround is read where a formula ends, for both of its edges
    for place, item in enumerate(items):
        if item[0] == "m" and item[1]:
            items[place] = ("m", True, next(it[2] for it in items[place + 1:] if it[0] == "m"))
    return items


def some_paragraph(rnd):
    p = Paragraph()
    p.items = some_items(rnd)
    p.width = rnd.choice([40, 50, 60, 80, 100]) * POINT
    p.hang, p.after, p.shape = 0, 1, []
    choice = rnd.random()
    if choice < 0.2:
        p.hang, p.after = rnd.choice([5 * POINT, -5 * POINT, 10 * POINT]), rnd.choice([-2, -1, 0, 1, 2])
    elif choice < 0.35:
        p.shape = [(0, rnd.choice([40, 50, 60, 80]) * POINT) for _ in range(rnd.randrange(1, 4))]
    p.pretolerance = rnd.choice([-1, 100, 0, 10000, 50])
    p.tolerance = rnd.choice([200, 1000, 5000, 9999, 10000, 100])
    p.line_penalty = rnd.choice([0, 10, -5, 100])
    p.hyphen, p.ex_hyphen = rnd.choice([0, 50, -20, 500, 10000]), rnd.choice([0, 50, 100, -50])
    p.double, p.final, p.adjacent = rnd.choice([0, 10000, -3000]), rnd.choice([0, 5000]), rnd.choice([0, 10000, 5000, -2000])
    p.looseness = rnd.choice([0, 0, 0, 0, 0, 1, -1, 2, -2, 3, -3])
    p.emergency = rnd.choice([0, 0, 0, 10 * POINT, 30 * POINT])
    none = [0, 0, 0, 0, 0]
    p.left = none if rnd.random() < 0.8 else [2 * POINT, 0, 0, POINT, 0]
    p.right = none if rnd.random() < 0.7 else rnd.choice([[0, 10 * POINT, 0, 0, 0], [0, POINT, 1, 0, 0], [POINT, POINT, 0, POINT, 0]])
    p.fill = rnd.choice([[0, POINT, 1, 0, 0], [0, POINT, 1, 0, 0], none, [0, 20 * POINT, 0, 0, 0]])
    return p


def finished(p):
    """The items with those that discretionaries replace, and with the end of a paragraph."""
    items = []
    for item in p.items:
        items.append(item)
        if item[0] == "d":
            items += [("b", width) for width in item[3]]
    if items and items[-1][0] == "g":
        items.pop()
    return items + [("p", 10000), ("g", p.fill)]


def numbers_of(p):
    """A paragraph as the program reads it."""
    out = [len(p.shape), p.width, p.hang, p.after]
    for shape in p.shape:
        out += shape
    out += [0, p.pretolerance, p.tolerance, p.line_penalty, p.hyphen, p.ex_hyphen, p.double, p.final, p.adjacent, p.looseness]
    out += [p.emergency] + p.left + p.right + p.fill
    for item in p.items:
        if item[0] == "b":
            out += [0, item[1]]
        elif item[0] == "g":
            out += [1] + item[1]
        elif item[0] == "k":
            out += [2, item[1], 1]
        elif item[0] == "p":
            out += [3, item[1]]
        elif item[0] == "m":
            out += [4, int(item[1]), item[2]]
        else:
            out += [5, len(item[1])] + item[1] + [len(item[2])] + item[2] + [len(item[3])]
            for width in item[3]:
                out += [0, width]
    return " ".join(map(str, out))


def glue_text(glue):
    def part(amount, order):
        return f"{amount}sp" if order == 0 else f"{amount // POINT}{UNITS[order]}"

    return f"{glue[0]}sp plus {part(glue[1], glue[2])} minus {part(glue[3], glue[4])}"


def tex_of(p):
    def box(width):
        return rf"\B{width}."

    head = rf"\hsize={p.width}sp \hangindent={p.hang}sp \hangafter={p.after} "
    if p.shape:
        head += rf"\parshape {len(p.shape)} " + " ".join(f"{a}sp {b}sp" for a, b in p.shape) + " "
    head += rf"\pretolerance={p.pretolerance} \tolerance={p.tolerance} \linepenalty={p.line_penalty} "
    head += rf"\hyphenpenalty={p.hyphen} \exhyphenpenalty={p.ex_hyphen} \doublehyphendemerits={p.double} "
    head += rf"\finalhyphendemerits={p.final} \adjdemerits={p.adjacent} \looseness={p.looseness} "
    head += rf"\emergencystretch={p.emergency}sp \leftskip={glue_text(p.left)} \rightskip={glue_text(p.right)} "
    head += rf"\parfillskip={glue_text(p.fill)} "
    text = ""
    for item in p.items:
        if item[0] == "b":
            text += box(item[1])
        elif item[0] == "g":
            text += rf"\hskip {glue_text(item[1])}\relax "
        elif item[0] == "k":
            text += rf"\kern{item[1]}sp "
        elif item[0] == "p":
            text += rf"\penalty{item[1]} "
        elif item[0] == "m":
            text += rf"\mathsurround={item[2]}sp $"
        else:
            text += r"\discretionary" + "".join("{" + "".join(map(box, part)) + "}" for part in item[1:])
    return rf"\setbox0\vbox{{{head}\noindent\relax {text}\par}}"


def by_tex(paragraphs, folder):
    """The widths of the boxes in each line, as real e-TeX shows them."""
    head = [
        r"\catcode`\{=1 \catcode`\}=2 \catcode`\#=6 \catcode`\$=3 \batchmode",
        r"\hbadness=10000 \hfuzz=1000pt \showboxbreadth=10000 \showboxdepth=10",
        r"\font\s=cmsy10 \textfont2=\s \scriptfont2=\s \scriptscriptfont2=\s",
        r"\font\e=cmex10 \textfont3=\e \scriptfont3=\e \scriptscriptfont3=\e",
        r"\def\B#1.{\hbox to #1sp{}}",
    ]
    body = [rf"{{\message{{PAR{number}}}{tex_of(p)}\showbox0 }}" for number, p in enumerate(paragraphs)]
    with open(os.path.join(folder, "job.tex"), "w", encoding="ascii") as file:
        file.write("\n".join(head + body + [r"\end", ""]))
    subprocess.run(["pdftex", "-ini", "-etex", "job.tex"], cwd=folder, stdin=subprocess.DEVNULL, stdout=subprocess.DEVNULL, check=False)
    with open(os.path.join(folder, "job.log"), encoding="utf-8", errors="replace") as file:
        parts = re.split(r"PAR(\d+)", file.read())[1:]
    found = []
    for text in parts[1::2]:
        lines = []
        for line in text.split("\n"):
            shown = re.match(r"^(\.+)\\hbox\(.*?\)x(-?[0-9.]+)", line)
            if shown and len(shown.group(1)) == 1:
                lines.append([])
            elif shown and len(shown.group(1)) == 2:
                lines[-1].append(shown.group(2))
        found.append(lines)
    return found


def points(size):
    """A size as TeX prints it ("TeX: The Program", section 103)."""
    text, rest, delta = f"{size // POINT}.", 10 * (size % POINT) + 5, 10
    while True:
        if delta > POINT:
            rest += 32768 - 50000
        text += str(rest // POINT)
        rest, delta = 10 * (rest % POINT), 10 * delta
        if rest <= delta:
            return text


def lines_of(p, breaks):
    """The widths of the boxes in each line that ends at one of these breaks."""
    items, out, last = finished(p), [], 0
    for place in breaks:
        hyphen = items[last - 1] if last and items[last - 1][0] == "d" else None
        line = list(hyphen[2]) if hyphen else []
        start = last + (len(hyphen[3]) if hyphen else 0)
        line += [item[1] for item in items[start:place - 1] if item[0] == "b"]
        if place <= len(items) and items[place - 1][0] == "d":
            line += items[place - 1][1]
        out.append([points(width) for width in line])
        last = place
    return out


def badness(short, room):
    """"TeX: The Program", section 108."""
    if short == 0:
        return 0
    if room <= 0:
        return 10000
    if short <= 7230584:
        ratio = short * 297 // room
    else:
        ratio = short // (room // 297) if room >= 1663497 else short
    return 10000 if ratio > 1290 else (ratio ** 3 + 131072) // 262144


class Breaker:
    """The rules once more, over plain lists. `past` takes TeX's measure, and `bounded` its totals."""

    def __init__(self, p, past, bounded):
        self.p, self.past, self.bounded = p, past, bounded
        self.items = finished(p)
        self.sums = [[0] * 6]
        for item in self.items:
            self.sums.append([a + b for a, b in zip(self.sums[-1], self.vector(item))])
        self.sides = [a + b for a, b in zip(self.vector(("g", p.left)), self.vector(("g", p.right)))]
        self.end = len(self.items) + 1
        self.breaks = self.legal()

    @staticmethod
    def vector(item):
        """Width, stretch by order, shrink."""
        if item[0] == "g":
            width, stretch, order, shrink, _ = item[1]
            return [width] + [stretch if order == k else 0 for k in range(4)] + [shrink]
        width = item[1] if item[0] in "bk" else item[2] if item[0] == "m" else 0
        return [width, 0, 0, 0, 0, 0]

    def hyphen(self, place):
        return self.items[place - 1] if 0 < place < self.end and self.items[place - 1][0] == "d" else None

    def penalty(self, place):
        if place == self.end:
            return -10000
        item = self.items[place - 1]
        if item[0] == "d":
            return self.p.hyphen if item[1] else self.p.ex_hyphen
        return item[1] if item[0] == "p" else 0

    def legal(self):
        found, text, holds, passed = [], True, False, 0
        for place, item in enumerate(self.items, 1):
            if passed:
                passed -= 1
                continue
            glue = place < len(self.items) and self.items[place][0] == "g"
            kind = item[0]
            if (kind == "g" and text and holds or kind == "k" and text and glue or kind == "m" and not item[1] and glue
                    or kind in "pd" and self.penalty(place) < 10000):
                found.append(place)
            if kind == "m":
                text = not item[1]
            holds, passed = kind in "bd", len(item[3]) if kind == "d" else 0
        return found + [self.end]

    def left_out(self, place):
        hyphen = self.hyphen(place)
        at = place + (len(hyphen[3]) if hyphen else 0)
        if place and not (hyphen and hyphen[2]):
            while at < len(self.items) and self.items[at][0] in "gkpm":
                at += 1
        return at

    def line(self, start, end):
        at = self.left_out(start)
        sums = [0] * 6
        if at < end or self.past:
            sums = [a - b for a, b in zip(self.sums[end - 1], self.sums[at])]
        sums = [a + b for a, b in zip(sums, self.sides)]
        if self.hyphen(start):
            sums[0] += sum(self.hyphen(start)[2])
        if self.hyphen(end):
            sums[0] += sum(self.hyphen(end)[1])
        return sums

    def width(self, line):
        p = self.p
        if p.shape:
            return p.shape[min(line, len(p.shape)) - 1][1]
        hangs = line <= -p.after if p.after < 0 else line > p.after
        return p.width - abs(p.hang) if hangs else p.width

    def easy(self):
        p = self.p
        if p.looseness:
            return 1 << 62
        return len(p.shape) - 1 if p.shape else abs(p.after) if p.hang else 0

    def judged(self, row, place, more):
        """Whether the line is too full, its badness and its class."""
        sums = self.line(row[0], place)
        short = self.width(row[1]) - sums[0]
        if short > 0:
            bad = 0 if any(sums[2:5]) else badness(short, sums[1] + more)
            return False, bad, 0 if bad > 99 else 1 if bad > 12 else 2
        if -short > sums[5]:
            return True, 10001, 3
        bad = badness(-short, sums[5])
        return False, bad, 3 if bad > 12 else 2

    def demerits(self, row, place, bad, kind):
        p, penalty = self.p, self.penalty(place)
        cost = p.line_penalty + bad
        cost = 10 ** 8 if abs(cost) >= 10000 else cost * cost
        cost += penalty ** 2 if penalty > 0 else -penalty ** 2 if penalty > -10000 else 0
        if self.hyphen(row[0]) and (place == self.end or self.hyphen(place)):
            cost += p.final if place == self.end else p.double
        return cost + (p.adjacent if abs(kind - row[2]) > 1 else 0)

    def one_pass(self, threshold, more, final):
        """Rows are (place, line, class, total, number of the row before)."""
        rows, active, easy = [(0, 1, 2, 0, None)], [0], self.easy()
        for place in self.breaks:
            seen = []
            for number in active:
                row = rows[number]
                full, bad, kind = self.judged(row, place, more)
                offer = None
                if not full and bad <= threshold:
                    total = row[3] + self.demerits(row, place, bad, kind)
                    offer = None if self.bounded and total >= 1 << 30 else (total, kind)
                seen.append([number, full or self.penalty(place) <= -10000, offer, kind])
            if final and seen and all(it[1] for it in seen) and not any(it[2] for it in seen[:-1]):
                seen[-1][2] = (rows[seen[-1][0]][3], seen[-1][3])
            active = self.kept(rows, seen, place, easy)
            if not active:
                return None
        return self.chosen(rows, active, final)

    def kept(self, rows, seen, place, easy):
        active, at = [], 0
        while at < len(seen):
            group, best = min(rows[seen[at][0]][1], easy), {}
            while at < len(seen) and min(rows[seen[at][0]][1], easy) == group:
                number, closes, offer, _ = seen[at]
                if offer and (offer[1] not in best or offer[0] <= best[offer[1]][0]):
                    best[offer[1]] = (offer[0], number)
                if not closes:
                    active.append(number)
                at += 1
            least = min((it[0] for it in best.values()), default=0)
            for kind in sorted(best):
                total, number = best[kind]
                if total <= least + abs(self.p.adjacent):
                    active.append(len(rows))
                    rows.append((place, rows[number][1] + 1, kind, total, number))
        return active

    def chosen(self, rows, last, final):
        taken, wanted = min(last, key=lambda number: rows[number][3]), self.p.looseness
        if wanted:
            line, off = rows[taken][1], 0
            for number in last:
                more = rows[number][1] - line
                nearer = wanted <= more < off or off < more <= wanted
                if nearer or more == off and rows[number][3] < rows[taken][3]:
                    taken, off = number, more
            if off != wanted and not final:
                return None
        breaks = []
        while rows[taken][0]:
            breaks.append(rows[taken][0])
            taken = rows[taken][4]
        return breaks[::-1]

    def breaks_of(self):
        p, found = self.p, None
        if p.pretolerance >= 0:
            found = self.one_pass(min(p.pretolerance, 10000), 0, False)
        found = found or self.one_pass(min(p.tolerance, 10000), 0, p.emergency <= 0)
        return found or self.one_pass(min(p.tolerance, 10000), p.emergency, True)


def by_crate(paragraphs, folder):
    crate = os.path.join(folder, "crates", "paragraphs")
    lines = common.copy_crates(folder, NEEDS)
    os.makedirs(os.path.join(crate, "src"))
    with open(os.path.join(crate, "src", "main.rt"), "w", encoding="utf-8") as file:
        file.write(PROGRAM)
    with open(os.path.join(folder, "crates.txt"), "w", encoding="utf-8") as file:
        file.writelines(lines + [f"paragraphs: {' '.join(NEEDS)}\n"])
    told = "\n".join(map(numbers_of, paragraphs)) + "\n"
    ran = subprocess.run(["rt", "try"], cwd=crate, input=told, stdout=subprocess.PIPE, stderr=subprocess.STDOUT, text=True, check=False)
    found = [list(map(int, line.split()[1:])) for line in ran.stdout.split("\n") if line.startswith("B ")]
    if len(found) != len(paragraphs):
        sys.exit("the program could not be run:\n" + ran.stdout[-3000:])
    return found


def main():
    missing = [name for name in ("pdftex", "rt") if not shutil.which(name)]
    if missing:
        print("skipped: missing are " + ", ".join(missing))
        return 0
    count = int(sys.argv[1]) if len(sys.argv) > 1 else 300
    rnd = random.Random(int(sys.argv[2]) if len(sys.argv) > 2 else 1)
    paragraphs = [some_paragraph(rnd) for _ in range(count)]
    with tempfile.TemporaryDirectory() as folder:
        theirs = by_tex(paragraphs, folder)
        ours = by_crate(paragraphs, folder)
    wrong = equal = by_measure = by_totals = left = 0
    for number, (p, our, their) in enumerate(zip(paragraphs, ours, theirs)):
        if our != Breaker(p, False, False).breaks_of():
            wrong += 1
            print(f"paragraph {number}: {our}, by the rules {Breaker(p, False, False).breaks_of()}")
        if lines_of(p, our) == their:
            equal += 1
        elif lines_of(p, Breaker(p, True, False).breaks_of()) == their:
            by_measure += 1
        elif lines_of(p, Breaker(p, False, True).breaks_of()) == their:
            by_totals += 1
        elif lines_of(p, Breaker(p, True, True).breaks_of()) == their:
            by_measure += 1
            by_totals += 1
        else:
            left += 1
            print(f"paragraph {number}: {our} here, otherwise by e-TeX")
    print(f"{count} paragraphs: {equal} with the lines of e-TeX, {wrong} against the rules")
    print(f"differing by the measure of an empty line {by_measure}, by exact totals {by_totals}, otherwise {left}")
    return 1 if wrong or left else 0


sys.exit(main())
