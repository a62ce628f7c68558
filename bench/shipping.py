#!/usr/bin/env python3
"""Compares `etx_ship` with real e-TeX on random boxes.

    bench/shipping.py [SEED [COUNT]]        as many boxes without set glue, and as many with

Each box is nested, with characters of two fonts, kerns, glue of all orders, rules with running sizes, specials, empty
boxes and leaders of all kinds. Real e-TeX gets it as a job that builds and ships it. A small program over the crate,
which is made in a temporary folder and run by `rt try`, gets it as the list of its nodes, with the glue set by the exact
fraction.

Where no glue is set, both files must have the same commands with the same numbers, but for the registers of movements,
for pointers and for the comment. Where glue is set, no place may be off by more than 2 sp.

It is no part of the gate. Where `pdftex` or `rt` is missing it says so, and its exit status is 0. Exit status 1 where the
files differ.
"""
import os
import random
import shutil
import struct
import subprocess
import sys
import tempfile

import common

SIZES = [655360, 1048576]
RUNNING = -(1 << 30)
UNITS = ["sp", "fil", "fill", "filll"]

PROGRAM = r"""//! Ships the boxes whose nodes stand in the input, a number of the kind and its numbers on a line.
#![tactic(auto)]
use etx_dvi::FontName;
use etx_matter::{BoxNode, Boxed, Bytes, CharSize, Glue, GlueOrder, GlueSet, InnerList, KernKind, Leader, LeaderKind, Node, Nodes, RuleSize, What};
use etx_ship::{DviFont, DviState, finish, ship};
use std::alloc::{AllocError, Global};
use std::io;

fn order_of(order: i64) -> GlueOrder {
    match order {
        0 => GlueOrder::Normal,
        1 => GlueOrder::Fil,
        2 => GlueOrder::Fill,
        _ => GlueOrder::Filll,
    }
}

fn at(ns: &[i64], i: usize) -> i32 {
    match ns.get(i) {
        Some(n) => *n as i32,
        None => 0,
    }
}

fn long_at(ns: &[i64], i: usize) -> i64 {
    match ns.get(i) {
        Some(n) => *n,
        None => 0,
    }
}

fn glue_of(ns: &[i64], i: usize) -> Glue {
    Glue {
        width: at(ns, i),
        stretch: at(ns, i + 1),
        shrink: at(ns, i + 3),
        stretch_order: order_of(at(ns, i + 2) as i64),
        shrink_order: order_of(at(ns, i + 4) as i64),
    }
}

fn size(n: i32) -> Option<i32> {
    if n == -1073741824 { None } else { Some(n) }
}

fn rule_of(ns: &[i64], i: usize) -> RuleSize {
    RuleSize {
        width: size(at(ns, i)),
        height: size(at(ns, i + 1)),
        depth: size(at(ns, i + 2)),
    }
}

fn text_of(alloc: Global, ns: &[i64]) -> Result<Bytes, AllocError> {
    let mut text = Bytes::new(alloc);
    for n in ns.iter().skip(1) {
        text.push(*n as u8)?;
    }
    Ok(text)
}

#[derive(Drop)]
struct Work {
    lists: Vec<Nodes>,
    boxes: Vec<BoxNode>,
    file: DviState,
}

fn node(alloc: Global, ns: &[i64], work: &mut Work) -> Result<Option<Node>, AllocError> {
    match long_at(ns, 0) {
        1 => Ok(Some(Node::Char {
            font: at(ns, 1) as u8,
            code: at(ns, 2) as u8,
            size: CharSize { width: at(ns, 3), height: 0, depth: 0, italic: 0 },
        })),
        2 => Ok(Some(Node::Kern { width: at(ns, 1), kind: KernKind::Explicit })),
        3 => Ok(Some(Node::Glue(glue_of(ns, 1)))),
        4 => Ok(Some(Node::Rule(rule_of(ns, 1)))),
        5 => Ok(Some(Node::What(Boxed::new(alloc, What::Special(text_of(alloc, ns)?))?))),
        7 => match work.boxes.pop() {
            Some(it) => Ok(Some(Node::Box(Boxed::new(alloc, it)?))),
            None => Ok(None),
        },
        8 => match work.boxes.pop() {
            Some(item) => {
                let kind = match at(ns, 6) {
                    0 => LeaderKind::Aligned,
                    1 => LeaderKind::Centered,
                    _ => LeaderKind::Expanded,
                };
                let leader = Boxed::new(alloc, Leader::Boxes { kind, item })?;
                Ok(Some(Node::Leaders { glue: glue_of(ns, 1), leader }))
            }
            None => Ok(None),
        },
        9 => {
            let leader = Boxed::new(alloc, Leader::Ruled(rule_of(ns, 6)))?;
            Ok(Some(Node::Leaders { glue: glue_of(ns, 1), leader }))
        }
        11 => Ok(Some(Node::Penalty(at(ns, 1)))),
        _ => Ok(None),
    }
}

fn close(alloc: Global, ns: &[i64], work: &mut Work) -> Result<(), AllocError> {
    let nodes = match work.lists.pop() {
        Some(list) => list,
        None => Nodes::new(alloc),
    };
    let set = GlueSet::new(at(ns, 6) == 1, order_of(long_at(ns, 7)), long_at(ns, 8), long_at(ns, 9));
    work.boxes.push(BoxNode {
        vertical: at(ns, 1) == 1,
        width: at(ns, 2),
        height: at(ns, 3),
        depth: at(ns, 4),
        shift: at(ns, 5),
        set,
        list: InnerList { nesting: 0, nodes },
    })?;
    Ok(())
}

fn show(rt: &HostRuntime, bytes: &[u8]) -> io::Result<()> {
    println!(rt; "bytes {bytes:?}")
}

fn ship_out(rt: &HostRuntime, ns: &[i64], work: &mut Work) -> io::Result<()> {
    let mut counts = [0; 10];
    counts[0] = at(ns, 3);
    if let Some(it) = work.boxes.pop() {
        match ship(rt.alloc(), &it, counts, (at(ns, 1), at(ns, 2)), &mut work.file) {
            Ok(bytes) => show(rt, bytes.as_slice())?,
            Err(fault) => println!(rt; "refused {fault:?}")?,
        }
    }
    Ok(())
}

fn obey(rt: &HostRuntime, ns: &[i64], work: &mut Work) -> io::Result<()> {
    match long_at(ns, 0) {
        0 => {
            work.lists.push(Nodes::new(rt.alloc()))?;
            Ok(())
        }
        6 => {
            close(rt.alloc(), ns, work)?;
            Ok(())
        }
        10 => ship_out(rt, ns, work),
        12 => {
            load(rt.alloc(), &mut work.file, at(ns, 1))?;
            Ok(())
        }
        _ => {
            if let Some(item) = node(rt.alloc(), ns, work)? {
                if let Some(list) = work.lists.last_mut() {
                    list.push(item)?;
                }
            }
            Ok(())
        }
    }
}

fn load(alloc: Global, file: &mut DviState, size: i32) -> Result<(), AllocError> {
    if let Some(name) = FontName::new(Bytes::from_slice(alloc, b"plainest")?) {
        if file.fonts() < 255 {
            file.load(DviFont { name, checksum: 0, size, design_size: 655360 })?;
        }
    }
    Ok(())
}

fn main(rt: HostRuntime) -> io::Result<()> {
    let mut work = Work {
        lists: Vec::new(rt.alloc()),
        boxes: Vec::new(rt.alloc()),
        file: DviState::new(rt.alloc(), 1000),
    };
    load(rt.alloc(), &mut work.file, 655360)?;
    load(rt.alloc(), &mut work.file, 1048576)?;
    for line in rt.lines(rt.alloc()) {
        let line = line?;
        let mut ns: Vec<i64> = Vec::new(rt.alloc());
        for word in line.as_str().split(' ') {
            let n: i64 = word.parse().unwrap_or(0);
            ns.push(n)?;
        }
        obey(&rt, ns.as_slice(), &mut work)?;
    }
    let end = finish(rt.alloc(), &work.file)?;
    show(&rt, end.as_slice())
}
"""

JOB = r"""\catcode`\{=1 \catcode`\}=2 \catcode`\#=6
\font\fa=plainest \font\fb=plainest at 16pt
\hbadness10000 \vbadness10000 \hfuzz16383pt \vfuzz16383pt \overfullrule0pt
\baselineskip0pt \lineskip0pt \lineskiplimit-16383pt \boxmaxdepth16383pt \maxdepth16383pt
"""


def plain_font():
    """A TFM file of the small letters: the width of each is a number of 16ths of the design size."""
    sixteenth = 65536
    widths = list(range(1, 15))
    lengths = [6 + 2 + 26 + 15 + 1 + 1 + 1 + 7, 2, 97, 122, 15, 1, 1, 1, 0, 0, 0, 7]
    words = [0, 160 * sixteenth] + [(1 + i % 14) << 24 for i in range(26)]
    words += [0] + [w * sixteenth for w in widths] + [0, 0, 0] + [0] * 7
    return struct.pack(">12H", *lengths) + struct.pack(f">{len(words)}I", *words)


class Maker:
    """A box at random: lines of a job, and lines of the program."""

    def __init__(self, rng, sets):
        self.rng, self.sets, self.job, self.ops, self.next = rng, sets, [], [], 0

    def size(self, most):
        """A size in sp, small, large or below zero."""
        r = self.rng
        return r.choice([r.randint(0, most), r.randint(0, 200), r.randint(-most // 4, most), r.choice([-128, -127, 127, 128, 32767, 32768, 8388607, 8388608])])

    def glue(self):
        r = self.rng
        st, so = r.choice([(0, 0), (r.randint(1, 300000), 0), (r.randint(1, 4) * 65536, r.randint(1, 3))])
        sh, sho = r.choice([(0, 0), (r.randint(1, 300000), 0), (r.randint(1, 4) * 65536, r.randint(1, 3))])
        width = self.size(2000000)
        part = lambda n, o: f"{n}sp" if o == 0 else f"{n // 65536}{UNITS[o]}"
        return (width, st, so, sh, sho), f"{width}sp plus {part(st, so)} minus {part(sh, sho)}"

    def box(self, depth, vertical):
        """Makes a box: its register, its sizes, and whether it has no item."""
        r = self.rng
        items, ops, natural, pending = [], [], 0, 0
        stretch, shrink = [0] * 4, [0] * 4
        for _ in range(r.choice([0, 1, 2, 4, 7]) if depth else r.randint(2, 9)):
            kind = r.choice("ccckggrslbbLR" if not vertical else "kggrslbbbLR")
            if kind == "c":
                font, code = r.randint(0, 1), r.randint(97, 122)
                width = SIZES[font] * (1 + (code - 97) % 14) // 16
                items.append(f"\\f{'ab'[font]}\\char{code} ")
                ops.append((1, font, code, width))
                natural += width
            elif kind == "k":
                width = self.size(3000000)
                items.append(f"\\kern{width}sp")
                ops.append((2, width))
                natural, pending = natural + pending + width, 0
            elif kind in "gLR":
                glue, text = self.glue()
                word = "\\vskip" if vertical else "\\hskip"
                if kind == "L" and depth < 3:
                    number, sizes, _empty = self.box(depth + 1, r.random() < 0.5)
                    sort = r.randint(0, 2)
                    glue = (abs(glue[0]) + r.randint(0, 3000000),) + glue[1:]
                    text = f"{glue[0]}sp" + text[text.index(" plus"):]
                    if (sizes[1] + sizes[2] if vertical else sizes[0]) < 200000:
                        sizes = [max(s, 300000) for s in sizes]
                        self.resize(number, sizes)
                    ops.append(("box", number, (8,) + glue + (sort,)))
                    items.append(f"\\{('leaders', 'cleaders', 'xleaders')[sort]}\\box{number}{word}{text} ")
                elif kind == "R":
                    w, h, d = (r.choice([RUNNING, self.size(500000)]) for _ in range(3))
                    if vertical:
                        items.append("\\leaders\\hrule " + (f"width{w}sp " if w != RUNNING else "") + f"{word}{text} ")
                        h, d = 26214, 0
                    else:
                        items.append("\\leaders\\vrule " + "".join(f"{n}{s}sp " for n, s in (("height", h), ("depth", d)) if s != RUNNING) + f"{word}{text} ")
                        w = 26214
                    ops.append((9,) + glue + (w, h, d))
                else:
                    items.append(f"{word}{text} ")
                    ops.append((3,) + glue)
                natural, pending = natural + pending + glue[0], 0
                stretch[glue[2]] += glue[1]
                shrink[glue[4]] += glue[3]
            elif kind == "r":
                w, h, d = (self.size(500000) for _ in range(3))
                if vertical:
                    w = r.choice([w, RUNNING])
                    items.append("\\hrule " + (f"width{w}sp " if w != RUNNING else "") + f"height{h}sp depth{d}sp\\relax ")
                    natural, pending = natural + pending + h, d
                else:
                    h, d = r.choice([h, RUNNING]), r.choice([d, RUNNING])
                    items.append(f"\\vrule width{w}sp " + "".join(f"{n}{s}sp " for n, s in (("height", h), ("depth", d)) if s != RUNNING) + "\\relax ")
                    natural += w
                ops.append((4, w, h, d))
            elif kind == "s":
                text = "x" * r.choice([1, 3, 255, 256]) if r.random() < 0.2 else "ab"
                items.append("\\special{%s}" % text)
                ops.append((5,) + tuple(text.encode()))
            elif kind == "l":
                items.append("\\penalty5 ")
                ops.append((11, 5))
            elif kind == "b" and depth < 3:
                number, sizes, _empty = self.box(depth + 1, r.random() < 0.5)
                shift = r.choice([0, self.size(700000)])
                ops.append(("box", number, (7,), shift))
                if vertical:
                    items.append(f"\\prevdepth-1000pt\\moveright{shift}sp\\box{number} ")
                    natural, pending = natural + pending + sizes[1], sizes[2]
                else:
                    items.append(f"\\lower{shift}sp\\box{number} ")
                    natural += sizes[0]
        return self.packed(vertical, items, ops, natural, stretch, shrink)

    def packed(self, vertical, items, ops, natural, stretch, shrink):
        r = self.rng
        number = self.next
        self.next += 1
        excess = r.choice([0, r.randint(-500000, 3000000)]) if self.sets else 0
        totals = stretch if excess > 0 else shrink
        order = max([o for o in range(4) if totals[o]], default=0)
        if excess == 0 or totals[order] == 0:
            fraction = (0, 0, 0, 1)
        elif excess < 0 and order == 0 and totals[0] < -excess:
            fraction = (0, 0, 1, 1)
        else:
            fraction = (int(excess > 0), order, abs(excess), totals[order])
        sizes = [self.size(3000000) for _ in range(3)]
        to = f" to{natural + excess}sp" if excess else ""
        word = "v" if vertical else "h"
        self.job.append(f"\\setbox{number}\\{word}box{to}{{" + "".join(items) + "}")
        self.resize(number, sizes)
        self.ops.append((number, vertical, sizes, fraction, ops))
        return number, sizes, not items

    def resize(self, number, sizes):
        self.job.append("".join(f"\\{n}{number}={s}sp " for n, s in zip(("wd", "ht", "dp"), sizes)))
        for i, op in enumerate(self.ops):
            if op[0] == number:
                self.ops[i] = (number, op[1], sizes) + op[3:]

    def lines(self, number, shift=0):
        """The lines that build a box."""
        _number, vertical, sizes, fraction, ops = next(op for op in self.ops if op[0] == number)
        lines = ["0"]
        for op in ops:
            if op[0] == "box":
                lines += self.lines(op[1], op[3] if len(op) > 3 else 0)
                lines.append(" ".join(map(str, op[2])))
            else:
                lines.append(" ".join(map(str, op)))
        lines.append(" ".join(map(str, (6, int(vertical), *sizes, shift, *fraction))))
        return lines


def commands(data):
    """The commands of a DVI file, movements without registers; pointers and the comment are left out."""
    i, out, regs, stack = 0, [], [0, 0, 0, 0], []
    num = lambda n, signed=True: int.from_bytes(data[i + 1:i + 1 + n], "big", signed=signed)
    while i < len(data):
        c = data[i]
        size = 1
        if c < 128:
            out.append(("set", c))
        elif c in (132, 137):
            out.append(("rule", c, num(8)))
            size = 9
        elif c == 139:
            out.append(("bop", data[i + 1:i + 41]))
            regs, size = [0, 0, 0, 0], 45
        elif c == 141:
            stack.append(list(regs))
            out.append(("push",))
        elif c == 142:
            regs = stack.pop()
            out.append(("pop",))
        elif 143 <= c <= 170:
            base, kind, reg = next((b, k, g) for b, k, g in ((166, "down", 3), (161, "down", 2), (157, "down", None), (152, "right", 1), (147, "right", 0), (143, "right", None)) if c >= b)
            n = c - base + (1 if reg is None else 0)
            if n:
                amount = num(n)
                if reg is not None:
                    regs[reg] = amount
                size = 1 + n
            else:
                amount = regs[reg]
            out.append((kind, amount))
        elif 171 <= c <= 234:
            out.append(("font", c - 171))
        elif c == 239:
            out.append(("xxx", data[i + 2:i + 2 + data[i + 1]]))
            size = 2 + data[i + 1]
        elif c == 242:
            out.append(("xxx", data[i + 5:i + 5 + num(4)]))
            size = 5 + num(4)
        elif c == 243:
            size = 16 + data[i + 15]
            out.append(("def", data[i + 1:i + size]))
        elif c == 247:
            out.append(("pre", data[i + 1:i + 14]))
            size = 15 + data[i + 14]
        elif c == 248:
            out.append(("post", data[i + 5:i + 29]))
            size = 29
        elif c == 249:
            break
        else:
            out.append((c,))
        i += size
    return out


def places(cmds):
    """What stands where, page by page."""
    out, h, v, font, stack, widths = [], 0, 0, None, [], {}
    for c in cmds:
        if c[0] == "bop":
            h, v, font, stack = 0, 0, None, []
            out.append(c)
        elif c[0] == "push":
            stack.append((h, v))
        elif c[0] == "pop":
            h, v = stack.pop()
        elif c[0] == "right":
            h += c[1]
        elif c[0] == "down":
            v += c[1]
        elif c[0] == "font":
            font = c[1]
        elif c[0] == "set":
            out.append(("char", font, c[1], h, v))
            h += SIZES[font] * (1 + (c[1] - 97) % 14) // 16
        elif c[0] == "rule":
            raw = c[2].to_bytes(8, "big", signed=True)
            height, width = (int.from_bytes(raw[k:k + 4], "big", signed=True) for k in (0, 4))
            out.append(("rule", height, width, h, v))
            h += width if c[1] == 132 else 0
        elif c[0] == "xxx":
            out.append(("xxx", c[1], h, v))
    return out


def near(a, b):
    """The same things, no number off by more than 2."""
    return len(a) == len(b) and all(isinstance(x, int) and isinstance(y, int) and abs(x - y) <= 2 or x == y for x, y in zip(a, b))


def make(seed, count, sets):
    rng = random.Random(seed)
    maker, job, lines = None, [JOB], []
    for page in range(count):
        maker = Maker(rng, sets)
        number, sizes, _empty = maker.box(0, rng.random() < 0.5)
        right, below = maker.size(5000000), maker.size(5000000)
        job += maker.job
        job.append(f"\\hoffset{right}sp \\voffset{below}sp \\count0={page} \\shipout\\box{number}")
        lines += maker.lines(number)
        lines.append(f"10 {right} {below} {page}")
    job.append("\\end\n")
    return "\n".join(job), "\n".join(lines) + "\n"


def by_tex(job, folder):
    with open(os.path.join(folder, "plainest.tfm"), "wb") as file:
        file.write(plain_font())
    with open(os.path.join(folder, "job.tex"), "w", encoding="ascii") as file:
        file.write(job)
    command = ["pdftex", "-ini", "-etex", "-no-mktex=tfm", "-output-format=dvi", "-interaction=batchmode", "job"]
    environment = dict(os.environ, TEXINPUTS=".:", TFMFONTS=".:")
    subprocess.run(command, cwd=folder, env=environment, stdout=subprocess.DEVNULL, check=False)
    with open(os.path.join(folder, "job.log"), encoding="latin-1") as file:
        log = file.read()
    errors = [line for line in log.splitlines() if line.startswith("!")]
    if errors:
        sys.exit(f"real e-TeX: {errors[:3]}")
    with open(os.path.join(folder, "job.dvi"), "rb") as file:
        return file.read()


def by_crate(lines, folder):
    """The bytes that the program ships, with one word for a refusal."""
    crate = os.path.join(folder, "crates", "shipped")
    if not os.path.isdir(crate):
        needs = ["etx_ship", "etx_dvi", "etx_matter"]
        rows = common.copy_crates(folder, needs)
        os.makedirs(os.path.join(crate, "src"))
        with open(os.path.join(crate, "src", "main.rt"), "w", encoding="utf-8") as file:
            file.write(PROGRAM)
        with open(os.path.join(folder, "crates.txt"), "w", encoding="utf-8") as file:
            file.writelines(rows + [f"shipped: {' '.join(needs)}\n"])
    ran = subprocess.run(["rt", "try"], cwd=crate, input=lines, stdout=subprocess.PIPE, stderr=subprocess.STDOUT, text=True)
    data, refused = b"", 0
    for line in ran.stdout.splitlines():
        if line.startswith("bytes ["):
            data += bytes(int(word) for word in line[7:-1].split(",") if word.strip())
        elif line.startswith("refused"):
            refused += 1
    if not data:
        sys.exit(ran.stdout[-3000:])
    return data, refused


def main(words):
    if not shutil.which("pdftex") or not shutil.which("rt"):
        print("shipping.py: pdftex or rt is missing")
        return 0
    seed = int(words[0]) if words else 1
    count = int(words[1]) if len(words) > 1 else 150
    wrong = 0
    with tempfile.TemporaryDirectory() as folder:
        for sets in (False, True):
            job, lines = make(seed + sets, count, sets)
            theirs, (ours, refused) = commands(by_tex(job, folder)), by_crate(lines, folder)
            ours = commands(ours)
            what = "with set glue" if sets else "without set glue"
            a, b = (places(theirs), places(ours)) if sets else (theirs, ours)
            off = [i for i, (x, y) in enumerate(zip(a, b)) if not (near(x, y) if sets else x == y)]
            same = not off and len(a) == len(b) and not refused
            print(f"{count} boxes {what}: {len(a)} and {len(b)} things, {'the same' if same else 'different'}")
            if not same:
                wrong = 1
                i = off[0] if off else min(len(a), len(b))
                print(refused, i, a[max(0, i - 6):i + 4], b[max(0, i - 6):i + 4])
    return wrong


if __name__ == "__main__":
    sys.exit(main(sys.argv[1:]))
