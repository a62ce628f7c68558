#!/usr/bin/env python3
"""Counts what the crates of data cost: ligatures, packing and shipping of a line, and reading a font beside real e-TeX.

    bench/data.py

It builds a small program over copies of the crates in a folder of its own, with `rt`, and runs it under valgrind. That
takes some minutes, or seconds where the crates' out/ hold what was proved. Each figure is the slope between two sizes,
without what the work before it takes. Nodes that are built, copied and dropped are counted by bench/lists.py. The limits
are those that the project set itself; a figure above its limit is marked, and then the exit status is 1. It is no part of
the gate, and does nothing where `valgrind`, `pdftex` or cmr10 is missing.
"""
import os
import re
import shutil
import subprocess
import sys
import tempfile

import common

PROGRAM = r"""//! Ligatures, lines that are packed and shipped, and fonts that are read.
#![tactic(auto, unfolding(etx_matter::specs::Nests::IsNested, etx_matter::specs::Nests::AreNested, etx_matter::specs::Nests::list_depth, etx_matter::specs::Nests::node_depth))]
ghost use Rattle.std.specs.Prelude.{IfOk};
ghost use Rattle.etx_matter.specs.Nests.{IsNested, AreNested};

use etx_dvi::FontName;
use etx_matter::{BoxNode, Bytes, CharSize, Glue, GlueOrder, Goal, Limits, Node, Nodes, Size};
use etx_pack::hpack;
use etx_ship::{DviFont, DviState, ship};
use etx_tfm::{ligkern, read_font};
use std::alloc::{AllocError, Global};
use std::io;

const CMR10: &[u8] = &[FONT];

const WORD: &[u8] = b"difficult";

fn letter() -> Node
    ensures { IsNested result }
{
    Node::Char {
        font: 0,
        code: 97,
        size: CharSize {
            width: 100,
            height: 100,
            depth: 0,
            italic: 0,
        },
    }
}

fn space() -> Node
    ensures { IsNested result }
{
    Node::Glue(Glue {
        width: 50,
        stretch: 10,
        shrink: 10,
        stretch_order: GlueOrder::Normal,
        shrink_order: GlueOrder::Normal,
    })
}

// A letter, or where the place ends with the digits of the mask a space.
fn item(place: u32, mask: u32) -> Node
    ensures { IsNested result }
{
    if place & mask == mask { space() } else { letter() }
}

#[tactic(auto, using(etx_pack::proofs::Marking::nested_more), unfolding(etx_matter::specs::Nests::IsNested, etx_matter::specs::Nests::AreNested, etx_matter::specs::Nests::list_depth, etx_matter::specs::Nests::node_depth))]
fn line(alloc: Global, size: u32, mask: u32) -> Result<Nodes, AllocError>
    ensures { IfOk result (λ list. AreNested list) }
{
    let mut list = Nodes::new(alloc);
    for place in 0..size {
        list.push(item(place, mask))?;
    }
    Ok(list)
}

fn packed(alloc: Global, size: u32, mask: u32) -> Result<BoxNode, AllocError> {
    let limits = Limits {
        badness: 0,
        fuzz: 0,
        rule: 0,
    };
    Ok(hpack(line(alloc, size, mask)?, Goal::Spread(1000), limits)?.node)
}

fn shipped(alloc: Global, size: u32, mask: u32) -> Result<u64, AllocError> {
    let page = packed(alloc, size, mask)?;
    let mut file = DviState::new(alloc, 1000);
    if let Some(name) = FontName::new(Bytes::from_slice(alloc, b"cmr10")?) {
        if file.fonts() < 255 {
            file.load(DviFont { name, checksum: 0, size: 655360, design_size: 655360 })?;
        }
    }
    match ship(alloc, &page, [0; 10], (0, 0), &mut file) {
        Ok(bytes) => Ok(bytes.len() as u64),
        Err(_) => Ok(0),
    }
}

fn ligatures(alloc: Global, size: u32) -> Result<u64, AllocError> {
    let mut sum: u64 = 0;
    if let Ok(font) = read_font(alloc, CMR10, Size::Design) {
        for _ in 0..size / 8 {
            sum = sum.saturating_add(ligkern(alloc, &font, WORD, true, true)?.len() as u64);
        }
    }
    Ok(sum)
}

fn fonts(alloc: Global, size: u32) -> u64 {
    let mut sum: u64 = 0;
    for number in 0..size {
        match read_font(alloc, CMR10, Size::At(655361 + (number & 1023) as i32)) {
            Ok(_) => sum = sum.saturating_add(1),
            Err(_) => {}
        }
    }
    sum
}

fn count(alloc: Global, what: &str, size: u32) -> Result<u64, AllocError> {
    match what {
        "line" => Ok(line(alloc, size, 7)?.len() as u64),
        "pack" => Ok(packed(alloc, size, 7)?.list.nodes.len() as u64),
        "ship" => shipped(alloc, size, 7),
        "letters_packed" => Ok(packed(alloc, size, 0xFFFF_FFFF)?.list.nodes.len() as u64),
        "letters_shipped" => shipped(alloc, size, 0xFFFF_FFFF),
        "ligatures" => ligatures(alloc, size),
        "fonts" => Ok(fonts(alloc, size)),
        _ => Ok(0),
    }
}
""" + common.COUNTS_BY_LINE

PROOFS = {"line/Invariants.antt": """use Rattle.etx_matter.specs.Nests.{AreNested}
use Rattle.data_bench.proofs.line.Given as goal

abbrev pub invariant-loop-place : goal.invariant-loop-place
invariant-loop-place l = AreNested l.list
"""}

# kind: (what it is called, what it is counted without, two sizes, items of one of the size, the limit or None)
KINDS = {
    "ligatures": ("a letter of a word with ligatures and kerns", "none", (8000, 40000), 9 / 8, 200),
    "pack": ("a node of a line that is packed", "line", (20000, 60000), 1, 60),
    "letters_shipped": ("a character that is shipped", "letters_packed", (20000, 60000), 1, 80),
    "ship": ("a node of a line that is shipped, of which each eighth is a space", "pack", (20000, 60000), 1, None),
}
FONTS = (50, 200)
LIMIT_OF_FONTS = 3.0


def instructions(command, text="", folder=None):
    """How many instructions a program carries out on this input."""
    words = ["valgrind", "--tool=callgrind", "--callgrind-out-file=/dev/null", *command]
    ran = subprocess.run(words, input=text, stdout=subprocess.DEVNULL, stderr=subprocess.PIPE, text=True, cwd=folder, check=False)
    found = re.search(r"Collected : (\d+)", ran.stderr)
    if not found:
        sys.exit("valgrind tells no count:\n" + ran.stderr[-1000:])
    return int(found.group(1))


def slope(program, kind, sizes):
    """The instructions for one of the size."""
    small, large = sizes
    few, many = (instructions([program], f"{kind} {size}\n") for size in sizes)
    return (many - few) / (large - small)


def font_by_tex(folder):
    """The instructions of one `\\font` of cmr10 at a size of its own, by real e-TeX."""
    counts = []
    for size in FONTS:
        with open(os.path.join(folder, "fonts.tex"), "w", encoding="ascii") as file:
            file.write("\\batchmode\n")
            for number in range(size):
                file.write(f"\\font\\x=cmr10 at {655361 + number}sp\n")
            file.write("\\end\n")
        counts.append(instructions(["pdftex", "-ini", "-etex", "fonts.tex"], folder=folder))
    return (counts[1] - counts[0]) / (FONTS[1] - FONTS[0])


def main():
    found = subprocess.run(["kpsewhich", "cmr10.tfm"], stdout=subprocess.PIPE, text=True, check=False).stdout.strip() if shutil.which("kpsewhich") else ""
    if not found or not shutil.which("valgrind") or not shutil.which("pdftex"):
        print("data.py: valgrind, pdftex or cmr10 is missing")
        return 0
    with open(found, "rb") as file:
        font = ", ".join(map(str, file.read()))
    above = 0
    with tempfile.TemporaryDirectory() as folder:
        needs = ["etx_ship", "etx_pack", "etx_tfm", "etx_dvi", "etx_matter"]
        program = common.build_program(folder, "data_bench", PROGRAM.replace("FONT", font, 1), needs, PROOFS)
        rows = [(told, slope(program, kind, sizes) - (slope(program, before, sizes) if before != "none" else 0), items, limit) for kind, (told, before, sizes, items, limit) in KINDS.items()]
        for told, each, items, limit in rows:
            is_above = limit is not None and each / items > limit
            above |= is_above
            print(f"{each / items:8.1f} instructions for {told}{f'   ABOVE {limit}' if is_above else ''}")
        ours, theirs = slope(program, "fonts", FONTS), font_by_tex(folder)
        above |= ours > LIMIT_OF_FONTS * theirs
        print(f"{ours:8.0f} instructions to read cmr10, {theirs:.0f} in real e-TeX: {ours / theirs:.2f} times{'' if ours <= LIMIT_OF_FONTS * theirs else f'   ABOVE {LIMIT_OF_FONTS}'}")
    return 1 if above else 0


if __name__ == "__main__":
    sys.exit(main())
