#!/usr/bin/env python3
"""Counts the instructions of runs of characters and of a font that is read, by valgrind, beside real e-TeX.

    bench/runs.py [FONT]            FONT: a TFM file, cmr10 of TeX Live if none is named

It builds a small program over a copy of the crates in a folder of its own, with `rt`, which takes some minutes. Counted are,
by the difference of two runs of different lengths: a letter of a text that is pushed word by word, with ligatures and
kerns, at both edges (`push_ligkern`); a letter of a word that is read with its clean places (`read_run`); the font read
(`read_font`), and what real e-TeX takes for a `\\font` that names it, where there is a `pdftex`. It is no part of the gate.
"""
import os
import re
import shutil
import subprocess
import sys
import tempfile

import common

FONT = "/usr/share/texlive/texmf-dist/fonts/tfm/public/cm/cmr10.tfm"
TEXT = ("It is difficult to find an officer who offers to fly; the first five waffles were baffling, and all of them were "
        "eaten before the office had to be left again by those who had to look after the affairs of the flat").replace(" ", "\\0")
PROGRAM = r"""//! Counts what fonts cost.
#![tactic(auto)]

use etx_matter::{Font, Nodes, Size};
use etx_tfm::{FontFault, push_ligkern, read_font, read_run};
use std::alloc::Global;
use std::env;
use std::fs;
use std::rt::{Env, Files};

const TEXT: &[u8] = b"@TEXT@";

fn push_words(alloc: Global, font: &Font, nodes: &mut Nodes) -> Result<(), FontFault> {
    for word in TEXT.split(|code| *code == 0) {
        push_ligkern(alloc, font, word, true, true, nodes)?;
    }
    Ok(())
}

fn read_words(alloc: Global, font: &Font) -> Result<usize, FontFault> {
    let mut count = 0usize;
    for word in TEXT.split(|code| *code == 0) {
        let reading = read_run(alloc, font, word, true, true)?;
        count = count.saturating_add(reading.places.len());
    }
    Ok(count)
}

fn count(alloc: Global, what: &str, bytes: &[u8], times: u32) -> Result<usize, FontFault> {
    let mut total = 0usize;
    if what == "font" {
        for _ in 0..times {
            let font = read_font(alloc, bytes, Size::Design)?;
            total = total.saturating_add(font.info().parameters.len());
        }
        return Ok(total);
    }
    let font = read_font(alloc, bytes, Size::Design)?;
    let mut nodes = Nodes::new(alloc);
    for _ in 0..times {
        if what == "push" {
            push_words(alloc, &font, &mut nodes)?;
        } else {
            total = total.saturating_add(read_words(alloc, &font)?);
        }
    }
    Ok(total.saturating_add(nodes.len()))
}

fn main(rt: HostRuntime) -> anyhow::Result<()> {
    let mut words = env::args(&rt)?;
    let _ = words.next();
    let (Some(what), Some(name), Some(times)) = (words.next(), words.next(), words.next()) else {
        return Ok(());
    };
    let bytes = fs::read(&rt, name.as_str())?;
    let total = count(rt.alloc(), what.as_str(), bytes.as_slice(), times.as_str().parse()?)?;
    println!(rt; "{total}")?;
    Ok(())
}
"""


def instructions(command, **more):
    """How many instructions a command takes."""
    with tempfile.TemporaryDirectory() as folder:
        out = os.path.join(folder, "out")
        ran = subprocess.run(["valgrind", "--tool=callgrind", f"--callgrind-out-file={out}"] + command, stdout=subprocess.DEVNULL, stderr=subprocess.PIPE, text=True, **more)
    found = re.search(r"Collected : (\d+)", ran.stderr)
    if not found:
        sys.exit(ran.stderr[-2000:])
    return int(found.group(1))


def slope(program, what, font, low, high):
    return (instructions([program, what, font, str(high)]) - instructions([program, what, font, str(low)])) / (high - low)


def of_etex(folder, name):
    """The instructions of a `\\font` of real e-TeX: each size is a font of its own, which is read anew."""
    counts = []
    for fonts in (10, 60):
        with open(os.path.join(folder, "job.tex"), "w", encoding="utf-8") as job:
            job.write("\\catcode`\\{=1 \\catcode`\\}=2 \n")
            job.writelines(f"\\font\\f={name} at {1000 + at}sp\n" for at in range(fonts))
            job.write("\\end\n")
        counts.append(instructions(["pdftex", "-ini", "-etex", "-interaction=batchmode", "job.tex"], cwd=folder, stdin=subprocess.DEVNULL))
    return (counts[1] - counts[0]) / 50


def main():
    font = sys.argv[1] if len(sys.argv) > 1 else FONT
    letters = len(TEXT.replace("\\0", ""))
    with tempfile.TemporaryDirectory() as folder:
        program = common.build_program(folder, "run_bench", PROGRAM.replace("@TEXT@", TEXT), ["etx_tfm", "etx_matter", "etx_lists", "anyhow"])
        print(f"push_ligkern: {slope(program, 'push', font, 50, 250) / letters:.0f} instructions a letter")
        print(f"read_run: {slope(program, 'read', font, 50, 250) / letters:.0f} instructions a letter")
        ours = slope(program, "font", font, 5, 25)
        print(f"read_font: {ours:.0f} instructions")
        if shutil.which("pdftex"):
            shutil.copy(font, folder)
            theirs = of_etex(folder, os.path.basename(font).rsplit(".", 1)[0])
            print(f"\\font of e-TeX: {theirs:.0f} instructions; ours are {ours / theirs:.2f} times that")
    return 0


if __name__ == "__main__":
    sys.exit(main())
