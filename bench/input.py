#!/usr/bin/env python3
"""Counts the instructions that the input takes: a token of a list, of a file, one that is put back, a body.

    bench/input.py [--annotate KIND]

It builds a small program over a copy of crates/etx_input in a folder of its own, with `rt`, and runs it under valgrind,
which must be installed. That takes some minutes. Each figure is the slope between two sizes, so what a run costs by itself
is not in it. It asks for nothing and is no part of the gate; --annotate prints where the instructions of one kind go.
"""
import os
import re
import subprocess
import sys
import tempfile

import common

SMALL, LARGE = 20000, 60000
KINDS = {
    "listed": "a token of a list",
    "skipped": "a token of eight of a list that are taken at once",
    "back": "a token that is put back and read again",
    "body": "a body of three tokens, pushed and read",
    "letters": "a letter of a file, in lines of 64",
    "words": "a control word of five letters of a file, in lines of 64",
}
PROGRAM = r"""//! Reads many tokens.
#![tactic(auto)]

use etx_input::{FileInput, Levels, Next, Origin};
use etx_lexer::CatOf;
use etx_lists::Bytes;
use etx_matter::{SharedTokens, Token, Tokens};
use std::alloc::{AllocError, Global};
use std::io;

#[derive(Drop)]
struct Categories {
    table: [u8; 256],
}

impl CatOf for Categories {
    ghost use Rattle.std.specs.Prelude.{min, slice_index};

    ghost category = { λ c code. min (slice_index c.table code) 15 };

    fn cat(&self, code: u8) -> u8 {
        self.table[code as usize].min(15)
    }
}

fn plain() -> Categories {
    let mut table = [11; 256];
    table[92] = 0;
    table[32] = 10;
    table[13] = 5;
    Categories { table }
}

const LETTER: Token = Token::Char { code: 97, cat: 11 };

fn tokens(alloc: Global, size: u32) -> Result<Tokens, AllocError> {
    let mut out = Tokens::new(alloc);
    for _ in 0..size {
        out.push(LETTER)?;
    }
    Ok(out)
}

#[inline(never)]
fn listed(levels: &mut Levels) -> u64 {
    match levels.next_listed() {
        Some(Next::Listed { token: _, origin: _ }) => 1,
        _ => 0,
    }
}

fn read_list(alloc: Global, size: u32) -> Result<u64, AllocError> {
    let mut levels = Levels::new(alloc);
    levels.push_tokens(alloc, tokens(alloc, size)?, Origin::Fresh)?;
    let mut sum: u64 = 0;
    for _ in 0..size {
        sum = sum.saturating_add(listed(&mut levels));
    }
    Ok(sum)
}

#[inline(never)]
fn eight(levels: &mut Levels) -> Result<u64, AllocError> {
    let count = levels.fresh().len().min(8);
    levels.skip(count)?;
    Ok(count as u64)
}

fn skip_list(alloc: Global, size: u32) -> Result<u64, AllocError> {
    let mut levels = Levels::new(alloc);
    levels.push_tokens(alloc, tokens(alloc, size)?, Origin::Fresh)?;
    let mut sum: u64 = 0;
    for _ in 0..size / 8 {
        sum = sum.saturating_add(eight(&mut levels)?);
    }
    Ok(sum)
}

fn put_back(alloc: Global, size: u32) -> Result<u64, AllocError> {
    let mut levels = Levels::new(alloc);
    let mut sum: u64 = 0;
    for _ in 0..size {
        levels.push_token(LETTER, Origin::Back)?;
        sum = sum.saturating_add(listed(&mut levels));
    }
    Ok(sum)
}

fn bodies(alloc: Global, size: u32) -> Result<u64, AllocError> {
    let mut levels = Levels::new(alloc);
    let body = SharedTokens::new(alloc, tokens(alloc, 3)?)?;
    let mut sum: u64 = 0;
    for _ in 0..size {
        levels.push_shared(body.share()?, Origin::Fresh)?;
        for _ in 0..3 {
            sum = sum.saturating_add(listed(&mut levels));
        }
    }
    Ok(sum / 3)
}

fn text(alloc: Global, size: u32, item: &[u8]) -> Result<Bytes, AllocError> {
    let mut out = Bytes::new(alloc);
    for i in 0..size {
        out.extend_from_slice(item)?;
        if i & 63 == 63 {
            out.extend_from_slice(b"\n")?;
        }
    }
    Ok(out)
}

#[inline(never)]
fn lexed(levels: &mut Levels, alloc: Global, cats: &Categories) -> Result<u64, AllocError> {
    match levels.next(alloc, -1, cats)? {
        Next::Lexed(_) => Ok(1),
        _ => Ok(0),
    }
}

fn read_text(alloc: Global, size: u32, text: Bytes) -> Result<u64, AllocError> {
    let cats = plain();
    let mut levels = Levels::new(alloc);
    levels.push_file(FileInput::new(alloc, text)?)?;
    let mut sum: u64 = 0;
    for _ in 0..size {
        sum = sum.saturating_add(lexed(&mut levels, alloc, &cats)?);
    }
    Ok(sum)
}

fn count(alloc: Global, what: &str, size: u32) -> Result<u64, AllocError> {
    match what {
        "listed" => read_list(alloc, size),
        "skipped" => skip_list(alloc, size),
        "back" => put_back(alloc, size),
        "body" => bodies(alloc, size),
        "letters" => read_text(alloc, size, text(alloc, size, b"a")?),
        "words" => read_text(alloc, size, text(alloc, size, b"\\relax")?),
        "tokens" => Ok(tokens(alloc, size)?.len() as u64),
        "chars" => Ok(text(alloc, size, b"a")?.len() as u64),
        "names" => Ok(text(alloc, size, b"\\relax")?.len() as u64),
        _ => Ok(0),
    }
}
""" + common.COUNTS_BY_LINE
# what a kind builds before it reads, and what then isn't counted
BUILDS = {"listed": "tokens", "skipped": "tokens", "letters": "chars", "words": "names"}


def counted(program, kind, size, folder):
    """The instructions of one run, and the program's answer."""
    out = os.path.join(folder, f"{kind}.{size}.out")
    ran = subprocess.run(["valgrind", "--tool=callgrind", f"--callgrind-out-file={out}", program], input=f"{kind} {size}\n", capture_output=True, text=True, check=True)
    found = re.search(r"Collected : (\d+)", ran.stderr)
    return int(found.group(1)), int(ran.stdout), out


def slope(program, kind, folder):
    """The instructions for one of a kind."""
    small, large = (counted(program, kind, size, folder) for size in (SMALL, LARGE))
    return (large[0] - small[0]) / (LARGE - SMALL), large


def main():
    with tempfile.TemporaryDirectory() as folder:
        program = common.build_program(folder, "input_count", PROGRAM, ["etx_input", "etx_lexer", "etx_lists", "etx_matter"])
        if sys.argv[1:2] == ["--annotate"]:
            out = slope(program, sys.argv[2], folder)[1][2]
            subprocess.run(["callgrind_annotate", out], check=False)
            return
        for kind in KINDS:
            each, (_, answer, _) = slope(program, kind, folder)
            if answer != LARGE:
                sys.exit(f"{kind}: {answer} of {LARGE} were read")
            if kind in BUILDS:
                each -= slope(program, BUILDS[kind], folder)[0]
            print(f"{each:8.1f} instructions for {KINDS[kind]}")


if __name__ == "__main__":
    main()
