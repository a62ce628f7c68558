#!/usr/bin/env python3
"""Times lists of nodes: building, copying, appending and cutting, and boxes nested up to 400 deep. Counts instructions.

    bench/lists.py

It builds a small program over a copy of crates/etx_matter in a folder of its own, with `rt`, and runs it. That takes some
minutes. What counts is the time of the processor, without that of a run that does nothing, and of seven runs the
shortest, since the machine may be busy. Each run takes its memory anew. It asks that the time for a node, or for a box,
of the longest list is at most three times that of the shortest: so the times grow with the length and not with its
square. Then it counts the instructions of a node that is built, copied and dropped, by the difference of two runs of
different lengths under `valgrind`. It is no part of the gate. Exit status 1 where something is not as asked.
"""
import os
import re
import subprocess
import sys
import tempfile

import common

ROUNDS = 7
SIZES = [65536, 262144, 1048576]
DEPTHS = [100, 200, 400]
LISTS = {"build": "built", "copy": "built and copied", "append": "built, copied and appended", "cut": "built, copied, appended and cut"}
BOXES = {"boxes": "built", "duplicate": "built, and copied 1000 times"}
COUNTED = {"build": "built and dropped", "copy": "built, copied and dropped", "glue": "glue: built and dropped", "spaces": "glue: built, copied and dropped"}
PROGRAM = r"""//! Lists of nodes.
#![tactic(auto, unfolding(etx_matter::specs::Nests::IsNested, etx_matter::specs::Nests::AreNested, etx_matter::specs::Nests::IsNestedBox, etx_matter::specs::Nests::IsNestedInner, etx_matter::specs::Nests::list_depth, etx_matter::specs::Nests::node_depth, etx_matter::specs::Nests::box_depth, etx_matter::specs::Nests::inner_depth))]
ghost use Rattle.std.specs.Prelude.{IfOk};
ghost use Rattle.etx_matter.specs.Nests.{IsNested, AreNested};

use etx_matter::{
    BoxNode, Boxed, CharSize, Glue, GlueOrder, GlueSet, InnerList, Node, Nodes, copy_nodes, nesting,
};
use std::alloc::{AllocError, Global};
use std::io;

fn letter() -> Node {
    Node::Char {
        font: 1,
        code: 97,
        size: CharSize {
            width: 327680,
            height: 327680,
            depth: 0,
            italic: 0,
        },
    }
}

fn space() -> Node {
    Node::Glue(Glue {
        width: 218453,
        stretch: 109226,
        shrink: 72818,
        stretch_order: GlueOrder::Normal,
        shrink_order: GlueOrder::Normal,
    })
}

fn glue(alloc: Global, size: u32) -> Result<Nodes, AllocError> {
    let mut list = Nodes::new(alloc);
    for _ in 0..size {
        list.push(space())?;
    }
    Ok(list)
}

fn spaces(alloc: Global, size: u32) -> Result<u64, AllocError> {
    let list = glue(alloc, size)?;
    let copy = copy_nodes(alloc, &list)?;
    Ok(copy.len() as u64)
}

fn build(alloc: Global, size: u32) -> Result<Nodes, AllocError> {
    let mut list = Nodes::new(alloc);
    for _ in 0..size {
        list.push(letter())?;
    }
    Ok(list)
}

fn copy(alloc: Global, size: u32) -> Result<u64, AllocError> {
    let list = build(alloc, size)?;
    let copy = copy_nodes(alloc, &list)?;
    Ok(copy.len() as u64)
}

fn double(alloc: Global, size: u32) -> Result<Nodes, AllocError> {
    let mut list = build(alloc, size)?;
    let copy = copy_nodes(alloc, &list)?;
    list.append(copy)?;
    Ok(list)
}

fn cut(alloc: Global, size: u32) -> Result<u64, AllocError> {
    let mut list = double(alloc, size)?;
    let half = list.len() / 2;
    let rest = list.cut(half)?;
    Ok(rest.len() as u64)
}

fn nest(alloc: Global, list: Nodes) -> Result<Nodes, AllocError>
    requires { AreNested list }
    ensures { IfOk result (λ outer. AreNested outer) }
{
    let it = BoxNode {
        vertical: false,
        width: 0,
        height: 0,
        depth: 0,
        shift: 0,
        set: GlueSet::natural(),
        list: InnerList::new(list),
    };
    let mut outer = Nodes::new(alloc);
    outer.push(Node::Box(Boxed::new(alloc, it)?))?;
    Ok(outer)
}

fn boxes(alloc: Global, depth: u32) -> Result<Nodes, AllocError>
    ensures { IfOk result (λ list. AreNested list) }
{
    let mut list = Nodes::new(alloc);
    for _ in 0..depth {
        list = nest(alloc, list)?;
    }
    Ok(list)
}

fn duplicate(alloc: Global, depth: u32) -> Result<u64, AllocError> {
    let list = boxes(alloc, depth)?;
    for _ in 0..1000 {
        let _copy = copy_nodes(alloc, &list)?;
    }
    Ok(u64::from(nesting(&list)))
}

fn count(alloc: Global, what: &str, size: u32) -> Result<u64, AllocError> {
    match what {
        "build" => Ok(build(alloc, size)?.len() as u64),
        "copy" => copy(alloc, size),
        "append" => Ok(double(alloc, size)?.len() as u64 / 2),
        "cut" => cut(alloc, size),
        "boxes" => Ok(u64::from(nesting(&boxes(alloc, size)?))),
        "duplicate" => duplicate(alloc, size),
        "glue" => Ok(glue(alloc, size)?.len() as u64),
        "spaces" => spaces(alloc, size),
        _ => Ok(0),
    }
}
""" + common.COUNTS_BY_LINE

PROOFS = {"boxes/Invariants.antt": """use Rattle.etx_matter.specs.Nests.{AreNested}
use Rattle.list_bench.proofs.boxes.Given as goal

abbrev pub invariant-loop : goal.invariant-loop
invariant-loop l = AreNested l.list
"""}


def run(program, line):
    """What the program answers to this line, and the seconds of the processor that it takes."""
    process = subprocess.Popen([program], stdin=subprocess.PIPE, stdout=subprocess.PIPE, text=True)
    process.stdin.write(line)
    process.stdin.close()
    said = process.stdout.read()
    _, status, usage = os.wait4(process.pid, 0)
    process.returncode = os.waitstatus_to_exitcode(status)
    return said, usage.ru_utime + usage.ru_stime


def shortest(program, line, wanted):
    """The seconds of the shortest of some runs. It stops where an answer isn't as wanted."""
    runs = [run(program, line) for _ in range(ROUNDS)]
    for said, _ in runs:
        if said != wanted:
            sys.exit(f"{line.strip()}: the program answers {said.strip()!r}, and not {wanted.strip()!r}")
    return min(seconds for _, seconds in runs)


def compare(program, kinds, sizes, unit):
    """Prints the times of each kind of work, and gives those kinds whose times grow faster than the size."""
    start = shortest(program, "", "")
    bad = []
    for what, told in kinds.items():
        each = [(shortest(program, f"{what} {size}\n", f"{size}\n") - start) / size for size in sizes]
        shown = [f"{size} in {one * size * 1e3:.2f} ms ({one * 1e9:.0f} ns a {unit})" for size, one in zip(sizes, each)]
        print(f"{told}: {', '.join(shown)}")
        if each[-1] > 3 * each[0]:
            bad.append(told)
    return bad


def instructions(program, line):
    """How many instructions the program carries out on this line."""
    words = ["valgrind", "--tool=cachegrind", "--cache-sim=no", "--cachegrind-out-file=/dev/null", program]
    ran = subprocess.run(words, input=line, stdout=subprocess.DEVNULL, stderr=subprocess.PIPE, text=True)
    found = re.search(r"I +refs: +([0-9,]+)", ran.stderr)
    if not found:
        sys.exit("valgrind tells no count:\n" + ran.stderr[-1000:])
    return int(found.group(1).replace(",", ""))


def count_instructions(program):
    """Prints the instructions of a node in each kind of work."""
    few, many = SIZES[0], SIZES[1]
    for what, told in COUNTED.items():
        more = instructions(program, f"{what} {many}\n") - instructions(program, f"{what} {few}\n")
        print(f"{told}: {more / (many - few):.1f} instructions a node")


def main():
    with tempfile.TemporaryDirectory() as folder:
        program = common.build_program(folder, "list_bench", PROGRAM, ["etx_matter"], PROOFS)
        bad = compare(program, LISTS, SIZES, "node") + compare(program, BOXES, DEPTHS, "box")
        count_instructions(program)
    for told in bad:
        print(f"NOT linear: {told}")
    return 1 if bad else 0


if __name__ == "__main__":
    sys.exit(main())
