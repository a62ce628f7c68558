#!/usr/bin/env python3
"""Counts what the breaking of a long paragraph costs, beside real e-TeX, and asks that its memory is linear.

    bench/breaking.py

A small program over copies of the crates is built in a folder of its own, with `rt`, and runs under valgrind. That takes some
minutes, or seconds where the crates' out/ hold what was proved. The paragraph has 40000 characters of English words in cmr10,
on lines as wide as those of plain TeX, and ends in a rule that fits on no line; so a pass that isn't the final one looks at
all breaks and finds none. Each figure is a difference of two runs that differ in one pass alone:

- first pass: here of a run with `first_breaks` and one without; in real e-TeX of a paragraph that is broken on the first
  and the second pass and one that has only the second, both without hyphenation;
- second pass: here of a run with `hyphenated` and `later_breaks` and one without; in real e-TeX what the first pass takes,
  and what hyphenation by the English patterns adds to a paragraph that has only the second pass.

So in e-TeX neither the list, nor its copy, nor the packing of lines counts, and here neither the list nor its sealing. The
number of lines has to be the same in both. Then the first pass goes over paragraphs up to 2^20 items, whose memory and
time per item must not grow. It is no part of the gate, and does nothing where `valgrind`, `pdftex`, cmr10 or hyphen.tex is
missing. Exit status 1 where something is above its limit.
"""
import os
import random
import re
import shutil
import subprocess
import sys
import tempfile

import common
import data
import hyphens

CHARACTERS = 40_000
LIMIT_OF_FIRST = 2.5
LIMIT_OF_SECOND = 3.0
ITEMS = [1 << 18, 1 << 19, 1 << 20]
# How much more an item of the longest paragraph may take than one of the shortest.
GROWTH = 1.25
SHORT = "a all an and are as at be but by can for from had has have he her his if in is it no not of on one or our so that the them they this to up was we what when who will with you".split()
# The width of a line of plain TeX, in sp.
WIDTH = 30_785_863
TOLERANCE = 200
NEEDS = ["etx_linebreak", "etx_hyphen", "etx_tfm", "etx_sealed", "etx_pack", "etx_patterns", "etx_prims", "etx_matter", "etx_lists"]

PROGRAM = r"""//! Breaks a paragraph of words. A line is `p PATTERN`, `w WORD`, `r ROUNDS` (how many times the words so far stand in the
//! paragraph), or what is done: `none`, `first` or `second`.
#![tactic(auto, unfolding(etx_matter::specs::Nests::IsNested, etx_matter::specs::Nests::AreNested, etx_matter::specs::Nests::list_depth, etx_matter::specs::Nests::node_depth))]
ghost use Rattle.std.specs.Prelude.{IfOk, OnOk};
ghost use Rattle.etx_matter.specs.Nests.{IsNested, AreNested};

use etx_hyphen::hyphenated;
use etx_linebreak::{first_breaks, later_breaks};
use etx_lists::{Bytes, Listed};
use etx_matter::{CharSize, Font, Glue, GlueOrder, Limits, Node, Nodes, RuleSize, SharedFont, Size};
use etx_patterns::{PatternRefused, Patterns, Step};
use etx_prims::InteractionKind;
use etx_sealed::{
    BreakParams, LineSkips, ParParams, ParShape, ParagraphPenalties, Sealed, SealedFont, SharedSealed,
    glue_node,
};
use etx_tfm::{FontFault, Neighbour, read_font, read_run};
use std::alloc::{AllocError, Global};
use std::io;

const CMR10: &[u8] = &[FONT];

const SPACE: Glue = Glue {
    width: 218_453,
    stretch: 109_226,
    shrink: 72_818,
    stretch_order: GlueOrder::Normal,
    shrink_order: GlueOrder::Normal,
};

const NO_GLUE: Glue = Glue {
    width: 0,
    stretch: 0,
    shrink: 0,
    stretch_order: GlueOrder::Normal,
    shrink_order: GlueOrder::Normal,
};

const FILL: Glue = Glue {
    width: 0,
    stretch: 65_536,
    shrink: 0,
    stretch_order: GlueOrder::Fil,
    shrink_order: GlueOrder::Normal,
};

fn put(list: &mut Nodes, node: Node) -> Result<(), AllocError>
    requires { IsNested node }
    ensures { OnOk result (AreNested list.old → AreNested list.new) }
{
    list.push(node)?;
    Ok(())
}

fn put_word(alloc: Global, list: &mut Nodes, font: &Font, word: &[u8]) -> Result<(), AllocError>
    ensures { OnOk result (AreNested list.old → AreNested list.new) }
{
    let reading = read_run(alloc, font, word, Neighbour::Boundary, Neighbour::Boundary)?;
    list.append(reading.nodes)?;
    Ok(())
}

fn put_words(alloc: Global, list: &mut Nodes, font: &Font, words: &[String]) -> Result<(), AllocError>
    ensures { OnOk result (AreNested list.old → AreNested list.new) }
{
    for word in words {
        put_word(alloc, list, font, word.as_bytes())?;
        put(list, glue_node(SPACE))?;
    }
    Ok(())
}

/// A rule that is wider than a line.
fn rule() -> Node
    ensures { IsNested result }
{
    Node::Rule(RuleSize {
        width: Some(1_000_000_000),
        height: None,
        depth: None,
    })
}

fn paragraph(alloc: Global, font: &Font, told: &Told) -> Result<Nodes, AllocError>
    ensures { IfOk result AreNested }
{
    let mut list = Nodes::new(alloc);
    for round in 0..told.rounds {
        put_words(alloc, &mut list, font, &told.words)?;
    }
    put(&mut list, rule())?;
    Ok(list)
}

fn lccode(alloc: Global) -> Result<Bytes, AllocError> {
    let mut codes = Bytes::with_room(alloc, 256)?;
    for code in 0..=255u8 {
        codes.push(if code.is_ascii_lowercase() { code } else { 0 })?;
    }
    Ok(codes)
}

const BREAKS: BreakParams = BreakParams {
    pretolerance: TOLERANCE,
    tolerance: TOLERANCE,
    line_penalty: 10,
    hyphen_penalty: 50,
    ex_hyphen_penalty: 50,
    double_hyphen_demerits: 10_000,
    final_hyphen_demerits: 5_000,
    adj_demerits: 10_000,
    looseness: 0,
    emergency_stretch: 0,
};

const PENALTIES: ParagraphPenalties = ParagraphPenalties {
    inter_line: 0,
    club: 0,
    widow: 0,
    display_widow: 0,
    broken: 0,
};

const SKIPS: LineSkips = LineSkips {
    left: NO_GLUE,
    right: NO_GLUE,
    par_fill: FILL,
    baseline: NO_GLUE,
    line: NO_GLUE,
    limit: 0,
};

fn params(alloc: Global, font: Font, tables: Patterns) -> Result<ParParams, AllocError> {
    let mut fonts = Listed::new(alloc);
    fonts.push(SealedFont {
        font: SharedFont::new(alloc, font)?,
        hyphen_char: 45,
    })?;
    Ok(ParParams {
        prevgraf: 0,
        shape: ParShape::Hanging {
            width: WIDTH,
            indent: 0,
            after: 1,
        },
        breaks: BREAKS,
        penalties: PENALTIES,
        skips: SKIPS,
        limits: Limits {
            badness: 10_000,
            fuzz: i32::MAX,
            rule: 0,
        },
        uchyph: 0,
        lccode: lccode(alloc)?,
        fonts,
        tables,
        mode: InteractionKind::Batch,
        first_line: 1,
        last_line: 1,
        active: false,
        display: false,
        language: 0,
        left: 2,
        right: 3,
    })
}

/// What was read.
#[derive(Drop)]
struct Told {
    words: Vec<String>,
    rounds: u32,
    tables: Patterns,
}

fn first(alloc: Global, sealed: &SharedSealed) -> Result<usize, AllocError> {
    match first_breaks(alloc, sealed)? {
        Some(breaks) => Ok(breaks.len()),
        None => Ok(0),
    }
}

fn second(alloc: Global, sealed: &SharedSealed) -> Result<usize, AllocError> {
    let list = hyphenated(alloc, sealed.get().list(), sealed.get().params())?;
    let set = SharedSealed::new(alloc, sealed.get().with_list(list)?)?;
    Ok(later_breaks(alloc, &set)?.len())
}

fn sealed_of(alloc: Global, font: Font, told: Told) -> Result<SharedSealed, AllocError> {
    let list = paragraph(alloc, &font, &told)?;
    let params = params(alloc, font, told.tables)?;
    SharedSealed::new(alloc, Sealed::new(alloc, list, params)?)
}

fn cmr10(alloc: Global) -> Result<Font, FontFault> {
    read_font(alloc, CMR10, Size::Design)
}

/// The number of items, and of breaks.
fn count(alloc: Global, what: &str, told: Told) -> Result<(usize, usize), AllocError> {
    let Ok(font) = cmr10(alloc) else {
        return Ok((0, 0));
    };
    let sealed = sealed_of(alloc, font, told)?;
    let items = sealed.get().list().len();
    match what {
        "first" => Ok((items, first(alloc, &sealed)?)),
        "second" => Ok((items, second(alloc, &sealed)?)),
        _ => Ok((items, 0)),
    }
}

fn steps_of(alloc: Global, text: &[u8]) -> Result<Vec<Step>, AllocError> {
    let mut steps = Vec::new(alloc);
    for code in text {
        steps.push(match *code {
            b'0'..=b'9' => Step::Digit(*code - b'0'),
            b'.' => Step::Edge,
            letter => Step::Letter(letter),
        })?;
    }
    Ok(steps)
}

fn add(alloc: Global, told: &mut Told, text: &str) -> Result<(), PatternRefused> {
    let steps = steps_of(alloc, text.as_bytes())?;
    told.tables.add(0, steps.as_slice())
}

/// Whether the line says what is to be known.
fn learn(rt: &HostRuntime, told: &mut Told, line: &str) -> io::Result<bool> {
    if let Some(text) = line.strip_prefix("p ") {
        if let Err(refused) = add(rt.alloc(), told, text) {
            println!(rt; "refused {refused:?}")?;
        }
        return Ok(true);
    }
    if let Some(text) = line.strip_prefix("w ") {
        told.words.push(String::from_str(rt.alloc(), text)?)?;
        return Ok(true);
    }
    if let Some(text) = line.strip_prefix("r ") {
        told.rounds = text.parse().unwrap_or(1);
        return Ok(true);
    }
    Ok(false)
}

fn nothing(alloc: Global) -> Result<Told, AllocError> {
    Ok(Told {
        words: Vec::new(alloc),
        rounds: 1,
        tables: Patterns::new(alloc)?,
    })
}

fn main(rt: HostRuntime) -> io::Result<()> {
    let mut told = nothing(rt.alloc())?;
    for line in rt.lines(rt.alloc()) {
        let line = line?;
        if !learn(&rt, &mut told, line.as_str())? {
            let (items, breaks) = count(rt.alloc(), line.as_str(), told)?;
            return println!(rt; "{items} {breaks}");
        }
    }
    Ok(())
}
"""

PROOFS = {
    "put/Answers.antt": """use Rattle.etx_pack.proofs.Marking.{nested_more}
use Rattle.breaking.proofs.put.Goals as goal

pub returns : goal.returns
returns c = λ h. nested_more c.args.list.now c.args.node c.push.new.self h c.requires c.in_ok-push.ensures.ok
""",
    "put_word/Answers.antt": """use Rattle.etx_tfm.specs.declared.piece.Neighbour.TheVariants.{Boundary}
use Rattle.etx_sealed.proofs.Nesting.{nested_both}
use Rattle.etx_hyphen.proofs.Nested.{reading_nested}
use Rattle.breaking.proofs.put_word.Goals as goal

pub returns : goal.returns
returns c = λ h. nested_both c.args.list.now _ c.append.new.self h (reading_nested c.args.font.now c.args.word.now Boundary Boundary _ c.in_ok-reading.ensures.places) c.in_ok-append.ensures.ok
""",
    "put_words/Invariants.antt": """use Rattle.etx_matter.specs.Nests.{AreNested}
use Rattle.breaking.proofs.put_words.Given as goal

abbrev pub invariant-loop-word : goal.invariant-loop-word
invariant-loop-word l = AreNested l.initial.list → AreNested l.list
""",
    "paragraph/Invariants.antt": """use Rattle.etx_matter.specs.Nests.{AreNested}
use Rattle.breaking.proofs.paragraph.Given as goal

abbrev pub invariant-loop-round : goal.invariant-loop-round
invariant-loop-round l = AreNested l.list
""",
}

JOB = r"""\catcode`\{=1 \catcode`\}=2 \catcode`\#=6 \batchmode
\input hyphen
\font\f=cmr10 \f \hyphenchar\f=%(hyphen)d \lefthyphenmin=2 \righthyphenmin=3
\hbadness=10000 \hfuzz=16383.99999pt \vbadness=10000
\setbox0\hbox{%(text)s
\vrule width 1000000000sp}
\setbox1\vbox{\hsize=%(width)dsp \pretolerance=%(pretolerance)d \tolerance=%(tolerance)d
\linepenalty=10 \hyphenpenalty=50 \exhyphenpenalty=50 \doublehyphendemerits=10000 \finalhyphendemerits=5000
\adjdemerits=10000 \parfillskip=0pt plus 1fil \noindent\unhcopy0\par \message{LINES \the\prevgraf.}}
\end
"""


def some_words(characters):
    """Words with a space behind each, of so many characters."""
    rnd, words, left = random.Random(1), [], characters
    while left > 0:
        word = rnd.choice(SHORT if rnd.random() < 0.6 else hyphens.WORDS)[:max(left - 1, 1)]
        words.append(word)
        left -= len(word) + 1
    return words


def by_tex(words, folder, pretolerance, hyphen):
    """The instructions of a job, and the number of lines."""
    text = "\n".join(" ".join(words[at:at + 10]) for at in range(0, len(words), 10))
    job = JOB % {"text": text, "width": WIDTH, "pretolerance": pretolerance, "tolerance": TOLERANCE, "hyphen": hyphen}
    with open(os.path.join(folder, "job.tex"), "w", encoding="ascii") as file:
        file.write(job)
    counted = data.instructions(["pdftex", "-ini", "-etex", "-output-format=dvi", "job.tex"], folder=folder)
    with open(os.path.join(folder, "job.log"), encoding="latin-1") as file:
        log = file.read()
    found = re.search(r"LINES (\d+)", log)
    if not found or re.search(r"^! ", log, re.M):
        sys.exit("real e-TeX failed:\n" + log[-2000:])
    return counted, int(found.group(1))


def lines_for(words, patterns, what, rounds=1):
    told = ["p " + pattern for pattern in patterns] + ["w " + word for word in words]
    return "\n".join(told + [f"r {rounds}", what]) + "\n"


def answer(program, told):
    """The number of items and of breaks, the seconds of the processor and the bytes of memory."""
    words = ["/usr/bin/env", "python3", "-c", "import resource, subprocess, sys\n"
             "ran = subprocess.run(sys.argv[1:], check=True)\nit = resource.getrusage(resource.RUSAGE_CHILDREN)\n"
             "print(it.ru_utime + it.ru_stime, it.ru_maxrss * 1024)", program]
    ran = subprocess.run(words, input=told, stdout=subprocess.PIPE, text=True, check=True)
    items, breaks, seconds, memory = ran.stdout.split()
    return int(items), int(breaks), float(seconds), int(memory)


def compare(program, words, patterns, folder):
    """Whether a pass is above its limit."""
    few = len(" ".join(words)) + 1
    ours = {what: data.instructions([program], lines_for(words, patterns, what)) for what in ("none", "first", "second")}
    both, _ = by_tex(words, folder, TOLERANCE, -1)
    plain, _ = by_tex(words, folder, -1, -1)
    hyphenating, lines = by_tex(words, folder, -1, 45)
    _, breaks, _, _ = answer(program, lines_for(words, patterns, "second"))
    above = breaks != lines
    print(f"{few} characters: {breaks} lines on the second pass, {lines} in real e-TeX")
    first, second = ours["first"] - ours["none"], ours["second"] - ours["none"]
    for name, our, their, limit in [("first", first, both - plain, LIMIT_OF_FIRST), ("second", second, both - plain + hyphenating - plain, LIMIT_OF_SECOND)]:
        above |= our > limit * their
        told = "" if our <= limit * their else f"   ABOVE {limit}"
        print(f"{name} pass: {our / few:.0f} instructions a character, {their / few:.0f} in real e-TeX: {our / their:.2f} times{told}")
    return above


def grow(program, words):
    """Whether time or memory for an item grows with the paragraph."""
    each = []
    per_round = answer(program, lines_for(words, [], "none"))[0] - 3
    for wanted in ITEMS:
        items, _, seconds, memory = answer(program, lines_for(words, [], "first", -(-wanted // per_round)))
        each.append((seconds / items, memory / items))
        print(f"{items} items: first pass in {seconds:.2f} s, {memory / 1e6:.0f} MB at most, {memory / items:.0f} bytes an item")
    return any(last > GROWTH * first for first, last in zip(each[0], each[-1]))


def main():
    found = {name: subprocess.run(["kpsewhich", name], stdout=subprocess.PIPE, text=True, check=False).stdout.strip() if shutil.which("kpsewhich") else "" for name in ("cmr10.tfm", "hyphen.tex")}
    if not all(found.values()) or not all(map(shutil.which, ("valgrind", "pdftex", "rt"))):
        print("breaking.py: valgrind, pdftex, rt, cmr10 or hyphen.tex is missing")
        return 0
    with open(found["cmr10.tfm"], "rb") as file:
        font = ", ".join(map(str, file.read()))
    words, (patterns, _) = some_words(CHARACTERS), hyphens.tables(found["hyphen.tex"])
    source = PROGRAM.replace("FONT", font, 1).replace("TOLERANCE", str(TOLERANCE)).replace("WIDTH", str(WIDTH))
    with tempfile.TemporaryDirectory() as folder:
        program = common.build_program(folder, "breaking", source, NEEDS, PROOFS)
        above = compare(program, words, patterns, folder)
        above |= grow(program, words)
    return 1 if above else 0


if __name__ == "__main__":
    sys.exit(main())
