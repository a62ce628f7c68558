#!/usr/bin/env python3
"""Compares `etx_patterns` with real e-TeX on the English patterns, and times it.

    bench/hyphens.py [FILE..]        the lower-case words of the files are compared too

A small program over the crate is made in a temporary folder, proved and built by `rt`, and reads all patterns and
exceptions of hyphen.tex. Real e-TeX reads the same file as INITEX, and shows each word as a paragraph that it
hyphenates, with no least number of letters at either edge, in a font that has neither ligatures nor kerns. Half of
the words are looked up in a copy of the tables.

It is no part of the gate. Where `pdftex`, hyphen.tex or `rt` is missing it says so, and its exit status is 0. Exit status 1
where a word differs or a pattern is refused.
"""
import os
import re
import resource
import shutil
import struct
import subprocess
import sys
import tempfile

import common

BATCH = 1_000_000
LONGEST = ("antidisestablishmentarianism" * 3)[:63]

WORDS = """
ability absolute academy accidental accommodation accomplish account acknowledge acquaintance active adaptation
addition adjective administration admiration advantage adventure affection afternoon agriculture algorithm alphabet
although ambition amendment analysis ancestor animal anniversary anticipate apology apparatus appearance appendix
application appreciate approximate arbitrary architecture argument arithmetic arrangement article artificial
associate association assumption astronomy athletic atmosphere attention attribute audience authority automatic
available baggage balance banana bathroom beautiful because beginning behavior believe benefit between biography
biology birthday breakfast brilliant building business calculate calendar camera candidate capacity capital careful
category celebrate century ceremony certificate challenge champion character charity chemical children chocolate
circle citizen civilization classical climate collection colony combination comfortable command commercial committee
communication community company comparison competition complete complicated composition computer concentrate
conclusion condition confidence congress connection conscience consequence conservative considerable constitution
construction contemporary continent contribution convenient conversation cooperate correspondence country creature
criminal criticism crocodile cultural curiosity customer dangerous daughter decision declination decoration
definition delicate democracy demonstrate department dependent description desperate determine development dictionary
difference difficulty dimension dinosaur direction discipline discovery discussion distance distribution document
domestic dramatic economy education efficient electricity element elephant emergency emotion employment encyclopedia
energy engineering enormous entertainment enthusiasm environment equipment establish evaluation evening evidence
examination excellent exception exercise existence experience experiment explanation expression extraordinary
familiar fascinating february festival fiction foreign formula fortunate fragment frequency fundamental furniture
galaxy gardener generation generous geography geometry government gradual grammar gratitude guarantee habitat
handkerchief happiness harmony helicopter heritage hesitate historical holiday hospital however humanity hypothesis
hyphenation identity illustration imagination immediately importance impossible impression improvement incident
independent individual industry inevitable infinite influence information ingredient initial innocent institution
instrument intelligence interesting international interpretation introduction invention investigate invitation island
january journalist judgment kangaroo kitchen knowledge laboratory language laughter legislation liberty library
ligature likelihood literature locomotive machinery magazine magnificent majority manuscript marriage mathematics
measurement mechanical medicine melancholy memory message metaphor microphone military minimum minister miracle
mountain multiplication museum musical mysterious narrative national necessary negotiate neighborhood nevertheless
newspaper notation numerous obligatory observation occasion occupation operation opinion opportunity opposite
orchestra ordinary organization original oxygen paragraph parliament particular passenger patience penalty perception
performance permanent perspective phenomenon philanthropic philosophy photograph physical pineapple platform
political popular population position possibility practical precious preference preparation present president
previous primitive principle probability procedure process production professional program progress project
projects pronunciation property proportion protection psychology publication punctuation quality quantity question
quotation reasonable reciprocity recognizance recommend rectangle reference reflection reformation refrigerator
regular relationship religion remember representation republic reputation responsibility restaurant retribution
revolution rhythm satellite satisfaction scientific secretary selection semester separate sequence several
significant similar situation society solution sophisticated specification spectacular spectrum standard statement
strawberry structure substitute successful sufficient supercalifragilisticexpialidocious superstition surprise
symmetry sympathy syllable table technology telephone temperature temporary territory theory thousand together
tomorrow tradition transportation treatment triangle tropical typewriter typographer ultimate umbrella understand
university unusual vacation variable vegetable vehicle velocity version vocabulary volcano voluntary weather
wednesday wilderness wonderful yesterday zoology
""".split()

PROGRAM = r"""// Reads hyphenation tables and words, and writes where each word may be broken.
//
// A line is `p` and a pattern, `x` and a word with hyphens, `w` and a word, or `t` and how many times all words are looked
// up. Any other line puts a copy in the place of the tables.
#![tactic(auto)]

use etx_patterns::{PatternRefused, Patterns, Step};
use std::alloc::{AllocError, Global};
use std::io;

fn steps_of(alloc: Global, text: &[u8]) -> Result<Vec<Step>, AllocError> {
    let mut steps = Vec::new(alloc);
    for code in text {
        steps.push(match *code {
            b'0'..=b'9' => Step::Digit(*code - b'0'),
            b'.' => Step::Edge,
            letter => Step::Letter(letter),
        })?;
    }
    Ok(steps)
}

/// The letters of a word with hyphens.
fn letters_of(alloc: Global, text: &[u8]) -> Result<Vec<u8>, AllocError> {
    let mut letters = Vec::new(alloc);
    for code in text {
        if *code != b'-' {
            letters.push(*code)?;
        }
    }
    Ok(letters)
}

/// How many letters stand before each hyphen.
fn places_of(alloc: Global, text: &[u8]) -> Result<Vec<u8>, AllocError> {
    let mut places = Vec::new(alloc);
    let mut before = 0u8;
    for code in text {
        if *code == b'-' {
            places.push(before)?;
        } else {
            before = before.saturating_add(1);
        }
    }
    Ok(places)
}

fn except(alloc: Global, tables: &mut Patterns, text: &[u8]) -> Result<(), PatternRefused> {
    let letters = letters_of(alloc, text)?;
    let places = places_of(alloc, text)?;
    if letters.len() > 63 {
        return Err(PatternRefused::Full);
    }
    if !places.iter().all(|place| *place as usize <= letters.len()) {
        return Err(PatternRefused::Full);
    }
    tables.except(0, letters.as_slice(), places.as_slice())
}

/// The number of places in all words.
fn look_up(tables: &Patterns, words: &[String]) -> Result<u64, AllocError> {
    let mut found = 0u64;
    for word in words {
        let letters = word.as_bytes();
        if letters.len() <= 63 {
            found = found.wrapping_add(tables.breaks(0, letters)?.len() as u64);
        }
    }
    Ok(found)
}

fn report(rt: &HostRuntime, answer: Result<(), PatternRefused>, text: &str) -> io::Result<()> {
    if let Err(refused) = answer {
        println!(rt; "refused {refused:?} {text}")?;
    }
    Ok(())
}

fn add(rt: &HostRuntime, tables: &mut Patterns, text: &str) -> io::Result<()> {
    let steps = steps_of(rt.alloc(), text.as_bytes())?;
    report(rt, tables.add(0, steps.as_slice()), text)
}

fn put_copy(tables: &mut Patterns) -> io::Result<()> {
    *tables = tables.copy()?;
    Ok(())
}

fn keep(rt: &HostRuntime, words: &mut Vec<String>, text: &str) -> io::Result<()> {
    words.push(String::from_str(rt.alloc(), text)?)?;
    Ok(())
}

fn show(rt: &HostRuntime, tables: &Patterns, text: &str) -> io::Result<()> {
    let letters = text.as_bytes();
    if letters.len() <= 63 {
        let places = tables.breaks(0, letters)?;
        println!(rt; "word {text} {places:?}")?;
    }
    Ok(())
}

fn repeat(rt: &HostRuntime, tables: &Patterns, words: &[String], rounds: &str) -> io::Result<()> {
    let rounds: u32 = rounds.parse().unwrap_or(1);
    let mut found = 0u64;
    for _round in 0..rounds {
        found = found.wrapping_add(look_up(tables, words)?);
    }
    println!(rt; "found {found}")
}

fn obey(rt: &HostRuntime, tables: &mut Patterns, words: &mut Vec<String>, line: &str) -> io::Result<()> {
    if let Some(text) = line.strip_prefix("p ") {
        return add(rt, tables, text);
    }
    if let Some(text) = line.strip_prefix("x ") {
        return report(rt, except(rt.alloc(), tables, text.as_bytes()), text);
    }
    if let Some(text) = line.strip_prefix("t ") {
        return repeat(rt, tables, words.as_slice(), text);
    }
    match line.strip_prefix("w ") {
        Some(text) => {
            show(rt, tables, text)?;
            keep(rt, words, text)
        }
        None => put_copy(tables),
    }
}

fn main(rt: HostRuntime) -> io::Result<()> {
    let mut tables = Patterns::new(rt.alloc())?;
    let mut words = Vec::new(rt.alloc());
    for line in rt.lines(rt.alloc()) {
        let line = line?;
        obey(&rt, &mut tables, &mut words, line.as_str())?;
    }
    Ok(())
}
"""

JOB = r"""\catcode`\{=1 \catcode`\}=2 \catcode`\#=6
\input hyphen
\font\f=plainest \f \hyphenchar\f=45 \lefthyphenmin=1 \righthyphenmin=1
\def\show#1{\setbox0\vbox{\parfillskip0pt\hsize16383.99pt
  \pretolerance-1\tolerance-1\hbadness0\noindent\ #1}}
%s
\end
"""


def plain_font():
    """A TFM file of the hyphen and the small letters, all of one size, with neither ligatures nor kerns."""
    sixteenth = 65536
    lengths = [6 + 2 + 78 + 2 + 1 + 1 + 1 + 7, 2, 45, 122, 2, 1, 1, 1, 0, 0, 0, 7]
    characters = [1 if code == 45 or 97 <= code <= 122 else 0 for code in range(45, 123)]
    words = [0, 160 * sixteenth] + [width << 24 for width in characters] + [0, 8 * sixteenth, 0, 0, 0]
    words += [number * sixteenth for number in (0, 4, 2, 1, 8, 16, 2)]
    return struct.pack(">12H", *lengths) + struct.pack(f">{len(words)}I", *words)


def tables(path):
    """The patterns and the exceptions of a file."""
    with open(path, encoding="ascii") as file:
        text = re.sub(r"%.*", "", file.read())
    patterns = re.search(r"\\patterns\s*\{(.*?)\}", text, re.S).group(1).split()
    exceptions = re.search(r"\\hyphenation\s*\{(.*?)\}", text, re.S).group(1).split()
    return patterns, exceptions


def by_tex(words, path, folder):
    """Each word with the hyphens of real e-TeX."""
    with open(os.path.join(folder, "plainest.tfm"), "wb") as file:
        file.write(plain_font())
    shutil.copy(path, os.path.join(folder, "hyphen.tex"))
    with open(os.path.join(folder, "job.tex"), "w", encoding="ascii") as file:
        file.write(JOB % "\n".join("\\show{%s}" % word for word in words))
    command = ["pdftex", "-ini", "-etex", "-no-mktex=tfm", "-output-format=dvi", "-interaction=batchmode", "job"]
    environment = dict(os.environ, TEXINPUTS=".:", TFMFONTS=".:", max_print_line="1000")
    subprocess.run(command, cwd=folder, env=environment, stdout=subprocess.DEVNULL, check=False)
    with open(os.path.join(folder, "job.log"), encoding="latin-1") as file:
        log = file.read()
    errors = re.findall(r"^! .*", log, re.M)
    shown = re.findall(r"^ ?(?:\[\] ?)?\\f ([a-z-]+)$", log, re.M)
    if errors or len(shown) != len(words):
        sys.exit(f"real e-TeX showed {len(shown)} of {len(words)} words; errors: {errors[:3]}")
    return shown


def run(built, lines):
    """What the program writes, and the seconds of the processor that it takes."""
    before = resource.getrusage(resource.RUSAGE_CHILDREN)
    output = subprocess.run([built], input="\n".join(lines) + "\n", stdout=subprocess.PIPE, text=True, check=True).stdout
    after = resource.getrusage(resource.RUSAGE_CHILDREN)
    return output, after.ru_utime + after.ru_stime - before.ru_utime - before.ru_stime


def nanoseconds(built, loaded, words, rounds):
    """How long the program takes to look a word up, on one processor."""
    lines = loaded + ["w " + word for word in words]
    _, idle = run(built, lines + ["t 0"])
    _, busy = run(built, lines + [f"t {rounds}"])
    return (busy - idle) * 1e9 / (rounds * len(words))


def by_crate(built, loaded, words):
    """Each word with its hyphens by the crate, half of them by a copy of the tables, and what was refused."""
    half = len(words) // 2
    lines = loaded + ["w " + word for word in words[:half]] + ["copy"] + ["w " + word for word in words[half:]]
    shown, refused = [], []
    for line in run(built, lines)[0].splitlines():
        kind, _, text = line.partition(" ")
        if kind == "refused":
            refused.append(text)
        else:
            word, _, places = text.partition(" ")
            cuts = [0] + [int(place) for place in re.findall(r"\d+", places)] + [len(word)]
            shown.append("-".join(word[a:b] for a, b in zip(cuts, cuts[1:])))
    return shown, refused


def find_patterns():
    """The path of hyphen.tex, or the empty text."""
    if not shutil.which("kpsewhich"):
        return ""
    return subprocess.run(["kpsewhich", "hyphen.tex"], stdout=subprocess.PIPE, text=True, check=False).stdout.strip()


def main():
    hyphen = find_patterns()
    missing = [name for name in ("pdftex", "rt") if not shutil.which(name)] + ([] if hyphen else ["hyphen.tex"])
    if missing:
        print("skipped: missing are " + ", ".join(missing))
        return 0
    words = set(WORDS)
    for name in sys.argv[1:]:
        with open(name, encoding="utf-8", errors="replace") as file:
            words |= {word for word in re.findall(r"\b[a-z]+\b", file.read()) if len(word) <= 63}
    words = sorted(words)
    patterns, exceptions = tables(hyphen)
    loaded = ["p " + pattern for pattern in patterns] + ["x " + word for word in exceptions]
    with tempfile.TemporaryDirectory() as folder:
        built = common.build_program(folder, "hyphens", PROGRAM, ["etx_patterns"])
        ours, refused = by_crate(built, loaded, words)
        theirs = by_tex(words, hyphen, folder)
        rounds = -(-BATCH // len(words))
        usual = nanoseconds(built, loaded, words, rounds)
        longest = nanoseconds(built, loaded, [LONGEST], 100_000)
    differing = [(our, their) for our, their in zip(ours, theirs) if our != their]
    for our, their in differing[:20]:
        print(f"differs: {our} here, {their} by e-TeX")
    print(f"{len(patterns)} patterns, {len(exceptions)} exceptions, {len(refused)} refused")
    print(f"{len(words)} words with {sum(word.count('-') for word in theirs)} hyphens, {len(differing)} differences")
    looked_up = rounds * len(words)
    print(f"{looked_up} look-ups of these words: {usual * looked_up / 1e9:.2f} s of one processor, {usual:.0f} ns each")
    print(f"a look-up of a word of {len(LONGEST)} letters: {longest:.0f} ns")
    return 1 if differing or refused or len(ours) != len(words) else 0


if __name__ == "__main__":
    sys.exit(main())
