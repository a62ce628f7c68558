#!/usr/bin/env python3
"""Compares `etx_exprs` with real e-TeX on constants, dimensions and expressions, some picked and thousands at random.

    bench/expressions.py [SEED]      the random cases come from this number, or else always from the same

A small program over the crate is made in a temporary folder, proved and built by `rt`, and reads the cases. Real e-TeX
reads them as INITEX, in one file for each magnification. TeX scans an operand before it enters an expression, so the
program is given what it comes to, in sp. Of glue the expression itself is asked for each size and order, since a register
may lose the order of an amount of nothing. What is compared is the error that e-TeX reports, and the value that it takes.

It is no part of the gate. Where `pdftex` or `rt` is missing it says so, and its exit status is 0. Exit status 1 where an
answer differs.
"""
import collections
import os
import random
import re
import shutil
import subprocess
import sys
import tempfile

import common

RANDOM = {"numexpr": 6000, "dimexpr": 5000, "glueexpr": 4000, "muexpr": 3000}
RANDOM_CONSTANTS, RANDOM_OF_UNIT = 4000, 24
MAGNIFICATIONS = (1, 333, 500, 1000, 1200, 1440, 2000, 32768)
INTEGER, DIMENSION = 2**31 - 1, 2**30 - 1
INTEGER_EDGES = (0, 1, 2, 3, 46340, 46341, 65535, 65536, 2**30 - 1, 2**30, 2**30 + 1, INTEGER - 2, INTEGER - 1, INTEGER)
DIMENSION_EDGES = (0, 1, 2, 3, 32768, 65535, 65536, 2**29 - 1, 2**29, 2**29 + 1, DIMENSION - 2, DIMENSION - 1, DIMENSION)
# Each unit in points, in the order of the program.
UNITS = {
    "pt": 1, "pc": 12, "in": 72.27, "cm": 7227 / 254, "mm": 722.7 / 254, "bp": 1.00375, "dd": 1238 / 1157, "cc": 14856 / 1157,
    "sp": 1 / 65536,
}
ORDERS = ("Normal", "Fil", "Fill", "Filll")
BASES = {" ": "decimal", "'": "octal", '"': "hexadecimal"}
REFUSALS = {
    "Err(Overflow)": ("Arithmetic overflow", 0),
    "Err(TooBig)": ("Number too big", INTEGER),
    "Err(TooLarge)": ("Dimension too large", DIMENSION),
}
Case = collections.namedtuple("Case", "kind mag text question line")

# Glue is a width, a stretch and its order, a shrink and its order. TeX has -2147483648 and 2147483646 sp from registers.
INTEGERS = """7/2 -7/2 7/-2 -7/-2 1/0 0/0 0*5/0 5*6/(1-1) 2147483647*2147483647/2147483647 2147483647*2/3 2147483647*3/2 -1*1/2
(2147483647*2)/2 0*(2147483647+1) 2147483647+1 -2147483647-1 2*3/4*5/6 46341*46341*3/7 46340*46340*3/7 7/2*3 100/7/2 ((((7))))
-2147483648 -2147483648*0 0*-2147483648 3/-2147483648 1073741824/2147483647 1073741823/2147483647 1-(2-(3-(4-5)))"""
DIMENSIONS = """1073741823sp 1073741823sp+1sp -1073741823sp-1sp 1073741823sp*2 65536sp*16384 1073741823sp*2/2 3sp/-2 65536sp*0/0
65536sp*2147483647/2147483647 1073741823sp/2147483647 (1073676287sp+1sp)*0 1073741823sp*3/4 1sp*-2147483648 (5sp-1sp)*3/(1+1)"""
GLUE = """[65536,0,1,0,0] ([65536,0,1,0,2]) [65536,0,1,0,2]+[0,5,0,5,0] ([65536,0,1,0,2])+[0,5,0,5,0] [65536,0,1,0,3]*1
[1,0,1,0,2]/1 [9,9,1,9,2]*0 ([9,9,1,9,2]*0) [9,9,1,9,2]*0+[0,5,0,5,1] ([9,9,1,9,2]*0)+[0,5,0,5,0] [0,5,0,5,0]+[9,9,1,9,2]*0
[0,0,0,0,0]-[9,9,1,9,2] [9,9,1,9,2]*0*3+[0,5,0,5,1] [0,0,0,0,0]+[9,0,1,0,2] [9,9,1,9,2]-[9,9,1,9,2]+[0,5,0,5,0]
[0,2147483646,0,0,0] [5,3,0,5,3]/2 [0,1073741823,1,0,0]+[0,1,1,0,0] [0,1073741823,1,0,0]+[0,1,2,0,0] [1,1073741823,1,3,2]*2/2
[1073741823,1,0,0,0]*2 [9,9,3,9,2]-[9,9,1,9,3]-[0,2,3,3,3] [9,9,0,9,0]-[9,9,1,9,2]"""
PICKED = {"numexpr": INTEGERS, "dimexpr": DIMENSIONS, "glueexpr": GLUE, "muexpr": GLUE}
CONSTANTS = {
    " ": ("2147483647", "2147483648", "99999999999999999999", "A", "12 34", "0", "2147483648 1"),
    "'": ("17777777777", "20000000000", "78", "8", "0000000000000000017", "1A"),
    '"': ("7FFFFFFF", "80000000", "FFFFFFFFF", "G", "abc", "1f", " 1", "A BC", "0G"),
}
SIZES = """16383.99999pt 16383.999992pt 16383.999993pt 16384.0pt 1.99999999sp 0.0pt 1073741823.9sp 1073741824.0sp 575.83174cm
0.99999999999999999999pt 2147483647.5pt 2147483647.5sp 2147483647.0cc 0.00000762939453125pt 0.00000762939453124pt 1835.99999sp
1835.99999pt 32767.99999pt"""

PROGRAM = r"""//! Writes what expressions, constants and dimensions come to. A line is the kind of an expression and its parts; a
//! base and tokens; or a unit's number, the whole part and the 65536ths in front of the unit, and a magnification.
#![tactic(auto)]

use etx_exprs::{Digits, Expr, Part, Turn, Unit, Value, ValueKind, convert};
use etx_matter::{Glue, GlueOrder, Token};
use std::io;

const ORDERS: &[GlueOrder] = &[GlueOrder::Normal, GlueOrder::Fil, GlueOrder::Fill, GlueOrder::Filll];
const UNITS: &[Unit] = &[
    Unit::Pt, Unit::Pc, Unit::In, Unit::Cm, Unit::Mm, Unit::Bp, Unit::Dd, Unit::Cc, Unit::Sp, Unit::TruePt, Unit::TruePc,
    Unit::TrueIn, Unit::TrueCm, Unit::TrueMm, Unit::TrueBp, Unit::TrueDd, Unit::TrueCc, Unit::TrueSp,
];

fn number(text: &str) -> i32 {
    text.parse().unwrap_or(0)
}

/// The text in front of the first mark, and what is behind it.
fn cut(text: &str, mark: char) -> (&str, &str) {
    text.split_once(mark).unwrap_or((text, ""))
}

fn order_of(text: &str) -> GlueOrder {
    ORDERS.get(text.parse().unwrap_or(0)).copied().unwrap_or(GlueOrder::Normal)
}

fn glue_of(text: &str) -> Glue {
    let (width, text) = cut(text, ',');
    let (stretch, text) = cut(text, ',');
    let (stretch_order, text) = cut(text, ',');
    let (shrink, shrink_order) = cut(text, ',');
    let (stretch_order, shrink_order) = (order_of(stretch_order), order_of(shrink_order));
    Glue { width: number(width), stretch: number(stretch), shrink: number(shrink), stretch_order, shrink_order }
}

/// An operand of the kind that is wanted.
fn operand(wanted: Option<ValueKind>, text: &str) -> Part {
    match wanted {
        Some(ValueKind::Int) => Part::Operand(Value::Int(number(text))),
        Some(ValueKind::Dim) => Part::Operand(Value::Dim(number(text))),
        Some(ValueKind::Glue) => Part::Operand(Value::Glue(glue_of(text))),
        Some(ValueKind::MuGlue) => Part::Operand(Value::MuGlue(glue_of(text))),
        None => Part::Other,
    }
}

fn part_of(wanted: Option<ValueKind>, word: &str) -> Part {
    match word {
        "+" => Part::Plus,
        "-" => Part::Minus,
        "*" => Part::Times,
        "/" => Part::Divide,
        "(" => Part::Open,
        ")" => Part::Close,
        _ => operand(wanted, word),
    }
}

fn evaluate(rt: &HostRuntime, kind: ValueKind, words: &str) -> io::Result<()> {
    let mut expr = Expr::new(rt.alloc(), kind);
    for word in words.split_whitespace() {
        let part = part_of(expr.wanted(), word);
        if expr.feed(part)? != Turn::More {
            return println!(rt; "{word} can't follow");
        }
    }
    if expr.feed(Part::Relax)? == Turn::Done && expr.is_whole() {
        return println!(rt; "{:?}", expr.value());
    }
    println!(rt; "it has no end")
}

fn feed_token(digits: &mut Digits, word: &str) -> Turn {
    let (code, cat) = cut(word, ',');
    digits.feed(Token::Char { code: code.parse().unwrap_or(0), cat: cat.parse().unwrap_or(0) })
}

/// Writes what is said of each token too.
fn read_constant(rt: &HostRuntime, mut digits: Digits, words: &str) -> io::Result<()> {
    for word in words.split_whitespace() {
        let turn = feed_token(&mut digits, word);
        print!(rt; "{turn:?} ")?;
        if turn != Turn::More {
            break;
        }
    }
    println!(rt; "{} {:?}", digits.is_empty(), digits.value())
}

fn read_size(rt: &HostRuntime, unit: Unit, words: &str) -> io::Result<()> {
    let (whole, words) = cut(words, ' ');
    let (fraction, mag) = cut(words, ' ');
    let (whole, fraction, mag) = (number(whole), number(fraction), number(mag));
    if whole < 0 || fraction < 0 || fraction > 65536 || mag < 1 || mag > 32768 {
        return println!(rt; "it is not in range");
    }
    println!(rt; "{:?}", convert(unit, whole, fraction, mag))
}

fn obey(rt: &HostRuntime, line: &str) -> io::Result<()> {
    let (kind, words) = cut(line, ' ');
    match kind {
        "numexpr" => evaluate(rt, ValueKind::Int, words),
        "dimexpr" => evaluate(rt, ValueKind::Dim, words),
        "glueexpr" => evaluate(rt, ValueKind::Glue, words),
        "muexpr" => evaluate(rt, ValueKind::MuGlue, words),
        "octal" => read_constant(rt, Digits::new(8), words),
        "decimal" => read_constant(rt, Digits::new(10), words),
        "hexadecimal" => read_constant(rt, Digits::new(16), words),
        unit => read_size(rt, UNITS.get(unit.parse().unwrap_or(0)).copied().unwrap_or(Unit::Pt), words),
    }
}

fn main(rt: HostRuntime) -> io::Result<()> {
    for line in rt.lines(rt.alloc()) {
        obey(&rt, line?.as_str())?;
    }
    Ok(())
}
"""

JOB = r"""\catcode`\{=1 \catcode`\}=2 \catcode`\#=6 \mag=%d
\def\letters#1{\catcode`A=#1 \catcode`B=#1 \catcode`C=#1 \catcode`D=#1 \catcode`E=#1 \catcode`F=#1 }
\countdef\least=255 \least=-2147483647 \advance\least by -1
\skipdef\mostglueexpr=255 \mostglueexpr=0pt plus 1073741823sp \advance\mostglueexpr by \mostglueexpr
\def\mostmuexpr{\gluetomu\mostglueexpr}
\def\glue#1{\number#1,\number\gluestretch#1,\number\glueshrink#1,\number\gluestretchorder#1,\number\glueshrinkorder#1}
\def\ask#1{\immediate\write16{@#1}\setbox0\vbox{\noindent\par}}
%s
\end
"""
QUESTIONS = {
    "numexpr": r"\ask{\number\numexpr %s\relax}", "dimexpr": r"\ask{\number\dimexpr %s\relax}",
    "glueexpr": r"\ask{\glue{\glueexpr %s\relax}}", "muexpr": r"\ask{\glue{\mutoglue\muexpr %s\relax}}",
}


def glue(kind, sizes):
    """Glue as TeX reads it: 16 places write 65536ths exactly."""
    width, stretch, stretch_order, shrink, shrink_order = map(int, sizes.split(","))
    units = ("pt" if kind == "glueexpr" else "mu", "fil", "fill", "filll")
    amounts = ((width, 0), (stretch, stretch_order), (shrink, shrink_order))
    return "{} plus {} minus {}".format(*(f"{size / 65536:.16f}{units[order]}" for size, order in amounts))


def expression(kind, text):
    """The case of an expression of this kind."""
    words = re.findall(r"(?<=\[)[^]]*|(?<![\dp)\]])-?\d+|[-+*/()]", text)
    written = text.replace("-2147483648", r"\least ").replace("[0,2147483646,0,0,0]", rf"\most{kind} ")
    written = re.sub(r"\[(.*?)\]", lambda found: glue(kind, found.group(1)), written)
    return Case(kind, 1000, text, QUESTIONS[kind] % written, " ".join([kind] + words))


def constant(mark, letters, text):
    """The case of a constant behind the mark of its base, with A to F of this category."""
    categories = {" ": 10} | dict.fromkeys("Gaf", 11) | dict.fromkeys("ABCDEF", letters)
    tokens = " ".join(f"{ord(code)},{categories.get(code, 12)}" for code in text)
    return Case("constant", 1000, text, rf"\letters{{{letters}}}\ask{{\number{mark}{text}}}", f"{BASES[mark]} {tokens}")


def dimension(mag, prefix, text):
    """The case of a dimension; a fraction is rounded as in section 102 of "TeX: The Program"."""
    whole, digits = text[:-2].split(".")
    fraction = (int(digits[:17]) * 131072 // 10 ** len(digits[:17]) + 1) // 2
    unit = list(UNITS).index(text[-2:]) + (len(UNITS) if prefix else 0)
    question = rf"\ask{{\number\dimexpr {text[:-2]}{prefix}{text[-2:]}\relax}}"
    return Case("dimension", mag, text, question, f"{unit} {whole} {fraction} {mag}")


def random_number(pick, mood, edges):
    """A number, seldom 0; the higher the mood, the more often it is great."""
    sizes = (abs(pick.randint(-9, 30)), pick.choice(edges), int(edges[-1] ** pick.random()), pick.randint(0, edges[-1]))
    return pick.choice((-1, 1)) * pick.choice(sizes[:mood])


def random_factor(pick, mood, kind, depth):
    """An operand, or an expression in parentheses to this depth."""
    if depth > 0 and pick.random() < 0.25:
        return f"({random_expression(pick, mood, kind, depth - 1)})"
    if kind == "numexpr":
        return str(random_number(pick, mood, INTEGER_EDGES))
    width, stretch, shrink = (pick.choice((0, 1, 1, 1)) * random_number(pick, mood, DIMENSION_EDGES) for _ in range(3))
    return f"{width}sp" if kind == "dimexpr" else f"[{width},{stretch},{pick.randrange(4)},{shrink},{pick.randrange(4)}]"


def random_expression(pick, mood, kind, depth):
    """An expression with parentheses to this depth."""
    text = ""
    for sign in pick.choice(("+", "+", "+", "++", "+-", "+-+", "++-")):
        text += sign + random_factor(pick, mood, kind, depth)
        for step in pick.choice(("", "", "", "*", "/", "*/", "*/", "*/", "//", "**", "/*", "*/*")):
            text += step + random_factor(pick, mood, "numexpr", depth)
    return text[1:]


def random_constant(pick):
    """The case of a constant, often near the greatest, or as long."""
    mark, form = pick.choice(((" ", "d"), ("'", "o"), ('"', "X")))
    number = pick.choice((INTEGER + pick.randint(-2, 2), pick.randrange(2**34), pick.randrange(256)))
    behind = pick.choice(("", "", "8", "9", "A", "F", "G", "a", "f", "/", ":", "@", " ", " 7", "7 "))
    return constant(mark, pick.choice((11, 12)), pick.choice(("", "0", "000")) + format(number, form) + behind)


def random_dimension(pick, mag, prefix, unit):
    """The case of a dimension, half of them at the edge of what is too large."""
    points = UNITS[unit] * (1000 / mag if prefix else 1)
    edge = (DIMENSION + pick.randint(-4, 5)) / 65536 / points
    number = pick.choice((edge, pick.choice((2, 20, 20000, INTEGER)) ** pick.random() - pick.random()))
    places = pick.choice((1, 2, 4, 5, 6, 8, 17, 20))
    digits = f"{int(min(number, INTEGER) * 10**places):0{places + 1}d}"
    return dimension(mag, prefix, f"{digits[:-places]}.{digits[-places:]}{unit}")


def all_cases(pick):
    """The picked cases, and the random ones, by magnification."""
    cases = [expression(kind, text) for kind, texts in PICKED.items() for text in texts.split()]
    for kind, count in RANDOM.items():
        cases += [expression(kind, random_expression(pick, pick.choice((1, 1, 2, 3, 4)), kind, 3)) for _ in range(count)]
    cases += [constant(mark, letters, text) for mark, texts in CONSTANTS.items() for text in texts for letters in (11, 12)]
    cases += [random_constant(pick) for _ in range(RANDOM_CONSTANTS)]
    for mag in MAGNIFICATIONS:
        cases += [dimension(mag, prefix, text) for text in SIZES.split() for prefix in ("", "true", "true ")]
        cases += [random_dimension(pick, mag, prefix, unit) for unit in list(UNITS) * RANDOM_OF_UNIT for prefix in ("", "true")]
    return sorted(cases, key=lambda case: case.mag)


def by_tex(cases, mag, folder):
    """The error that real e-TeX reports of each case, or nothing, and the value that it takes."""
    with open(os.path.join(folder, "job.tex"), "w", encoding="ascii") as file:
        file.write(JOB % (mag, "\n".join(case.question for case in cases)))
    command = ["pdftex", "-ini", "-etex", "-interaction=batchmode", "job"]
    environment = dict(os.environ, TEXINPUTS=".:", max_print_line="1000")
    subprocess.run(command, cwd=folder, env=environment, stdout=subprocess.DEVNULL, check=False)
    with open(os.path.join(folder, "job.log"), encoding="latin-1") as file:
        pieces = re.split(r"^@", file.read(), flags=re.M)
    if len(pieces) != len(cases) + 1:
        sys.exit(f"real e-TeX answered {len(pieces) - 1} of {len(cases)} cases")
    errors = ["; ".join(sorted(set(re.findall(r"^! (.*)\.$", piece, re.M)))) for piece in pieces]
    return list(zip(errors, (piece.split("\n")[0] for piece in pieces[1:])))


def expected(case, answer):
    """The error that e-TeX has to report of a case, and the value that it has to take, if the program's answer is right."""
    error, number = next((refusal for word, refusal in REFUSALS.items() if word in answer), ("", None))
    if case.kind == "constant":
        behind = case.text[answer.count("More") + answer.count("Done "):]
        error = "Missing number, treated as zero" if "true" in answer else error
        return error, f"{re.sub(r'[^0-9]', '', answer) if number is None else number}{behind}"
    if number is not None:
        return error, ",".join([str(number)] * (5 if "glue" in case.question else 1))
    numbers = re.sub(r"\b(Normal|Fil+)\b", lambda order: str(ORDERS.index(order.group())), answer)
    return error, ",".join(re.findall(r"-?\d+", numbers)) or answer


def compare(cases, ours, theirs):
    """Prints each difference and the figures of each kind, and gives the number of differences."""
    refused, differing = collections.Counter(), collections.Counter()
    for case, our, their in zip(cases, ours, theirs, strict=True):
        refused[case.kind] += their[0] != ""
        if expected(case, our) != their:
            differing[case.kind] += 1
            print(f"differs: {case.question} at \\mag={case.mag}, {case.line}: {our} here, {their} by e-TeX")
    for kind, count in collections.Counter(case.kind for case in cases).items():
        print(f"{kind}: {count} compared, {refused[kind]} of them refused by e-TeX, {differing[kind]} differences")
    return differing.total()


def main():
    missing = [name for name in ("pdftex", "rt") if not shutil.which(name)]
    if missing:
        print("skipped: missing are " + ", ".join(missing))
        return 0
    cases = all_cases(random.Random(int(sys.argv[1]) if sys.argv[1:] else 1))
    with tempfile.TemporaryDirectory() as folder:
        theirs = [answer for mag in MAGNIFICATIONS for answer in by_tex([case for case in cases if case.mag == mag], mag, folder)]
        built = common.build_program(folder, "expressions", PROGRAM, ["etx_exprs", "etx_matter"])
        lines = "".join(case.line + "\n" for case in cases)
        ours = subprocess.run([built], input=lines, stdout=subprocess.PIPE, text=True, check=True).stdout.splitlines()
    return 1 if compare(cases, ours, theirs) else 0


if __name__ == "__main__":
    sys.exit(main())
