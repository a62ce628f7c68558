#!/usr/bin/env python3
"""Counts what assignments in and out of groups cost, and measures the memory that a value takes.

    bench/groups.py

It builds a small program over a copy of crates/etx_groups and the crates below it in a folder of its own, with `rt`, and
runs it.

- Instructions of a look at a meaning, of an assignment, of the first one in a group with the end of the group, of an
  empty group, and of ten assignments in a group that a mark follows, with 10 and with 5000 names, by valgrind, where
  that is installed: the number of names may not change them.
- Time: inside 0, 10, 1000 and 9999 groups with a local value in each, 100000 local assignments, 100000 global ones, and
  100000 groups with an assignment in each are made; then the open groups are ended. No step inside 9999 groups may take
  more than 3 times as long as outside of all.
- Memory: a value in the table takes at most 40 bytes, and at most 120 with what it took the place of. (The table grows by
  doubling; the number of values is a power of two.)

What the values were is forgotten after each step, as the machine does after each turn. It is no part of the gate. Exit
status 1 where something is not as asked.
"""
import os
import re
import shutil
import subprocess
import sys
import tempfile

import common

DEPTHS = (0, 10, 1000, 9999)
STEPS = ("local", "global", "in-and-out", "close")
TIMES = 100000
VALUES = 1 << 19
MOST_BYTES = {"global": 40, "local": 120, "global, what was is kept": 120}
COUNTED = ("nothing", "get", "local", "global", "group", "in-and-out", "marked")
PROGRAM = r"""//! Times assignments in and out of groups. The words are a step, how many groups are open, how often the step is done,
//! how many control sequences it turns about, and whether what the values were is kept.
#![tactic(auto)]

use etx_groups::{assign, assign_global, begin, end};
use etx_matter::NameId;
use etx_state::{GroupKind, Key, Meaning, Rest, Val};
use std::env;
use std::rt::Clock;
use std::time::Instant;

/// What is done again and again.
#[derive(Clone, Copy, Debug, PartialEq, Eq)]
enum Step {
    Local,
    Global,
    InAndOut,
    Open,
    Close,
    Get,
    Group,
    Marked,
    Nothing,
}

fn step_of(word: &str) -> Step {
    match word {
        "local" => Step::Local,
        "global" => Step::Global,
        "in-and-out" => Step::InAndOut,
        "open" => Step::Open,
        "close" => Step::Close,
        "get" => Step::Get,
        "group" => Step::Group,
        "marked" => Step::Marked,
        _ => Step::Nothing,
    }
}

/// Whether the control sequence means a character.
#[inline(never)]
fn get(s: &Rest, name: u32) -> bool {
    matches!(s.meaning(NameId(name)), Meaning::Char { .. })
}

/// A local value for this control sequence.
#[inline(never)]
fn set(s: &mut Rest, name: u32) -> bool {
    assign(
        s,
        Key::Meaning(name),
        Val::Means(Meaning::Char { code: 97, cat: 11 }),
    )
    .is_ok()
}

/// A global value for this control sequence.
fn set_globally(s: &mut Rest, name: u32) -> bool {
    assign_global(
        s,
        Key::Meaning(name),
        Val::Means(Meaning::Char { code: 97, cat: 11 }),
    )
    .is_ok()
}

/// A group is opened, with a local value in it.
fn open(s: &mut Rest, name: u32) -> bool {
    match begin(s, GroupKind::Simple) {
        Ok(_) => set(s, name),
        Err(_) => false,
    }
}

fn close(s: &mut Rest) -> bool {
    end(s).is_ok()
}

/// A group with a local value in it, and its end.
fn go_in_and_out(s: &mut Rest, name: u32) -> bool {
    let went_in = open(s, name);
    let went_out = close(s);
    went_in & went_out
}

/// An empty group.
fn go_through(s: &mut Rest) -> bool {
    let went_in = begin(s, GroupKind::Simple).is_ok();
    let went_out = close(s);
    went_in & went_out
}

fn set_ten(s: &mut Rest) -> bool {
    for name in 0..10u32 {
        if !set(s, name) {
            return false;
        }
    }
    true
}

/// A group with ten local values, and a mark before its end, which has to keep all that the end takes away.
fn go_in_and_out_marked(s: &mut Rest) -> bool {
    let went_in = begin(s, GroupKind::Simple).is_ok() && set_ten(s);
    let _ = s.mark();
    let went_out = close(s);
    went_in & went_out
}

fn act(s: &mut Rest, step: Step, name: u32) -> bool {
    match step {
        Step::Local => set(s, name),
        Step::Global => set_globally(s, name),
        Step::InAndOut => go_in_and_out(s, name),
        Step::Open => open(s, name),
        Step::Close => close(s),
        Step::Get => get(s, name),
        Step::Group => go_through(s),
        Step::Marked => go_in_and_out_marked(s),
        Step::Nothing => true,
    }
}

/// How often the step went well.
fn repeat(s: &mut Rest, step: Step, times: u32, names: u32, keeps: bool) -> u32 {
    let mut well = 0u32;
    for count in 0..times {
        if act(s, step, count % names.max(1)) {
            well = well.saturating_add(1);
        }
        if !keeps && step != Step::Get && step != Step::Nothing {
            s.forget();
        }
    }
    well
}

/// What is asked for.
#[derive(Clone, Copy, Debug)]
struct Asked {
    step: Step,
    depth: u32,
    times: u32,
    names: u32,
    keeps: bool,
}

fn measure(rt: &(impl Print + Clock), s: &mut Rest, asked: Asked) -> anyhow::Result<()> {
    let named = repeat(s, Step::Global, 1024, 1024, false);
    let opened = repeat(s, Step::Open, asked.depth, 1024, false);
    let start = Instant::now(rt)?;
    let well = repeat(s, asked.step, asked.times, asked.names, asked.keeps);
    let took = start.elapsed(rt)?;
    println!(rt; "{named} {opened} {well} {}", took.as_micros())?;
    Ok(())
}

fn number(word: Option<String>) -> u32 {
    match word {
        Some(word) => word.as_str().parse().unwrap_or(0),
        None => 0,
    }
}

fn main(rt: HostRuntime) -> anyhow::Result<()> {
    let alloc = rt.alloc();
    let mut words = env::args(&rt)?.skip(1);
    let step = match words.next() {
        Some(word) => step_of(word.as_str()),
        None => Step::Nothing,
    };
    let depth = number(words.next());
    let times = number(words.next());
    let names = number(words.next());
    let keeps = number(words.next()) == 1;
    let mut s = Rest::open(alloc)?;
    measure(
        &rt,
        &mut s,
        Asked {
            step,
            depth,
            times,
            names,
            keeps,
        },
    )
}
"""


def run(program, *words):
    """What the program said, as words, and the greatest memory in bytes."""
    process = subprocess.Popen([program, *words], stdout=subprocess.PIPE, text=True)
    said = process.stdout.read()
    _, _, usage = os.wait4(process.pid, 0)
    return tuple(said.split()), usage.ru_maxrss * 1024


def measure(program, step, depth, times, names, keeps=0):
    """Microseconds and the greatest memory in bytes, or None where something went wrong."""
    (named, opened, well, micros), memory = run(program, step, *(str(number) for number in (depth, times, names, keeps)))
    if (named, opened, well) != ("1024", str(depth), str(times)):
        print(f"{step} inside {depth} groups: {opened} were opened, and it was done {well} times of {times}")
        return None
    return int(micros), memory


def time_steps(program):
    """Whether each step went well, inside so many groups, and doesn't take longer inside many of them."""
    well = True
    for step in STEPS:
        each = {}
        for depth in DEPTHS:
            times = depth if step == "close" else TIMES
            if times == 0:
                continue
            answer = measure(program, step, depth, times, 1024)
            if answer is None:
                return False
            each[depth] = 1000 * answer[0] / times
        print(f"{step}: " + ", ".join(f"{took:.0f} ns inside {depth} groups" for depth, took in each.items()))
        first, last = each[min(each)], each[max(each)]
        if last > 3 * max(first, 10):
            print(f"{step}: it takes more than 3 times as long inside {max(each)} groups")
            well = False
    return well


def count(program, step, times, names):
    """How many instructions the program takes, all in all."""
    words = ["valgrind", "--tool=cachegrind", "--cache-sim=no", "--cachegrind-out-file=/dev/null", program, step, "0", str(times), str(names), "0"]
    ran = subprocess.run(words, stdin=subprocess.DEVNULL, stdout=subprocess.PIPE, stderr=subprocess.PIPE, text=True)
    return int(re.search(r"I\s+refs:\s+([\d,]+)", ran.stderr).group(1).replace(",", ""))


def count_steps(program):
    """Whether no step takes more instructions with 5000 names than with 10."""
    if shutil.which("valgrind") is None:
        print("instructions are not counted: valgrind is not installed")
        return True
    well = True
    for step in COUNTED:
        each = [(count(program, step, 16000, names) - count(program, step, 6000, names)) / 10000 for names in (10, 5000)]
        print(f"{step}: {each[0]:.0f} instructions with 10 names, {each[1]:.0f} with 5000")
        well = well and each[1] <= 1.05 * each[0] + 5
    return well


def weigh_values(program):
    """Whether each value takes no more memory than is asked."""
    well = True
    for kind, step, depth, keeps in (("global", "global", 0, 0), ("local", "local", 1, 0), ("global, what was is kept", "global", 0, 1)):
        less = measure(program, step, depth, 1, 1, keeps)
        more = measure(program, step, depth, VALUES, VALUES, keeps)
        if less is None or more is None:
            return False
        each = (more[1] - less[1]) / VALUES
        print(f"{VALUES} values, {kind}: {each:.0f} bytes each")
        well = well and each <= MOST_BYTES[kind]
    return well


def main():
    with tempfile.TemporaryDirectory() as folder:
        program = common.build_program(folder, "group_bench", PROGRAM, ["etx_groups", "etx_state", "etx_matter", "anyhow"])
        wells = [count_steps(program), time_steps(program), weigh_values(program)]
        return 0 if all(wells) else 1


if __name__ == "__main__":
    sys.exit(main())
