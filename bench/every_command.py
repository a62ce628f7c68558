#!/usr/bin/env python3
"""Ships a page that needs every command that `etx_ship` writes, and has it read back.

    bench/every_command.py [DVIPOS]        DVIPOS: a script that lists the places of a DVI file

The page has characters below and above 128, rules in lines and in columns, movements to the right and down of one to four
bytes, boxes in boxes, a font whose number is above 63, and specials of less and of more than 255 bytes. What `dvitype`
reads there has to be all commands of the DVI definition that the crate has: those but the movements by w, x, y and z, and
but those that TeX never writes. The places are compared with those that the script knows. It is no part of the gate, and
where `dvitype` or `rt` is missing it says so, with the exit status 0. Exit status 1 where something is not as asked.
"""
import os
import re
import shutil
import struct
import subprocess
import sys
import tempfile

import shipping

SIZE = 655360
FONTS = 71
STEPS = [100, 300, 40000, 9000000]
SPECIALS = ["a short one", "x" * 300]
# What dvitype calls the commands, with the count of each. (It names no definition of a font in the postamble.)
WANTED = {
    "setchar97": 6, "set1 200": 1, "setrule": 1, "putrule": 5, "beginning of page": 1, "eop": 1, "push": 1, "pop": 1,
    "right1": 1, "right2": 1, "right3": 1, "right4": 1, "down1": 2, "down2": 2, "down3": 1, "down4": 1,
    "fntnum0": 1, "fnt1 70": 1, "fntdef1 0": 1, "fntdef1 70": 1, "xxx": 2,
}


def font():
    """A TFM file with all 256 characters, each half as wide as the design size of 10pt."""
    lengths = [6 + 2 + 256 + 2 + 1 + 1 + 1 + 7, 2, 0, 255, 2, 1, 1, 1, 0, 0, 0, 7]
    words = [0, 10 << 20] + [1 << 24] * 256 + [0, 1 << 19] + [0, 0, 0] + [0] * 7
    return struct.pack(">12H", *lengths) + struct.pack(f">{len(words)}I", *words)


def line_of_text():
    """The nodes of a line, its width, and its characters and rules with their places from its left."""
    width = SIZE // 2
    nodes, places, right = [f"1 0 200 {width}"], [("char", 0, 200, 0)], width
    for step in STEPS:
        nodes += [f"2 {step}", f"1 0 97 {width}"]
        places.append(("char", 0, 97, right + step))
        right += step + width
    nodes.append("4 1000 2000 0")
    places.append(("rule", 2000, 1000, right))
    right += 1000
    nodes += [" ".join(map(str, [5, *text.encode()])) for text in SPECIALS]
    other_width = (SIZE + FONTS - 1) // 2
    for _ in range(2):
        nodes.append(f"1 {FONTS - 1} 97 {other_width}")
        places.append(("char", FONTS - 1, 97, right))
        right += other_width
    return nodes, right, places


def page():
    """The lines for the program, and the characters and rules of its page in order: font and code, or height and width,
    and the place from the left."""
    nodes, width, places = line_of_text()
    lines = [f"12 {SIZE + number}" for number in range(2, FONTS)]
    lines += ["0", "0", *nodes, f"6 0 {width} 5000 0 0 0 0 0 1", "7"]
    for step in [0, *STEPS]:
        lines += [f"2 {step}", "4 4000 20 0"]
        places.append(("rule", 20, 4000, 0))
    height = 5000 + sum(STEPS) + 20 * (1 + len(STEPS))
    return lines + [f"6 1 {width} {height} 0 0 0 0 0 1", "10 0 0 1"], places


def read_by_dvitype(folder):
    """How often dvitype names each command of the file, and what it complains about."""
    environment = dict(os.environ, TFMFONTS=".:")
    ran = subprocess.run(["dvitype", "-output-level=4", "page.dvi"], cwd=folder, env=environment, stdout=subprocess.PIPE, stderr=subprocess.STDOUT, text=True, errors="replace", check=False)
    counts = {}
    for line in ran.stdout.splitlines():
        found = re.match(r"\d+: (beginning of page|setchar\d+|set1 \d+|fnt1 \d+|fntdef1 \d+|[a-z]+\d?)", line)
        if found:
            counts[found.group(1)] = counts.get(found.group(1), 0) + 1
    bad = [line for line in ran.stdout.splitlines() if re.search(r"[Bb]ad|error|illegal|not loaded|should be|Warning|undefined|negative|too", line)]
    return counts, bad if ran.returncode == 0 else bad + [f"exit status {ran.returncode}"]


def read_by_places(script, folder):
    """The places of characters and rules that the script lists."""
    ran = subprocess.run([sys.executable, script, "page.dvi"], cwd=folder, stdout=subprocess.PIPE, text=True, check=True)
    things = []
    for line in ran.stdout.splitlines():
        kind, *numbers = line.split()
        if kind in ("char", "rule"):
            things.append((kind, *map(int, numbers[:3])))
    return things


def main(words):
    if not shutil.which("dvitype") or not shutil.which("rt"):
        print("every_command.py: dvitype or rt is missing")
        return 0
    lines, places = page()
    with tempfile.TemporaryDirectory() as folder:
        data, refused = shipping.by_crate("\n".join(lines) + "\n", folder)
        with open(os.path.join(folder, "page.dvi"), "wb") as file:
            file.write(data)
        with open(os.path.join(folder, "plainest.tfm"), "wb") as file:
            file.write(font())
        counts, bad = read_by_dvitype(folder)
        seen = read_by_places(os.path.abspath(words[0]), folder) if words else places
    lacking = {name: (counts.get(name, 0), count) for name, count in WANTED.items() if counts.get(name, 0) != count}
    print(f"{len(data)} bytes; commands by dvitype: {len(WANTED) - len(lacking)} of {len(WANTED)} as often as wanted, {len(bad)} complaints")
    for told in (lacking, bad[:5]):
        if told:
            print(told)
    if seen != places:
        print(f"places: {seen}, and not {places}")
    return 1 if lacking or bad or refused or seen != places else 0


if __name__ == "__main__":
    sys.exit(main(sys.argv[1:]))
