"""What the scripts of this folder share: a small program that is built over a copy of the repository's crates."""
import os
import shutil
import subprocess
import sys

ROOT = os.path.dirname(os.path.dirname(os.path.abspath(__file__)))

# The end of a main file that has a function `count(alloc, what, size)`: it reads lines `WHAT SIZE`, and prints its answers.
COUNTS_BY_LINE = r"""
fn obey(rt: &HostRuntime, line: &str) -> io::Result<()> {
    if let Some((what, size)) = line.split_once(' ') {
        let size: u32 = size.parse().unwrap_or(0);
        let found = count(rt.alloc(), what, size)?;
        println!(rt; "{found}")?;
    }
    Ok(())
}

fn main(rt: HostRuntime) -> io::Result<()> {
    for line in rt.lines(rt.alloc()) {
        let line = line?;
        obey(&rt, line.as_str())?;
    }
    Ok(())
}
"""


def crate_lines():
    """The crates of the repository, each with the libraries that it stands on."""
    lines = {}
    with open(os.path.join(ROOT, "crates.txt"), encoding="utf-8") as file:
        for line in file:
            name, colon, needs = line.partition("#")[0].partition(":")
            if colon:
                lines[name.strip()] = needs.split()
    return lines


def copy_crates(folder, needs):
    """Copies these libraries of the repository into the folder, and those below them; the kit's are not copied.

    Gives their lines of crates.txt.
    """
    lines = crate_lines()
    wanted = [name for name in needs if name in lines]
    for name in wanted:
        wanted += [lower for lower in lines[name] if lower in lines and lower not in wanted]
        shutil.copytree(os.path.join(ROOT, "crates", name), os.path.join(folder, "crates", name))
    return [f"{name}: {' '.join(lines[name])}\n" for name in wanted]


def build_program(folder, name, source, needs, proofs=None):
    """The path of a program with this main file, proved and built by `rt` in the folder.

    `needs` are the libraries that it uses, of the repository or of the kit; `proofs` are the texts of its files under
    proofs/, by their paths there. It stops where the program can't be built.
    """
    crate = os.path.join(folder, "crates", name)
    lines = copy_crates(folder, needs)
    os.makedirs(os.path.join(crate, "src"))
    with open(os.path.join(crate, "src", "main.rt"), "w", encoding="utf-8") as file:
        file.write(source)
    for path, text in (proofs or {}).items():
        path = os.path.join(crate, "proofs", path)
        os.makedirs(os.path.dirname(path), exist_ok=True)
        with open(path, "w", encoding="utf-8") as file:
            file.write(text)
    with open(os.path.join(folder, "crates.txt"), "w", encoding="utf-8") as file:
        file.writelines(lines + [f"{name}: {' '.join(needs)}\n"])
    ran = subprocess.run(["rt", "run"], cwd=crate, stdin=subprocess.DEVNULL, stdout=subprocess.PIPE, stderr=subprocess.STDOUT, text=True)
    program = os.path.join(crate, "out", name)
    if not os.access(program, os.X_OK):
        sys.exit("the program could not be built:\n" + ran.stdout[-3000:])
    return program
