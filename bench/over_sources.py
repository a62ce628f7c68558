#!/usr/bin/env python3
"""over_sources.py CLONE CRATE [FLAGS]: rattle check of a crate over the crates below it, each as source where its library doesn't stand in out/ yet.

It is for work above crates that aren't proved: --only PATH --allow-holes --progress checks some functions, and those that they call.
What it proves is kept in /tmp/zinc-CLONE-CRATE for its next run alone, and counts for no gate.
"""
import importlib.machinery, importlib.util, os, sys, subprocess
loader = importlib.machinery.SourceFileLoader("rtmod", "/opt/rattle/bin/rt")
spec = importlib.util.spec_from_loader("rtmod", loader)
rt = importlib.util.module_from_spec(spec); sys.modules["rtmod"] = rt; loader.exec_module(rt)
rtlib = rt.rtlib
top = os.path.abspath(sys.argv[1]); name = sys.argv[2]; flags = sys.argv[3:]
os.chdir(top)
rt.Crate.allowed = rt.handles_of(top)
crates = rt.crates_of(top)
crate = [c for c in crates if c.name == name][0]
words = ["--crate-name", crate.name, "src/main.rt" if crate.is_program else "src/lib.rt"]
built = set()
for c in crates:
    if c.is_built() and all(d.name in built for d in c.below()): built.add(c.name)
src = [d for d in crate.below() if d.name not in built]
rl = [d for d in crate.below() if d.name in built]
kit = {"core", *crate.of_kit, *[it for dep in crate.below() for it in dep.of_kit]}
for k in sorted(kit): words += ["--extern", f"{k}={rtlib.KIT}/rlibs/{k}.rlib"]
words += ["-L", f"dependency={rtlib.KIT}/rlibs"]
for d in rl:
    words += ["--extern", f"{d.name}={d.rlib}", "-L", f"dependency={os.path.dirname(d.rlib)}"]
for dep in src:
    uses = dict.fromkeys(["core", *dep.of_kit, *[it.name for it in dep.deps]])
    words += ["--lib", f"{dep.name}:{','.join(uses)}={dep.folder}/src/lib.rt"]
words += ["--antt-project", f"{rtlib.KIT}/rattle/logic/antt-project.json", "--logic-built", f"{rtlib.KIT}/logic_built"]
inc = f"/tmp/zinc-{os.path.basename(top)}-{name}"; os.makedirs(inc, exist_ok=True)
words += ["--incremental", inc, "--links", f"{name}="]
if not any(f.startswith("--jobs") for f in flags): words += ["--jobs", "1"]
print("as source:", [d.name for d in src], flush=True)
sys.exit(subprocess.run([rtlib.RATTLE, "check", *words, *flags], cwd=crate.folder).returncode)
