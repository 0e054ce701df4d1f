#!/usr/bin/env python3
"""Moves what is proved of the definitions from specs/ to proofs/, with every path to it.

usage: tools/laws_to_proofs.py FOLDER

It ran once, after respell.py. An edit of a definition is read as a bad one where theorems in specs/ rest on it. So a crate's Laws, Proofs and tables of
examples stand in proofs/, under the same names, and their statements stay.
"""
import os
import re
import subprocess
import sys

MOVED = ("Laws", "Proofs", "Examples")


def read(path):
    with open(path, encoding="utf-8") as f:
        return f.read()


def write(path, text):
    with open(path, "w", encoding="utf-8") as f:
        f.write(text)


root = os.path.abspath(sys.argv[1])
crates = sorted(os.listdir(os.path.join(root, "crates")))
git = lambda *words: subprocess.run(["git", *words], cwd=root, check=True)
moved = set()
for crate in crates:
    specs, proofs = (os.path.join(root, "crates", crate, part) for part in ("specs", "proofs"))
    if not os.path.isfile(os.path.join(specs, "Lib.antt")):
        continue
    here = []
    for name in MOVED:
        for it in (name, name + ".antt"):
            if os.path.exists(os.path.join(specs, it)):
                os.makedirs(proofs, exist_ok=True)
                git("mv", os.path.join(specs, it), os.path.join(proofs, it))
                here.append(name)
                moved.add((crate, name))
    if here:
        lib = os.path.join(specs, "Lib.antt")
        lines = read(lib).split("\n")
        taken = [l for l in lines if l in [f"pub mod {n}" for n in here]]
        write(lib, "\n".join(l for l in lines if l not in taken))
        write(os.path.join(proofs, "Lib.antt"), "-- What is proved of the definitions in specs/.\n" + "".join(l + "\n" for l in taken))
path = re.compile(r"Rattle\.(\w+)\.specs\.(" + "|".join(MOVED) + r")(?![\w'-])")
turn = lambda m: f"Rattle.{m.group(1)}.proofs.{m.group(2)}" if (m.group(1), m.group(2)) in moved else m.group(0)
for folder, dirs, names in os.walk(root):
    dirs[:] = [d for d in dirs if d not in (".git", "out", "target")]
    for name in names:
        at = os.path.join(folder, name)
        if name.endswith((".antt", ".rt", ".edit")):
            text = read(at)
            new = path.sub(turn, text)
            if name.endswith(".edit"):
                crate = os.path.relpath(at, os.path.join(root, "crates")).split(os.sep)[0]
                new = re.sub(r"(?m)^file: specs/(" + "|".join(MOVED) + r")\b", lambda m: f"file: proofs/{m.group(1)}" if (crate, m.group(1)) in moved else m.group(0), new)
            if new != text:
                write(at, new)
