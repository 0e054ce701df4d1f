#!/usr/bin/env python3
"""Respells the repository's own definitions and lemmas: words in snake case, types and modules in camel case.

usage: tools/respell.py FOLDER [--list | --write]

It ran once, right after port.py, and a second run finds nothing. A name counts if a file of crates/*/specs or crates/*/proofs declares it. A word that has
capitals inside, as nextTick, becomes next_tick. In a lemma's name the parts are joined by _, and by a dash where two names of definitions meet, as in
has-mask_of. Names of src/ and of the toolchain stay.
"""
import collections
import os
import re
import sys

WORD = re.compile(r"[^\s(){}.;,@\"«»\[\]\\`']+'*")
TOKEN = r"[^\s(){}.;,@\"«»\[\]\\`]+"
DECLARED = re.compile(r"(?m)^\s*(?:abbrev |unfoldable |pub |opaque )*(" + TOKEN + r") :(?=\s)")
NAMED = re.compile(r"(?m)^\s*(?:pub |abbrev )*(record|data|module|ruleset|mod) (" + TOKEN + ")")
# What a name becomes where the rule would make it fall together with another.
OTHERWISE = {
    "getD-joined": "get_or-joined",
    "getD-put-other": "get_or-put_other",
    "getD-rest": "get_or-rest",
    "getD-written-other": "get_or-written_other",
}
# Definitions of the library that lemmas are named after.
LIBRARY = "length drop take set replicate get_or append map sum cond min max pow mod div".split()


def files(root, *endings):
    for folder, dirs, names in os.walk(root):
        dirs[:] = sorted(d for d in dirs if d not in ("out", ".git", "target"))
        for name in sorted(names):
            if name.endswith(endings):
                yield os.path.join(folder, name)


def read(path):
    with open(path, encoding="utf-8") as f:
        return f.read()


def snake(word):
    word = re.sub(r"(?<=[a-z0-9])(?=[A-Z])", "_", word)
    return word.lower()


def declared(root):
    """Each own name, with whether a definition of specs/ has it, and what proof files alone declare for a goal."""
    names, goals = {}, set()
    for path in files(os.path.join(root, "crates"), ".antt"):
        text = re.sub(r"--[^\n]*", "", read(path))
        law = "/Laws" in path or "/Proofs" in path or "/proofs/" in path
        for m in DECLARED.finditer(text):
            name = m.group(1)
            if re.match(r"\s*:?\s*(tie|goal)\.", text[m.end():m.end() + 12]) and not re.match(r"\s*:?\s*(tie|goal)\.(Start|After|Then|Else|At)", text[m.end():m.end() + 16]):
                goals.add(name)
            names[name] = names.get(name, False) or not law
        for m in NAMED.finditer(text):
            if m.group(1) in ("record", "data", "module", "mod"):
                names.setdefault(m.group(2), False)
    return names, goals


def respelled(name, definitions):
    if name in OTHERWISE:
        return OTHERWISE[name]
    if not re.fullmatch(r"[A-Za-z0-9_]+(-[A-Za-z0-9_]+)*", name):
        return name
    parts = name.split("-")
    if name[0].isupper():
        return name if len(parts) == 1 else None
    parts = [snake(p) for p in parts]
    # Segments that are names of definitions, the longest first.
    segments, i = [], 0
    while i < len(parts):
        for j in range(len(parts), i, -1):
            word = "_".join(parts[i:j])
            if word in definitions:
                segments.append((word, True))
                i = j
                break
        else:
            segments.append((parts[i], False))
            i += 1
    out = segments[0][0]
    for a, b in zip(segments, segments[1:]):
        out += ("-" if a[1] and b[1] else "_") + b[0]
    return out


def main():
    root = sys.argv[1]
    names, goals = declared(root)
    definitions = {snake(n) for n, is_definition in names.items() if is_definition and "-" not in n and not n[0].isupper()} | set(LIBRARY)
    table = {}
    for name in names:
        if name in goals and name not in OTHERWISE:
            continue
        if not re.search(r"[a-z][A-Z]|-", name):
            continue
        new = respelled(name, definitions)
        if new and new != name:
            table[name] = new
    table.pop("or-false", None)  # the library has one of this name
    own = set(names)
    for new in {new for new in table.values() if new in own or list(table.values()).count(new) > 1}:
        # "A lemma that would have its function's name gets `_lem`": so does one that has another definition's name.
        olds = [old for old in table if table[old] == new]
        first = sorted((old for old in olds if "-" not in old), key=lambda old: not names[old])
        for old in olds:
            if old not in first[:1]:
                table[old] = new + "_lem"
        if new in own and first:
            table[new] = new + "_lem"
    used = collections.Counter()
    imported = set()
    for path in files(os.path.join(root, "crates"), ".antt", ".rt"):
        text = read(path)
        used.update(WORD.findall(text))
        for m in re.finditer(r"use ((?:Rattle\.std|mathlib|Prim|native|lib|borrow|mir|denote|contract)[\w.]*)\.\{([^}]*)\}", text):
            imported.update(x.strip() for x in m.group(2).split(","))
    clash = collections.defaultdict(list)
    for old, new in table.items():
        clash[new].append(old)
    for new, olds in sorted(clash.items()):
        if len(olds) > 1 or used[new]:
            print("together:", new, olds, used[new])
    for old in sorted(table):
        if old in imported:
            print("imported:", old)
    if "--list" in sys.argv:
        for old, new in sorted(table.items()):
            print(old, new)
        return
    if "--write" not in sys.argv:
        return
    word = re.compile("(?<![^\\s(){}.;,@\"«»\\[\\]\\\\`'←])(" + "|".join(sorted(map(re.escape, table), key=len, reverse=True)) + ")(?![^\\s(){}.;,@\"«»\\[\\]\\\\`'])")
    own = lambda text: word.sub(lambda m: table[m.group(1)], text)
    for path in files(root, ".antt", ".rt", ".edit", ".md"):
        text = read(path)
        # A page's names stand in backticks.
        new = own(text) if not path.endswith(".md") else re.sub(r"`[^`\n]*`", lambda m: own(m.group(0)), text)
        if new != text:
            with open(path, "w", encoding="utf-8") as f:
                f.write(new)


main()
