#!/usr/bin/env python3
"""Respell this repository's own definitions and lemmas: words in snake case, types and modules in camel
case, a dash only where it joins the names of two definitions. Run once, at the top, after port.py.

    python3 tools/respell.py [--dry]

A name is this repository's own if a file of specs/ or a file of lemmas in proofs/ declares it. The names
that Rattle makes (goals, steps, proofs of functions) and names of src/ keep their spelling, and so do
strings, inputs and outputs. It stops where two names would fall together.
"""
import collections
import glob
import os
import re
import sys

NAME = r"[^\s(){}\[\].,;:λ\"`|·@]+"
TOKEN = re.compile(NAME)
MODIFIERS = r"(?:(?:unfoldable|abbrev|pub|axiom|record|data|open)\s+)*"
TOP = re.compile(r"^" + MODIFIERS + r"([A-Za-z_]" + NAME[:-1] + r"*)\s*:\s(.*)$")
INNER = re.compile(r"^\s+(?:(?:pub|abbrev|unfoldable)\s+)*([a-z_]" + NAME[:-1] + r"*)\s*:\s(.*)$")
LET = re.compile(r"\blet ([a-z_]" + NAME[:-1] + r"*)\s*[:=]\s")

# Names that would fall together with another, and what stands for them.
CHOSEN = {"found_in": "found_in_lem", "one_more": "one_more_step"}


def own_files():
    for part in ("specs", "proofs"):
        for path in glob.glob(f"crates/*/{part}/**/*.antt", recursive=True):
            if path.rsplit("/", 1)[1] not in ("Proof.antt", "Answers.antt", "Invariants.antt", "Needs.antt"):
                yield path


def snake(word):
    return re.sub(r"(?<=[a-z0-9])([A-Z])", lambda m: "_" + m.group(1).lower(), word)


def declared():
    found = collections.defaultdict(list)
    for path in own_files():
        for line in open(path, encoding="utf-8"):
            line = re.sub(r"--.*", "", line)
            top = TOP.match(line)
            inner = INNER.match(line)
            if top:
                found[top.group(1)].append((path, top.group(2).strip(), False))
            elif inner:
                found[inner.group(1)].append((path, inner.group(2).strip(), True))
            for name in LET.findall(line):
                found[name].append((path, "", True))
    return found


def wanted(found):
    functions = {
        name
        for name, places in found.items()
        if "-" not in name and any("/specs/" in path and not field for path, _, field in places)
    }
    library = {
        "length", "get_or", "take", "drop", "map", "cond", "leb", "eqb", "ltb", "append", "reverse",
        "replicate", "ap", "suc", "zero", "nth", "set",
    }
    result = {}
    for name, places in found.items():
        if not name[0].islower() and name[0] != "_":
            continue
        parts = name.split("-")
        joined = len(parts) > 1 and all(p in functions or p in library for p in parts)
        new = ("-" if joined else "_").join(snake(p) for p in parts)
        if all(re.search(r"→ Type 0$|^Type 0$", sig) for _, sig, _ in places):
            new = "".join(w[:1].upper() + w[1:] for w in new.split("_"))
        new = CHOSEN.get(name, new)
        if new != name:
            result[name] = new
    result.update(CHOSEN)
    # A lemma that would have its function's name gets `_lem`.
    for name, new in list(result.items()):
        if "-" in name and name not in CHOSEN and (new in found or sum(n == new for n in result.values()) > 1):
            result[name] = new + "_lem"
    return result


def clashes(found, renamed):
    tokens = collections.defaultdict(set)  # the files that hold a name, but for fields
    paths = [p for part in ("specs", "proofs") for p in glob.glob(f"crates/*/{part}/**/*.antt", recursive=True)]
    for path in paths:
        for line in open(path, encoding="utf-8"):
            line = re.sub(r"--.*", "", line)
            for m in re.finditer(r"(?<![.·])" + NAME, line):
                tokens[m.group(0)].add(path)
    by_new = collections.defaultdict(list)
    for old, new in renamed.items():
        by_new[new].append(old)
    bad = []
    for new, olds in by_new.items():
        if len(olds) > 1:
            bad.append((new, olds, "two"))
        if new in tokens and new not in renamed:
            both = sorted(p for p in tokens[new] if any(p in tokens[o] for o in olds))
            if both:
                bad.append((new, olds, both[:3]))
    return bad


def of_libraries(text):
    """The names that a file takes from a library: they keep their spelling in it."""
    own = set(os.listdir("crates"))
    names = set()
    for module, items in re.findall(r"use ([^\s{;]+)\.\{([^}]*)\}", text):
        parts = re.split(r"[.·]", module)
        if parts[0] != "Rattle" or parts[1] not in own:
            names.update(TOKEN.findall(items))
    return names


def respelled(code, renamed):
    parts = re.split(r'("(?:[^"\\]|\\.)*")', code)
    return "".join(p if p.startswith('"') else TOKEN.sub(lambda m: renamed.get(m.group(0), m.group(0)), p) for p in parts)


def in_ticks(text, renamed):
    return re.sub(r"`[^`\n]*`", lambda s: TOKEN.sub(lambda m: renamed.get(m.group(0), m.group(0)), s.group(0)), text)


def main():
    found = declared()
    renamed = wanted(found)
    bad = clashes(found, renamed)
    for item in bad:
        print("clash:", *item)
    print(len(found), "names declared,", len(renamed), "respelled,", len(bad), "clashes")
    if "--dry" in sys.argv or bad:
        return 1 if bad else 0
    paths = [p for part in ("specs", "proofs") for p in glob.glob(f"crates/*/{part}/**/*.antt", recursive=True)]
    paths += glob.glob("crates/*/src/**/*.rt", recursive=True) + glob.glob("crates/*/must-fail/*.edit")
    for path in paths:
        text = open(path, encoding="utf-8").read()
        lines = text.split("\n")
        here = {old: new for old, new in renamed.items() if old not in of_libraries(text)}
        comment = "//" if path.endswith(".rt") else "--"
        edit = path.endswith(".edit")
        for i, line in enumerate(lines):
            if edit and not re.match(r"(old|new): ", line):
                lines[i] = in_ticks(line, here)
                continue
            at = line.find(comment)
            code, said = (line, "") if at < 0 else (line[:at], line[at:])
            if edit:
                word, code = code[:5], code[5:]
                lines[i] = word + respelled(code, here) + in_ticks(said, here)
            else:
                lines[i] = respelled(code, here) + in_ticks(said, here)
        new = "\n".join(lines)
        if new != text:
            open(path, "w", encoding="utf-8").write(new)
    for path in ["README.md"] + glob.glob("docs/*.md") + glob.glob("crates/README.md"):
        text = open(path, encoding="utf-8").read()
        new = in_ticks(text, renamed)
        if new != text:
            open(path, "w", encoding="utf-8").write(new)
    return 0


sys.exit(main())
