#!/usr/bin/env python3
"""Counts the places in crates/*/src that docs/DESIGN-PASS.md speaks of, by the shape of the text.

    python3 tools/places.py [-v]

Run at the top of a checkout. With -v each place is printed with its file and line. Tests and comments are left
out. A count is a list of candidates: what stands and why is in the page.
"""
import glob
import re
import sys

VERBOSE = "-v" in sys.argv[1:]


def sources():
    for path in sorted(glob.glob("crates/*/src/**/*.rt", recursive=True)):
        text = open(path, encoding="utf-8").read()
        text = text.split("#[cfg(test)]")[0]
        yield path, [re.sub(r"//.*", "", line) for line in text.split("\n")]


def functions():
    """Each function: path, line, its name and its parameters."""
    for path, lines in sources():
        text = "\n".join(lines)
        for m in re.finditer(r"\bfn (\w+)(?:<[^>]*>)?\(", text):
            depth, i = 1, m.end()
            while depth:
                depth += {"(": 1, ")": -1}.get(text[i], 0)
                i += 1
            inside = text[m.end():i - 1]
            parts, level, part = [], 0, ""
            for ch in inside:
                level += {"(": 1, "[": 1, "<": 1, ")": -1, "]": -1, ">": -1}.get(ch, 0)
                if ch == "," and level == 0:
                    parts.append(part.strip())
                    part = ""
                else:
                    part += ch
            parts.append(part.strip())
            yield path, text.count("\n", 0, m.start()) + 1, m.group(1), [p for p in parts if p], text[i:i + 60]


def matches(pattern):
    for path, lines in sources():
        for number, line in enumerate(lines, 1):
            if re.search(pattern, line):
                yield path, number, line.strip()


def show(title, places):
    places = list(places)
    print(f"{title}: {len(places)}")
    if VERBOSE:
        for path, number, what in places:
            print(f"    {path}:{number}: {what}")


def named(*groups):
    """Functions whose parameters hold all names of one of the groups."""
    for path, number, name, params, _ in functions():
        names = {re.split(r"[:\s]", p.replace("&", "").replace("mut ", ""))[0] for p in params}
        if any(set(group) <= names for group in groups):
            yield path, number, name


show("1a types of the shape of Option or Result, or a flag with a value",
     matches(r"\b(enum|struct) (Value|Verdict|Found|Permit|RunEnd|Input|Change|Opened|Checked|Answer|PageAnswer)\b"))
show("1b functions whose answer is a number that stands for a kind or a refusal, or for none",
     matches(r"\bfn (number_of\w*|ending_byte|lent_refusal|refused|untabled|tag_of|known_tag|answer_of|way_of|slot_of"
             r"|join|least_below|least_upper|script_of)(?:<[^>]*>)?\("))
show("1c a flag with a value beside it as parameters", named(("timetable", "listed"), ("into", "returns")))
show("3a loops that count by hand (while)", matches(r"\bwhile\b"))
show("3b loops over a range of numbers", matches(r"\bfor \w+ in .*\.\."))
show("3c tests that return false, of a chain of tests", matches(r"return false;"))
show("4a bytes and numbers put together by hand", matches(r"\b(wide|long|low|two|four|half_in|word_in|byte_in)\(.*\) ->"))
show("4b tests of a case written as a match", matches(r"\bfn (is_nothing|is_running|returns|is_unmade|is_nil_or_0)\("))
show("5a functions with six parameters or more",
     ((p, n, f"{name} ({len(ps)})") for p, n, name, ps, _ in functions() if len(ps) >= 6))
show("5b parts of an accepted session as parameters", named(("session", "masks"), ("session", "index"), ("masks", "index")))
show("5c parts of what a run keeps as parameters", named(("current", "tallies"), ("ended", "tallies"), ("tallies", "queue")))
show("5d what a READ sees as parameters", named(("current", "cache", "unchanged")))
show("5e a place beside the bytes that are written", named(("res", "at"), ("text", "at"), ("page", "at"), ("res", "start")))
show("6a parts of one array by offsets", matches(r"\bconst (NEXT|WAITING|VERSIONS|RUNNING|CHANGES|ALL_CHANGES): usize"))
show("6b places in rows of words", matches(r"const (STAMP|ENDING|WRITES|FIRST|LAST|STEPS|TAG|NUMBER|DEPTH|OBJECT|NAME|CARRIED): usize"))
show("6c lists kept and searched in words", matches(r"\bfn (place|put|insert|count_to|count_below|newest_to|append|arrive|add)\("))
show("7 flags that choose a step", named(("listed",), ("all", "unchanged")))
