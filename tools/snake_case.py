#!/usr/bin/env python3
"""Brings the repository's own definitions and lemmas to snake case.

Run once, at the top, after /opt/rattle/port/port.py. It renames what the files of specs/ and proofs/ define with a dash
in the name: a dash becomes an underscore, and a type's name becomes camel case. Names that Rattle makes (goals and steps)
and names of its library stay, and so do the functions of src/, strings, inputs and outputs.
"""
import glob
import re

# names that would fall together with a function of src/, a field or a name of the library
SPECIAL = {
    "mark-at": "mark_spelled",
    "marks-at": "marks_spelled",
    "delay-count": "count_of_delays",
    "event-count": "count_of_events",
    "bit-or": "bit_or_lem",
}
# names of goals and of steps, which Rattle makes
MADE = re.compile(
    r"(returns|loop|invariant-loop|invariant-of|invariant_of|decreases|overflow|bounds|unreachable)(-|$)|.*-requires(-\d+)?$"
)
DEFINED = re.compile(r"\s*(?:pub |abbrev |unfoldable |data |record |let |where |\()*([A-Za-z_][\w']*(?:-[\w']+)+) :")
TOKEN = re.compile(r"(?<![\w'◌-])([A-Za-z_][\w']*(?:-[\w']+)+)")


def fact_files():
    found = glob.glob("crates/*/specs/**/*.antt", recursive=True) + glob.glob("crates/*/proofs/**/*.antt", recursive=True)
    return sorted(name for name in found if "/out/" not in name)


def own_names():
    names = set()
    for name in fact_files():
        for line in open(name, encoding="utf-8"):
            match = DEFINED.match(line)
            if match and not MADE.match(match.group(1)) and ": goal." not in line:
                names.add(match.group(1))
    return names


def renamed(name):
    if name in SPECIAL:
        return SPECIAL[name]
    if name[0].isupper():
        return "".join(part[0].upper() + part[1:] for part in name.split("-"))
    return name.replace("-", "_")


def turn(text, names):
    return TOKEN.sub(lambda m: renamed(m.group(1)) if m.group(1) in names else m.group(1), text)


def outside_strings(line, names):
    parts = re.split(r'("(?:[^"\\]|\\.)*")', line)
    return "".join(part if part.startswith('"') else turn(part, names) for part in parts)


def inside_ticks(line, names):
    return re.sub(r"`[^`]*`", lambda m: turn(m.group(0), names), line)


def rewrite(name, how, names):
    old = open(name, encoding="utf-8").read()
    new = "".join(how(line, names) for line in old.splitlines(keepends=True))
    if new != old:
        open(name, "w", encoding="utf-8").write(new)


def main():
    names = own_names()
    for name in fact_files():
        rewrite(name, turn, names)
    for name in sorted(glob.glob("crates/*/src/**/*.rt", recursive=True)):
        rewrite(name, outside_strings, names)
    for name in ["README.md"] + sorted(glob.glob("docs/*.md")):
        rewrite(name, inside_ticks, names)
    print(f"{len(names)} names")


main()
