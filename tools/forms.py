#!/usr/bin/env python3
"""Counts in src/ the places of the forms that docs/DESIGN-PASS.md is about.

    tools/forms.py [FOLDER] [--list POINT]

FOLDER is a checkout (the one that this file lies in where none is named). `--list 3` also prints each place of point 3.
A count is of lines that a pattern finds, or of functions; comments are passed over.
"""
import os
import re
import sys


def sources(folder):
    """Each source file with its lines, comments cut off."""
    for base, dirs, files in os.walk(os.path.join(folder, "crates")):
        dirs[:] = sorted(d for d in dirs if d not in ("out", "must-fail", "specs", "proofs", "data"))
        for name in sorted(files):
            if name.endswith(".rt"):
                path = os.path.join(base, name)
                with open(path, encoding="utf-8") as file:
                    yield os.path.relpath(path, folder), [re.sub(r"//.*", "", line.rstrip("\n")) for line in file]


def functions(lines):
    """(line number, signature, body) of each function: from its line `fn` to the brace that closes it."""
    i = 0
    while i < len(lines):
        if re.match(r"\s*(pub(\(crate\))? )?(extern \"C\" )?fn ", lines[i]):
            indent = re.match(r"\s*", lines[i]).group()
            end = i
            while end < len(lines) and lines[end] != indent + "}":
                end += 1
            text = "\n".join(lines[i:end + 1])
            cut = text.find("\n" + indent + "{")
            yield i + 1, text[:cut] if cut >= 0 else text, text[cut:] if cut >= 0 else ""
            i = end
        i += 1


LINES = [
    ("1", "enums with a case for a refusal's number", r"^\s*Denied\(u8\),"),
    ("1", "enums with a case for nothing", r"^\s*Nothing,"),
    ("1", "structs with a refusal's number or a flag beside what it is about", r"^\s*pub (refusal: u8|both: bool),"),
    ("1", "tests of a refusal's number", r"if (fault|own|first|second|other|shared|wrong|head|graph|stated|k|[a-z]+\.refusal) [!=]= \d"),
    ("3", "while loops", r"^\s*while "),
    ("3", "for loops over the places of a slice", r"\bfor \w+ in 0\.\.[\w.]+\.len\(\)"),
    ("4", "base::wide", r"base::wide\("),
    ("4", "calls of other hand-written conversions", r"\b(short|number|flag_of)\((?!\w+: )"),
    ("5", "a list and a place in it as two parameters", r"out: &mut \[u8\], at: usize"),
    ("6", "lists of fixed length, filled from the front", r"let mut \w+ = \[0u?\d*; \d+\]"),
    ("7", "closures, Fn bounds, dyn", r"\bdyn |impl Fn|\|\w*\| "),
]


def in_functions(path, lines):
    """(point, what, place) of forms that a whole function shows."""
    for at, head, body in functions(lines):
        place = f"{path}:{at}: {head.splitlines()[0].strip()}"
        if re.search(r"fn (\w*fault\w*|check)\(", head) and re.search(r"-> u8\b", head):
            yield "1", "functions that answer a refusal's number", place
        if re.search(r"\bfor ", body) and re.search(r"return (true|false);", body) and "-> bool" in head:
            yield "3", "for loops that only look whether all or some pass", place
        if re.search(r"\bfor (\w+) in [^\n]*\n(\s*let [^\n]*\n)*\s*\w+\[\1\] = \w+", body):
            yield "3", "for loops that fill an array place by place", place
        if re.search(r"e: usize", head) and re.search(r"p: usize", head):
            yield "5", "p, e and often q as parameters beside tables of theirs", place


def main():
    args = sys.argv[1:]
    listed = args[args.index("--list") + 1] if "--list" in args else None
    rest = [a for i, a in enumerate(args) if a != "--list" and (i == 0 or args[i - 1] != "--list")]
    folder = rest[0] if rest else os.path.join(os.path.dirname(os.path.abspath(__file__)), "..")
    places = {}
    for point, what, _ in LINES:
        places[point, what] = []
    for path, lines in sources(folder):
        for point, what, pattern in LINES:
            for i, line in enumerate(lines):
                places[point, what] += [f"{path}:{i + 1}: {line.strip()}"] * len(re.findall(pattern, line))
        for point, what, place in in_functions(path, lines):
            places.setdefault((point, what), []).append(place)
    for (point, what), found in sorted(places.items(), key=lambda x: x[0][0]):
        print(f"{point}  {len(found):4}  {what}")
        if listed == point:
            for place in found:
                print(f"         {place}")


main()
