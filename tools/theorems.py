#!/usr/bin/env python3
"""Says where the theorems and definitions of an older tree's specs/ stand today, and which of them read otherwise.

usage: tools/theorems.py OLD [--list]     at the top of the repository

OLD is a folder with the older tree in today's spelling: the landed commit after port.py and tools/respell.py. A theorem
is the same if its statement is the same text, blanks aside, below modules with the same parameters; a definition, a
record or a type if all of it is. --list prints each theorem that has moved from specs/ to proofs/, file by file.
"""
import os
import re
import sys


DECLARED = re.compile(
    r"((?:pub |abbrev |unfoldable |private )*)(record |data )?([^\s(){}\[\],;.]+)((?: [^\s:=]+)*) ?:(?: |$)"
)


def strip(line):
    return re.sub(r"(^|\s)--(\s.*)?$", "", line)


def is_of_function(path):
    """Whether the file has invariants, or answers to goals, of one function: neither theorems nor definitions."""
    with open(path, encoding="utf-8") as file:
        return " as goal\n" in file.read()


def files(top, parts):
    for crate in sorted(os.listdir(f"{top}/crates")):
        for part in parts:
            for folder, dirs, names in os.walk(f"{top}/crates/{crate}/{part}"):
                dirs.sort()
                for name in sorted(names):
                    path = os.path.join(folder, name)
                    if name.endswith(".antt") and name not in ("Lib.antt", "Proof.antt") and not is_of_function(path):
                        yield crate, part, path


def declarations(path):
    """Each declaration: its name, whether it is a theorem, the text that counts, and the headers of its modules."""
    lines = [strip(line).rstrip() for line in open(path, encoding="utf-8").read().split("\n")]
    modules = []
    i = 0
    while i < len(lines):
        line = lines[i]
        if not line.strip() or re.match(r"\s*(pub )?(use|open) ", line):
            i += 1
            continue
        indent = len(line) - len(line.lstrip())
        while modules and indent <= modules[-1][0]:
            modules.pop()
        depth = modules[-1][0] + 2 if modules else 0
        if indent != depth:
            i += 1
            continue
        if line.strip().startswith("module "):
            head = line.strip()
            while not head.endswith("where"):
                i += 1
                head += " " + lines[i].strip()
            modules.append((indent, " ".join(head.split())))
            i += 1
            continue
        begin = i
        i += 1
        while i < len(lines) and (not lines[i].strip() or len(lines[i]) - len(lines[i].lstrip()) > indent):
            i += 1
        head = " ".join(" ".join(lines[begin:i]).split())
        found = DECLARED.match(head)
        if found is None:
            if re.match(r"(pub )?(record|data) ", head):
                name = re.match(r"(?:pub )?(?:record|data) (\S+)", head).group(1)
                yield name, False, head.replace("pub ", ""), tuple(m[1] for m in modules)
            continue
        is_definition = bool(found.group(2)) or "abbrev" in found.group(1) or "unfoldable" in found.group(1)
        text = head
        if is_definition and not found.group(2):
            more = []
            while i < len(lines) and lines[i].strip() and len(lines[i]) - len(lines[i].lstrip()) >= indent:
                more.append(lines[i])
                i += 1
            text = " ".join((head + " " + " ".join(more)).split())
        for name in [found.group(3), *found.group(4).split()]:
            yield name, not is_definition, re.sub(r"\bpub ", "", text), tuple(m[1] for m in modules)


def table(top, parts):
    found = {}
    for crate, part, path in files(top, parts):
        for name, theorem, text, modules in declarations(path):
            found.setdefault((crate, name), []).append((path[len(top) + len("/crates/") :], theorem, text, modules))
    return found


def main():
    old = table(sys.argv[1].rstrip("/"), ["specs"])
    new = table(".", ["specs", "proofs"])
    moved, same, count = {}, 0, 0
    for (crate, name), places in sorted(old.items()):
        for path, theorem, text, modules in places:
            count += 1
            today = new.get((crate, name), [])
            alike = [it for it in today if it[1] == theorem and it[2] == text and it[3] == modules]
            if not alike:
                print(f"{'otherwise' if today else 'gone'}: {path}: {name}")
                print("  - " + " | ".join([*modules, text])[:700])
                for it in today:
                    print("  + " + it[0] + ": " + " | ".join([*it[3], it[2]])[:700])
                continue
            same += 1
            at = next((it[0] for it in alike if it[0] == path), alike[0][0])
            if at != path:
                moved.setdefault((path, at), []).append((name, theorem))
    print(f"{count} declarations, {same} the same, {sum(len(it) for it in moved.values())} of them in another file")
    if "--list" in sys.argv:
        for (path, at), names in sorted(moved.items()):
            print(f"{path} -> {at}: {', '.join(n for n, _ in names)}")


main()
