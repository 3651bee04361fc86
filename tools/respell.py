#!/usr/bin/env python3
"""Spells this repository's own definitions and lemmas as today's Rattle does: words in snake case.

usage: tools/respell.py [--check]     at the top of the repository, once, after port.py

It reads which names the files of specs/ and the lemma files of proofs/ declare, and respells each of them in every
.antt and .rt file of crates/. Answers of goals, which stand in proofs/F/Proof.antt alone, and what the prover makes
keep their names; so do Rust's items, strings, inputs and outputs. --check writes nothing and lists the names.
"""
import os
import re
import sys

MODIFIERS = {"abbrev", "unfoldable", "pub", "private", "instance", "opaque"}
NOT_A_NAME = re.compile(r'[\s(){}\[\];,."⌜⌝=]')
TOKEN = re.compile(r'[^\s(){}\[\];,."⌜⌝]+')
# Lemmas that would fall together with a definition, of this repository or of the library: these get `_lem`.
LEMMAS = """
    after-head after-sheet all-bytes answer-of bit-and bit-or bit-xor blank-sets blank-succs bound-numbers
    codes-bytes codes-size denied-line device-bytes device-length event-fault first-stray flag-of flat-at found-from
    is-blocked kept-text leads-to listed-numbers member-words next-from next-in node-count nodes-at
    nodes-listed number-line offer-at pair-text read-back read-numbers reference-bytes reference-length
    refused-line row-bytes sets-alone sheet-bytes sheet-line sheet-of succ-byte told-lines trace-line
    unused-row violates-by walk-numbers walked-numbers zero-sheet
""".split()
APART = {name: name.replace("-", "_") + "_lem" for name in LEMMAS} | {"getD-upTo": "get_or_up_to"}


def snake(name):
    text = re.sub(r"(?<=[a-z0-9])([A-Z])", lambda m: "_" + m.group(1).lower(), name)
    return re.sub(r"(?<=[^-])-(?=[^-])", "_", text)


def needs(name):
    return not name[0].isupper() and re.search(r"\w-\w|[a-z0-9][A-Z]", name) is not None


def antt_files():
    for folder, dirs, files in os.walk("crates"):
        dirs[:] = sorted(d for d in dirs if d != "out")
        for name in sorted(files):
            if name.endswith(".antt"):
                yield os.path.join(folder, name)


def source_files():
    for folder, dirs, files in os.walk("crates"):
        dirs[:] = sorted(d for d in dirs if d != "out")
        for name in sorted(files):
            if name.endswith(".rt"):
                yield os.path.join(folder, name)


def is_proof(path):
    """Whether the file answers the goals of a function; a file of definitions or lemmas may have such a name too."""
    name = os.path.basename(path)
    if name == "Proof.antt":
        return True
    if name not in ("Answers.antt", "Invariants.antt"):
        return False
    with open(path, encoding="utf-8") as file:
        return re.search(r"\.(Goals|Given) as goal$", file.read(), re.M) is not None


def code_of(line):
    at = re.search(r"(^|\s)--(\s|$)", line)
    return line if at is None else line[: at.start()]


def declared(text):
    """The names that the file declares: its definitions, lemmas, fields, constructors and bound variables."""
    for line in text.split("\n"):
        line = code_of(line)
        head = line.split(" : ")[0] if " : " in line else line[:-2] if line.endswith(" :") else None
        if head is not None:
            words = [w for w in head.split() if w not in MODIFIERS]
            if words and not any(NOT_A_NAME.search(w) for w in words):
                yield from words
        for part in re.findall(r"[({]([^(){}:]*) : ", line):
            words = part.split()
            if not any(NOT_A_NAME.search(w) for w in words):
                yield from words


def imported(text):
    """The names that the file takes from a library, with their new and their old spelling."""
    found = set()
    for line in re.findall(r"^\s*(?:ghost )?(?:pub )?use ([^\n]*)", text, re.M):
        if not re.match(r"Rattle\.(?!std\b|core\b)", line):
            found.update(TOKEN.findall(line[line.find("{"):] if "{" in line else line.split(".")[-1]))
    return found


def turn(text, names, skip, after_dot):
    """The text with each token that is a name respelled, outside strings; after a dot only those in after_dot."""

    def one(match):
        word = match.group(0)
        at = match.start()
        if word in names and word not in skip:
            if at and text[at - 1] == "." and after_dot is not None and word not in after_dot:
                return word
            return names[word]
        plain = word.strip("`':?!")
        if plain != word and plain in names and plain not in skip and not (at and text[at - 1] == "."):
            return word.replace(plain, names[plain])
        return word

    parts = re.split(r'("(?:[^"\\\n]|\\.)*")', text)
    if len(parts) == 1:
        return TOKEN.sub(one, text)
    done = []
    for i, part in enumerate(parts):
        if i % 2:
            done.append(part)
        else:
            text = part
            done.append(TOKEN.sub(one, part))
    return "".join(done)


def main():
    check = "--check" in sys.argv[1:]
    texts = {path: open(path, encoding="utf-8").read() for path in [*antt_files(), *source_files()]}
    own = set()
    fields = set()
    for path, text in texts.items():
        if path.endswith(".antt") and not is_proof(path):
            names = {name for name in declared(text) if needs(name)}
            own |= names
            if "/specs/" in path:
                fields |= names
    new = {name: APART.get(name, snake(name)) for name in own}
    if check:
        groups = {}
        for old, spelled in new.items():
            groups.setdefault(spelled, []).append(old)
        there = set()
        for text in texts.values():
            there.update(TOKEN.findall(text))
        for spelled, olds in sorted(groups.items()):
            if len(olds) > 1:
                print("together:", spelled, olds)
            elif spelled in there:
                print("there:", spelled, olds)
        print(len(own), "names")
        return
    for path, text in texts.items():
        skip = imported(text)
        after_dot = fields if is_proof(path) else None
        turned = turn(text, new, skip, after_dot)
        if turned != text:
            with open(path, "w", encoding="utf-8") as file:
                file.write(turned)


main()
