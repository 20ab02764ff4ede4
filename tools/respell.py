#!/usr/bin/env python3
"""Brings this repository's own names to today's spelling, after port.py: words in snake case, types and modules in camel case.

usage: python3 tools/respell.py [TOP]

Two kinds of name turn, as whole words: a name that begins with a small letter and goes on in camel case (withNumberAt: with_number_at), and a definition, a field
or a constructor of specs/ whose words are joined by dashes (decided-once: decided_once). A lemma's dashes stay: they join names. A must-fail edit is brought to
the spelling that port.py gave the text that it changes. Functions of src/, exported C names, strings, inputs and outputs have no such name.
"""
import glob
import os
import re
import sys

NAME = re.compile(r"(?<![\w'\-])[A-Za-z_][\w']*(?:-[\w']+)*")
CAMEL = re.compile(r"[a-z0-9][A-Z]")
DECLARED = re.compile(r"^ *(?:(?:abbrev|unfoldable|pub) )*([a-z_][\w']*(?:-[\w']+)+) :", re.M)
# underscores would make another name of these: they are told apart by a word
APART = {"to-bytes": "to_is_bytes", "sameBytes": "equal_bytes"}


def snake(name):
    return re.sub(r"(?<=[a-z])(?=\d+'?$)", "_", re.sub(r"(?<=[a-z0-9])(?=[A-Z])|(?<=[A-Z])(?=[A-Z][a-z])", "_", name)).lower()


def parts(name):
    """A name of a lemma is turned part by part; a part that is a type or a fact keeps its capital."""
    return "-".join(snake(part) if part[0].islower() and CAMEL.search(part) else part for part in name.split("-"))


def read(path):
    with open(path, encoding="utf-8") as f:
        return f.read()


def files(top, *patterns):
    return sorted(p for pattern in patterns for p in glob.glob(os.path.join(top, pattern), recursive=True) if os.path.isfile(p) and "/out/" not in p)


def table(top):
    """The dashed names that specs/ declare, lemmas of specs/ aside: there are none."""
    return {name: APART.get(name, name.replace("-", "_")) for path in files(top, "crates/*/specs/**/*.antt") for name in DECLARED.findall(read(path))}


def turned(text, dashed):
    return NAME.sub(lambda found: APART.get(found.group()) or dashed.get(found.group()) or parts(found.group()), text)


def turned_code(text, dashed):
    """Of a line of src/ the strings stay."""
    return "".join(piece if i % 2 else turned(piece, dashed) for i, piece in enumerate(re.split(r'("(?:[^"\\\n]|\\.)*")', text)))


def turned_page(text, dashed):
    """Of a page the code spans and the indented or fenced code turn; so do names in camel case elsewhere."""
    return "".join(turned(piece, dashed) if i % 2 else turned(piece, {}) for i, piece in enumerate(re.split(r"(```.*?```|`[^`\n]*`)", text, flags=re.S)))


OLDER = re.compile(r"⌜|·|′| \.[a-z0-9«]|\bnow \(|\(now |\bgetD\b|(?<![◌\w])_[+*/%^<≤≡∷&|]+_")
PLAIN = [
    (r"Rattle·(\w+)·specs\.specs\.", r"Rattle.\1.specs."),
    (r"Rattle·(\w+)\.specs\.", r"Rattle.\1.specs."),
    (r"⌜ (.*) ⌝", r"\1"),
    (r"\bnow \((\w+) \.entry\)", r"\1.old"),
    (r"\bnow \((\w+) \.exit\)", r"\1.new"),
    (r"\(now (\w+′?)\)", r"\1.now"),
    (r"\(now \((exit(?: \.\d)+)\)\)", r"\1.now"),
    (r" \.«(\w+)»", r".\1"),
    (r" \.(?=[a-z0-9])", r"."),
    (r"\((\w+\.\w+(?:\.\w+)*)\)", r"\1"),
    (r"\((\w+\.\w+\.now)\)", r"\1"),
    (r"\boutcome r\b", "outcome result"),
    (r"(?<![◌\w])_([+*/%^<≤≡∷&|]+)_", r"◌\1◌"),
    (r"\bgetD\b", "get_or"),
    (r"′", "'"),
]


def turned_edit(text, dashed):
    lines = []
    for line in text.split("\n"):
        if line.startswith(("old: ", "new: ")):
            head, body = line[:5], line[5:]
            for pattern, new in PLAIN if OLDER.search(body) else []:
                body = re.sub(pattern, new, body)
            line = head + turned(body, dashed)
        lines.append(line)
    return "\n".join(lines)


def main(top):
    dashed = table(top)
    kinds = [
        (turned, ["crates/*/specs/**/*.antt", "crates/*/proofs/**/*.antt"]),
        (turned_code, ["crates/*/src/**/*.rt"]),
        (turned_edit, ["crates/*/must-fail/*.edit"]),
        (turned_page, ["README.md", "docs/*.md", "docs/changes/*.md"]),
    ]
    changed = 0
    for turn, patterns in kinds:
        for path in files(top, *patterns):
            before = read(path)
            after = turn(before, dashed)
            if after != before:
                changed += 1
                with open(path, "w", encoding="utf-8") as f:
                    f.write(after)
    print(f"respell: {len(dashed)} dashed names, {changed} files changed")


if __name__ == "__main__":
    main(sys.argv[1] if len(sys.argv) > 1 else ".")
