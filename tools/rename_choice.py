#!/usr/bin/env python3
"""Gives this repository's choice by a test, once `if b then x else y`, a name of its own, `when b then x else y`, after respell.py: the library has another
operator under the old name, and `rt ci` refuses a second one.

usage: python3 tools/rename_choice.py [TOP]
"""
import re
import sys

import respell

OLD, NEW = "if◌then◌else◌", "when◌then◌else◌"
WORD = re.compile(r"(?<![\w'\-.◌])if(?![\w'\-◌])")


def turned(text):
    """Comments stay."""
    lines = [re.match(r"(.*?)((?:^|(?<=\s))--.*)?$", line, re.S).groups("") for line in text.split("\n")]
    return "\n".join(WORD.sub("when", code).replace(OLD, NEW) + comment for code, comment in lines)


def turned_edit(text):
    """The texts of an edit of specs/; code keeps its `if`."""
    lines, of_specs = [], False
    for line in text.split("\n"):
        of_specs = line.startswith("file: specs/") if line.startswith("file: ") else of_specs
        lines.append(line[:5] + turned(line[5:]) if of_specs and line.startswith(("old: ", "new: ")) else line)
    return "\n".join(lines)


def main(top):
    kinds = [(turned, ["crates/*/specs/**/*.antt", "crates/*/proofs/**/*.antt"]), (turned_edit, ["crates/*/must-fail/*.edit"])]
    kinds.append((lambda text: text.replace(OLD, NEW), ["crates/*/src/**/*.rt", "README.md", "docs/*.md", "docs/changes/*.md"]))
    changed = 0
    for turn, patterns in kinds:
        for path in respell.files(top, *patterns):
            before = respell.read(path)
            after = turn(before)
            if after != before:
                changed += 1
                with open(path, "w", encoding="utf-8") as f:
                    f.write(after)
    print(f"rename_choice: {changed} files changed")


if __name__ == "__main__":
    sys.dont_write_bytecode = True
    main(sys.argv[1] if len(sys.argv) > 1 else ".")
