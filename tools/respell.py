#!/usr/bin/env python3
"""Respells this repository's own definitions and lemmas after the kit's port.py.

usage: python3 tools/respell.py [ROOT]     rewrites ROOT/crates in place, by the table beside this file (respell.tsv); run it once

Words are in snake case, types and modules in camel case. A dash stays only behind the name of a function that a lemma speaks of,
as in `coerce_all-pure`. Where two names fell together one has `_lem`, `_rule` or another word. A row of the table is
OLD TAB NEW, or OLD TAB NEW TAB CRATE.. for the crates in which alone it holds. Comments and Rust strings stay as they are, and so
does a name behind a dot (a label that the prover makes), unless the row is a field of a record of this repository.
"""
import glob
import os
import re
import sys

HERE = os.path.dirname(os.path.realpath(__file__))
WORD = re.compile(r"(?<![\w'◌])[^\W\d][\w']*(?:-[\w'◌]+)*")
RUST_SKIP = re.compile(r'//[^\n]*|b?"(?:\\.|[^"\\])*"|b?\'(?:\\.[^\']*|[^\'\\])\'')
ANTT_SKIP = re.compile(r"--(?=[\s-])[^\n]*|--$")


def table():
    rows, fields = {}, set()
    for line in open(os.path.join(HERE, "respell.tsv"), encoding="utf-8"):
        line = line.rstrip("\n")
        if not line or line.startswith("#"):
            continue
        old, new, *crates = line.split("\t")
        if crates and crates[0] == "field":
            fields.add(old)
            crates = crates[1:]
        rows[old] = (new, set(crates))
    return rows, fields


def respell(text, crate, rows, fields, skip):
    def word(m):
        w = m.group(0)
        new, crates = rows.get(w, (None, None))
        if new is None or (crates and crate not in crates):
            return w
        before = text_here[: m.start()]
        if before.endswith(".") and re.search(r"[\w')]\.$", before) and w not in fields:
            return w
        return new

    out, at = [], 0
    for s in list(skip.finditer(text)) + [None]:
        end = s.start() if s else len(text)
        text_here = text[at:end]
        out.append(WORD.sub(word, text_here))
        if s:
            out.append(s.group(0))
            at = s.end()
    return "".join(out)


def main(root):
    rows, fields = table()
    changed = 0
    for crate in sorted(os.listdir(os.path.join(root, "crates"))):
        base = os.path.join(root, "crates", crate)
        files = glob.glob(base + "/specs/**/*.antt", recursive=True) + glob.glob(base + "/proofs/**/*.antt", recursive=True)
        files += glob.glob(base + "/src/**/*.rt", recursive=True)
        for p in sorted(files):
            with open(p, encoding="utf-8") as f:
                old = f.read()
            new = respell(old, crate, rows, fields, RUST_SKIP if p.endswith(".rt") else ANTT_SKIP)
            if new != old:
                with open(p, "w", encoding="utf-8") as f:
                    f.write(new)
                changed += 1
    print(f"respell: {changed} files changed")


if __name__ == "__main__":
    main(sys.argv[1] if len(sys.argv) > 1 else ".")
