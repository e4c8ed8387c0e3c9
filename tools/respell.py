#!/usr/bin/env python3
"""Brings the repository's own definitions and lemmas to today's spelling, by the rows of respell.tsv: old name, new name, and, where a third
column stands, the beginning of the paths in which alone the row turns. Run once at the top of the repository, right after the kit's port.py.

Whole names turn, all rows at once. In crates/ they turn in specs/ and proofs/, in the clauses, `ghost use` lines and comments of src/, and in
must-fail/; in a function's own folder of proofs/ a name turns only where the file imports it or where it is a field of a record of specs/, since
Rattle makes names of the same shape there. On the pages they turn in code spans."""
import glob
import os
import re

HERE = os.path.dirname(os.path.abspath(__file__))
NAME = re.compile(r"[^\s(){}.;:,@\"«»\[\]⟨⟩`*/]+")
USE = re.compile(r"^use ([^{;\n]*)\{([^}]*)\}", re.M)
FIELDS = {"image-is", "out-is", "text-is", "all-is", "total-is", "answer-is", "contents-are", "done-is", "level-is", "volume-is", "good-is", "frames-are", "no-further", "all-answered", "no-parts", "fresh-one", "laid-anew", "long-is"}


def rows():
    with open(os.path.join(HERE, "respell.tsv"), encoding="utf-8") as f:
        for line in f:
            old, new, *where = line.rstrip("\n").split("\t")
            yield old, new, where[0] if where else None


ROWS = list(rows())


def table_for(path):
    table = {old: new for old, new, where in ROWS if where is None}
    table.update({old: new for old, new, where in ROWS if where and path.startswith(where) and not is_folder(path)})
    return table


def is_folder(path):
    parts = path.split("/")
    return parts[0] == "crates" and parts[2] == "proofs" and len(parts) > 4


def turned(text, table):
    return NAME.sub(lambda m: table.get(m[0], m[0]), text)


def antt(path, text):
    table = table_for(path)
    if is_folder(path):
        imported = {w for m in USE.finditer(text) for w in re.split(r"[\s,]+", m[2])}
        table = {o: n for o, n in table.items() if o in imported or o in FIELDS or "-" not in o}
    return turned(text, table)


def rust(path, text):
    """A dash in code is a minus, and the names with a dash stand in comments alone."""
    table = table_for(path)
    plain = {o: n for o, n in table.items() if "-" not in o}
    out = []
    for line in text.split("\n"):
        code, slashes, said = line.partition("//")
        out.append(turned(code, plain) + (slashes + turned(said, table) if slashes else ""))
    return "\n".join(out)


def page(path, text):
    table = table_for(path)
    return re.sub(r"(`+)([^`\n]+)\1", lambda m: m[1] + turned(m[2], table) + m[1], text)


def main():
    kinds = (
        (antt, "crates/*/specs/**/*.antt"),
        (antt, "crates/*/proofs/**/*.antt"),
        (rust, "crates/*/src/**/*.rt"),
        (rust, "crates/*/must-fail/*.edit"),
        (page, "*.md"),
        (page, "docs/**/*.md"),
        (page, "tests/*.md"),
    )
    count = 0
    for turn, pattern in kinds:
        for path in sorted(glob.glob(pattern, recursive=True)):
            with open(path, encoding="utf-8") as f:
                text = f.read()
            new = turn(path, text)
            if new != text:
                count += 1
                with open(path, "w", encoding="utf-8") as f:
                    f.write(new)
    print(f"respell: {count} files")


main()
