#!/usr/bin/env python3
"""Brings the repository's own definitions and lemmas to snake case: words in snake case, a dash between the parts of a lemma's name.
usage: tools/respell.py [--dry] [FOLDER]. Run once, after the kit's port.py. Names of functions, types and modules stay."""

import os
import re
import sys

# A name in which a part begins with a small letter and has a capital later.
NAME = re.compile(r"(?<![\w'])[A-Za-zℕℤ0][\wℕℤ'\-→≡≢∨∧⊎]*")
PART = re.compile(r"(?<![A-Za-z0-9_ℕℤ'])([a-z][a-z0-9_]*(?:[A-ZℕℤE][A-Za-z0-9_ℕℤ]*)+)(?![A-Za-z0-9_ℕℤ'])")
# Names that would fall together with another name of their file get a name of their own.
OTHER = {}
# Local lemmas that had the snake spelling of a definition's camel one: (crate, module, name) gets the ending _lem.
LEMMAS = [
    ("order", "Moves", "allowed_at"), ("sheet", "SheetLaws", "at_front"), ("easier", "AsWritten", "by_place"),
    ("plan", "TieRule", "by_place"), ("easier", "EasierOrders", "each_of"), ("packed", "RefusalLaws", "fields_within"),
    ("fields", "Words", "first_byte"), ("merging", "JoinLaws", "goes_first"), ("plan", "PaperLaws", "in_order"),
    ("joining", "JoinedBytes", "joined_bytes"), ("legal", "LegalIs", "left_out"), ("sheet", "AsWritten", "moved_on"),
    ("legal", "BestLaws", "none_more"), ("seconds", "Signed", "read_back"), ("fields", "Words", "step_back"),
    ("reader", "ReadingLaws", "step_by"), ("rows", "RowLaws", "step_from"), ("better", "MergingLaws", "to_write"),
    ("point_records", "RecordLaws", "too_many"), ("order", "Runs", "with_each"),
]
# A module that the toolchain makes has this name.
FILES = [("hollow", "Contracts", "Promises")]


def snake(part):
    if part in OTHER:
        return OTHER[part]
    out = re.sub(r"(?<=[a-z0-9])(?=[A-ZℕℤΑ-Ω])", "_", part)
    out = re.sub(r"(?<=[A-Zℕℤ])(?=[A-Z][a-z])", "_", out)
    return "".join(c if c in "ℕℤ" else c.lower() for c in out)


def respell(name):
    return PART.sub(lambda m: snake(m[1]), name)


def texts(root):
    for folder, dirs, files in os.walk(os.path.join(root, "crates")):
        dirs[:] = sorted(d for d in dirs if d not in ("out", "data"))
        for f in sorted(files):
            if f.endswith((".antt", ".rt", ".edit")):
                yield os.path.join(folder, f)


STRING = re.compile(r'b?"(?:\\.|[^"\\])*"')


def turn(text):
    """The text with each name respelled, strings aside."""
    out, at = [], 0
    for m in STRING.finditer(text):
        out += [NAME.sub(lambda n: respell(n[0]), text[at:m.start()]), m[0]]
        at = m.end()
    return "".join(out + [NAME.sub(lambda n: respell(n[0]), text[at:])])


def lemmas(text, path):
    """The text with _lem behind the names of LEMMAS, where they are declared or brought in."""
    for crate, module, name in LEMMAS:
        here = path.endswith(f"crates/{crate}/specs/{module}.antt")
        brought = re.search(r"use Rattle\.%s\.specs\.%s\.\{[^}]*(?<![\w-])%s(?![\w-])" % (crate, module, name), text)
        if here or brought:
            text = re.sub(r"(?<![\w'.-])%s(?![\w'-])" % name, name + "_lem", text)
    return text


def files(root):
    for crate, old, new in FILES:
        specs = os.path.join(root, "crates", crate, "specs")
        if os.path.exists(os.path.join(specs, old + ".antt")):
            os.rename(os.path.join(specs, old + ".antt"), os.path.join(specs, new + ".antt"))
        for path in texts(root):
            with open(path, encoding="utf-8") as f:
                text = f.read()
            to = text.replace(f"Rattle.{crate}.specs.{old}", f"Rattle.{crate}.specs.{new}")
            if path.endswith(f"crates/{crate}/specs/Lib.antt"):
                to = to.replace(f"pub mod {old}\n", f"pub mod {new}\n")
            if to != text:
                with open(path, "w", encoding="utf-8") as f:
                    f.write(to)


def main(argv):
    dry = "--dry" in argv
    root = next((a for a in argv if a != "--dry"), ".")
    made, clash = {}, []
    if not dry:
        files(root)
    for path in texts(root):
        with open(path, encoding="utf-8") as f:
            text = f.read()
        names = set(NAME.findall(text))
        for n in sorted(names):
            to = respell(n)
            if to != n:
                made.setdefault(to, set()).add(n)
                if to in names:
                    clash.append(f"{path}: {n} and {to}")
        if not dry:
            new = turn(lemmas(text, path) if path.endswith('.antt') else text)
            if new != text:
                with open(path, "w", encoding="utf-8") as f:
                    f.write(new)
    for to, of in sorted(made.items()):
        if len(of) > 1:
            clash.append(f"{to}: {' '.join(sorted(of))}")
        if dry and "-v" in os.environ.get("V", ""):
            print(sorted(of), to)
    print("\n".join(clash))
    print(f"respell: {len(made)} names, {len(clash)} fall together")


if __name__ == "__main__":
    main(sys.argv[1:])
