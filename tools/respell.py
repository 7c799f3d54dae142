#!/usr/bin/env python3
"""Brings this repository's own names to today's spelling, after port.py of the toolchain has run.

usage: python3 tools/respell.py [--dry]      at the top of the repository

- `specs/Contracts.antt` becomes `specs/Internal.antt`: Rattle makes a module `specs.contracts` of its own, and takes no file of that name.
- A definition or lemma that begins with a small letter is written in snake case: `leaveOff` is `leave_off`. A dash stays between two names
  of definitions, as in `length-flat`; a plain word is joined by `_`, as in `sum_rounded`. What begins with a capital, a type or a fact,
  stays, and so does a name that the library has too.
- Each root file gets `#![tactic(auto)]`.
Names of functions, of exports, of files and what stands in strings stay. Names of goals in proofs/F/Proof.antt stay too.
"""
import os
import re
import subprocess
import sys

# the toolchain's folder: rt doc prints the path of a page in it
KIT = os.path.dirname(subprocess.run(["rt", "doc"], capture_output=True, text=True, check=True).stdout.split()[-1])
# Lemmas that would have the name of the definition they speak of, each with the files that name them (the rest of the path for all files
# where it is empty).
LEMMAS = {
    "above_zero": ["binary64/proofs/Comparisons.antt"],
    "all_closed": ["rings/proofs/Closing.antt", "polygon_rings/proofs/clip_polygon/Proof.antt"],
    "boxes-apart": [""],
    "crossing-error": [""],
    "first-from": [""],
    "holes-origins": [""],
    "is-nan": ["binary64/proofs/Patterns.antt"],
    "no_digit": ["lines/proofs/Printed.antt"],
    "of-multipolygon": [""],
    "on-grid": [""],
    "only_part": ["frames/proofs/Entries.antt", "frames/proofs/Counts.antt", "frames/proofs/parts/answer_in/Proof.antt"],
    "part_bytes": ["frame_parts/proofs/CutParts.antt"],
    "part_room": ["frames/proofs/Listings.antt", "frames/proofs/Entries.antt"],
    "parts_from": ["frames/proofs/Entries.antt"],
}
EXTRA = "le lt eq mul add sub div suc zero neg append nil cons succ pred".split()
# an antt name: what stands between spaces and brackets, dots and marks
TOKEN = re.compile(r"[^\s(){}\[\];,.:`«»\"|λ◌⌜⌝]+")


def antt_files(top, keep):
    for folder, dirs, files in os.walk(top):
        dirs[:] = sorted(d for d in dirs if d not in ("out", ".git", "target"))
        for name in sorted(files):
            path = os.path.join(folder, name)
            if keep(path):
                yield path


def is_walk(path):
    return os.path.basename(path) == "Proof.antt"


def declared(text):
    """The names that a file declares: definitions, lemmas, fields and constructors."""
    found = set()
    for m in re.finditer(r"^\s*(?:(?:abbrev|unfoldable|pub) )*([^\s:(){}\[\].,;]+(?: [a-z][\w₀-₉'-]*)*)\s*:(?=\s)", text, re.M):
        found.update(m.group(1).split())
    return found


def library_names():
    found = set()
    for path in antt_files(os.path.join(KIT, "rattle"), lambda p: p.endswith(".antt")):
        with open(path, encoding="utf-8", errors="replace") as f:
            found |= declared(f.read())
    return found


def snake(part):
    if not re.search(r"[a-z0-9₀-₉'][A-Z]", part):
        return part
    part = re.sub(r"([a-z0-9₀-₉'])([A-Z])", lambda m: m.group(1) + "_" + m.group(2).lower(), part)
    return re.sub(r"([a-z])([0-9])", r"\1_\2", part)


def spelling(name, words):
    parts = [snake(p) for p in name.split("-")]
    out = parts[0]
    for a, b in zip(parts, parts[1:]):
        out += ("-" if a in words and b in words else "_") + b
    return out


def renamings(root):
    own, words, taken = set(), set(EXTRA), set()
    for path in antt_files(os.path.join(root, "crates"), lambda p: p.endswith(".antt") and not is_walk(p)):
        with open(path, encoding="utf-8") as f:
            text = f.read()
        names = declared(text)
        own |= names
        own |= {w for w in TOKEN.findall(re.sub(r"--.*", "", text)) if re.fullmatch(r"[a-z][\w']*[a-z0-9][A-Z][\w']*", w)}
        if "/specs/" in path:
            words |= {snake(n) for n in names if "-" not in n}
    with open(os.path.join(KIT, "rattle/core/specs/Prelude.antt"), encoding="utf-8") as f:
        words |= {w for w in re.findall(r"[\w']+", f.read())}
    taken = library_names()
    table = {}
    for name in sorted(own):
        if not name[0].islower() or name in taken:
            continue
        new = spelling(name, words)
        if new != name:
            table[name] = new
    for name in LEMMAS:
        table.pop(name, None)
    return table


def table_of(path, table):
    """The table for one file, with the lemmas that are told apart there."""
    here = dict(table)
    for name, files in LEMMAS.items():
        if any(path.endswith(f) for f in files):
            here[name] = name.replace("-", "_") + "_lem"
    return here


def clashes(path, text, table):
    """Pairs of names of one file that would fall together."""
    words = set(TOKEN.findall(re.sub(r"--.*", "", text)))
    turned = {}
    for word in words:
        turned.setdefault(table.get(word, word), []).append(word)
    return [f"{path}: {' '.join(sorted(w))}" for w in turned.values() if len(w) > 1]


def turn_words(text, table):
    return TOKEN.sub(lambda m: table.get(m.group(0), m.group(0)), text)


def turn_line(line, table, mark):
    """Turns the code of a line whole, and of its comment what stands between backticks."""
    at = line.find(mark)
    if at < 0 or (at > 0 and line[at - 1] not in " \t"):
        return turn_words(line, table)
    code, comment = line[:at], line[at:]
    return turn_words(code, table) + re.sub(r"`[^`]*`", lambda m: turn_words(m.group(0), table), comment)


def turn(text, table, mark):
    return "".join(turn_line(l, table, mark) for l in text.splitlines(keepends=True))


def modules(text):
    return re.sub(r"\b(Clip|FrameBytes|Part|Tile)?Contracts\b(?!\.antt)", lambda m: (m.group(1) or "") + "Internal", text).replace("Contracts.antt", "Internal.antt")


def rewrite(path, change, dry):
    with open(path, encoding="utf-8") as f:
        text = f.read()
    new = change(text)
    if new != text and not dry:
        with open(path, "w", encoding="utf-8") as f:
            f.write(new)
    return new != text


def add_tactic(text):
    if "#![tactic(" in text:
        return text
    lines = text.splitlines(keepends=True)
    at = 0
    while at < len(lines) and (lines[at].startswith("//") or not lines[at].strip()):
        at += 1
    return "".join(lines[:at]) + "#![tactic(auto)]\n\n" + "".join(lines[at:])


def main():
    dry = "--dry" in sys.argv
    root = subprocess.run(["git", "rev-parse", "--show-toplevel"], capture_output=True, text=True, check=True).stdout.strip()
    table = renamings(root)
    if dry:
        for name, new in sorted(table.items()):
            print(name, new)
    crates = os.path.join(root, "crates")
    changed = 0
    for path in antt_files(crates, lambda p: p.endswith("specs/Contracts.antt")):
        if not dry:
            subprocess.run(["git", "mv", path, path.replace("Contracts.antt", "Internal.antt")], check=True)
    for path in antt_files(crates, lambda p: p.endswith(".antt")):
        here = table_of(path, table)
        if dry and not is_walk(path):
            with open(path, encoding="utf-8") as f:
                print("\n".join(clashes(path, f.read(), here)))
        changed += rewrite(path, lambda t: turn(modules(t), here, "--"), dry)
    for path in antt_files(crates, lambda p: p.endswith(".rt")):
        def change(t, path=path):
            t = turn(modules(t), table, "//")
            return add_tactic(t) if re.search(r"/src/(lib|main)\.rt$", path) else t
        changed += rewrite(path, change, dry)
    for path in antt_files(crates, lambda p: p.endswith(".edit")):
        changed += rewrite(path, lambda t: turn_words(modules(t), table), dry)
    for path in antt_files(root, lambda p: p.endswith(".md") and "/landings/" not in p and "/docs/PORT" not in p):
        def change(t):
            return re.sub(r"`[^`\n]*`", lambda m: turn_words(modules(m.group(0)), table_of("", table)), t)
        changed += rewrite(path, change, dry)
    print(f"{len(table)} names, {changed} files")


main()
