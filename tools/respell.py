#!/usr/bin/env python3
"""Brings the repository's own definitions and lemmas to the spelling of today's Rattle: words in snake case.

    python3 tools/respell.py            at the top of the repository, once, right after port.py
    python3 tools/respell.py --look     prints what it would do, and what falls together, and writes nothing

It renames what specs/*.antt and proofs/*.antt declare (`isWidth` to `is_width`, `law-of-shelves` to `law_of_shelves`),
wherever that stands as a word of its own: in .antt files, in the ghost items and clauses of .rt files, and between
back quotes in docs. What Rattle makes (goals, steps, labels) and what its library declares keep their names; so do
functions of src/, strings and comments.
"""
import collections
import re
import sys
from pathlib import Path

WORD = re.compile(r"[^\s(){}\[\]⟦⟧,;.:=λ→`\"|↦?]+")
HEAD = re.compile(r"^(\s*)((?:(?:abbrev|unfoldable|pub|data|record)\s+)*)([^\s:(){}.]+)(\s*(?:[({].*)?)\s:\s")
USE = re.compile(r"^\s*(?:ghost )?use ((?!Rattle\.(?:%s)\.)[\w.·]+)\.\{([^}]*)\}")

# two names that would become one: where (a path's beginning), the old word, the new one
APART = [
    ("crates/code/proofs/", "bit-xor", "bit-bit_xor"),
    ("crates/lab/proofs/line/write_line/", "told_text", "text_told"),
    ("crates/shelf/proofs/", "is-width", "is_width-kept"),
    ("crates/shelf/proofs/", "are-columns", "are_columns-kept"),
    ("crates/shelf/proofs/Finding.antt", "in-service", "in_service-read"),
    ("crates/shelf/proofs/", "is-place", "is_place-parity"),
    ("crates/shelf/proofs/", "is-shaped", "is_shaped-kept"),
    ("crates/shelf/proofs/", "once-each", "once_each-cases"),
    ("crates/shelf/", "in-service", "places_in_service"),
    ("crates/shelf/", "lines_of", "line_places"),
]


def files():
    for p in sorted(Path("crates").rglob("*")):
        if p.suffix in (".antt", ".rt") and "out" not in p.parts:
            yield p


def snake(name):
    name = name.replace("-", "_")
    if name[:1].islower():
        name = re.sub(r"(?<=[a-z0-9'])([A-Z])", lambda m: "_" + m[1].lower(), name)
    return name


def is_ours(p):
    """A file of definitions or lemmas, and none that answers a function's goals."""
    return p.suffix == ".antt" and len(p.parts) == 4


def declared():
    names = set()
    for p in files():
        if is_ours(p):
            for line in p.read_text().splitlines():
                m = HEAD.match(line)
                if m and not line.lstrip().startswith("--"):
                    names.add(m[3])
    return names


def foreign():
    """What is brought in from the library."""
    crates = "|".join(sorted(p.name for p in Path("crates").iterdir()))
    use = re.compile(USE.pattern % crates)
    names = set()
    for p in files():
        for line in p.read_text().splitlines():
            if m := use.match(line):
                names |= {w.strip() for w in m[2].split(",")}
    return names


def code_spans(text, suffix):
    """(is_code, part) of a file: in .rt files comments and strings are left alone, in .antt files comments."""
    mark = r"//[^\n]*|b?\"(?:[^\"\\]|\\.)*\"" if suffix == ".rt" else r"(?<!\S)--(?= |-|$)[^\n]*"
    at = 0
    for m in re.finditer(mark, text, re.M):
        yield True, text[at:m.start()]
        yield False, m[0]
        at = m.end()
    yield True, text[at:]


def respelled(p, text, names):
    here = {old: new for where, old, new in reversed(APART) if str(p).startswith(where)}

    def word(m):
        w = m[0]
        return here.get(w) or names.get(w, w)

    def ticked(m):
        return "`" + WORD.sub(word, m[1]) + "`"

    if p.suffix == ".md":
        return re.sub(r"`([^`\n]+)`", ticked, text)
    return "".join(WORD.sub(word, part) if code else re.sub(r"`([^`\n]+)`", ticked, part) for code, part in code_spans(text, p.suffix))


def main(look):
    keep = foreign()
    names = {n: snake(n) for n in declared() - keep if snake(n) != n}
    words = collections.defaultdict(set)
    for p in files():
        for code, part in code_spans(p.read_text(), p.suffix):
            if code:
                for w in WORD.findall(part):
                    words[w].add(str(p))
    for old, new in sorted(names.items()):
        both = words[old] & words[new]
        if both:
            print(f"falls together: {old} and {new} in {', '.join(sorted(both)[:3])}")
    print(f"{len(names)} names")
    if look:
        for old, new in sorted(names.items()):
            print(f"{old} {new}")
        return
    for p in [*files(), *sorted(Path("docs").glob("*.md")), Path("README.md")]:
        text = p.read_text()
        now = respelled(p, text, names)
        if now != text:
            p.write_text(now)


main("--look" in sys.argv[1:])
