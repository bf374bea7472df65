#!/usr/bin/env python3
"""Brings this repository's own definitions, lemmas, constructors and fields to snake case.

usage: python3 tools/respell.py            at the top of the repository, once, after the kit's port.py
       python3 tools/respell.py --list     prints the renaming, and names that would fall together, and changes nothing

A name is respelled where a specs/ or proofs/ file declares it: every dash becomes an underscore, and every capital inside a
word an underscore and the small letter. So is the name that an import gives (`as`). Names that Rattle makes (goals, steps, labels) and names of the library stay, and so do the code of
src/, strings and comments. The text of must-fail edits is turned as the file is that an edit is for.
"""

import glob
import re
import sys

IDENT = r"[^\W\d][\w'-]*"
DECLARED = re.compile(r"^(\s*)((?:pub |abbrev |unfoldable )*)(" + IDENT + r"(?: " + IDENT + r")*)\s*:(?!:)")
TOKEN = re.compile(r"(\.)?(" + IDENT + r")")
# a name that is a word of the library's too, or that another name of ours has: chosen by hand
CHOSEN = {
    "freeAtStart": "is_free_at_start",
    "wellFormed": "is_well_formed",
    "onLeft": "outcomes_on_left",
    "onRight": "outcomes_on_right",
    "underBinder": "outcomes_under_binder",
    "underFilter": "outcomes_under_filter",
}


ALIAS = re.compile(r"\bas (" + IDENT + r")")


def snake(name):
    words = re.sub(r"(?<=[a-z0-9])([A-Z])", lambda m: "_" + m.group(1).lower(), name)
    return words.replace("-", "_")


def files(*kinds):
    for kind in kinds:
        yield from sorted(glob.glob(f"crates/*/{kind}", recursive=True))


def logic():
    yield from files("specs/**/*.antt", "proofs/**/*.antt")


def declared():
    """The names that are declared, each with whether it is one at the left margin, and whether one inside (a field, a local, a constructor)."""
    outer, inner = set(), set()
    for path in logic():
        for line in open(path, encoding="utf-8"):
            if line.startswith("use "):
                outer |= {m.group(1) for m in ALIAS.finditer(line)}
                continue
            if line.lstrip().startswith("--") or ": goal." in line:
                continue
            m = DECLARED.match(line)
            if m:
                for name in m.group(3).split():
                    if name not in ("pub", "abbrev", "where", "let", "in"):
                        (inner if m.group(1) else outer).add(name)
    for path in files("src/**/*.rt"):
        for line in open(path, encoding="utf-8"):
            if line.startswith("ghost use "):
                outer |= {m.group(1) for m in ALIAS.finditer(line)}
    return outer, inner


def renaming():
    outer, inner = declared()
    to = {}
    for name in outer | inner:
        if not name[0].isupper() and snake(name) != name:
            to[name] = CHOSEN.get(name, snake(name))
    return to, inner


def turned(text, to, inner):
    def one(m):
        dot, name = m.group(1), m.group(2)
        if name not in to or (dot and name not in inner):
            return m.group(0)
        return (dot or "") + to[name]

    return TOKEN.sub(one, text)


def import_line(line, to, inner):
    """An import keeps its modules, and a name of the library stays; the name that it gets here is ours."""
    head, brace, names = line.partition(".{")
    if re.match(r"(ghost )?use Rattle\.(?!std\b)\w+\.", line):
        return head + brace + turned(names, to, inner)
    return head + brace + ALIAS.sub(lambda m: "as " + to.get(m.group(1), m.group(1)), names)


def antt_line(line, to, inner):
    """A line of .antt; a path in an import keeps its modules, and an import of the library stays."""
    if line.lstrip().startswith("--"):
        return line
    if line.startswith("use "):
        return import_line(line, to, inner)
    code, sep, comment = line.partition(" --")
    pieces = re.split(r'("[^"]*")', code)
    pieces[::2] = [turned(p, to, inner) for p in pieces[::2]]
    return "".join(pieces) + sep + comment


def rt_text(text, to, inner):
    """The ghost parts of a .rt text: imports, clauses and ghost members."""
    out, depth, ghost = [], 0, False
    for line in text.splitlines(keepends=True):
        if line.startswith("ghost use "):
            out.append(import_line(line, to, inner))
            continue
        if not ghost and re.match(r"\s*(ensures|requires|ghost|pub ghost)\b", line):
            ghost, depth = True, 0
        if ghost:
            out.append(turned(line, to, inner))
            depth += line.count("{") - line.count("}")
            ghost = depth > 0
        else:
            out.append(line)
    return "".join(out)


def edit_text(text, to, inner):
    if not re.search(r"^file: (specs|proofs)/", text, re.M):
        return text
    return "".join(line if line.startswith("file:") else line[:4] + antt_line(line[4:], to, inner) for line in text.splitlines(keepends=True))


def main():
    to, inner = renaming()
    if "--list" in sys.argv:
        words = set()
        for path in [*logic(), *files("src/**/*.rt")]:
            words |= {m.group(2) for m in TOKEN.finditer(open(path, encoding="utf-8").read())}
        seen = {}
        for name in sorted(to):
            seen.setdefault(to[name], []).append(name)
        for new, olds in sorted(seen.items()):
            print(*olds, "->", new, "(together)" if len(olds) > 1 else "", "(there already)" if new in words else "")
        return
    for paths, turn in (
        (logic(), lambda t: "".join(antt_line(x, to, inner) for x in t.splitlines(keepends=True))),
        (files("src/**/*.rt"), lambda t: rt_text(t, to, inner)),
        (files("must-fail/*.edit"), lambda t: edit_text(t, to, inner)),
    ):
        for path in list(paths):
            with open(path, encoding="utf-8") as f:
                old = f.read()
            new = turn(old)
            if new != old:
                with open(path, "w", encoding="utf-8") as f:
                    f.write(new)


main()
