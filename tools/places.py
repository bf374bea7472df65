#!/usr/bin/env python3
"""Lists places in the source of the crates where the older language shows, by the points of docs/DESIGN-PASS.md.

usage: python3 tools/places.py [CHECKOUT]     (this checkout, where none is named)

The patterns only say where to look: which of their lines are places, and what became of each, stands in docs/DESIGN-PASS.md. Test modules
and the crates that hold only tests are left out.
"""

import collections
import glob
import itertools
import os
import re
import sys

TOP = sys.argv[1] if len(sys.argv) > 1 else os.path.join(os.path.dirname(os.path.abspath(__file__)), "..")
TESTS = re.compile(r"(event|rule|judge)cases/")

# for each point: what is looked for, and its pattern
PATTERNS = {
    1: [
        ("`?` written out on an Option", r"else \{\s*return (?:None|Ok\(None\));\s*\}"),
        ("a case handed on as it is", r"\bNone => (?:None|Ok\(None\))\b|\bErr\((\w+)\) => (?:return )?Err\(\1\)|if let Err\((\w+)\) = [^{]*\{\s*return Err\(\2\)"),
        ("a test of an Option or a truth written out", r"Some\(_\) => true,\s*None => false|if [^{\n]* \{ (?:1|0) \} else \{ (?:1|0) \}|let Some\(_\) = "),
        ("an enum with an empty case of absence", r"enum \w+ \{\s*(?://[^\n]*\s*)?(?:Nothing|None|Absent|Nowhere|Any|Unguarded)\b"),
        ("a truth or a number for what came of a call", r"-> anyhow::Result<bool>|-> Result<[^\n{]*, u(?:8|32)>|pub fn \w+\(\) -> u8"),
        ("numbers for kinds", r"^(?:pub\(crate\) )?const (?!SPACE|NEWLINE|MOST|FIRST_D|LAST_D)[A-Z_]+: u8 = |^ +\d+ => [a-zA-Z:_]+[(,]"),
    ],
    3: [
        ("a loop over numbers", r"for \w+ in 0[^{]*\{"),
        ("a `while`", r"while [^{]*\{"),
        ("a search written out", r"for [^{]*\{\s*if [^{]*\{\s*return [^;]*;\s*\}\s*\}"),
    ],
    4: [
        ("equality, order, copying", r"impl (?:PartialEq|Eq|PartialOrd|Ord|Clone) for \w+|fn (?:same\w*|copy|contains)\((?!self)"),
        ("conversion", r"fn (?:refusal|index|number|var|join)\((?!self, other)[^)]*\) -> (?!Result)"),
        ("printing", r"fn \w+\([^)]*\) -> Result<(?:String|\(\)), AllocError>(?=[^{]*\n[^{]*string_bytes)|fn (?:words|cause|text|verdict_word)\([^)]*\) -> &'static str"),
        ("a text that stands elsewhere too", r"=> \"broken\"|f\.write_str\(\"number too large\""),
    ],
    6: [
        ("an array with a fixed number of elements", r"^ +(?:pub(?:\(crate\))? )?\w+: &?(?:mut )?\[[\w:]+; [\w]+\]|\(.*: &?(?:mut )?\[[\w:]+; [\w]+\]|-> \[[\w:]+; [\w]+\]|let mut \w+ = \[[^\]]*; \w+\]"),
    ],
    7: [
        ("a switch", r"\bwhich: Links|\b(?:rising|there|announced): bool"),
    ],
}


def sources():
    for path in sorted(glob.glob(os.path.join(TOP, "crates/*/src/**/*.rt"), recursive=True)):
        name = os.path.relpath(path, os.path.join(TOP, "crates"))
        if not TESTS.match(name):
            yield name, open(path).read().split("#[cfg(test)]")[0]


def item_at(text, at):
    named = re.findall(r"\bfn (\w+)|\benum (\w+)|\bstruct (\w+)", text[:at])
    return next((n for n in named[-1] if n), "") if named else ""


def functions(text):
    for m in re.finditer(r"\bfn (\w+)(?:<[^>(]*>)?\(([^)]*)\)", text):
        clauses = re.split(r"\n *\{\n", text[m.start():], maxsplit=1)[0]
        yield m.group(1), m.group(2), clauses


files = list(sources())
for point, patterns in PATTERNS.items():
    lines = []
    for what, pattern in patterns:
        for path, text in files:
            for m in re.finditer(pattern, text, re.MULTILINE):
                line = text.count("\n", 0, m.start()) + 1
                lines.append(f"    {path}:{line} {item_at(text, m.end())}: {what}")
    print(f"point {point}: {len(lines)}")
    print("\n".join(lines))

KEPT = set("fn let mut for in if else match return while as pub self Self Ok Err Some None true false ref move".split())


def shape(text):
    """A function's signature and body with every name, number and text made the same."""
    text = re.sub(r"//[^\n]*", "", text)
    text = re.sub(r"\n +(?:requires|ensures)[^\n]*", "", text)
    text = re.sub(r'b?"(?:[^"\\]|\\.)*"|b?\'(?:[^\'\\]|\\.)\'', "s", text)
    text = re.sub(r"\b\d\w*\b", "n", text)
    text = re.sub(r"\b[A-Za-z_]\w*\b", lambda m: m.group(0) if m.group(0) in KEPT else "x", text)
    return re.sub(r"\s+", " ", text)


def bodies(text):
    for m in re.finditer(r"^( *)(?:pub(?:\(crate\))? )?fn (\w+).*?^\1\}$", text, re.MULTILINE | re.DOTALL):
        yield m.group(2), m.group(0)


twins = collections.defaultdict(list)
for path, text in files:
    for name, body in bodies(text):
        if len(body) > 120:
            twins[shape(body)].append(f"{path}: {name}")
alike = [v for v in twins.values() if len(v) > 1]
print(f"point 2: {len(alike)} groups of functions of one shape, {sum(map(len, alike))} functions")
for v in alike:
    print("    " + ", ".join(v))

shared = collections.defaultdict(set)
together = collections.defaultdict(set)
for path, text in files:
    crate = path.split("/")[0]
    for name, params, clauses in functions(text):
        for c in re.findall(r"requires (?:\w+ )?\{ ([^\n]*) \}", clauses):
            shared[f"{crate}: {c}"].add(name)
        names = sorted(p.split(":")[0].strip() for p in params.split(",") if ":" in p and "self" not in p)
        for three in itertools.combinations(names, 3):
            together[f"{crate}: {', '.join(three)}"].add(name)
facts = {k: v for k, v in shared.items() if len(v) >= 3}
groups = {k: v for k, v in together.items() if len(v) >= 3}
print(f"point 5: {len(facts)} facts in three contracts or more, {len(groups)} threes of parameters in three functions or more")
for k, v in list(facts.items()) + list(groups.items()):
    print(f"    {k}: {' '.join(sorted(v))}")
