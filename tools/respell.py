#!/usr/bin/env python3
"""Brings the repository's own names to the spelling of today's Rattle. Run once, at the top, behind the toolchain's port.py.

Definitions, lemmas, fields and constructors of specs/ and proofs/ get snake case (`barAnswer` and `bar-answer`: `bar_answer`), and
statements get camel case (`One-tree-is-told`: `OneTreeIsTold`), in .antt files, in the clauses of .rt files, and where pages cite them.
Functions, types and other names of the code stay as they are. The names that would fall together are in APART.
"""

import collections
import glob
import re
import sys

# Names that would fall together with another name, and what they are called instead.
APART = {
    "in-form": "line_in_form",
    "at-finish": "finish_is_sound",
    "is-loose": "loose_marks",
    "rule-count": "counts_rules",
    "all-rows": "rows_have_64",
    "first-record": "records_split",
    "step-told": "tells_step",
    "tree-bytes": "tree_is_its_records",
    "children-bytes": "children_are_their_records",
    "record-bytes": "record_has_bytes",
    "all-bytes": "records_have_bytes",
}

TOKEN = r"[A-Za-z0-9_◌'-]+"
KEYWORDS = r"^\s*(?:(?:abbrev|pub|unfoldable|opaque)\s+)*"
DEFINED = re.compile(KEYWORDS + r"(" + TOKEN + r")\s*:(?![=:])\s*(.*)$")
NAMED = re.compile(KEYWORDS + r"(?:record|data)\s+(" + TOKEN + r")")
ALIAS = re.compile(r"\bas\s+(" + TOKEN + r")")
GENERATED = re.compile(r"^(goal|given)\.")
CLAUSE = re.compile(r"^\s*(?:pub\s+)?(?:ghost\b|(?:requires|ensures)\b)")


def antt():
    return sorted(f for f in glob.glob("crates/**/*.antt", recursive=True) if "/out/" not in f)


def rust():
    return sorted(glob.glob("crates/*/src/**/*.rt", recursive=True))


def camel(name):
    words = name.split("-")
    out = words[0]
    for w in words[1:]:
        out += ("_" if out[-1].isdigit() and w[0].isdigit() else "") + w[0].upper() + w[1:]
    return out


def spelled(name):
    if name in APART:
        return APART[name]
    if name[0].isupper():
        return camel(name)
    return re.sub(r"([a-z0-9])([A-Z])", lambda m: m.group(1) + "_" + m.group(2).lower(), name).replace("-", "_")


def own_names():
    """The names that the repository defines, with the files that do."""
    names = collections.defaultdict(set)
    for f in antt():
        for line in open(f, encoding="utf-8"):
            if line.lstrip().startswith("--"):
                continue
            m = DEFINED.match(line)
            if m and not GENERATED.match(m.group(2)):
                names[m.group(1)].add(f)
            m = NAMED.match(line)
            if m:
                names[m.group(1)].add(f)
            if "use " in line:
                for n in ALIAS.findall(line):
                    names[n].add(f)
    for f in rust():
        for line in open(f, encoding="utf-8"):
            if "ghost use" in line:
                for n in ALIAS.findall(line):
                    names[n].add(f)
    return names


def turned(text, new):
    return re.sub(TOKEN, lambda m: new.get(m.group(0), m.group(0)), text)


def main():
    names = own_names()
    new = {n: spelled(n) for n in names if spelled(n) != n}
    # In prose a name with a hyphen may be an English word.
    prose = {n: s for n, s in new.items() if "-" not in n or n[0].isupper()}
    back = collections.defaultdict(set)
    for n, s in new.items():
        back[s].add(n)
    for s, ns in sorted(back.items()):
        if len(ns) > 1 or s in names:
            print(f"fall together: {s}: {sorted(ns | ({s} & set(names)))}", file=sys.stderr)
            return 1
    for f in antt():
        t = open(f, encoding="utf-8").read()
        out = []
        for line in t.split("\n"):
            code, dashes, comment = line.partition("--") if line.lstrip().startswith("--") or " -- " in line else (line, "", "")
            out.append(turned(code, new) + dashes + turned(comment, prose))
        write(f, t, "\n".join(out))
    for f in rust():
        t = open(f, encoding="utf-8").read()
        out, depth = [], 0
        for line in t.split("\n"):
            # a clause or a ghost item, to the line that closes it
            if depth > 0 or CLAUSE.match(line):
                depth += line.count("{") - line.count("}")
                out.append(turned(line, new))
            else:
                out.append(turned(line, prose) if line.lstrip().startswith("//") else line)
        write(f, t, "\n".join(out))
    for f in ["README.md"] + sorted(glob.glob("docs/*.md")):
        t = open(f, encoding="utf-8").read()
        write(f, t, re.sub(r"`[^`\n]+`", lambda m: turned(m.group(0), prose), t))
    print(f"{len(new)} names respelled")
    return 0


def write(f, old, text):
    if text != old:
        with open(f, "w", encoding="utf-8") as out:
            out.write(text)


if __name__ == "__main__":
    raise SystemExit(main())
