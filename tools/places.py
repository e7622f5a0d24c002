#!/usr/bin/env python3
"""Lists the places in crates/*/src that a design pass looks at, point by point, with their counts.

    python3 tools/places.py [COMMIT]      the places at a commit, or in the checkout
    python3 tools/places.py --count ..    the counts alone

A line that is listed is a place to judge, and not yet one to change. docs/DESIGN-PASS.md says what was made of each.
"""
import collections
import re
import subprocess
import sys

POINTS = [
    ("1 enums", r"^\s*(pub(\([a-z]+\))? )?enum "),
    ("1 yes or no beside a change", r"fn .*&mut .*-> (bool|\(.*bool)|fn (strike|store|copy_out|push)\b.*"),
    ("1 a flag beside a value", r"^\s*(pub(\([a-z]+\))? )?[a-z_]+: bool,"),
    ("1 a value and its refusal side by side", r"-> \(.*Result<"),
    ("1 numbers for kinds or refusals", r"fn .*-> (u8|Option<u8>|\(u8, ?u(16|size)\)|Option<\(u8, usize\)>)|^const [A-Z_]+: u8 =|\b(number|refusal|fault): u(8|32)\b"),
    ("3 counted indices and searches", r"for \(?[a-z_]+(, [a-z_]+)?\)? in .*(\.\.|enumerate\(\))|\bwhile "),
    ("4 conversions and printing", r"fn ([a-z]+_of|of_[a-z_]+|[a-z]+_by|[a-z]+_text|[a-z]+_line|words|numbered|outcome)\b|impl.* (From|TryFrom|fmt::Display)\b"),
    ("6 a length or a place beside a buffer", r"\b(len|depth|done|used|written|begin|offset|read): (&mut )?usize\b|let mut (done|written|begin|count|rest|number) = "),
    ("6 parallel arrays and numbered cells", r"\[[a-z]+ as usize\]|\.get(_mut)?\((usize::from|number|parent|above|newest|place)"),
    ("7 a switch on a step, dyn, fn pointers", r"\b(Step|Phase|Progress|Order|Setting|Pending)::|dyn |: fn\("),
]


def files(commit):
    if commit:
        names = subprocess.run(["git", "ls-tree", "-r", "--name-only", commit, "crates"], capture_output=True, text=True, check=True).stdout.split()
    else:
        names = subprocess.run(["git", "ls-files", "-co", "--exclude-standard", "crates"], capture_output=True, text=True, check=True).stdout.split()
    for name in sorted(names):
        if re.match(r"crates/[^/]+/src/.*\.rt$", name):
            yield name


def text(commit, name):
    if commit:
        return subprocess.run(["git", "show", f"{commit}:{name}"], capture_output=True, text=True, check=True).stdout
    with open(name, encoding="utf-8") as f:
        return f.read()


def heads(source):
    """The heads of functions, each on one line."""
    for match in re.finditer(r"^[ ]*(?:pub(?:\([a-z]+\))? )?fn [^{;]*?(?=\n\s*(?:requires|ensures)|\s*\{|;)", source, re.M | re.S):
        yield source.count("\n", 0, match.start()) + 1, " ".join(match.group(0).split())


def main():
    arguments = [a for a in sys.argv[1:] if a != "--count"]
    count_alone = "--count" in sys.argv
    commit = arguments[0] if arguments else None
    sources = {name: text(commit, name) for name in files(commit)}
    found = collections.OrderedDict()
    for title, pattern in POINTS:
        found[title] = [(n, i + 1, line.strip()) for n, s in sources.items() for i, line in enumerate(s.split("\n"))
                        if re.search(pattern, line) and not line.lstrip().startswith(("//", "ghost use", "use "))]
    named, long_heads, clauses = collections.defaultdict(list), [], collections.defaultdict(list)
    for name, source in sources.items():
        for line, head in heads(source):
            word = re.search(r"fn ([a-z_0-9]+)", head).group(1)
            named[word].append((name, line, head))
            if head.count(": ") - head.split("->")[0].count("<B: ") >= 6:
                long_heads.append((name, line, head))
        for i, line in enumerate(source.split("\n")):
            match = re.match(r"\s*(requires|ensures)[ a-z_]*\{(.*)\}", line)
            for part in re.findall(r"[a-z_]+(?: [a-z.]+(?:\.(?:now|old|new|entry))+[a-z.]*)+", match.group(2) if match else ""):
                clauses[(name.split("/")[1], part.replace(".old", ".now").replace(".new", ".now"))].append((name, i + 1, line.strip()))
    traits = {"start", "symbols", "rules", "left", "mark", "parts", "part", "next", "new", "number", "main"}
    found["2 one name for several functions"] = [p for word, ps in sorted(named.items()) if len(ps) > 1 and word not in traits for p in ps]
    types = collections.defaultdict(list)
    for name, source in sources.items():
        for i, line in enumerate(source.split("\n")):
            match = re.match(r"\s*(?:pub(?:\([a-z]+\))? )?(?:struct|enum) ([A-Z][A-Za-z]*)", line)
            if match:
                types[match.group(1)].append((name, i + 1, line.strip()))
    found["2 one name for several types"] = [p for word, ps in sorted(types.items()) if len(ps) > 1 for p in ps]
    found["5 six parameters and more"] = long_heads
    found["5 one term in three clauses and more"] = [(ps[0][0], ps[0][1], f"{len(ps)} times: {key[1]}") for key, ps in sorted(clauses.items()) if len({p[1] for p in ps}) > 2]
    for title in sorted(found):
        print(f"{title}: {len(found[title])}")
        if not count_alone:
            for name, line, what in found[title]:
                print(f"    {name}:{line}: {what[:140]}")


main()
