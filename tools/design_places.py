#!/usr/bin/env python3
"""Lists the places in crates/*/src that docs/DESIGN-PASS.md counts, point by point.

    python3 tools/design_places.py            the number of places for each point, by crate
    python3 tools/design_places.py 3          the places of point 3, each as file:line: text
    python3 tools/design_places.py 3 COMMIT   the same at a commit

A line that is listed is a place to look at; what it is, the page says.
"""
import collections
import re
import subprocess
import sys

ROOT = "crates/"

# For each point, what a line of code (without its comment) looks like that may be such a place.
LINES = {
    "1": [
        r"\b\w+: bool\b",                                   # a flag: a field or a parameter
        r"-> (Result<bool|bool, |\(bool)",                  # a flag in an answer
        r"\b(number|code|kind|level|mode)\w*: u(8|16|32|64|size)\b",
        r"-> u8\b",                                         # a number for a kind or a refusal
        r"\(\w+, bool|bool\)[,;]",                          # a flag in a variant
        r"\b(none|NONE|MISSING|usize::MAX|i64::MAX|i64::MIN)\b",
        r"unwrap_or\(0\)|=> 0,|else \{ 0 \}",               # a number for nothing
    ],
    "3": [
        r"\bfor \w+ in [^{]*\.\.",                           # over a range of indices
        r"\bwhile\b",
        r"\bloop \{",
        r"\+= 1;",
        r"\.enumerate\(\)",
    ],
    "4": [
        r"\bfn (same|is_same|equals?|eq|ne|cmp|less)\w*\(",
        r" as u8 == | as usize == ",
        r"\bfn (is_)\w+\(self\)",
        r"\bfn (refusal|number|word|text|\w+_text|to_\w+|into_\w+|sign_of|cell|packed|\w+_named)\(",
        r"\bfn copy\w*\(",
        r"\bformat!\(|push_str|from_str\(",
    ],
    "6": [
        r"\[[A-Za-z_][\w<>&'\[\]; ]*; [A-Z0-9_a-z]+\]",      # an array
        r"\b(count|len|used|size)\w*: usize,",               # a length beside a buffer
        r"\w\((\w+, )*usize\),",                             # an index in a variant
    ],
    "7": [
        r"\bdyn\b|\bfn\(|\bimpl Fn|: Fn(Once|Mut)?\(",
        r"\bmatch (kind|class|function|self|call|step|sign|which)\b",
    ],
}


def files(commit):
    if commit:
        names = subprocess.run(["git", "ls-tree", "-r", "--name-only", commit, ROOT], text=True, capture_output=True, check=True).stdout.split("\n")
    else:
        names = subprocess.run(["git", "ls-files", ROOT], text=True, capture_output=True, check=True).stdout.split("\n")
    for name in sorted(names):
        if re.match(r"crates/\w+/src/.*\.rt$", name):
            if commit:
                text = subprocess.run(["git", "show", f"{commit}:{name}"], text=True, capture_output=True, check=True).stdout
            else:
                text = open(name, encoding="utf-8").read()
            yield name, text


def code_lines(text):
    """Each line with its number, without comments, clauses and imports for proofs."""
    for number, line in enumerate(text.split("\n"), 1):
        line = re.sub(r"//.*", "", line)
        if re.match(r"\s*(ghost|ensures|requires|use|pub use)\b", line):
            continue
        yield number, line


def functions(text):
    """Each function: its line, name, parameters, clauses and body."""
    for m in re.finditer(r"^([ \t]*)(pub(\([a-z]+\))? )?fn (\w+)(<[^>(]*>)?\(", text, re.M):
        indent = m.group(1)
        end = re.search(r"^" + indent + r"(\}|.*;)$", text[m.end():], re.M)
        whole = text[m.start(): m.end() + (end.end() if end else 0)]
        clauses = re.findall(r"^\s+(?:ensures|requires)(?: \w+)? \{ (.*) \}$", whole, re.M)
        body = re.split(r"\n" + indent + r"\{\n", whole, maxsplit=1)
        head = whole[: whole.index(")") if ")" in whole else len(whole)]
        parameters = re.findall(r"\b(\w+): ([^,)]+)", whole[whole.index("(") + 1: whole.find(")\n") if ")\n" in whole else len(head)])
        yield text[: m.start()].count("\n") + 1, m.group(4), parameters, clauses, body[1] if len(body) > 1 else ""


def shape(body):
    """A body without what makes one twin differ from another: numbers, types, constants, words of text."""
    body = re.sub(r"//.*", "", body)
    body = re.sub(r'b?"[^"]*"|b?\'[^\']*\'', "'", body)
    body = re.sub(r"\b[A-Z]\w*(::[A-Z]\w*)*", "T", body)
    body = re.sub(r"\b\d[\d_]*\b", "0", body)
    return re.sub(r"\s+", "", body)


def twins(commit):
    """Bodies that are alike, and names of functions that stand in more than one place outside of a trait."""
    bodies = collections.defaultdict(list)
    names = collections.defaultdict(list)
    for name, text in files(commit):
        for line, fn, _, _, body in functions(text):
            if len(shape(body)) > 24:
                bodies[shape(body)].append((name, line, fn))
            if "_cases/" not in name:
                names[fn].append((name, line, fn))
    for group in bodies.values():
        if len(group) > 1:
            for name, line, fn in group:
                yield name, line, f"fn {fn} has the body of {len(group) - 1} other(s)"
    for fn, group in names.items():
        if len(group) > 1 and fn not in ("new", "from", "fmt"):
            for name, line, fn in group:
                yield name, line, f"fn {fn} has a name that {len(group)} functions have"


def facts(commit):
    """Clauses that stand word for word in three functions or more, and pairs of parameters that three functions or more take."""
    clauses = collections.defaultdict(list)
    pairs = collections.defaultdict(list)
    for name, text in files(commit):
        crate = name.split("/")[1]
        for line, fn, parameters, said, _ in functions(text):
            for c in said:
                clauses[(crate, c)].append((name, line, fn))
            if crate.endswith("_cases"):
                continue
            own = [(a, b.strip()) for a, b in parameters if a not in ("self", "rt")]
            for i in range(len(own)):
                for j in range(i + 1, len(own)):
                    pairs[(own[i], own[j])].append((name, line, fn))
    for (crate, c), group in clauses.items():
        if len(group) > 2:
            for name, line, fn in group:
                yield name, line, f"fn {fn}: {{ {c} }} ({len(group)} in {crate})"
    for (a, b), group in pairs.items():
        if len(group) > 2:
            for name, line, fn in group:
                yield name, line, f"fn {fn}: {a[0]}: {a[1]}, {b[0]}: {b[1]} ({len(group)} functions)"


def proofs(commit):
    """Answers and lemmas in proofs/, as lines that state one."""
    names = subprocess.run(["git", "ls-tree", "-r", "--name-only", commit or "HEAD", ROOT], text=True, capture_output=True, check=True).stdout.split("\n")
    for name in sorted(names):
        if re.match(r"crates/\w+/proofs/.*\.antt$", name):
            text = subprocess.run(["git", "show", f"{commit or 'HEAD'}:{name}"], text=True, capture_output=True, check=True).stdout
            for number, line in enumerate(text.split("\n"), 1):
                if re.match(r"(abbrev |unfoldable )?(pub )?[\w\-◌⊎∷]+ : ", line):
                    yield name, number, line


def places(point, commit):
    if point == "2":
        return list(twins(commit))
    if point == "5":
        return list(facts(commit))
    if point == "8":
        return list(proofs(commit))
    found = []
    for name, text in files(commit):
        for number, line in code_lines(text):
            if any(re.search(p, line) for p in LINES[point]):
                found.append((name, number, line.strip()))
    return found


def main():
    if len(sys.argv) > 1:
        for name, number, line in places(sys.argv[1], sys.argv[2] if len(sys.argv) > 2 else None):
            print(f"{name}:{number}: {line}")
        return
    for point in "12345678":
        found = places(point, None)
        by_crate = collections.Counter(name.split("/")[1] for name, _, _ in found)
        print(point, len(found), " ".join(f"{c}:{n}" for c, n in sorted(by_crate.items())))


main()
