#!/usr/bin/env python3
"""Respells the repository's own definitions, lemmas and local names in specs/, proofs/ and clauses: snake case for what
was in camel case or joined by dashes. Types, constructors that begin with a capital, modules, names that come from the
library and names that Rattle makes (goals, steps, invariants) stay. Run once, at the top, after port.py.

It goes by text and reports names that would fall together."""
import os
import re
import sys

NAME = re.compile(r"[A-Za-z_][A-Za-z0-9_'’-]*")
SIGN = re.compile(r"^\s*(?:abbrev |unfoldable |pub |private )*((?:[a-z_][A-Za-z0-9_'-]*\s+)+): ")
BINDER = re.compile(r"[({]((?:[a-z_][A-Za-z0-9_'-]*\s+)+): ")
LAMBDA = re.compile(r"λ ((?:[a-z_][A-Za-z0-9_'-]*\s+)*[a-z_][A-Za-z0-9_'-]*)\.")
LET = re.compile(r"\blet ([a-z_][A-Za-z0-9_'-]*)(?= [:=])")
MADE = re.compile(r"^(?:Inv|Mea|returns|loop|if|then|else|in|invariant|decreases|overflow|bounds|slice|nonzero|prove|offset|fields|after|row)-")
LIBRARY = re.compile(r"^\s*(?:ghost )?use (?:Rattle\.(?:std|core|std_\w+)|borrow|denote|native|mathlib|lib|Prim|prim)\b[^{;\n]*?(?:\.\{([^}]*)\}|\.([^\s.;]+))")


# Lemmas beside a definition of the same words: such a lemma gets "_lem".
LEMMAS = set("""answer-by as-measure as-property change-comparison first-broken lead-tokens link-tokens linked-behind
magnitude-of no-range nodes-behind row-state rule-with some-measure some-property stay-within values-before""".split())


def files(top):
    for folder, dirs, names in os.walk(os.path.join(top, "crates")):
        dirs[:] = sorted(d for d in dirs if d != "out")
        for n in sorted(names):
            if n.endswith((".antt", ".rt")):
                yield os.path.join(folder, n)


def spoken(line, antt):
    """The line in pieces: (text, is it a comment or a string)."""
    if antt:
        m = re.search(r"(?:^|\s)--(?:\s|$)", line)
        return [(line[: m.start()], False), (line[m.start() :], True)] if m else [(line, False)]
    out, i = [], 0
    for m in re.finditer(r'"(?:[^"\\]|\\.)*"|//.*$', line):
        out += [(line[i : m.start()], False), (m[0], True)]
        i = m.end()
    return out + [(line[i:], False)]


def turned(name):
    if name in LEMMAS:
        return name.replace("-", "_") + "_lem"
    t = re.sub(r"(?<=[a-z0-9])([A-Z])", lambda m: "_" + m[1].lower(), name)
    return re.sub(r"[A-Z]", lambda m: m[0].lower(), t.replace("-", "_"))


def odd(name):
    return name[0].islower() and ("-" in name or re.search(r"[a-z0-9][A-Z]", name)) and name[-1] != "-"


def imported(text):
    out = set()
    for line in text.split("\n"):
        m = LIBRARY.match(line)
        if m:
            out |= {w.strip().split(" as ")[0] for w in (m[1] or m[2]).split(",")}
    return out


def answers(path):
    return os.path.basename(path) in ("Answers.antt", "Invariants.antt", "Choices.antt", "Proof.antt")


def bound(path, text):
    """The names that a file binds: signatures, binders, lambdas, lets and the left sides of equations."""
    out = set()
    for line in text.split("\n"):
        code = "".join(t for t, comment in spoken(line, True) if not comment)
        m = SIGN.match(code)
        if m and not (answers(path) and re.search(r": goal\.", code)):
            out |= set(m[1].split())
        for pattern in (BINDER, LAMBDA):
            for m in pattern.finditer(code):
                out |= set(m[1].split())
        out |= {m[1] for m in LET.finditer(code)}
        left = re.match(r"^(\s*)([^=:]*?) =(?: |$)", code)
        if left and not code.lstrip().startswith(("use ", "let ")):
            words = NAME.findall(left[2])
            if not (answers(path) and not left[1]):
                out |= set(words[:1])
            out |= set(words[1:])
    return {n for n in out if odd(n) and not (answers(path) and MADE.match(n))}


def main():
    top = sys.argv[1] if len(sys.argv) > 1 else "."
    texts = {p: open(p, encoding="utf-8").read() for p in files(top)}
    own, taken = set(), set()
    for p, t in texts.items():
        if p.endswith(".antt"):
            names = bound(p, t) - imported(t)
            made = {m[1] for m in re.finditer(r"^(?:abbrev )?pub ([A-Za-z_][A-Za-z0-9_'-]*) : goal\.", t, re.M)}
            own |= names - made
        taken |= set(NAME.findall(t))
    new = {n: turned(n) for n in own}
    for n in sorted(own):
        same = [m for m in own if m != n and new[m] == new[n]]
        if same or new[n] in taken:
            print(f"falls together: {n} -> {new[n]}" + (f" with {' '.join(same)}" if same else " which stands already"))
    changed = 0
    for p, t in texts.items():
        lib = imported(t)
        antt = p.endswith(".antt")
        goals = {m[1] for m in re.finditer(r"^(?:abbrev )?pub ([A-Za-z_][A-Za-z0-9_'-]*) : goal\.", t, re.M)}
        lines = []
        for line in t.split("\n"):
            pieces = []
            for text, aside in spoken(line, antt):
                def word(m):
                    n = m[0]
                    if n not in new or n in lib or n in goals or (aside and "-" in n):
                        return n
                    return new[n]
                pieces.append(NAME.sub(word, text))
            lines.append("".join(pieces))
        after = "\n".join(lines)
        if after != t:
            changed += 1
            open(p, "w", encoding="utf-8").write(after)
    print(f"{len(own)} names, {changed} files")


main()
