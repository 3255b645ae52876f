#!/usr/bin/env python3
"""Brings docs/must-fail.md up to date: a row for each edit, with where the check refused it. usage: tools/edit_places.py LOG
LOG is what `rt must-fail` or `rt ci` printed. A row keeps what it says of the edit; a new edit gets an empty cell, to be filled by hand."""
import glob
import os
import re
import sys

PAGE = "docs/must-fail.md"
REFUSED = re.compile(r"must-fail (\w+)/([\w-]+)\.edit: refused, as it must be[^:]*: (?:note: |so far: )?(?:\./)?([^:\s]+:\d+)")


def main():
    places = {}
    with open(sys.argv[1], encoding="utf-8", errors="replace") as log:
        for line in log:
            if m := REFUSED.search(line):
                places[m[1], m[2]] = m[3]
    with open(PAGE, encoding="utf-8") as page:
        text = page.read()
    rows = {}
    for m in re.finditer(r"^\| `(\w+)` \| `([\w-]+)` \| (.*?) \| (.*?) \|$", text, re.M):
        rows[m[1], m[2]] = (m[3], m[4])
    head = text[: text.index("|---")]
    out = [head.rstrip("\n"), "|---|---|---|---|"]
    with open("crates.txt", encoding="utf-8") as f:
        crates = [line.split(":")[0].split()[0] for line in f if line.strip() and not line.startswith("#")]
    for crate in crates:
        for path in sorted(glob.glob(f"crates/{crate}/must-fail/*.edit")):
            edit = os.path.basename(path)[: -len(".edit")]
            says, place = rows.get((crate, edit), ("", ""))
            place = f"`{places[crate, edit]}`" if (crate, edit) in places else place
            out.append(f"| `{crate}` | `{edit}` | {says} | {place} |")
    with open(PAGE, "w", encoding="utf-8") as page:
        page.write("\n".join(out) + "\n")


main()
