#!/usr/bin/env python3
"""The table of wrong bodies in docs/PROMISES.md has a row for each crate that has some, in the order of crates.txt, and
names those that stand in its folder must-fail and no other: each by the name of its file, with spaces.

    tests/edits.py            tells what is wrong, and ends with 1 then
    tests/edits.py --write    puts the names of the folders into the rows, and leaves by what they are refused as it is
"""
import os
import re
import sys

ROOT = os.path.dirname(os.path.dirname(os.path.abspath(__file__)))
PROMISES = os.path.join(ROOT, "docs", "PROMISES.md")
TABLE = re.compile(r"(?<=^\| crate \| wrong bodies \| refused by \|\n\|---\|---\|---\|\n)(?:^\|.*\n)*", re.M)


def text_of(path):
    with open(path, encoding="utf-8") as file:
        return file.read()


def standing():
    """The wrong bodies of each crate that has some."""
    found = {}
    for crate in re.findall(r"^([a-z_]+):", text_of(os.path.join(ROOT, "crates.txt")), re.M):
        folder = os.path.join(ROOT, "crates", crate, "must-fail")
        if os.path.isdir(folder):
            names = sorted(name for name in os.listdir(folder) if name.endswith(".edit"))
            found[crate] = "; ".join(name.removesuffix(".edit").replace("_", " ") for name in names)
    return found


def rows_of(text):
    """The rows of the table by crate: the names, and by what they are refused."""
    rows = (tuple(cell.strip() for cell in line.strip("|").split("|")) for line in TABLE.search(text)[0].splitlines())
    return {crate: (names, by) for crate, names, by in rows}


def differences(told, there):
    for crate in sorted(told.keys() ^ there.keys()):
        yield f"{crate} has " + ("no wrong bodies" if crate in told else "no row")
    for crate in sorted(told.keys() & there.keys()):
        named, standing_now = set(told[crate][0].split("; ")), set(there[crate].split("; "))
        yield from (f"{crate}: there is no '{name}'" for name in sorted(named - standing_now))
        yield from (f"{crate}: '{name}' is not named" for name in sorted(standing_now - named))
    if list(told) != [crate for crate in there if crate in told]:
        yield "the rows are in another order than the crates"


def main(words):
    text, there = text_of(PROMISES), standing()
    told = rows_of(text)
    if words == ["--write"]:
        rows = (f"| {crate} | {names} | {told.get(crate, ('', ''))[1]} |\n" for crate, names in there.items())
        with open(PROMISES, "w", encoding="utf-8") as out:
            out.write(TABLE.sub(lambda _: "".join(rows), text, count=1))
        return 0
    wrong = list(differences(told, there)) + [f"{crate}: by what is not told" for crate, it in told.items() if not it[1]]
    for line in wrong:
        print(f"edits: {line}", file=sys.stderr)
    return int(bool(wrong))


if __name__ == "__main__":
    if sys.argv[1:] not in ([], ["--write"]):
        print(__doc__, file=sys.stderr)
        sys.exit(2)
    sys.exit(main(sys.argv[1:]))
