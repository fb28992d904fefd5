#!/usr/bin/env python3
"""The README fits a screen, the files that it shows are those of its example, and its commands are run by the launchers.
Each file that it or another document names is there.

Prints what is wrong, and ends with 1 then.
"""
import os
import re
import subprocess
import sys

ROOT = os.path.dirname(os.path.dirname(os.path.abspath(__file__)))
SCREEN = 80
EXAMPLE = os.path.join("examples", "three_rounds")
wrong = []


def text_of(*names):
    with open(os.path.join(ROOT, *names), encoding="utf-8") as file:
        return file.read()


def commands(text):
    """The commands of a document that begin with a launcher, each as one line."""
    joined = re.sub(r" \\\n +", " ", text)
    return re.findall(r"^    (\./place.*)$", joined, re.M)


def columns(block):
    """The columns of a block of files side by side, each with a head and its lines."""
    starts = [found.start() for found in re.finditer(r"\S+", block.splitlines()[0])]
    cut = [slice(start, end) for start, end in zip(starts, [*starts[1:], None])]
    lines = [[line[part].strip() for part in cut] for line in block.splitlines()]
    return {column[0]: [cell for cell in column[1:] if cell] for column in map(list, zip(*lines))}


def first_screen(readme):
    shown = columns(re.search(r"^```\n(.*?)^```$", readme, re.M | re.S)[1])
    for name in ("programmes.csv", "candidates.csv", "ranks.csv"):
        if text_of(EXAMPLE, name).split() != shown[name]:
            wrong.append(f"README shows another {name} than that of {EXAMPLE}")
    command = commands(readme)[0]
    ended = subprocess.run(command, shell=True, cwd=ROOT, stdout=subprocess.PIPE, text=True)
    if EXAMPLE not in command or ended.returncode != 0 or ended.stdout.split() != shown["printed"]:
        wrong.append(f"{command} prints {ended.stdout!r}, and README shows {shown['printed']}")


def readme_is_true():
    readme = text_of("README.md")
    for number, line in enumerate(readme.splitlines(), 1):
        if len(line) > SCREEN:
            wrong.append(f"README: line {number} has {len(line)} characters")
    first_screen(readme)
    for command in commands(readme)[1:]:
        ended = subprocess.run(command, shell=True, cwd=ROOT, stdout=subprocess.DEVNULL)
        if ended.returncode != 0:
            wrong.append(f"README: {command} ends with {ended.returncode}")
    libraries = {crate for crate in re.findall(r"^([a-z_]+):", text_of("crates.txt"), re.M)
                 if not os.path.exists(os.path.join(ROOT, "crates", crate, "src", "main.rt"))}
    told = set(re.findall(r"\*\*([a-z_]+)\*\*", readme))
    for crate in sorted(told ^ libraries):
        wrong.append(f"README: of {crate} it says " + ("what is not there" if crate in told else "nothing"))


def files_are_there():
    """A path between marks of code names a file or folder of the repository, but where it has a part in capitals."""
    folders = "|".join(sorted(name for name in os.listdir(ROOT) if os.path.isdir(os.path.join(ROOT, name))))
    documents = ["README.md", *(os.path.join("docs", name) for name in sorted(os.listdir(os.path.join(ROOT, "docs"))))]
    for document in documents:
        if document.endswith(".md"):
            for path in re.findall(rf"`((?:{folders})/[\w./-]+)`", text_of(document)):
                if not re.search(r"/[A-Z]+/", path) and not os.path.exists(os.path.join(ROOT, path)):
                    wrong.append(f"{document}: there is no {path}")


def main():
    readme_is_true()
    files_are_there()
    for line in wrong:
        print(f"readme: {line}", file=sys.stderr)
    sys.exit(bool(wrong))


main()
