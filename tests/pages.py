#!/usr/bin/env python3
"""The manual pages say what docs/FORMATS.md says: statuses with their lines, fault kinds with their fields, repeats,
headers with the most rows, the limits of fields, and refused words. Their examples are run with the built programs.
Where mandoc is here, it finds nothing to tell of a page. Prints what is wrong, and ends with 1 then."""
import os
import re
import shutil
import subprocess
import sys
import tempfile

ROOT = os.path.dirname(os.path.dirname(os.path.abspath(__file__)))
PAGES = ("place.1", "place-desk.1", "place-files.5")
PROGRAMS = {"place": "place_program", "place-desk": "desk_program"}
wrong = []


def text_of(*names):
    with open(os.path.join(ROOT, *names), encoding="utf-8") as file:
        return file.read()


def same(what, said, formats):
    """Both sides say the same; else each difference is told."""
    for key in sorted({*said, *formats}, key=str):
        if said.get(key) != formats.get(key):
            wrong.append(f"{what}: {key}: the page has {said.get(key)}, FORMATS has {formats.get(key)}")


def markdown_tables(text):
    """Each table, as the list of its rows; the first is its head. Cells have no marks of code."""
    for block in re.findall(r"(?:^\|.*\n)+", text, re.M):
        rows = [[cell.strip().replace("`", "") for cell in line.strip("|\n").split("|")] for line in block.splitlines()]
        yield [rows[0], *rows[2:]]


def numbers(text):
    return re.findall(r"\d[\d,]*\b", text)


class Formats:
    """What FORMATS says in its tables."""

    def __init__(self, text):
        self.statuses, self.kinds, self.headers, self.limits, self.repeats = {}, {}, {}, {}, {}
        self.words = {"place": {}, "place-desk": {}}
        for head, *rows in markdown_tables(text):
            if head[0] == "status":
                self.statuses = {row[0]: row[1] for row in rows}
            elif head[0] == "kind":
                self.kinds = {row[0]: row[2] for row in rows}
            elif head[0] == "F06 Duplicate in":
                self.repeats = {(row[0], row[2], row[1]): row[3] for row in rows}
            elif head[:2] == ["file", "header"]:
                self.headers.update({row[1]: row[3] for row in rows})
            elif head == ["field", "what is accepted"]:
                self.limits = {row[0]: numbers(row[1]) for row in rows}
            elif head[0] == "line":
                program = "place" if any("NoCommand" in row[0] for row in rows) else "place-desk"
                self.words[program] = {re.sub(r" N$", " place", row[0]): True for row in rows}
        self.kinds.update(re.findall(r"`(F\d\d \w+)`, field (\d)", text))


def plain(line):
    """A line of mdoc without its macros."""
    line = re.sub(r"^\.(It )?", "", line)
    line = re.sub(r"\b(Li|Ar|Em|Cm|Ta|Pq|Ns|Sx|Xr|Fl Fl|Ql)\b ?", "", line)
    return re.sub(r" ([.,])$", r"\1", line.replace("\\&", "")).strip()


def items(page, section):
    """The lists of a section of a page: for each its entries, each the cells of its head and what is said of it."""
    body = page.partition(f".Sh {section}\n")[2].partition("\n.Sh ")[0]
    for found in re.findall(r"^\.Bl .*?\n(.*?)^\.El", body, re.M | re.S):
        entries = re.split(r"^(?=\.It )", found, flags=re.M)[1:]
        yield [([plain(cell) for cell in entry.partition("\n")[0].split(" Ta")],
                " ".join(plain(line) for line in entry.splitlines()[1:])) for entry in entries]


def the_list(page, section, mark):
    """The list of a section in which the first cell of an entry matches."""
    return next(found for found in items(page, section) if any(re.fullmatch(mark, head[0]) for head, _ in found))


def statuses_of(page):
    """The line of each status, as FORMATS has it."""
    heads = [head[0].partition(" ") for head, _ in the_list(page, "EXIT STATUS", "0.*")]
    return {status: line or "none" for status, _, line in heads}


def compare(pages, formats):
    same("statuses of place", statuses_of(pages["place.1"]), formats.statuses)
    of_desk = {status: line for status, line in formats.statuses.items() if "1" <= status <= "6"}
    same("statuses of place-desk", statuses_of(pages["place-desk.1"]), {"0": "registered ..", **of_desk})
    for program, page in (("place", "place.1"), ("place-desk", "place-desk.1")):
        table = the_list(pages[page], "DIAGNOSTICS", "words .*")
        same(f"words of {program}", {head[0]: True for head, _ in table}, formats.words[program])
    files = pages["place-files.5"]
    kinds = [re.fullmatch(r"(F\d\d \w+) (?:field )?(.*)", head[0]) for head, _ in the_list(files, "FAULTS", r"F01 .*")]
    same("faults", {kind[1]: kind[2] for kind in kinds}, formats.kinds)
    repeats = [(re.fullmatch(r"(\w+) field (\d) ?, earlier is (.*)", head[0]), said[0].lower() + said[1:-1])
               for head, said in the_list(files, "FAULTS", r"\w+ field .*earlier.*")]
    same("repeats", {(head[1], head[2], said): head[3] for head, said in repeats}, formats.repeats)
    headers = [head for found in items(files, "DESCRIPTION") for head, _ in found if len(head) == 3][1:]
    same("headers", {head[1]: head[2] for head in headers if head[1] != "header"}, formats.headers)
    table = the_list(files, "DESCRIPTION", "programme code")
    same("limits", {head[0]: numbers(said) for head, said in table}, formats.limits)


def run_examples(pages, room):
    """Each shown command is run where the example's files are, and prints what is shown; each shown file is an
    example's."""
    shutil.copytree(os.path.join(ROOT, "examples"), os.path.join(room, "examples"))
    shutil.copytree(os.path.join(ROOT, "examples"), room, dirs_exist_ok=True)
    shutil.copy(os.path.join(room, "placement.csv"), os.path.join(room, "published.csv"))
    os.mkdir(os.path.join(room, "bin"))
    for program, crate in PROGRAMS.items():
        os.symlink(os.path.join(ROOT, "crates", crate, "out", crate), os.path.join(room, "bin", program))
    shown = {text_of("examples", "three_rounds", name + ".csv")
             for name in ("programmes", "candidates", "ranks", "placement")}
    paths = {**os.environ, "PATH": os.path.join(room, "bin") + ":" + os.environ["PATH"]}
    for name, page in pages.items():
        for block in re.findall(r"^\.Bd -literal[^\n]*\n(.*?)^\.Ed", page, re.M | re.S):
            if not block.startswith("$ "):
                if block not in shown:
                    wrong.append(f"{name}: no example has the file\n{block}")
                continue
            command, _, text = re.fullmatch(r"\$ ((?:.*(?:\\e|&&|\|)\n)*.*)(\n)((?:.*\n)*)", block).groups()
            ended = subprocess.run(["sh", "-c", command.replace("\\e", "\\")], cwd=room, env=paths,
                                   stdout=subprocess.PIPE, stderr=subprocess.STDOUT, text=True)
            if ended.returncode != 0 or ended.stdout != text:
                wrong.append(f"{name}: '{command}' ends with {ended.returncode} and prints\n{ended.stdout}")


def lint():
    if not shutil.which("mandoc"):
        print("pages: mandoc is not here, so the pages are not looked at by it", file=sys.stderr)
        return
    for name in PAGES:
        # there it finds the other pages that one names
        told = subprocess.run(["mandoc", "-T", "lint", name], cwd=os.path.join(ROOT, "man"), stdout=subprocess.PIPE,
                              stderr=subprocess.STDOUT, text=True).stdout
        if told:
            wrong.append(told.rstrip())


def main():
    pages = {name: text_of("man", name) for name in PAGES}
    compare(pages, Formats(text_of("docs", "FORMATS.md")))
    with tempfile.TemporaryDirectory() as room:
        run_examples(pages, room)
    lint()
    for line in wrong:
        print(f"pages: {line}", file=sys.stderr)
    sys.exit(bool(wrong))


main()
