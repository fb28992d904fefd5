#!/usr/bin/env python3
"""Runs every command of the documents for users and compares what they show of its answer: documents.py [DOCUMENT..]

Build the programs first, as with ./place and ./place-desk. In a document an indented block whose first line begins with
a command of this repository, or with one of the shell's that are listed below, is run by bash, in a folder that has the
repository's files beside it. The next indented block, where it begins with no command, is what it answers: these lines
have to stand in its answer, one behind the other. Only a command whose answer is shown may end with another status than
0. All other blocks, as usage lines, are read by nobody here.
"""
import os
import re
import shutil
import subprocess
import sys
import tempfile

ROOT = os.path.dirname(os.path.dirname(os.path.abspath(__file__)))
NEEDS = {
    "docs/FORMATS.md": ("zcat",),
    "docs/OFFICE.md": ("sqlite3", "flock", "sha256sum"),
    "docs/AUDIT.md": ("sha256sum",),
}
OF_THE_SHELL = "awk|cd|head|mv|sed|sha256sum|sqlite3|zcat"
COMMAND = re.compile(rf"(PLACE=\S+ )?(\./place|\./place-desk|tools/|recipes/|({OF_THE_SHELL}) )")
SECONDS = 120


def blocks(text):
    """The indented blocks of a document, each with the number of its first line."""
    found, lines = [], []
    for number, line in enumerate([*text.split("\n"), ""], 1):
        if line.startswith("    ") and not line.startswith(("    - ", "    * ")):
            lines.append(line[4:])
        elif lines:
            found.append((number - len(lines), lines))
            lines = []
    return found


def stands_in(shown, answer):
    """Whether the lines shown stand in the answer, one behind the other."""
    return any(answer[at:at + len(shown)] == shown for at in range(len(answer) - len(shown) + 1))


def examine(document, room):
    """Runs the commands of a document in a folder; gives how many it ran, and what was wrong."""
    with open(os.path.join(ROOT, document), encoding="utf-8") as file:
        found = blocks(file.read())
    ran, wrong, last = 0, [], None

    def end(last):
        if last and last.returncode != 0:
            wrong.append("%s: status %d: %s" % (last.place, last.returncode, last.stderr.rstrip()))

    for number, lines in found:
        place = "%s:%d" % (document, number)
        if COMMAND.match(lines[0]):
            end(last)
            last = subprocess.run(["bash", "-c", "\n".join(lines)], cwd=room, stdin=subprocess.DEVNULL,
                                  capture_output=True, text=True, timeout=SECONDS)
            last.place, ran = place, ran + 1
        elif last:
            answer = (last.stdout + last.stderr).split("\n")
            if not stands_in(lines, answer):
                wrong.append("%s: shown is not what it answers:\n%s" % (place, "\n".join(answer[:20])))
            last = None
    end(last)
    return ran, wrong


def lay_out(room):
    """The programs, as a folder of files that is not the repository's own can have them, and what the commands name."""
    for name in ("place", "place-desk"):
        with open(os.path.join(room, name), "w", encoding="utf-8") as out:
            out.write('#!/bin/sh\nexec "%s" "$@"\n' % os.path.join(ROOT, name))
        os.chmod(out.name, 0o755)
    for name in ("examples", "tools", "recipes", "tests"):
        os.symlink(os.path.join(ROOT, name), os.path.join(room, name))


def main():
    failed = 0
    for document in sys.argv[1:] or NEEDS:
        missing = [tool for tool in NEEDS.get(document, ()) if not shutil.which(tool)]
        if missing:
            print("%s: skipped, there is no %s" % (document, missing[0]))
            continue
        with tempfile.TemporaryDirectory() as room:
            lay_out(room)
            ran, wrong = examine(document, room)
        print("%s: %d commands run, %d wrong" % (document, ran, len(wrong)))
        print("\n".join(wrong), end="\n" if wrong else "", file=sys.stderr)
        failed += len(wrong)
    sys.exit(failed != 0)


main()
