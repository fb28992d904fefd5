#!/usr/bin/env python3
"""Runs tools/check_placement, explain, show_fault and report on small files, and looks at what they say, and at what they
and tools/definitions say where nobody reads on.

Build the programs first, as with ./place and ./place-desk. tests/checker.py tries check_placement on many markets.
"""
import os
import re
import signal
import subprocess
import sys
import tempfile
from xml.dom import minidom

ROOT = os.path.dirname(os.path.dirname(os.path.abspath(__file__)))
PLACE = os.path.join(ROOT, "crates", "place_program", "out", "place_program")
DESK = os.path.join(ROOT, "crates", "desk_program", "out", "desk_program")
TOOLS = ("check_placement", "explain", "show_fault", "report")
MARKET = {
    "programmes.csv": "programme,type,quota,bar\n101,SAY,1,-\n102,SAY,2,-\n103,SAY,5,12\n104,DIL,1,-\n105,EA,0,-\n",
    "candidates.csv": "candidate,list\n1,101\n2,101;102\n3,104;105;101;103;102\n4,103\n5,\n",
    "ranks.csv": "candidate,type,rank\n1,SAY,10\n2,SAY,11\n3,SAY,13\n4,SAY,12\n3,EA,1\n",
    "placement.csv": "candidate,programme\n1,101\n2,102\n3,102\n4,103\n5,-\n",
    "base.csv": "programme,quota,held,base\n101,1,1,10\n102,2,2,13\n103,5,1,12\n104,1,0,-\n105,0,0,-\n",
    "reasons.csv": "candidate,programme,reason,base\n1,101,PLACED,-\n2,101,FULL,10\n2,102,PLACED,-\n3,104,NORANK,-\n"
                   "3,105,FULL,-\n3,101,FULL,10\n3,103,BAR,12\n3,102,PLACED,-\n4,103,PLACED,-\n",
}
FILES = ("programmes.csv", "candidates.csv", "ranks.csv")
failed = 0


def check(name, right, said=""):
    """Counts a case that is not right, and tells it."""
    global failed
    if not right:
        failed += 1
        print(f"tools: {name}: {said}", file=sys.stderr)


def run(room, *words):
    """Status and both texts of a tool in a folder of files."""
    path = os.path.join(ROOT, "tools", words[0])
    ended = subprocess.run([path, *words[1:]], cwd=room, capture_output=True, text=True, check=False)
    return ended.returncode, ended.stdout, ended.stderr


def write(room, files):
    for name, text in files.items():
        with open(os.path.join(room, name), "w", encoding="utf-8", newline="") as out:
            out.write(text)


def usage(room):
    for tool in TOOLS:
        status, said, notes = run(room, tool)
        check(f"usage of {tool}", status == 2 and said == "" and f"    tools/{tool} " in notes, notes)


def checks(room):
    right = run(room, "check_placement", *FILES, "placement.csv", "base.csv")
    check("a right placement", right[0] == 0 and right[1].count(": yes") == 6, right)
    spoilt = {
        "1 each candidate once": (("5,-\n", ""), "candidate 5"),
        "2 acceptable": (("3,102", "3,103"), "candidate 3 holds 103"),
        "3 within quotas": (("2,102", "2,101"), "programme 101 has 2 holders for 1 seats"),
        "4 stable": (("2,102", "2,-"), "candidate 2 is passed over at programme 102"),
        "5 least of all stable": (("4,103", "4,-"), "candidate 4 holds -, by offers 103"),
    }
    for question, (change, said) in spoilt.items():
        write(room, {"wrong.csv": MARKET["placement.csv"].replace(*change)})
        status, text, _ = run(room, "check_placement", *FILES, "wrong.csv")
        check(question, status == 1 and f"{question}: NO, 1: {said}\n" in text, text)
    write(room, {"wrong.csv": MARKET["base.csv"].replace("2,2,13", "2,2,12")})
    status, text, _ = run(room, "check_placement", *FILES, "placement.csv", "wrong.csv")
    check("a wrong base rank", status == 1 and "6 base ranks: NO, 1: programme 102\n" in text, text)
    status, _, notes = run(room, "check_placement", *FILES, "missing.csv")
    check("a missing file", status == 2 and "missing.csv" in notes, notes)
    # the first version of the programmes file, with a byte order mark and CR LF, and a stable placement that is better
    exchange = [os.path.join(ROOT, "examples", "exchange", name) for name in FILES]
    with open(exchange[0], encoding="utf-8") as file:
        write(room, {"crlf.csv": "\ufeff" + file.read().replace("\n", "\r\n")})
    better = os.path.join(ROOT, "examples", "exchange", "exchanged.csv")
    status, text, _ = run(room, "check_placement", "crlf.csv", *exchange[1:], better)
    check("a better stable placement", status == 1 and "4 stable: yes\n5 least of all stable: NO, 2:" in text, text)


def explains(room):
    said = {
        1: "candidate 1 holds programme 101, wish 1 of 1\n 1. 101: held; the rank in SAY is 10\n",
        3: "candidate 3 holds programme 102, wish 5 of 5\n"
           " 1. 104: it asks for a rank in DIL, and there is none\n"
           " 2. 105: it has no seats\n"
           " 3. 101: its seat is held by rank 10; the rank in SAY is 13\n"
           " 4. 103: the rank in SAY is 13, and nobody behind 12 is admitted, even to a free seat\n"
           " 5. 102: held; the rank in SAY is 13\n"
           "The last rank among the holders does not say what rank would have been enough: with another rank of one\n"
           "candidate others would be placed otherwise.\n",
        5: "candidate 5 holds no programme\nThe preference list is empty.\n",
    }
    for candidate, text in said.items():
        status, out, notes = run(room, "explain", str(candidate))
        check(f"explain {candidate}", (status, out, notes) == (0, text, ""), out + notes)
    status, out, _ = run(room, "explain", "6")
    check("explain nobody", (status, out) == (1, "candidate 6 is not in candidates.csv\n"), out)


def faults(room):
    plain = {
        "p.csv": "programme,type,quota\n101,SAY,1\n102,EA,1\n",
        "c.csv": "candidate,list\n1,101;102\n2,102\n",
        "r.csv": "candidate,type,rank\n1,SAY,1\n2,SAY,2\n1,EA,1\n",
        "h.csv": "candidate,programme\n1,101\n",
        "q.csv": "candidate\n1\n",
    }
    many = ";".join(str(code) for code in range(1, 26))
    cases = (
        ("p.csv", "1\n102", "1\n0101", "programmes: p.csv\nline 2: 101,SAY,1\nline 3: 0101,EA,1\nfield 1: '0101'\n"),
        ("p.csv", "EA", "ea", "programmes: p.csv\nline 3: 102,ea,1\nfield 2: 'ea'\n"),
        ("p.csv", "102,EA,1", "102,EA", "programmes: p.csv\nline 3: 102,EA\nit has 2 fields\n"),
        ("c.csv", "101;102", "101;1O2", "candidates: c.csv\nline 2: 1,101;1O2\nentry 2: '1O2'\n"),
        ("c.csv", "101;102", "101;0", "candidates: c.csv\nline 2: 1,101;0\nentry 2: '0'\n"),
        ("c.csv", "101;102", "101;102;0101", "candidates: c.csv\nline 2: 1,101;102;0101\nentry 3: '0101'\n"),
        ("c.csv", "101;102", "101;7;8", "candidates: c.csv\nline 2: 1,101;7;8\nentry 2: '7'\n"),
        ("c.csv", "101;102", many, f"candidates: c.csv\nline 2: 1,{many}\nthe list has 25 entries\n"),
        ("c.csv", "101;102", "0" * 1100 + "101", "line 2: 1," + "0" * 298 + " .. (1,105 bytes)\nit has 1,105 bytes\n"),
        ("c.csv", "candidate,list", "candidate;list", "candidates: c.csv\nline 1: candidate;list\n"),
        ("r.csv", "2,SAY,2", "2,SAY,1", "ranks: r.csv\nline 2: 1,SAY,1\nline 3: 2,SAY,1\nfield 3: '1'\n"),
        ("h.csv", "1,101", "9,101", "placement: h.csv\nline 2: 9,101\nfield 1: '9'\n"),
    )
    words = (PLACE, "audit", "p.csv", "c.csv", "r.csv", "h.csv")
    for name, old, new, said in cases:
        write(room, {**plain, name: plain[name].replace(old, new)})
        status, out, notes = run(room, "show_fault", *words, "--workers", "1")
        check(f"{new} in {name}", status == 3 and out == "" and notes.startswith("fault ") and notes.endswith(said), notes)
    write(room, plain)
    for number, role in enumerate(("programmes", "candidates", "ranks", "placement"), 2):
        missing = [*words[:number], "missing.csv", *words[number + 1:]]
        status, _, notes = run(room, "show_fault", *missing)
        check(f"{role} missing", status == 4 and notes.endswith(f"{role}: missing.csv: No such file or directory\n"), notes)
    status, out, notes = run(room, "show_fault", PLACE, "place", *words[2:5])
    check("no fault", (status, out, notes) == (0, "candidate,programme\n1,101\n2,-\n", ""), out + notes)
    write(room, {"q.csv": "candidate\n1\nx\n"})
    status, _, notes = run(room, "show_fault", DESK, "h.csv", "q.csv", "--clerks", "1")
    check("the desk's fault", status == 3 and notes.endswith("registrations: q.csv\nline 3: x\nfield 1: 'x'\n"), notes)
    status, _, notes = run(room, "show_fault", "no-such-program", "x")
    check("no program", status == 127 and notes.startswith("no-such-program: "), notes)


def reports(room):
    status, page, notes = run(room, "report", *FILES[:2], "placement.csv", "base.csv", "Places <2024>")
    check("report", status == 0 and notes == "", notes)
    check("nothing from outside", not re.search(r"<script|<link|<img|@import|url\(|src=|https?:", page), page)
    check("its title", page.count("Places &lt;2024&gt;") == 2, page)
    drawings = re.findall("<svg.*?</svg>", page)
    for drawing in drawings:
        minidom.parseString(drawing)
    check("its drawings", len(drawings) == 3, drawings)
    for text in ("5 candidates, of whom 4 (80.0%) hold a programme", ">wish 1</text>", ">2 (40.0%)</text>",
                 "<tr><td>SAY</td><td>8</td><td>4</td><td>4</td><td>1</td></tr>",
                 "<tr><td>EA</td><td>0</td><td>0</td><td>0</td><td>0</td></tr>", ">the least: 10</text>",
                 ">13</text>", ">2 programmes</text>"):
        check("in the report", text in page, text)
    status, _, notes = run(room, "report", *FILES[:2], "placement.csv", "placement.csv")
    check("a report of other files", status == 2 and "first row" in notes, notes)


def closed_pipes(room):
    """A tool whose reader has gone, as `head` does, ends without a word."""
    for tool, *words in (("check_placement", *FILES, "placement.csv"), ("explain", "3"), ("definitions",),
                         ("report", *FILES[:2], "placement.csv", "base.csv")):
        reader, writer = os.pipe()
        os.close(reader)
        ended = subprocess.run([os.path.join(ROOT, "tools", tool), *words], cwd=room, stdout=writer,
                               stderr=subprocess.PIPE, text=True, check=False)
        os.close(writer)
        check(f"{tool} into a closed pipe", (ended.returncode, ended.stderr) == (-signal.SIGPIPE, ""), ended.stderr)


def main():
    for part in (usage, checks, explains, faults, reports, closed_pipes):
        with tempfile.TemporaryDirectory() as room:
            write(room, MARKET)
            part(room)
    print(f"tools: {failed} wrong")
    sys.exit(failed != 0)


main()
