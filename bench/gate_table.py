#!/usr/bin/env python3
"""Runs the gate and tells what it costs, crate by crate:

    bench/gate_table.py [--write] [COMMAND..]

It runs `rt ci`, or the command that is named, and copies what that prints to standard output. While it runs, the checks
among the processes that it began are looked at four times a second: their processor time, their most memory, and, by
their words, of which crate they are and whether of its proof, its tests or its wrong bodies. How many functions a crate
has is what rt says of it. The table is printed behind all that, or, with --write, put between its two marks in
bench/README.md. A crate of which rt had kept the proof costs nothing, so the table is that of a gate from nothing only
where nothing was kept. The last quarter second of a check is not seen. The status is that of the gate.
"""
import os
import re
import resource
import subprocess
import sys
import threading
import time
from collections import defaultdict

ROOT = os.path.dirname(os.path.dirname(os.path.abspath(__file__)))
README = os.path.join(ROOT, "bench", "README.md")
BEGIN, END = "<!-- bench/gate_table.py puts its table between this line -->\n", "<!-- and this one -->\n"
KINDS = ("proof", "tests", "wrong bodies")
TICKS = os.sysconf("SC_CLK_TCK")
PAUSE = 0.25


def read(path):
    with open(path, encoding="utf-8", errors="replace") as file:
        return file.read()


def processes():
    """Of each process that runs its parent, the tick in which it began, and the ticks that it has used."""
    found = {}
    for name in filter(str.isdigit, os.listdir("/proc")):
        try:
            fields = read(f"/proc/{name}/stat").rpartition(")")[2].split()
        except OSError:
            continue
        found[int(name)] = int(fields[1]), int(fields[19]), sum(map(int, fields[11:15]))
    return found


def descends(process, ancestor, running):
    while process in running and process != ancestor:
        process = running[process][0]
    return process == ancestor


def check_of(process):
    """The crate and the kind of a check, or none where the process is none."""
    words = read(f"/proc/{process}/cmdline").split("\0")
    if os.path.basename(words[0]) != "rattle" or "--crate-name" not in words:
        return None
    crate = words[words.index("--crate-name") + 1]
    if "--test" in words:
        return crate, "tests"
    # before its wrong bodies a library is checked once more, and each of them stands in a folder of its own
    is_edit = "rt-edit" in os.readlink(f"/proc/{process}/cwd") or words[1] == "check" and "src/lib.rt" in words
    return crate, "wrong bodies" if is_edit else "proof"


class Watch(threading.Thread):
    """Looks at the checks below a process until it is told to end."""

    def __init__(self, ancestor):
        super().__init__(daemon=True)
        self.ancestor, self.ended = ancestor, threading.Event()
        self.checks, self.ticks, self.memory = {}, {}, {}

    def look(self):
        running = processes()
        for process, (_, begun, ticks) in running.items():
            key = process, begun
            try:
                if key not in self.checks:
                    self.checks[key] = check_of(process) if descends(process, self.ancestor, running) else None
                if self.checks[key]:
                    most = re.search(r"^VmHWM:\s*(\d+)", read(f"/proc/{process}/status"), re.M)
                    self.memory[key] = max(self.memory.get(key, 0), int(most[1]) if most else 0)
                    self.ticks[key] = ticks
            except OSError:
                continue

    def run(self):
        while not self.ended.wait(PAUSE):
            self.look()

    def costs(self):
        """Of each crate the seconds of each kind, and the megabytes of its largest check."""
        seconds, most = defaultdict(lambda: dict.fromkeys(KINDS, 0.0)), defaultdict(int)
        for key, ticks in self.ticks.items():
            crate, kind = self.checks[key]
            seconds[crate][kind] += ticks / TICKS
            most[crate] = max(most[crate], self.memory[key] // 1000)
        return seconds, most


def functions_in(output):
    """How many functions rt says each crate has, in the order in which they came."""
    found = {}
    for crate, part in re.findall(r"^== (\w+)\n(.*?)(?=^== |\Z)", output, re.M | re.S):
        counted = re.findall(r"^logic=proved functions=(\d+)", part, re.M)
        if counted:
            found[crate] = int(counted[-1])
    return found


def edits_of(crate):
    folder = os.path.join(ROOT, "crates", crate, "must-fail")
    return len([name for name in os.listdir(folder) if name.endswith(".edit")]) if os.path.isdir(folder) else 0


def table(costs, functions, wall, processors):
    seconds, most = costs
    crates = sorted({*seconds, *functions}, key=lambda crate: -sum(seconds[crate].values()))
    yield (f"Processor seconds of one gate: {wall / 60:.0f} minutes and {processors / 60:.0f} processor minutes on"
           f" {os.cpu_count()} processors; of them the checks of the crates took"
           f" {sum(sum(it.values()) for it in seconds.values()) / 60:.0f}. Behind a number of wrong bodies stand their"
           f" seconds, with those of the check of the whole crate before them.\n\n")
    yield "| crate | functions | proof | tests | wrong bodies | most memory |\n|---|---|---|---|---|---|\n"
    for crate in crates:
        proof, tests, wrong = (f"{seconds[crate][kind]:.0f}" if seconds[crate][kind] else "none" for kind in KINDS)
        edits = edits_of(crate)
        yield (f"| {crate} | {functions.get(crate, '')} | {proof} | {tests} | {f'{edits}: ' if edits else ''}{wrong} |"
               f" {most[crate]:,} MB |\n")
    minutes = [sum(it[kind] for it in seconds.values()) / 60 for kind in KINDS]
    yield (f"| all, in minutes | {sum(functions.values())} | {minutes[0]:.0f} | {minutes[1]:.0f} |"
           f" {sum(map(edits_of, crates))}: {minutes[2]:.0f} | {max(most.values(), default=0):,} MB |\n")


def main(words):
    writes = words[:1] == ["--write"]
    command = words[writes:] or ["rt", "ci"]
    begun, lines = time.monotonic(), []
    gate = subprocess.Popen(command, cwd=ROOT, stdout=subprocess.PIPE, stderr=subprocess.STDOUT, text=True, errors="replace")
    watch = Watch(gate.pid)
    watch.start()
    for line in gate.stdout:
        lines.append(line)
        print(line, end="", flush=True)
    status = gate.wait()
    watch.ended.set()
    watch.join()
    used = resource.getrusage(resource.RUSAGE_CHILDREN)
    text = "".join(table(watch.costs(), functions_in("".join(lines)), time.monotonic() - begun, used.ru_utime + used.ru_stime))
    if writes and status == 0:
        front, mark, behind = read(README).partition(BEGIN)
        with open(README, "w", encoding="utf-8") as out:
            out.write(front + mark + text + END + behind.partition(END)[2])
    else:
        print(text, end="")
    return status


if __name__ == "__main__":
    if sys.argv[1:2] and sys.argv[1] in ("-h", "--help"):
        print(__doc__)
    else:
        sys.exit(main(sys.argv[1:]))
