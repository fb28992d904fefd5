#!/usr/bin/env python3
"""Times the program beside plain Rust on the same files: run.py SIZE..

A size is one of small, middle, barred, million, full and unlisted. Each market is made once under bench/out. The program
runs with one worker and with four. For each run the wall time, the processor time, the peak memory and the wall time of each phase are
printed, and the ratios to plain Rust, which has one thread. A phase ends where the program opens its next file, or writes
its first byte; it is seen from outside, the same way for both programs.

Where the variable OTHER names another build of the program, that runs too with one worker, in turn with this one and three
times each, and the ratio of the least processor times of the two is printed.
"""
import os
import shutil
import subprocess
import sys
import time

HERE = os.path.dirname(os.path.abspath(__file__))
OUT = os.path.realpath(os.path.join(HERE, "out"))
PROGRAM = os.environ.get("PROGRAM", os.path.join(HERE, "..", "crates", "place_program", "out", "place_program"))
OTHER = os.environ.get("OTHER")
PLAIN = os.path.join(OUT, "plain")
FILES = ["programmes.csv", "candidates.csv", "ranks.csv"]
# candidates, programmes, types, rank rows
SIZES = {
    "small": (20_000, 500, 5, 60_000),
    "middle": (200_000, 5_000, 8, 1_100_000),
    "million": (1_000_000, 20_000, 16, 5_700_000),
    "full": (3_500_000, 60_000, 16, 20_000_000),
}


def without_lists(folder):
    """The full market with empty preference lists: nearly all the work is then reading and checking."""
    full = files_of("full")
    os.makedirs(folder, exist_ok=True)
    for at in (0, 2):
        shutil.copyfile(full[at], os.path.join(folder, FILES[at]))
    with open(full[1]) as listed, open(os.path.join(folder, FILES[1]), "w") as out:
        out.write(next(listed))
        out.writelines(row.split(",")[0] + ",\n" for row in listed)


def with_bars(folder):
    """The middle market with a bar at every second programme: a half of the worst rank of the score type."""
    middle, worst = files_of("middle"), {}
    os.makedirs(folder, exist_ok=True)
    for at in (1, 2):
        shutil.copyfile(middle[at], os.path.join(folder, FILES[at]))
    with open(middle[2]) as ranks:
        next(ranks)
        for row in ranks:
            _, kind, rank = row.split(",")
            worst[kind] = max(worst.get(kind, 2), int(rank))
    with open(middle[0]) as programmes, open(os.path.join(folder, FILES[0]), "w") as out:
        out.write(next(programmes).rstrip() + ",bar\n")
        for at, row in enumerate(programmes):
            out.write("%s,%s\n" % (row.rstrip(), "-" if at % 2 else worst[row.split(",")[1]] // 2))


MADE_OF_OTHERS = {"unlisted": without_lists, "barred": with_bars}


def files_of(size):
    folder = os.path.join(OUT, size)
    if size in MADE_OF_OTHERS:
        if not os.path.exists(folder):
            MADE_OF_OTHERS[size](folder)
        return [os.path.join(folder, name) for name in FILES]
    if not os.path.exists(os.path.join(folder, "ranks.csv")):
        words = [str(number) for number in SIZES[size]]
        subprocess.run([sys.executable, os.path.join(HERE, "make_market.py"), *words, "7", folder], check=True)
    return [os.path.join(folder, name) for name in FILES]


def open_file(pid, files):
    """The place of the last file that the process has open, if it has one open."""
    at = None
    try:
        for entry in os.listdir("/proc/%d/fd" % pid):
            path = os.readlink("/proc/%d/fd/%s" % (pid, entry))
            if path in files:
                at = files.index(path)
    except OSError:
        pass
    return at


class Run:
    """What a run came to: its output file, seconds of all and of the processors, peak in MB, phases, status."""

    def __init__(self, printed, wall, usage, phases, status):
        self.printed, self.wall, self.phases, self.status = printed, wall, phases, status
        self.cpu, self.peak = usage.ru_utime + usage.ru_stime, usage.ru_maxrss / 1024

    def text(self):
        with open(self.printed, "rb") as printed:
            return printed.read()

    def line(self, name):
        phases = " ".join("%.2f" % seconds for seconds in self.phases)
        figures = (name, self.status, self.wall, self.cpu, self.peak, phases)
        return "  %s status %d: wall %.2f s, processors %.2f s, peak %.0f MB, phases %s" % figures


def timed(command, files, *words, do="place"):
    printed = os.path.join(OUT, "printed-" + "-".join([os.path.basename(command), do, *words]))
    with open(printed, "wb") as out:
        start = time.monotonic()
        child = subprocess.Popen([command, do, *files, *words], stdout=out, stderr=subprocess.DEVNULL)
        starts = [None] * len(files)
        while True:
            done, status, usage = os.wait4(child.pid, os.WNOHANG)
            now = time.monotonic() - start
            if done:
                break
            at = open_file(child.pid, files)
            if at is not None and starts[at] is None:
                starts[at] = now
            if len(starts) == len(files) and os.path.getsize(printed):
                starts.append(now)
            time.sleep(0.002)
    starts.append(now)
    known = [moment for moment in starts if moment is not None]
    phases = [after - before for before, after in zip(known, known[1:])]
    return Run(printed, now, usage, phases, os.waitstatus_to_exitcode(status))


def compare_builds(files):
    """The ratio of this build to another, by the least processor time of three runs each, in turn."""
    if not OTHER:
        return
    runs = [[timed(command, files, "--workers", "1") for command in (PROGRAM, OTHER)] for _ in range(3)]
    this, other = (min(pair[at].cpu for pair in runs) for at in (0, 1))
    same = len({run.text() for pair in runs for run in pair}) == 1
    print("  processors, this build %.2f s to the other %.2f s: %.2f%s" % (this, other, this / other, "" if same else ", ANOTHER TEXT"))


def main():
    if not os.path.exists(PROGRAM):
        sys.exit("bench: build the program first, as with ./place")
    if shutil.which("rustc") is None:
        sys.exit("bench: skipped, there is no rustc")
    os.makedirs(OUT, exist_ok=True)
    subprocess.run(["rustc", "-O", "-o", PLAIN, os.path.join(HERE, "plain.rs")], check=True)
    for size in sys.argv[1:] or ["small", "middle"]:
        files = files_of(size)
        one = timed(PROGRAM, files, "--workers", "1")
        four = timed(PROGRAM, files, "--workers", "4")
        plain = timed(PLAIN, files)
        same = one.text() == plain.text() == four.text()
        print("%s: %s" % (size, "the same text" if same else "ANOTHER TEXT"))
        for name, run in (("one worker", one), ("four workers", four), ("plain", plain)):
            print(run.line(name))
        print("  processors, one worker to plain %.2f" % (one.cpu / plain.cpu))
        compare_builds(files)
        print("  wall, four workers to one %.2f, to plain %.2f" % (four.wall / one.wall, four.wall / plain.wall))


if __name__ == "__main__":
    main()
