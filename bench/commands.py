#!/usr/bin/env python3
"""Times base, fixed, reasons and audit beside place on the same files: commands.py SIZE..

The sizes are those of run.py. The audit is of the placement that place printed in the same run, so it looks at every
list. All run with four workers. For each command the wall time, the processor time, the peak memory and the size of
the text are printed, and the ratios to place.
"""
import os
import shutil
import sys

from run import OUT, PROGRAM, files_of, timed

GIGABYTE = 10**9


def shown(name, run):
    size = os.path.getsize(run.printed)
    figures = (name, run.status, run.wall, run.cpu, run.peak, size / 10**6)
    print("  %s status %d: wall %.2f s, processors %.2f s, peak %.0f MB, text %.1f MB" % figures)
    return size


def main():
    if not os.path.exists(PROGRAM):
        sys.exit("bench: build the program first, as with ./place")
    os.makedirs(OUT, exist_ok=True)
    for size in sys.argv[1:] or ["middle"]:
        files = files_of(size)
        print(size)
        place = timed(PROGRAM, files, "--workers", "4")
        shown("place", place)
        placement = os.path.join(OUT, "placement-" + size)
        shutil.copyfile(place.printed, placement)
        base = timed(PROGRAM, files, "--workers", "4", do="base")
        shown("base", base)
        fixed = timed(PROGRAM, files, "--workers", "4", do="fixed")
        shown("fixed", fixed)
        reasons = timed(PROGRAM, files, "--workers", "4", do="reasons")
        text = shown("reasons", reasons)
        audit = timed(PROGRAM, [*files, placement], "--workers", "4", do="audit")
        shown("audit", audit)
        for name, run in (("base", base), ("fixed", fixed), ("audit", audit)):
            print("  %s to place: wall %.2f, processors %.2f" % (name, run.wall / place.wall, run.cpu / place.cpu))
        print("  reasons beyond place: %.1f s a GB of text" % ((reasons.wall - place.wall) / (text / GIGABYTE)))


if __name__ == "__main__":
    main()
