#!/usr/bin/env python3
"""Refuses in turn what the built programs ask of the system, and looks at how they end: refusals.py [PART..]

Build the programs first, as with ./place and ./place-desk. The parts, all of them where none is named:

    memory   each allocation of each command fails once, until no run seen asked for so many; needs a C compiler
    limits   the address space is limited, from nothing up step by step, until the command is done; on a market of
             3,000 candidates, since a small one is placed wherever the program begins; below some limits the system
             does not begin the program at all: those runs show nothing of it, and are told apart
    system   a full disk, a closed pipe, files that are missing, a directory or a pipe, words that are no text, and a
             limit on the size of files
    counts   nothing is refused: it counts who takes memory while the workers of a round are at work, and while a text
             is written; needs a C compiler

Each run that is refused something has to end by its own status: done with the whole text, or the refusal with its line
on standard error and nothing on standard output, but for what was written before a write failed. None may end by a
signal, but under a limit on the size of files, where the system ends it. A line is printed for each case, and at last
how many runs were refused and how many answers were wrong.
"""
import os
import resource
import signal
import subprocess
import sys
import tempfile
import threading

HERE = os.path.dirname(os.path.abspath(__file__))
ROOT = os.path.dirname(HERE)
PLACE = os.path.join(ROOT, "crates", "place_program", "out", "place_program")
DESK = os.path.join(ROOT, "crates", "desk_program", "out", "desk_program")
WORKED = ("examples", os.path.join("examples", "freed_seat"))
DONE, NO_WORDS, WORDS, FILE_FAULT, READ_FAULT, WRITE_FAULT, MEMORY, AUDIT_NO = range(8)
WANT_OF_MEMORY = b"want of memory\n"
# Dictatorships that the rounds of a worked market run, each by a team: those of its first round, and then of each type
# that the last cuts changed.
TEAMS = {"freed_seat": 3, "three_rounds": 4}
LARGEST_LIMIT = 1 << 30
STEP = 16 << 10
SECONDS = 60

# Counts the calls that take memory in the file COUNTED, and lets the one of the number REFUSED fail.
SHIM = r"""
#define _GNU_SOURCE
#include <errno.h>
#include <fcntl.h>
#include <stdatomic.h>
#include <stddef.h>
#include <stdlib.h>
#include <sys/mman.h>
#include <unistd.h>
void *__libc_malloc(size_t);
void *__libc_calloc(size_t, size_t);
void *__libc_realloc(void *, size_t);
void *__libc_memalign(size_t, size_t);
static atomic_long before_main;
static atomic_long *calls = &before_main;
static long refused;
static int fails(void) {
    if (atomic_fetch_add(calls, 1) + 1 != refused) return 0;
    errno = ENOMEM;
    return 1;
}
void *malloc(size_t n) { return fails() ? NULL : __libc_malloc(n); }
void *calloc(size_t n, size_t m) { return fails() ? NULL : __libc_calloc(n, m); }
void *realloc(void *p, size_t n) { return fails() ? NULL : __libc_realloc(p, n); }
void *memalign(size_t a, size_t n) { return fails() ? NULL : __libc_memalign(a, n); }
void *aligned_alloc(size_t a, size_t n) { return memalign(a, n); }
int posix_memalign(void **p, size_t a, size_t n) { return (*p = memalign(a, n)) ? 0 : ENOMEM; }
__attribute__((constructor)) static void begin(void) {
    int file = open(getenv("COUNTED"), O_RDWR);
    void *shared = mmap(NULL, sizeof *calls, PROT_READ | PROT_WRITE, MAP_SHARED, file, 0);
    if (shared == MAP_FAILED) _exit(125);
    close(file);
    calls = shared;
    refused = atol(getenv("REFUSED"));
}
"""

# Notes in order, in the file COUNTED: m, memory is asked for; c, a thread is begun; j, one was waited for; w, standard
# output is written to. Each is the number of the thread that does it, in two bytes, and the letter.
WATCHER = r"""
#define _GNU_SOURCE
#include <dlfcn.h>
#include <fcntl.h>
#include <pthread.h>
#include <stdatomic.h>
#include <stddef.h>
#include <stdlib.h>
#include <sys/mman.h>
#include <unistd.h>
enum { EVENTS = 1 << 22, THREADS = 1 << 15 };
void *__libc_malloc(size_t);
void *__libc_calloc(size_t, size_t);
void *__libc_realloc(void *, size_t);
void *__libc_memalign(size_t, size_t);
struct start { void *(*run)(void *); void *with; };
static struct start starts[THREADS];
static unsigned char *noted;
static atomic_long events;
static atomic_int threads;
static _Thread_local int number, quiet;
static int (*real_create)(pthread_t *, const pthread_attr_t *, void *(*)(void *), void *);
static int (*real_join)(pthread_t, void **);
static ssize_t (*real_write)(int, const void *, size_t);
static void note(char letter) {
    if (!noted || quiet) return;
    long at = atomic_fetch_add(&events, 1);
    if (at >= EVENTS) _exit(125);
    noted[3 * at] = number & 255;
    noted[3 * at + 1] = number >> 8;
    noted[3 * at + 2] = letter;
}
void *malloc(size_t n) { note('m'); return __libc_malloc(n); }
void *calloc(size_t n, size_t m) { note('m'); return __libc_calloc(n, m); }
void *realloc(void *p, size_t n) { note('m'); return __libc_realloc(p, n); }
void *memalign(size_t a, size_t n) { note('m'); return __libc_memalign(a, n); }
void *aligned_alloc(size_t a, size_t n) { return memalign(a, n); }
int posix_memalign(void **p, size_t a, size_t n) { return (*p = memalign(a, n)) ? 0 : 12; }
static void *begin(void *start) {
    struct start *mine = start;
    number = mine - starts;
    return mine->run(mine->with);
}
int pthread_create(pthread_t *id, const pthread_attr_t *how, void *(*run)(void *), void *with) {
    int next = atomic_fetch_add(&threads, 1) + 1;
    if (next >= THREADS) _exit(125);
    starts[next] = (struct start){run, with};
    note('c');
    quiet = 1; /* what the C library takes for a thread is its own */
    int failed = real_create(id, how, begin, &starts[next]);
    quiet = 0;
    return failed;
}
int pthread_join(pthread_t id, void **end) {
    int failed = real_join(id, end);
    note('j');
    return failed;
}
ssize_t write(int file, const void *from, size_t n) {
    if (file == 1) note('w');
    return real_write(file, from, n);
}
__attribute__((constructor)) static void open_notes(void) {
    real_create = dlsym(RTLD_NEXT, "pthread_create");
    real_join = dlsym(RTLD_NEXT, "pthread_join");
    real_write = dlsym(RTLD_NEXT, "write");
    int file = open(getenv("COUNTED"), O_RDWR);
    void *shared = mmap(NULL, 3 * (size_t)EVENTS, PROT_READ | PROT_WRITE, MAP_SHARED, file, 0);
    if (shared == MAP_FAILED) _exit(125);
    close(file);
    noted = shared;
}
"""
EVENTS = 1 << 22


class Tally:
    """How many runs were refused something, and how many of all answered wrong."""

    def __init__(self):
        self.refused = self.wrong = 0

    def case(self, name, told, wrong):
        self.wrong += wrong
        print("%-44s %s%s" % (name, told, "" if wrong == 0 else "   WRONG: %d" % wrong), flush=True)


def run(words, program=PLACE, **how):
    """Status, standard output and standard error of a program; a status below 0 is a signal."""
    how.setdefault("stdout", subprocess.PIPE)
    how.setdefault("stderr", subprocess.PIPE)
    ended = subprocess.run([program, *words], stdin=subprocess.DEVNULL, timeout=SECONDS, **how)
    return ended.returncode, ended.stdout, ended.stderr


def files_in(folder, *names):
    return [os.path.join(ROOT, folder, name + ".csv") for name in names]


def first_code(programmes):
    """The code of the first programme of a file."""
    with open(programmes, encoding="ascii") as rows:
        return rows.read().split("\n")[1].split(",")[0]


def made_market(room):
    """A folder with a market of 3,000 candidates, 60 programmes and 4 types, its placement, and requests of all."""
    folder = os.path.join(room, "made")
    os.mkdir(folder)
    programmes = ["programme,type,quota"] + ["%d,T%d,%d" % (code, code % 4, 30 + code % 7) for code in range(1, 61)]
    lists = [[(number * 7 + 13 * place) % 60 + 1 for place in range(number % 9)] for number in range(1, 3_001)]
    candidates = ["candidate,list"] + ["%d,%s" % (at, ";".join(map(str, codes))) for at, codes in enumerate(lists, 1)]
    ranks = ["candidate,type,rank"]
    for kind, factor in enumerate((7, 11, 13, 17)):
        ranks += ["%d,T%d,%d" % (number, kind, number * factor % 3_001) for number in range(1, 3_001)]
    names = ("programmes", "candidates", "ranks")
    for name, lines in zip(names, (programmes, candidates, ranks)):
        with open(os.path.join(folder, name + ".csv"), "w") as file:
            file.write("\n".join(lines) + "\n")
    with open(os.path.join(folder, "placement.csv"), "wb") as file:
        file.write(run(["place", *files_in(folder, *names)])[1])
    with open(os.path.join(folder, "registrations.csv"), "w") as file:
        file.write("candidate\n" + "".join("%d\n" % (number * 7 % 3_001) for number in range(1, 3_001)))
    return folder


def commands(workers, folders, numbers, desk):
    """Each command of `place`, on each of the markets and with these numbers of one to make, and the desk on the files
    of a folder: its name, program and words, and how a free run ends."""
    found = []
    for folder in folders:
        files = files_in(folder, "programmes", "candidates", "ranks")
        placement = files_in(folder, "placement")
        for words in (["place", *files], ["base", *files], ["reasons", *files], ["audit", *files, *placement],
                      ["sweep", *files, first_code(files[0]), "0", "2"]):
            found.append((words[0] + " " + os.path.basename(folder), PLACE, words + ["--workers"]))
    found.append(("make", PLACE, ["make", *numbers, "--workers"]))
    found.append(("desk " + os.path.basename(desk), DESK, files_in(desk, "placement", "registrations") + ["--clerks"]))
    for name, program, words in found:
        words = words + [str(workers)]
        free = run(words, program)
        if free[0] not in (DONE, AUDIT_NO) or (program == PLACE and free[2] != b""):
            sys.exit("refusals: a free run of %s ended with status %d: %s" % (name, free[0], free[2]))
        yield name + " by %d" % workers, program, words, free


def answer_of(ended, free):
    """What a run came to that may have been refused memory: None where it may not end so."""
    if ended == free:
        return "done"
    if ended == (MEMORY, b"", WANT_OF_MEMORY):
        return "want of memory"
    if ended == (NO_WORDS, b"", b""):
        return "without words"
    return None


def told(counts):
    return ", ".join("%d %s" % (count, answer) for answer, count in sorted(counts.items()))


def compiled(room, name, text):
    """A library to be loaded before a program, or None where there is no C compiler."""
    library = os.path.join(room, name + ".so")
    with open(os.path.join(room, name + ".c"), "w") as source:
        source.write(text)
    try:
        subprocess.run(["cc", "-O1", "-shared", "-fPIC", "-o", library, source.name, "-ldl"], check=True)
    except OSError:
        print("%s: skipped, there is no cc" % name)
        return None
    return library


def memory(tally, room):
    shim = compiled(room, "memory", SHIM)
    if shim is None:
        return
    counted = os.path.join(room, "counted")

    def refusing(number, program, words):
        with open(counted, "wb") as file:
            file.write(bytes(8))
        ended = run(words, program, env={"LD_PRELOAD": shim, "REFUSED": str(number), "COUNTED": counted})
        with open(counted, "rb") as file:
            return ended, int.from_bytes(file.read(), sys.byteorder)

    for workers in (1, 7):
        desk = os.path.join("examples", "desk")
        for name, program, words, free in commands(workers, WORKED, ["7", "300", "40", "5"], desk):
            counts, wrong, number, most = {}, 0, 0, 1
            # how many calls there are differs a little from run to run, since threads make some
            while number <= most:
                number += 1
                ended, calls = refusing(number, program, words)
                if calls == 0:
                    sys.exit("refusals: the program takes no memory through the C library")
                most = max(most, calls)
                answer = answer_of(ended, free)
                if calls < number and answer == "done":
                    continue
                # the words are there before any other memory is asked for
                late = answer == "without words" and "want of memory" in counts
                if calls < number or late or answer is None:
                    wrong += 1
                    print("  allocation %d: status %d, %r, %r" % (number, *ended))
                counts[answer or "wrong"] = counts.get(answer or "wrong", 0) + 1
            tally.refused += sum(counts.values())
            tally.case("memory: " + name, "%d refused in turn: %s" % (sum(counts.values()), told(counts)), wrong)


def limits(tally, room):
    def limited(limit, words, program):
        def set_limit():
            resource.setrlimit(resource.RLIMIT_AS, (limit, limit))

        try:
            return run(words, program, preexec_fn=set_limit)
        except (OSError, subprocess.SubprocessError):
            return None

    def begins(limit, program):
        line = b"words NoCommand 0\n" if program == PLACE else b"words WordCount 1\n"
        return limited(limit, [], program) == (WORDS, b"", line)

    def least(program):
        """Below this the system does not even begin the program."""
        low, high = 0, LARGEST_LIMIT
        while high - low > STEP:
            middle = (low + high) // 2
            low, high = (low, middle) if begins(middle, program) else (middle, high)
        return high

    made = made_market(room)
    begun = {program: least(program) for program in (PLACE, DESK)}
    for workers in (1, 7):
        for name, program, words, free in commands(workers, [made], ["7", "3000", "60", "4"], made):
            counts, wrong, limit, done_from = {}, 0, 0, 0
            while limit < LARGEST_LIMIT:
                ended = limited(limit, words, program)
                answer = ended and answer_of(ended, free)
                if limit < begun[program] and not begins(limit, program):
                    answer = None if ended and ended[1] else "not begun"
                if answer is None:
                    wrong += 1
                    print("  limit %d KiB: %s" % (limit >> 10, ended))
                counts[answer or "wrong"] = counts.get(answer or "wrong", 0) + 1
                # where the command is done, only threads ask for more: their stacks are large, and so are the steps
                step = max(STEP, limit // 256)
                limit += step if limit < done_from + 8 * step else limit // 8
                if answer != "done":
                    done_from = limit
            tally.refused += counts.get("want of memory", 0)
            tally.case("limits: " + name, "%s; done from %d KiB on" % (told(counts), done_from >> 10), wrong)


def system(tally, room):
    files = files_in("examples", "programmes", "candidates", "ranks")
    place = ["place", *files]
    with open(files_in("examples", "placement")[0], "rb") as file:
        text = file.read()

    def ends(name, ended, wanted):
        tally.refused += wanted[0] != DONE
        line = (wanted[2] or b"").decode().rstrip() or "-"
        tally.case("system: " + name, "status %d, %s" % (ended[0], line), ended != wanted)
        if ended != wanted:
            print("  ended with %s" % (ended,))

    def fed(name, content, at, wanted):
        """The file at a place of the words is a pipe, into which this is written."""
        pipe = os.path.join(room, "pipe")
        os.mkfifo(pipe)

        def feed():
            with open(pipe, "wb") as into:
                into.write(content)

        feeder = threading.Thread(target=feed, daemon=True)
        feeder.start()
        words = list(place)
        words[at] = pipe
        ends(name, run(words), wanted)
        feeder.join(SECONDS)
        os.remove(pipe)

    def into_closed_pipe(words, read_first):
        reading, writing = os.pipe()
        child = subprocess.Popen(
            [PLACE, *words], stdin=subprocess.DEVNULL, stdout=writing, stderr=subprocess.PIPE, pass_fds=()
        )
        os.close(writing)
        if read_first:
            os.read(reading, read_first)
        os.close(reading)
        notes = child.communicate(timeout=SECONDS)[1]
        return child.returncode, None, notes

    write_fault = (WRITE_FAULT, None, b"write fault\n")
    with open("/dev/full", "wb") as full:
        ends("standard output on a full disk", run(place, stdout=full), write_fault)
        missing = ["place", os.path.join(room, "missing"), *files[1:]]
        ends("the line on a full disk", run(missing, stderr=full), (READ_FAULT, b"", None))
    many = os.path.join(room, "candidates.csv")
    with open(many, "w") as out:
        out.write("candidate,list\n" + "".join("%d,\n" % number for number in range(1, 50_001)))
    long = ["place", files[0], many, files[2]]
    ends("a pipe that is closed in mid-text", into_closed_pipe(long, 1), write_fault)
    reading, writing = os.pipe()
    os.close(reading)
    ends("a pipe that nobody reads", run(place, stdout=writing), write_fault)
    os.close(writing)
    front = os.path.join(room, "front")
    with open(front, "wb") as out:
        ended = run(place, stdout=out, preexec_fn=lambda: resource.setrlimit(resource.RLIMIT_FSIZE, (16, 16)))
    with open(front, "rb") as file:
        ended = ended[0], file.read(), ended[2]
    ends("a text beyond a limit on file size", ended, (-signal.SIGXFSZ, text[:16], b""))
    ends("no standard output", run(place, stdout=None, preexec_fn=lambda: os.close(1)), write_fault)
    read_fault = (READ_FAULT, b"", b"read fault\n")
    for at, what in ((1, "programmes"), (2, "candidates"), (3, "ranks")):
        for kind, name in (("missing", os.path.join(room, "missing")), ("a directory", room), ("of no name", "")):
            words = list(place)
            words[at] = name
            ends("%s that are %s" % (what, kind), run(words), read_fault)
        with open(files[at - 1], "rb") as file:
            fed("%s from a pipe" % what, file.read(), at, (DONE, text, b""))
    header = (FILE_FAULT, b"", b"fault ranks line 1 field 0 F01 Header earlier 0\n")
    fed("ranks from a pipe without a byte", b"", 3, header)
    ends("a word that is no text", run([b"place", b"\xff"]), (NO_WORDS, b"", b""))
    ends("no words", run([]), (WORDS, b"", b"words NoCommand 0\n"))
    desk = files_in(os.path.join("examples", "desk"), "placement", "registrations")
    registered = run(desk, DESK)[1]
    with open("/dev/full", "wb") as full:
        ends("the desk's text on a full disk", run(desk, DESK, stdout=full), write_fault)
        ends("the desk's line on a full disk", run(desk, DESK, stderr=full), (DONE, registered, None))
    for at, what in ((0, "placement"), (1, "registrations")):
        words = list(desk)
        words[at] = os.path.join(room, "missing")
        ends("the desk, its %s missing" % what, run(words, DESK), read_fault)
    ends("the desk without words", run([], DESK), (WORDS, b"", b"words WordCount 1\n"))


def teams_of(events):
    """The teams of a run: for each what happens from where the first thread begins one until it has waited for all."""
    teams, left = [], 0
    for thread, letter in events:
        if left == 0 and (thread, letter) == (0, "c"):
            teams.append([])
        if thread == 0:
            left += (letter == "c") - (letter == "j")
        if left > 0:
            teams[-1].append((thread, letter))
    return teams


def taken_at_work(team):
    """How often the threads of a team take memory, but for the piece that a thread takes just before it begins another:
    without that, it does the other's work itself."""
    taken, before = 0, {}
    for thread, letter in team:
        taken += before.get(thread) == "m" and letter != "c"
        before[thread] = letter
    return taken + list(before.values()).count("m")


def counts(tally, room):
    watcher = compiled(room, "counts", WATCHER)
    if watcher is None:
        return
    counted = os.path.join(room, "events")

    def watched(words, program):
        with open(counted, "wb") as file:
            file.truncate(3 * EVENTS)
        ended = run(words, program, env={"LD_PRELOAD": watcher, "COUNTED": counted})
        with open(counted, "rb") as file:
            noted = file.read()
        noted = noted[: noted.index(bytes(3))] if bytes(3) in noted else noted
        return ended, [(noted[at] + 256 * noted[at + 1], chr(noted[at + 2])) for at in range(0, len(noted) - 2, 3)]

    made = made_market(room)
    folders = [os.path.join("examples", name) for name in TEAMS] + [made]
    for workers in (2, 7):
        for name, program, words, free in commands(workers, folders, ["7", "300", "40", "5"], made):
            ended, events = watched(words, program)
            letters = [letter for _, letter in events]
            while_writing = letters[letters.index("w"):].count("m")
            # the last teams are those of rounds: as many as the market's rounds run, and of another market at least
            # as many as its first round has types
            number = 0
            if words[0] in ("place", "base", "reasons", "make"):
                number = TEAMS.get(os.path.basename(os.path.dirname(words[1])), 4)
            last = teams_of(events)[-number:] if number else []
            taken = sum(map(taken_at_work, last))
            threads = [[letter for _, letter in team].count("c") for team in last]
            wrong = ended != free or while_writing != 0 or taken != 0 or threads != [workers - 1] * number
            tally.case("counts: " + name, "%d teams of rounds take %d at work, the text %d while it is written, all in all %d"
                       % (len(last), taken, while_writing, letters.count("m")), wrong)


def main():
    if not os.path.exists(PLACE) or not os.path.exists(DESK):
        sys.exit("refusals: build the programs first, as with ./place and ./place-desk")
    parts = {"memory": memory, "limits": limits, "system": system, "counts": counts}
    tally = Tally()
    for name in sys.argv[1:] or list(parts):
        with tempfile.TemporaryDirectory() as room:
            parts[name](tally, room)
    print("%d runs were refused something, %d answers were wrong" % (tally.refused, tally.wrong))
    sys.exit(tally.wrong != 0)


main()
