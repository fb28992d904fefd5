#!/usr/bin/env python3
"""Holds the worked cases against all placements that there are.

Of each case of crates/worked_cases/stdin that is placed, explained or audited without a refusal, the text is made again
from the files alone and from what is meant: every placement of the market is looked at, those that are stable are kept,
and of these the one that gives each candidate the least is the one to be printed. The program is not run; that it
writes the texts of the cases is shown by crates/worked_cases. Cases of refusals, of made markets and of the desk are
counted only, and so are those of files that tools/market_files.py does not read. The number of all runs is the one in
the stdout beside the cases.
"""
import itertools
import os
import re
import sys
import tempfile
from collections import Counter

sys.dont_write_bytecode = True
ROOT = os.path.dirname(os.path.dirname(os.path.abspath(__file__)))
sys.path.insert(0, os.path.join(ROOT, "tools"))
from market_files import (CANDIDATES, PROGRAMMES, number, read_candidates, read_placement, read_programmes, read_ranks,
                          rows)

CASES = os.path.join(ROOT, "crates", "worked_cases", "stdin")
WORDS = {"$": 1, "$*": 5}  # how often words are run: as they stand, and with each number of workers
MOST_PLACEMENTS = 100_000
ESCAPE = re.compile(rb"\\(r|x[0-9a-f]{2}|\\|$)")


def bytes_of(line):
    """What a line of a file stands for, with its end."""
    meant = {b"r": b"\r", b"\\": b"\\", b"": b""}
    text = line.encode()
    found = ESCAPE.sub(lambda it: meant[it[1]] if it[1] in meant else bytes([int(it[1][1:], 16)]), text)
    return found if text.endswith(b"\\") and not text.endswith(b"\\\\") else found + b"\n"


def cases():
    """Each case with its line, the files that stand, the words, how often they are run, the text and the status."""
    files, name, words, runs, text = {}, None, None, 0, []
    with open(CASES, encoding="ascii") as lines:
        for number, line in enumerate(lines, 1):
            word, _, rest = line.rstrip("\n").partition(" ")
            if word == "shelf":
                files = {}
            elif word == "file":
                name = rest
                files[name] = b""
            elif word == "without":
                del files[rest]
            elif word == "|":
                files[name] += bytes_of(rest)
            elif word in WORDS:
                words, runs, text = rest.split(" "), WORDS[word], []
            elif word == ">":
                text.append(rest)
            elif word == "=":
                yield number, dict(files), words, runs, text, int(rest.split()[0])


class Market:
    """A market, and all of its stable placements."""

    def __init__(self, programmes, candidates, ranks):
        self.programmes, self.lists = read_programmes(programmes), read_candidates(candidates)
        self.ranks = read_ranks(ranks)
        self.wishes = {who: [code for code in codes if self.programmes[code].admits(self.rank(who, code))]
                       for who, codes in self.lists.items()}

    def all_stable(self):
        count = 1
        for wishes in self.wishes.values():
            count *= len(wishes) + 1
        assert count <= MOST_PLACEMENTS, f"{count} placements are too many to look at"
        return [held for held in self.placements() if self.verdict(held) == "STABLE"]

    def rank(self, who, code):
        return self.ranks.get(self.programmes[code].type, {}).get(who)

    def placements(self):
        """All ways to give each candidate an acceptable programme, or none."""
        for codes in itertools.product(*([*wishes, None] for wishes in self.wishes.values())):
            yield dict(zip(self.lists, codes))

    def holders(self, held, code):
        return [who for who, of in held.items() if of == code]

    def preferred(self, who, held):
        """What a candidate prefers to what is held, best first."""
        wishes = self.wishes[who]
        return wishes if held[who] is None else wishes[:wishes.index(held[who])]

    def verdict(self, held):
        """The first thing that keeps a placement from being stable, or that it is stable."""
        for code, programme in self.programmes.items():
            if len(self.holders(held, code)) > programme.quota:
                return f"OVERQUOTA,{code}"
        for who, code in held.items():
            if code is not None and code not in self.wishes[who]:
                return f"NOTACCEPTABLE,{who}"
        for who in held:
            for code in self.preferred(who, held):
                ranks = [self.rank(other, code) for other in self.holders(held, code)]
                if len(ranks) < self.programmes[code].quota or max(ranks, default=0) > self.rank(who, code):
                    return f"BLOCKING,{who},{code}"
        return "STABLE"

    def least(self):
        """The stable placement that gives each candidate the least; there has to be one."""
        stable = self.all_stable()
        for held in stable:
            if all(other[who] == held[who] or other[who] in self.preferred(who, held)
                   for other in stable for who in held):
                return held
        raise AssertionError("no stable placement gives each candidate the least")

    def bases(self, held):
        """Of each programme its quota, how many hold it, and the worst rank among them."""
        ranks = {code: [self.rank(who, code) for who in self.holders(held, code)] for code in self.programmes}
        return {code: (self.programmes[code].quota, len(of), max(of, default="-")) for code, of in ranks.items()}

    def reason(self, who, code, held):
        if held[who] == code:
            return "PLACED,-"
        if held[who] in self.lists[who][:self.lists[who].index(code)]:
            return "BELOW,-"
        if self.rank(who, code) is None:
            return "NORANK,-"
        if code not in self.wishes[who]:
            return f"BAR,{self.programmes[code].bar}"
        return f"FULL,{self.bases(held)[code][2]}"

    def shared(self):
        """Who has no programme in any stable placement, and how many hold each programme in every one."""
        alike = {(tuple(who for who in held if held[who] is None),
                  tuple(len(self.holders(held, code)) for code in self.programmes)) for held in self.all_stable()}
        (left, counts), = alike
        return left, zip(self.programmes, counts)


def placed(market, _):
    return ["candidate,programme", *(f"{who},{code or '-'}" for who, code in market.least().items())]


def based(market, _):
    return ["programme,quota,held,base", *(f"{code},{quota},{count},{base}"
                                           for code, (quota, count, base) in market.bases(market.least()).items())]


def explained(market, _):
    held = market.least()
    return ["candidate,programme,reason,base",
            *(f"{who},{code},{market.reason(who, code, held)}" for who, codes in market.lists.items() for code in codes)]


def shared(market, _):
    left, counts = market.shared()
    return ["row,number,held", *(f"CANDIDATE,{who},0" for who in left),
            *(f"PROGRAMME,{code},{count}" for code, count in counts)]


def audited(market, words):
    named = read_placement(words[0])
    return [market.verdict({who: named.get(who) for who in market.lists})]


def swept(market, words):
    code, low, high = map(int, words)
    lines, before = ["quota,held,base,changed"], None
    for quota in range(low, high + 1):
        market.programmes[code].quota = quota
        now = market.least()
        changed = sum(now[who] != before[who] for who in now) if before else 0
        lines.append(",".join(map(str, (*market.bases(now)[code], changed))))
        before = now
    return lines


def placed_again(market, words):
    """The seats that are left, for those who have none, once the registered candidates have theirs."""
    verdict = audited(market, words)
    if verdict != ["STABLE"]:
        return verdict
    held, registered = read_placement(words[0]), {number(who) for who, in rows(words[1], ("candidate",))}
    for who, code in held.items():
        if code is not None:
            market.wishes[who] = []
            market.programmes[code].quota -= who in registered
    return placed(market, words)


TEXTS = {"place": placed, "base": based, "reasons": explained, "fixed": shared, "audit": audited, "sweep": swept,
         "second": placed_again}


def is_read(files, words):
    """Whether the tools read such programmes and candidates."""
    first = [next(filter(None, files[name].decode("utf-8-sig").split("\n"))).rstrip("\r") for name in words[2:4]]
    return first[0] in PROGRAMMES and first[1] in CANDIDATES


def meant_by(files, words):
    """The lines that words have to print, run over these files."""
    with tempfile.TemporaryDirectory() as room:
        for name in files:
            with open(os.path.join(room, name), "wb") as out:
                out.write(files[name])
        names = [os.path.join(room, name) if name in files else name for name in words[2:]]
        return TEXTS[words[1]](Market(*names[:3]), names[3:])


def main():
    examined, others, all_runs, wrong = Counter(), 0, 0, 0
    for number, files, words, runs, text, status in cases():
        all_runs += runs
        if status not in (0, 7) or words[0] != "place" or words[1] == "make" or not is_read(files, words):
            others += 1
            continue
        examined[words[1]] += 1
        meant = meant_by(files, words)
        is_verdict = words[1] in ("audit", "second") and len(text) == 1
        if meant != text or status != (7 if is_verdict and text != ["STABLE"] else 0):
            wrong += 1
            print(f"cases: line {number}: {' '.join(words)} has to print {' / '.join(meant)}", file=sys.stderr)
    with open(CASES.replace("stdin", "stdout"), encoding="ascii") as said:
        if said.read() != f"{all_runs} runs, 0 of them differ\n":
            wrong += 1
            print(f"cases: there are {all_runs} runs, and stdout says otherwise", file=sys.stderr)
    shown = ", ".join(f"{count} {command}" for command, count in sorted(examined.items()))
    print(f"cases: {shown} looked at, {others} others counted, {wrong} wrong")
    return int(wrong != 0 or not examined)


if __name__ == "__main__":
    sys.exit(main())
