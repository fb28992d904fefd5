#!/usr/bin/env python3
"""Small markets by chance: the program against tools/check_placement, and both against all placements: checker.py [MARKETS]

Build the program first, as with ./place. Of each market, 1,000 where no number is said,

- the placement and the base ranks that the program prints are right by all six questions of the checker;
- of a placement drawn by chance, and of the program's with one candidate moved, the checker and `audit` say the same:
  stable, or not; a candidate who is left out and a wrong number among the base ranks are seen;
- the stable placement that is best for candidates, who ask in the order of their lists, is stable by both, and where it
  is another one than the program's the checker's fifth question says so, and names whom;
- what `fixed` prints is true of the program's placement and of that best one;
- with the rows of each file in the other order the program places the same;
- and of every fifth market all placements there are are looked through: that of the checker's offers is stable, and no
  stable one gives any candidate less.

Every second market has bars.
"""
import importlib.machinery
import importlib.util
import itertools
import os
import random
import subprocess
import sys
import tempfile
from concurrent.futures import ThreadPoolExecutor

sys.dont_write_bytecode = True
ROOT = os.path.dirname(os.path.dirname(os.path.abspath(__file__)))
PLACE = os.path.join(ROOT, "crates", "place_program", "out", "place_program")
NAMES = ("programmes", "candidates", "ranks", "placement", "base")


def checker():
    """The tool as a module."""
    sys.path.insert(0, os.path.join(ROOT, "tools"))
    loader = importlib.machinery.SourceFileLoader("check_placement", os.path.join(ROOT, "tools", "check_placement"))
    module = importlib.util.module_from_spec(importlib.util.spec_from_loader(loader.name, loader))
    loader.exec_module(module)
    return module


CHECKER = checker()


class Files:
    """A drawn market as files in a folder."""

    def __init__(self, seed, folder):
        draw = random.Random(seed)
        self.draw = draw
        self.path = {name: os.path.join(folder, f"{name}-{seed}.csv") for name in NAMES}
        # in a crossed market each programme has a type of its own and one seat, and everybody is ranked and lists all
        crossed = seed % 4 < 2
        programmes, candidates = draw.randint(3, 5) if crossed else draw.randint(1, 4), draw.randint(1, 5)
        types = programmes if crossed else draw.randint(1, 3)
        codes = draw.sample(range(1, 50), programmes)
        kinds = [f"{code},T{at if crossed else draw.randrange(types)},{1 if crossed else draw.randint(0, 2)}"
                 for at, code in enumerate(codes)]
        has_bars = seed % 2 == 1
        if has_bars:
            kinds = [f"{kind},{draw.choice(('-', '-', draw.randint(1, 30)))}" for kind in kinds]
        self.write("programmes", "programme,type,quota" + ",bar" * has_bars, kinds)
        self.lists = {who: draw.sample(codes, programmes if crossed else draw.randint(0, programmes))
                      for who in draw.sample(range(1, 99), candidates)}
        self.write("candidates", "candidate,list",
                   [f"{who},{';'.join(map(str, codes))}" for who, codes in self.lists.items()])
        ranks = [f"{who},T{kind},{rank}" for kind in range(types)
                 for who, rank in zip(self.lists, draw.sample(range(1, 30), candidates)) if crossed or draw.random() < 0.85]
        self.write("ranks", "candidate,type,rank", draw.sample(ranks, len(ranks)))

    def write(self, name, header, lines):
        with open(self.path[name], "w", encoding="ascii") as out:
            out.write("".join(f"{line}\n" for line in (header, *lines)))

    def write_held(self, held):
        self.write("placement", "candidate,programme", [f"{who},{code or '-'}" for who, code in held.items()])

    def turn_round(self):
        """Puts the rows of the three files in the other order."""
        for name in NAMES[:3]:
            with open(self.path[name], encoding="ascii") as file:
                header, *lines = file.read().splitlines()
            self.write(name, header, reversed(lines))

    def run(self, command):
        """Status and text of a command on these files."""
        words = [self.path[name] for name in NAMES[:4 if command == "audit" else 3]]
        ended = subprocess.run([PLACE, command, *words, "--workers", "1"], capture_output=True, text=True, check=False)
        return ended.returncode, ended.stdout


def by_asking(market):
    """The stable placement that is best for candidates: they ask in the order of their wishes, and may be sent away."""
    held, left = dict.fromkeys(market.lists), {who: list(wishes) for who, wishes in market.wishes.items()}
    asking = list(held)
    while asking:
        who = asking.pop()
        while held[who] is None and left[who]:
            code = left[who].pop(0)
            those = [other for other, of in held.items() if of == code] + [who]
            held[who] = code
            if len(those) > market.programmes[code].quota:
                last = max(those, key=lambda it, code=code: market.rank_at(it, code))
                held[last] = None
                asking.append(last)
    return held


def is_stable(asked):
    return not any(wrong for question, wrong in asked.items() if question[0] in "234")


def least_of_all(market):
    """The stable placement that gives each candidate the least, of all that there are."""
    stable = []
    for codes in itertools.product(*([None, *wishes] for wishes in market.wishes.values())):
        held = dict(zip(market.lists, codes))
        if is_stable(CHECKER.questions(market, held)):
            stable.append(held)

    def place_of(who, code):
        return len(market.lists[who]) if code is None else market.lists[who].index(code)

    return {who: max((held[who] for held in stable), key=lambda code: place_of(who, code)) for who in market.lists}


def audit_differs(files, market, held):
    """What the checker says of a placement, and whether `audit` says another thing."""
    files.write_held(held)
    asked = CHECKER.questions(market, CHECKER.read_placement(files.path["placement"]))
    status, text = files.run("audit")
    wanted = (0, "STABLE\n") if is_stable(asked) else (7, text)
    return asked, (status, text) != wanted or (status == 7 and text == "STABLE\n")


def shared(held, codes):
    """What `fixed` prints, if a placement leaves and fills what every stable one does."""
    return "".join(["row,number,held\n", *(f"CANDIDATE,{who},0\n" for who in held if held[who] is None),
                    *(f"PROGRAMME,{code},{list(held.values()).count(code)}\n" for code in codes)])


def examine(seed, folder):
    """What differs in one market, and how many placements of it were stable, and another's than the program's."""
    files = Files(seed, folder)
    market = CHECKER.Market(*(files.path[name] for name in NAMES[:3]))
    wrong, stable = [], 0
    if seed % 5 == 0 and least_of_all(market) != CHECKER.by_offers(market):
        wrong.append("the offers do not come to the least of all stable placements")
    best = by_asking(market)
    text = files.run("place")[1]
    for name, printed in (("placement", text), ("base", files.run("base")[1])):
        with open(files.path[name], "w", encoding="ascii") as out:
            out.write(printed)
    placed = CHECKER.read_placement(files.path["placement"])
    rows = {int(code): rest for code, *rest in CHECKER.rows(files.path["base"], CHECKER.BASE)}
    wrong += [f"{question}: {said}" for question, said in CHECKER.questions(market, placed, rows).items() if said]
    drawn = {who: files.draw.choice([*codes, None]) for who, codes in files.lists.items()}
    who = files.draw.choice(list(placed))
    moved = {**placed, who: files.draw.choice([*files.lists[who], None])}
    for held in (drawn, moved):
        asked, differs = audit_differs(files, market, held)
        stable += is_stable(asked)
        wrong += ["the audit differs on a placement drawn by chance"] * differs
    code = files.draw.choice(list(rows))
    rows[code][files.draw.randrange(3)] += "1"
    asked = CHECKER.questions(market, {it: placed[it] for it in placed if it != who}, rows)
    if asked["1 each candidate once"] != [f"candidate {who}"] or f"programme {code}" not in asked["6 base ranks"]:
        wrong.append("a candidate that is left out, or a wrong base rank, is not seen")
    asked, differs = audit_differs(files, market, best)
    others = [who for who in placed if placed[who] != best[who]]
    if differs or not is_stable(asked) or len(asked["5 least of all stable"]) != len(others):
        wrong.append("the stable placement that is best for candidates is judged wrong")
    fixed = files.run("fixed")[1]
    if any(fixed != shared(held, market.programmes) for held in (placed, best)):
        wrong.append("what all stable placements share is another thing")
    files.turn_round()
    if sorted(files.run("place")[1].splitlines()) != sorted(text.splitlines()):
        wrong.append("with the rows in the other order another placement is printed")
    return wrong, stable, bool(others)


def main():
    markets = int(sys.argv[1]) if len(sys.argv) > 1 else 1_000
    with tempfile.TemporaryDirectory() as folder, ThreadPoolExecutor(os.cpu_count()) as pool:
        found = list(pool.map(lambda seed: examine(seed, folder), range(markets)))
    for seed, (wrong, _, _) in enumerate(found):
        for line in wrong:
            print(f"checker: market {seed}: {line}", file=sys.stderr)
    failed = sum(bool(wrong) for wrong, _, _ in found)
    print(f"checker: {markets} markets, {sum(it[1] for it in found)} placements by chance stable,"
          f" {sum(it[2] for it in found)} markets with another stable placement, {failed} wrong")
    sys.exit(failed != 0)


main()
