#!/usr/bin/env python3
"""Makes a market as three files: make_market.py CANDIDATES PROGRAMMES TYPES RANKS SEED FOLDER

CANDIDATES, PROGRAMMES and TYPES are numbers of rows and of score types, RANKS is about how many rank rows there are
(at most CANDIDATES times TYPES). Candidate numbers have 11 digits and programme codes 9, as in use; the first score
types are SAY, EA, SOZ, DIL and TYT; ranks have gaps; quotas add up to about the number of candidates; a list has 0 to 24
programmes, mostly of score types in which the candidate has a rank, and some programmes are wanted more than others.
"""
import os
import random
import sys
from array import array

NAMES = ["SAY", "EA", "SOZ", "DIL", "TYT"]


def main():
    candidates, programmes, types, ranks, seed = (int(word) for word in sys.argv[1:6])
    folder = sys.argv[6]
    os.makedirs(folder, exist_ok=True)
    draw = random.Random(seed)
    names = (NAMES + ["T%d" % number for number in range(6, 17)])[:types]

    codes = draw.sample(range(100_000_000, 1_000_000_000), programmes)
    kinds = [draw.randrange(types) for _ in range(programmes)]
    seats = max(1, 2 * candidates // max(1, programmes))
    with open(os.path.join(folder, "programmes.csv"), "w") as out:
        out.write("programme,type,quota\n")
        for code, kind in zip(codes, kinds):
            out.write("%d,%s,%d\n" % (code, names[kind], min(100_000, draw.randint(0, seats))))

    each = min(1.0, ranks / max(1, candidates * types))
    rank_of = []
    for _ in range(types):
        ranked = draw.sample(range(candidates), int(each * candidates))
        row = array("I", bytes(4 * candidates))
        rank = 0
        for candidate in ranked:
            rank += draw.randint(1, 3)
            row[candidate] = rank
        rank_of.append(row)

    # the programmes of each score type as texts, the popular ones several times
    texts = [[] for _ in range(types)]
    for code, kind in zip(codes, kinds):
        texts[kind].extend([str(code)] * draw.choice((1, 1, 1, 2, 4)))
    everything = [text for of_kind in texts for text in of_kind]

    number = 10_000_000_000
    listed = open(os.path.join(folder, "candidates.csv"), "w", buffering=1 << 20)
    ranked = open(os.path.join(folder, "ranks.csv"), "w", buffering=1 << 20)
    listed.write("candidate,list\n")
    ranked.write("candidate,type,rank\n")
    for candidate in range(candidates):
        number += draw.randint(1, 9)
        own = [kind for kind in range(types) if rank_of[kind][candidate]]
        length = draw.randint(0, 24) if everything else 0
        wanted = []
        for kind in own[: 1 + length % 3]:
            if texts[kind]:
                wanted.extend(draw.choices(texts[kind], k=1 + length // 3))
        wanted.extend(draw.choices(everything, k=max(0, length - len(wanted))) if everything else [])
        draw.shuffle(wanted)
        listed.write("%d,%s\n" % (number, ";".join(list(dict.fromkeys(wanted))[:length])))
        for kind in own:
            ranked.write("%d,%s,%d\n" % (number, names[kind], rank_of[kind][candidate]))
    listed.close()
    ranked.close()


main()
