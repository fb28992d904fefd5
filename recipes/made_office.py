#!/usr/bin/env python3
"""Makes the raw data of a placement office that does not exist, to try the recipes on:

    recipes/made_office.py FOLDER [CANDIDATES [PROGRAMMES [SEED]]]

    office.db        sqlite: the tables person, score, programme and wish, as a registration system keeps them
    adaylar.csv, puanlar.csv, programlar.csv, tercihler.csv
                     the same, persons, scores, programmes and wishes, as a spreadsheet exports them: a byte order mark,
                     semicolons, quotes, decimal commas, CR LF

Scores are decimals with three digits; `tie` orders those of equal score, the lesser first. Score types have the office's
own names (SÖZ, DİL). Wishes are one row each, numbered with gaps, in no order. Names and addresses do not leave the office.

Ten things are wrong in it, as they are in real data; what they are is printed at the end.
"""
import csv
import os
import random
import sqlite3
import sys

TYPES = {"SAY": 0.75, "EA": 0.75, "SÖZ": 0.7, "DİL": 0.15, "TYT": 0.97}
TYPE_SHARES = (35, 25, 15, 5, 20)
FIRST = ("Ayşe", "Mehmet", "Zeynep", "Ali", "Fatma", "Çağla", "İsmail", "Ömer", "Gül", "Deniz")
LAST = ("Yılmaz", "Kaya", "Demir", "Şahin", "Çelik", "Öztürk", "D'Angelo", "Müller-Kurt", 'Ak "Ağa" Bey', "Arslan")
TOWNS = ("Ankara", "İstanbul", "Bursa; Nilüfer", "Muş", "Iğdır", "Kırşehir")
FACULTIES = ("Tıp", "Hukuk", "Bilgisayar Müh.", "Mimarlık; İç Mimarlık", 'Öğretmenlik "İngilizce"', "İşletme")
WITHDRAWN = 299_999_999
TABLES = """
create table person (number integer primary key, name text, address text, born text);
create table score (number integer, type text, score real, tie integer);
create table programme (code integer primary key, name text, type text, quota integer);
create table wish (number integer, place integer, code integer);
"""


class Office:
    """The tables, as lists of rows."""

    def __init__(self, draw, candidates, programmes):
        self.draw, self.wrong = draw, []
        self.numbers, last = [], 10_000_000_000
        for _ in range(candidates):
            last += draw.randint(2, 400)
            self.numbers.append(last)
        draw.shuffle(self.numbers)
        self.persons = [self.person(number) for number in self.numbers]
        codes = draw.sample(range(100_000_000, WITHDRAWN), programmes)
        self.programmes = [self.programme(code, candidates // programmes) for code in codes]
        self.scores = [row for number in self.numbers for row in self.scores_of(number)]
        self.break_ties()
        self.wishes = self.all_wishes()
        draw.shuffle(self.wishes)

    def person(self, number):
        draw = self.draw
        address = f"{draw.choice(LAST)} Cad. No:{draw.randint(1, 200)}\n{draw.choice(TOWNS)}"
        born = f"{draw.randint(1, 28):02}.{draw.randint(1, 12):02}.{draw.randint(2004, 2007)}"
        return number, f"{draw.choice(FIRST)} {draw.choice(LAST)}", address, born

    def programme(self, code, mean):
        draw = self.draw
        name = f"Ü{draw.randint(1, 120)} {draw.choice(FACULTIES)}"
        return [code, name, draw.choices(list(TYPES), TYPE_SHARES)[0], draw.randint(mean // 3, mean * 3 // 2)]

    def scores_of(self, number):
        skill = self.draw.gauss(300, 55)
        for name, share in TYPES.items():
            if self.draw.random() < share:
                yield [number, name, round(min(560, max(100, skill + self.draw.gauss(0, 25))), 3), 0]

    def break_ties(self):
        seen = {}
        for row in self.scores:
            equal = (row[1], row[2])
            row[3] = seen.get(equal, 0)
            seen[equal] = row[3] + 1

    def all_wishes(self):
        draw, own, found = self.draw, {}, []
        for number, name, _, _ in self.scores:
            own.setdefault(number, set()).add(name)
        popular = [draw.paretovariate(1.2) for _ in self.programmes]
        for number in self.numbers:
            length = draw.choices((0, draw.randint(1, 10), draw.randint(11, 24)), (8, 40, 52))[0]
            drawn = draw.choices(range(len(self.programmes)), popular, k=3 * length)
            chosen = [self.programmes[at] for at in dict.fromkeys(drawn)]
            chosen = [it for it in chosen if it[2] in own.get(number, ()) or draw.random() < 0.05][:length]
            place = 0
            for code, *_ in chosen:
                place += draw.choice((1, 1, 1, 2))
                found.append([number, place, code])
        return found

    def spoil(self):
        """Ten mistakes, each with a line that tells it; the last two are in the exports alone."""
        wishes, scores, told = self.wishes, self.scores, self.wrong
        for at in (17, len(wishes) // 2):
            wishes[at][2] = WITHDRAWN
            told.append(f"programme {WITHDRAWN} is withdrawn, and candidate {wishes[at][0]} wishes it")
        number, _, code = wishes[100]
        wishes.append([number, 60, code])
        told.append(f"candidate {number} wishes {code} twice")
        long = next(it for it in self.numbers[5:] if it not in (number, wishes[17][0], wishes[len(wishes) // 2][0]))
        wishes[:] = [row for row in wishes if row[0] != long]
        wishes += [[long, place, row[0]] for place, row in enumerate(self.programmes[:25], 1)]
        told.append(f"candidate {long} has 25 wishes")
        scores.append(list(scores[50]))
        told.append(f"the score of {scores[50][0]} in {scores[50][1]} stands there twice")
        by_score = {}
        one, two = next((one, two) for two in scores[1000:-1]
                        for one in [by_score.setdefault((two[1], two[2]), two)] if one is not two)
        two[3] = one[3]
        told.append(f"the tie of {one[0]} and {two[0]} in {one[1]} is not broken")
        scores[200][1] += "I"
        told.append(f"a score of {scores[200][0]} is of type {scores[200][1]}, which no programme has")
        scores[300][0] += 1
        told.append(f"candidate {scores[300][0] - 1} has a score under the number {scores[300][0]}, which is nobody's")
        self.comma, self.space = self.programmes[7][0], self.numbers[9]
        told.append(f"the quota of {self.comma} is exported with a decimal comma")
        told.append(f"the number of {self.space} is exported with a space")

    def write_database(self, path):
        if os.path.exists(path):
            os.remove(path)
        database = sqlite3.connect(path)
        database.executescript(TABLES)
        for table, rows in zip(("person", "score", "programme", "wish"),
                               (self.persons, self.scores, self.programmes, self.wishes)):
            database.executemany(f"insert into {table} values (?, ?, ?, ?)" if table != "wish"
                                 else "insert into wish values (?, ?, ?)", rows)
        database.commit()
        database.close()

    def write_exports(self, folder):
        def export(name, header, rows):
            with open(os.path.join(folder, name), "w", encoding="utf-8-sig", newline="") as out:
                sheet = csv.writer(out, delimiter=";", quoting=csv.QUOTE_NONNUMERIC, lineterminator="\r\n")
                sheet.writerow(header)
                sheet.writerows(rows)

        def spaced(number):
            return f"{str(number)[:5]} {str(number)[5:]}" if number == self.space else str(number)

        def with_comma(score):
            return f"{score:.3f}".replace(".", ",")

        export("adaylar.csv", ["Aday No", "Adı Soyadı", "Adres", "Doğum"],
               [(spaced(number), *rest) for number, *rest in self.persons])
        export("puanlar.csv", ["Aday No", "Puan Türü", "Puan", "Sıra"],
               [(str(number), name, with_comma(score), tie) for number, name, score, tie in self.scores])
        export("programlar.csv", ["Kod", "Program", "Puan Türü", "Kontenjan"],
               [(code, name, kind, f"{quota},0" if code == self.comma else quota)
                for code, name, kind, quota in self.programmes])
        export("tercihler.csv", ["Aday No", "Sıra", "Kod"],
               [(str(number), place, code) for number, place, code in self.wishes])


def main(folder, candidates="20000", programmes="300", seed="2024"):
    os.makedirs(folder, exist_ok=True)
    office = Office(random.Random(int(seed)), int(candidates), int(programmes))
    office.spoil()
    office.write_database(os.path.join(folder, "office.db"))
    office.write_exports(folder)
    print(f"{len(office.persons)} persons, {len(office.programmes)} programmes, {len(office.scores)} scores,"
          f" {len(office.wishes)} wishes")
    print(*(f"wrong: {line}" for line in office.wrong), sep="\n")


if __name__ == "__main__":
    if not 2 <= len(sys.argv) <= 5:
        print(__doc__, file=sys.stderr)
        sys.exit(2)
    main(*sys.argv[1:])
