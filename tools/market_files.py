"""The files of records as the tools read them: rows below a header, each number by its value.

It reads what the program accepts and looks for no fault that a tool does not stumble over: the first fault of a file,
with its line, is told by the program itself. A file that cannot be read as such a file ends the tool with status 2.
"""
import sys

PROGRAMMES = ("programme,type,quota", "programme,type,quota,bar")
CANDIDATES = ("candidate,list",)
RANKS = ("candidate,type,rank",)
PLACEMENT = ("candidate,programme",)
BASE = ("programme,quota,held,base",)
REASONS = ("candidate,programme,reason,base",)


def stop(why):
    """Ends the tool with what is wrong with its words or its files."""
    print(why, file=sys.stderr)
    sys.exit(2)


def rows(path, headers):
    """The rows of a file behind its header, one after the other, as lists of texts; the header is one of these."""
    try:
        with open(path, encoding="utf-8-sig", newline="\n") as file:
            fields = None
            for line in file:
                line = line.removesuffix("\n").removesuffix("\r")
                if not line:
                    continue
                row = line.split(",")
                if fields is None:
                    if line not in headers:
                        stop(f"{path}: the first row is not {' or '.join(headers)}")
                    fields = len(row)
                    continue
                if len(row) != fields:
                    stop(f"{path}: this row has not {fields} fields: {line}")
                yield row
            if fields is None:
                stop(f"{path}: the first row is not {' or '.join(headers)}")
    except (OSError, UnicodeDecodeError) as why:
        stop(f"{path}: {why}")


def number(text):
    """The value of a number as it stands in a file."""
    if not (text.isascii() and text.isdigit()):
        stop(f"this is no number: {text!r}")
    return int(text)


def number_or_none(text):
    """A number, or `-` for none."""
    return None if text == "-" else number(text)


def entries(text):
    """The codes of a preference list."""
    return [number(code) for code in text.split(";")] if text else []


class Programme:
    """A row of the programmes file; a programme without a bar has none, and so has each one of version 1."""

    __slots__ = ("type", "quota", "bar")

    def __init__(self, type_name, quota, bar="-"):
        self.type, self.quota, self.bar = type_name, number(quota), number_or_none(bar)

    def admits(self, rank):
        """Whether a candidate of this rank in its score type, or of none, may hold the programme."""
        return rank is not None and (self.bar is None or rank <= self.bar)


def only_once(pairs, what):
    """A dictionary of pairs whose keys differ."""
    found = {}
    for key, value in pairs:
        if key in found:
            stop(f"{what} {key} stands there twice")
        found[key] = value
    return found


def read_programmes(path):
    """The programmes by code, in the order of their file."""
    return only_once(((number(code), Programme(*rest)) for code, *rest in rows(path, PROGRAMMES)), "programme")


def read_candidates(path):
    """The preference lists by candidate, in the order of their file."""
    return only_once(((number(who), entries(wishes)) for who, wishes in rows(path, CANDIDATES)), "candidate")


def read_ranks(path):
    """The rank of each candidate who has one, by score type."""
    found = {}
    for who, type_name, rank in rows(path, RANKS):
        of_type, who = found.setdefault(type_name, {}), number(who)
        if who in of_type:
            stop(f"the rank of candidate {who} in {type_name} stands there twice")
        of_type[who] = number(rank)
    for type_name, of_type in found.items():
        if len(set(of_type.values())) < len(of_type):
            stop(f"two candidates have the same rank in {type_name}")
    return found


def read_placement(path):
    """The programme held by each candidate who has a row, or none."""
    return only_once(((number(who), number_or_none(code)) for who, code in rows(path, PLACEMENT)), "candidate")
