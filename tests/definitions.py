#!/usr/bin/env python3
"""docs/DEFINITIONS.md lists exactly what the clauses of the top calls reach, and tools/definitions follows what it should.

The tool is tried on a small repository whose definitions are named by what they show. Then the list of the document is
compared, and what the document says of it. Prints what is wrong, and ends with 1 then.
"""
import importlib.machinery
import importlib.util
import os
import re
import sys
import tempfile

ROOT = os.path.dirname(os.path.dirname(os.path.abspath(__file__)))
PAGE = os.path.join(ROOT, "docs", "DEFINITIONS.md")
OF_THE_WORKERS = ("interleaving_core", "word_rule", "full_flags", "claim_words", "commit_book", "round_rerun")

LOW_SPECS = """-- In this comment stands not_by_a_comment.
use Rattle.std.specs.Prelude.{List}

abbrev pub reached_through : List
reached_through = below_it

unfoldable pub below_it : List
below_it = 0 -- not_by_a_comment

abbrev pub by_a_new_name : List
by_a_new_name = 0

abbrev pub by_its_module : List
by_its_module = 0

abbrev pub not_by_a_comment : List
not_by_a_comment = 0

abbrev pub same_name : List
same_name = 0

abbrev pub by_a_view : List
by_a_view = 0

abbrev pub nobody_names_it : List
nobody_names_it = reached_through
"""
TOP_SPECS = """use Rattle.low.specs.Words.{reached_through, by_a_new_name as other}
use Rattle.low.specs.Words as words
use Rattle.low.specs.declared.kinds.Kind.TheVariants as kind

abbrev pub promise : List
promise = reached_through other words.by_its_module kind.First same_name

abbrev pub same_name : List
same_name = 0

pub record IsNobody : Type 0 where
  pub nobody_names_it : List
"""
LOW_CODE = """ghost use Rattle.low.specs.Words.{nobody_names_it};

pub enum Kind {
    First(Held),
}

pub struct Held;

impl Model for Held {
    ghost use Rattle.low.specs.Words.{by_a_view};

    ghost view = { by_a_view };
}

impl Model for Free {
    ghost view = { nobody_names_it };
}

pub struct Free;

fn inner() {
    let free = Free;
}
"""
TOP_CODE = """ghost use Rattle.top.specs.Promises.{promise, IsNobody};

use low::{Free, Told};

/// What is told.
pub fn run(told: &Told)
    ensures { promise }
{
    IsNobody
}
"""
LOW_TRAIT = """pub trait Told {
    ghost bytes: { Self };

    fn tell(&self)
        ensures { bytes };
}
"""
FILES = {"crates.txt": "low:\ntop: low\n", "crates/low/specs/Words.antt": LOW_SPECS, "crates/low/src/kinds.rt": LOW_CODE,
         "crates/low/src/told.rt": LOW_TRAIT, "crates/top/specs/Promises.antt": TOP_SPECS, "crates/top/src/run.rt": TOP_CODE}
REACHED = {
    ("low", "specs/Words.antt"): ["reached_through", "below_it", "by_a_new_name", "by_its_module", "by_a_view"],
    ("low", "src/kinds.rt"): ["Kind", "Held"], ("low", "src/told.rt"): ["Told"],
    ("top", "specs/Promises.antt"): ["promise", "same_name"],
}


def load_tool():
    loader = importlib.machinery.SourceFileLoader("definitions", os.path.join(ROOT, "tools", "definitions"))
    tool = importlib.util.module_from_spec(importlib.util.spec_from_loader("definitions", loader))
    sys.dont_write_bytecode = True
    loader.exec_module(tool)
    return tool


def rows_of(table):
    """The rows of a table of definitions: the names by crate and file."""
    rows = re.findall(r"^\| (\w+) \| `(.*)` \| (.*) \|$", table, re.M)
    return {(crate, path): re.findall(r"`([^`]+)`", names) for crate, path, names in rows}


def try_small(tool):
    with tempfile.TemporaryDirectory() as room:
        for path, text in FILES.items():
            os.makedirs(os.path.dirname(os.path.join(room, path)), exist_ok=True)
            with open(os.path.join(room, path), "w", encoding="utf-8") as file:
                file.write(text)
        found = rows_of(tool.Book(room).table([("top", "src/run.rt", "run")]))
    return [f"a small repository: {key}: {found.get(key)}, not {REACHED.get(key)}"
            for key in sorted({*found, *REACHED}) if found.get(key) != REACHED.get(key)]


def look_at_page(tool):
    with open(PAGE, encoding="utf-8") as file:
        text, _, table = file.read().partition(tool.BEGIN)
    listed, wrong = rows_of(table), []
    wrong += [f"{crate} is of the workers, and stands in the list" for crate, _ in listed if crate in OF_THE_WORKERS]
    # each file of the market's definitions that the list has is a topic of the page
    topics = {topic for head in re.findall(r"^## .*\((.*)\)$", text, re.M) for topic in re.findall(r"`(\w+)`", head)}
    topics |= {"BaseRanks", "Counting"}
    wrong += [f"the market's {path} is reached, and no topic of the page" for crate, path in listed
              if crate == "market" and path.startswith("specs/") and path[6:-5] not in topics]
    if tool.main(["--check", PAGE]) != 0:
        wrong.append("the list is not that of the code")
    return wrong


def main():
    tool = load_tool()
    wrong = try_small(tool) + look_at_page(tool)
    for line in wrong:
        print(f"definitions: {line}", file=sys.stderr)
    sys.exit(bool(wrong))


main()
