"""Reads docs/GUARANTEES.md: the rows of its sections, each of a crate, and the lines between."""
import re

from crate_list import ROOT

PAGE = ROOT / "docs/GUARANTEES.md"
LINK = re.compile(r"\[(`[^`]+`)\]\(([^)]*)\)")


def links(cell):
    """The names that a cell links, each with its clauses and the path of its file."""
    for words, target in LINK.findall(cell):
        name, _, clauses = words.strip("`").partition(": ")
        yield name, clauses.split(", ") if clauses else [], (PAGE.parent / target).resolve()


class Claim:
    """A row: the claim, and as links what it cites and its proved callers."""

    def __init__(self, number, crate, line):
        text, cited, *callers = line.strip("|").split("|")
        self.number, self.crate, self.text = number, crate, LINK.sub(r"\1", text).strip()
        self.cited, self.callers = list(links(cited)), list(links("".join(callers)))


def section_lines():
    """Each line of a section that is not empty, with its number and the crate."""
    crate = ""
    for number, line in enumerate(PAGE.read_text().split("\n"), 1):
        if found := re.match(r"## `(\w+)`", line):
            crate = found[1]
        elif crate and line:
            yield number, crate, line


def is_row(line):
    return line.startswith("| ") and " | " in line and not line.startswith("| Claim")


def claims():
    return [Claim(*it) for it in section_lines() if is_row(it[2])]
