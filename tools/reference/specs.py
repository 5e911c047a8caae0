"""Reads the lines of specifications: what a file imports, and which lines begin a definition."""
import re

from source_reader import indent

USE = re.compile(r"^[ \t]*((?:pub |ghost |unfoldable )*)use\s+([^\s{;]+?)"
                 r"(?:\.\{([^}]*)\}|\s+as\s+([^\s;]+))?\s*;?[ \t]*$", re.M)
KEYWORD = re.compile(r"(?:pub|abbrev|unfoldable|data|record(?!\s*\{)|axiom|ruleset)\b")
NEW = re.compile(rf"(?={KEYWORD.pattern}|\S+ :)((?:{KEYWORD.pattern}\s+)*)(?!{KEYWORD.pattern})"
                 r"([^\s(){}:]+)(?=\s*[:({]|\s+where)")
# The head of a module within a file, which may take several lines.
HEADER = re.compile(r"^ *(?:pub )?module (?:(?!\n\n).)*?\bwhere$", re.M | re.S)
BLOCK = re.compile(r"(?P<module>(?:pub )?module) \S+ (?P<parameters>.*)where$|(?:\w+ )?mutual$")
NO_DEFINITION = re.compile(r" *(infix[lr]?|pub mod|open)\b")


def imports(text):
    """What a text imports by its names here, and what it passes on: the path of a module, and the
    name of a definition there. The name of a module ends in a dot, and has no definition's."""
    found, passed = {}, {}
    for marks, path, listed, alias in USE.findall(text):
        pairs = (re.split(r"\s+as\s+", it.strip()) for it in listed.split(",") if it.strip())
        new = {it[-1]: (path, it[0]) for it in pairs}
        new = new or {(alias or path.rpartition(".")[2]) + ".": (path, "")}
        found |= new
        passed |= new if "pub" in marks else {}
    return found, passed


def definition_lines(text):
    """The lines of definitions; the head of a module is one line, at its indentation."""
    text = HEADER.sub(lambda it: " " * indent(it[0]) + " ".join(it[0].split()), USE.sub("", text))
    return [it for it in text.split("\n") if not NO_DEFINITION.match(it)]


def head_comments(text):
    """What the comment at the head of a toolchain's file says of each name: rows of names and
    arguments, spaces, meaning."""
    said = {}
    for line in re.findall(r"^--  +(\S.*)$", text, re.M):
        cells = re.split(r"\s{4,}", line)
        for names, meaning in zip(cells[::2], cells[1::2]):
            said |= {it.split()[0]: f"{names}: {meaning}" for it in names.split(",") if it.strip()}
    return said
