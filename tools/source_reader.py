"""Reads sources: the items of a file with their comments, signatures and contracts, and the modules
by whose names users reach them.

`rt fmt` fixes the layout, so that indentation shows where an item, a clause and a body end. A form
that is laid out otherwise is added to `FAULTS`, with its file and line.
"""
import re
from collections import defaultdict
from functools import cached_property, lru_cache
from typing import NamedTuple

from crate_list import ROOT, crates
from toolchain import toolchain

CRATES = crates()
FAULTS = []
TYPES = ("struct", "enum", "trait", "type")

ITEM = re.compile(r"""(?P<vis>pub(?:\([^)]*\))?\s+)?
    (?P<quals>(?:(?:const|unsafe|final|default|extern\s+"\w*"|ghost)\s+)*)
    (?P<kind>fn|struct|enum|trait|type|const|static|mod|use|impl|ghost)\b\s*(?P<name>\w*)""", re.X)
PUBLIC = re.compile(r'(?: {4})?pub (?:const |unsafe |extern "C" )*'
                    r"(?:fn|struct|enum|trait|type|const|static)\b")
MACRO = re.compile(r"\w+!\s*[({\[\w]")
CLAUSE = re.compile(r"\s*(requires|ensures|ghost)(\*?) ?(\w*):? ?\{")
NESTED = r"<(?:->|[^<>]|<(?:->|[^<>]|<[^<>]*>)*>)*>"
IMPL = re.compile(rf"(?:unsafe )?impl(?:{NESTED})?\s+"
                  r"(?:(?:\w+::)*(?P<trait>\w+)(?:<.*?>)?\s+for\s+)?"
                  r"(?P<of>.+?)\s*(?:\bwhere\b.*)?$", re.S)
FIELD = re.compile(r"^    (pub(?:\(\w+\))? )?(?:ghost )?\w+: .*,$", re.M)


class Clause(NamedTuple):
    """A clause of a contract, with the comment above it."""
    kind: str
    name: str
    text: str
    note: str


def indent(line):
    return len(line) - len(line.lstrip())


def is_note(line):
    return line.strip().startswith("//")


def comment(lines, mark):
    """The text of the comments of one kind among these lines."""
    found = (re.match(rf"\s*{mark}(?![/!]) ?(.*)", line) for line in lines)
    return "\n".join(it[1].rstrip() for it in found if it)


def use_paths(text):
    """The paths of a `use`, each as its words and the name that it has here."""
    head, brace, group = " ".join(text.split()).strip(" ;").partition("{")
    if not brace:
        path, _, alias = head.partition(" as ")
        words = path.strip().removesuffix("::self").split("::")
        yield words, alias or words[-1]
        return
    # Commas of an inner group do not separate.
    for part in re.split(r",(?![^{}]*\})", group.rpartition("}")[0]):
        if part.strip():
            yield from use_paths(head + part.strip())


class Item:
    """An item of a source: its kind, name, signature, comment, clauses and the items within."""

    def __init__(self, source, parent, above, start, end):
        self.source, self.parent, self.start, self.end = source, parent, start, end
        self.above, self.lines = source.lines[above:start], source.lines[start:end]
        self.text = "\n".join(self.lines).strip()
        words = ITEM.match(self.text)
        self.kind, self.name = (words["kind"], words["name"]) if words else ("macro", "")
        self.kind = "ghost use" if words and "ghost" in words["quals"] else self.kind
        self.public = bool(words and (words["vis"] or "").strip() == "pub")
        self.head, self.body, self.clauses, self.children = self.text, "", [], []
        self.anchor = self.page = None
        if not words and not MACRO.match(self.text):
            source.fault(start, "is no item that can be read")
        elif self.kind == "fn" and source.crate in CRATES:
            self.read_function()
        elif self.kind in ("impl", "trait", "mod", "struct", "enum") and "{" in self.text:
            self.head = self.text.partition("{")[0]
            inside = start + self.head.count("\n") + 1
            # Of the toolchain's types, only the value that contracts see is of interest.
            is_read = source.crate in CRATES or self.trait == "Model"
            if self.kind in ("trait", "mod") or self.kind == "impl" and is_read:
                self.children = source.items(inside, end - 1, self)
        elif self.kind == "ghost" and parent:
            said = self.text.partition("=" if parent.kind == "impl" else ":")[2].strip(" ;")
            self.body = said.removeprefix("{").removesuffix("}").strip()

    def read_function(self):
        margin, lines = indent(self.lines[0]), self.lines
        body = next((at for at, it in enumerate(lines) if it[margin:] in ("{", "{}")), len(lines))
        starts = [at for at, it in enumerate(lines[:body])
                  if CLAUSE.match(it) and indent(it) == margin + 4]
        if not starts and body == len(lines):
            self.head, _, self.body = self.text.partition("{")
            return
        self.body, note = "\n".join(lines[body:]), ""
        for at, end in zip([0, *starts], [*starts, body]):
            first = end
            while is_note(lines[first - 1]) and first > at:
                first -= 1
            said = "\n".join(lines[at:first]).strip().rstrip(" ,;")
            if found := CLAUSE.match(said) if at else None:
                kind, star, name = found.groups()
                said = said[found.end():].removesuffix("}").strip()
                self.clauses.append(Clause(kind + star, name, said, note))
            else:
                self.head = said
            note = comment(lines[first:end], "//")
        words = (re.match(r" {4}(requires|ensures)\b", it[margin:]) for it in lines[:body])
        if sum(map(bool, words)) != sum(it.kind != "ghost" for it in self.clauses):
            self.source.fault(self.start, f"the contract of {self.name} cannot be read")

    @cached_property
    def doc(self):
        return comment(self.above, "///")

    @cached_property
    def note(self):
        return self.doc or comment(self.above, "//")

    @cached_property
    def implemented(self):
        return (self.kind == "impl" and IMPL.match(self.head)) or {"trait": None, "of": ""}

    @cached_property
    def trait(self):
        """The name of a trait, or of the trait that an impl is of; or nothing."""
        return self.name if self.kind == "trait" else self.implemented["trait"] or ""

    @cached_property
    def type(self):
        """The name of the type of an impl."""
        found = re.match(r"(?:&(?:'\w+ )?(?:mut )?)?(?:\w+::)*(\w+)", self.implemented["of"])
        return found[1] if found else ""

    @cached_property
    def ghosts(self):
        """The ghost members of a trait or an impl by name."""
        return {it.name: it for it in self.children if it.kind == "ghost"}

    @cached_property
    def owner(self):
        """The name of the trait or the type to which it belongs."""
        return self.parent and (self.parent.type or self.parent.trait) or ""

    def path(self):
        return f"{self.owner}::{self.name}" if self.parent else self.name

    def where(self):
        return f"{self.source.where()}:{self.start + 1}"

    def signature(self):
        """The declaration: of a struct without its private fields, of a trait with its ghost
        members."""
        if self.kind == "trait":
            ghosts = (f"    ghost {it.name}: {{ {it.body} }};\n" for it in self.ghosts.values())
            return self.head + "{\n" + "".join(ghosts) + "}"
        if self.kind in ("fn", "impl"):
            return self.head
        if self.kind in ("enum", "type", "const", "static") or self.text.endswith(";"):
            return self.text
        shown = re.findall(r"(?:^[ \t]*///[^\n]*\n)*^    pub [^\n]*,\n", self.text, re.M)
        rest = "    // private fields\n" if len(shown) < len(FIELD.findall(self.text)) else ""
        return self.head + "{\n" + "".join(shown) + rest + "}"


class Source:
    """A file of code."""

    def __init__(self, crate, path, base):
        self.crate, self.path = crate, path
        module = ".".join(path.relative_to(base).with_suffix("").parts).removesuffix(".mod")
        self.module = "" if module in ("lib", "main") else module
        self.text = path.read_text()
        self.lines = self.text.split("\n")
        self.doc = "\n".join(re.findall(r"^//! ?(.*)", self.text, re.M))
        self.top = self.items(0, len(self.lines), None)
        self.by_name = defaultdict(list)
        for item in self.every_item():
            self.by_name[item.name].append(item)
        self.names = {it.name: it for it in self.top
                      if it.name and it.kind not in ("mod", "use", "impl")}
        read = {it.start for it in self.every_item()}
        for at in (at for at, line in enumerate(self.lines) if PUBLIC.match(line)):
            if at not in read:
                self.fault(at, "is a public item that was not read")

    def fault(self, index, what):
        """Records a form that cannot be read, in the project's own sources."""
        if self.crate in CRATES:
            FAULTS.append(f"{self.path.relative_to(ROOT)}:{index + 1}: {what}")

    def items(self, start, end, parent):
        """The items of these lines, which are all at one indentation."""
        found, above, at = [], start, start
        while at < end:
            line = self.lines[at].strip()
            if line.startswith("#"):
                while not self.lines[at].endswith("]"):
                    at += 1
            if not line or line.startswith(("//", "#")):
                at += 1
                continue
            stop = self.item_end(at, end)
            found.append(Item(self, parent, above, at, stop))
            above = at = stop
        return found

    def item_end(self, start, end):
        """The line after an item: after a closing line of its own indentation, or a semicolon that
        is in no braces."""
        margin, opened = indent(self.lines[start]), False
        for at in range(start, end):
            line = self.lines[at]
            is_own = line and indent(line) == margin
            opened = line.endswith(("{", "(", "[")) if is_own else opened
            if not opened and (line.endswith(";") or is_own and line.endswith("}")):
                said = "".join(it for it in self.lines[start:at + 1] if "//" not in it)
                if is_own or said.count("{") == said.count("}"):
                    return at + 1
        self.fault(start, "begins an item without an end")
        return end

    def every_item(self):
        for item in self.top:
            yield item
            yield from item.children

    @lru_cache(None)
    def imports(self, public):
        """The paths that this file imports by their names here, or only those that it passes on."""
        used = (it.text for it in self.top if it.kind == "use" and (it.public or not public))
        return {name: words for it in used for words, name in use_paths(it.partition("use ")[2])}

    def where(self):
        return "/".join(self.path.parts[self.path.parts.index("src") - 1:])

    def name(self):
        return "::".join([self.crate, *filter(None, self.module.split("."))])


def home_of(crate):
    return ROOT / "crates" / crate if crate in CRATES else toolchain_home() / crate


@lru_cache(None)
def toolchain_home():
    return toolchain() / "rattle"


@lru_cache(None)
def sources(crate):
    base = home_of(crate) / "src"
    return [Source(crate, path, base) for path in sorted(base.rglob("*.rt"))]


@lru_cache(None)
def source_at(path):
    """The source at a path, or None."""
    is_code = path.suffix == ".rt" and ROOT / "crates" in path.parents
    there = sources(path.relative_to(ROOT).parts[1]) if is_code else []
    return next((it for it in there if it.path == path), None)


def items_at(path, words):
    """The items of a file that are meant by `function`, `Type::function`, `module::function`,
    `crate::function`, or the name of the file."""
    (*owner, name), source = words.split("::"), source_at(path)
    found = source.by_name.get(name, []) if source else []
    if source and words.endswith(".rt") and path.match(words):
        return list(source.every_item())
    module = source.name().split("::")[-1] if source else ""
    return [it for it in found if not owner or owner[-1] in (it.owner, source.crate, module)]


@lru_cache(None)
def top_items(crate, kind=""):
    return [it for source in sources(crate) for it in source.top if kind in ("", it.kind)]


def functions(crate):
    return [it for source in sources(crate) for it in source.every_item() if it.kind == "fn"]


@lru_cache(None)
def module_source(crate, module):
    return next((it for it in sources(crate) if it.module == module), None)


def within(module, name):
    return f"{module}.{name}" if module else name


def resolve(source, words):
    """The item or the source of the module that a path means within a source, or None."""
    crate, module, words = source.crate, source.module, list(words)
    if words[0] in CRATES and not module_source(crate, within(module, words[0])):
        crate, module = words.pop(0), ""
    while words and words[0] in ("crate", "self", "super"):
        above = {"crate": "", "self": module, "super": module.rpartition(".")[0]}
        module = above[words.pop(0)]
    while words and module_source(crate, within(module, words[0])):
        module = within(module, words.pop(0))
    there = module_source(crate, module)
    if not words or not there:
        return there
    if words[0] in there.names:
        return there.names[words[0]]
    path = there.imports(public=False).get(words[0])
    return resolve(there, path) if path and (there, path) != (source, words) else None


@lru_cache(None)
def public_modules(crate):
    """The sources of the modules that users can name; all of a program."""
    front = module_source(crate, "")
    if front and front.path.stem == "main":
        return sources(crate)
    found = [front] if front else []
    for source in found:
        below = (module_source(crate, within(source.module, it.name))
                 for it in source.top if it.kind == "mod" and it.public)
        found += [it for it in below if it and it not in found]
    return found


@lru_cache(None)
def exports(source):
    """What users reach by the name of a module: its public modules and items, and what it passes
    on."""
    modules = (it.name for it in source.top if it.kind == "mod" and it.public)
    found = {it: module_source(source.crate, within(source.module, it)) for it in modules}
    found |= {it.name: it for it in source.names.values() if it.public and it.kind != "ghost use"}
    for name, words in source.imports(public=True).items():
        found.setdefault(name, resolve(source, words))
    return found


def exported_items(source):
    return [it for it in exports(source).values() if isinstance(it, Item)]
