"""The definitions that contracts cite, and what a name in a contract means: it is looked up through
the imports of its file; a field, in the types that its text leads to."""
import html
import re
from collections import defaultdict
from functools import cached_property, lru_cache

from source_reader import CRATES, FAULTS, TYPES, home_of, indent, toolchain_home, top_items

from .markdown import listed
from .specs import BLOCK, KEYWORD, NEW, definition_lines, head_comments, imports

DECLARED = (*TYPES, "const", "static")
STD = ["std", "core", "std_alloc", "std_collections", "std_io", "io"]
INFIX = "≡ ≢ ↔ ⊎ ++ ∷ == && || +ℤ -ℤ *ℤ ≤ℤ <ℤ ∈"
OPERATORS = {it: f"◌{it}◌" for it in INFIX.split()} | {"if": "if◌then◌else◌"}
CLOSURES = {"pre": "f may be called at these arguments",
            "post": "this value is a possible result of the call",
            "step": "a call from this state with this result may leave that state",
            "IsAlwaysCallable": "any argument may be passed, at any call",
            **dict.fromkeys(("Fn", "FnMut", "FnOnce"), "the closure's relations: pre, post, step")}
WORD = r'[^\s(){}\[\],;."]+'
ASIDE = r'(?P<aside>(?:--|//)[^\n]*|"(?:\\.|[^"\\])*")|'
TOKEN = re.compile(ASIDE + r"⟦<[^⟧]*? as (?P<trait>\w+)[^⟧]*>⟧\.(?P<member>\w+)|"
                   rf"\.?{WORD}(?:\.{WORD})*")
TYPE_TOKEN = re.compile(ASIDE + r"(?P<trait>\b)(?P<member>)\w+(?:\.\w+)*")
CONSTRUCTORS = {"zero", "suc", "true", "false", "pos", "negsuc", "[]"}
# A field, and no word for the value behind a reference at some time.
FIELD = re.compile(r"(?<=\.)(?!(?:now|old|new|entry|cur|fin)\b)[a-z]\w*(?=\W|$)")
MOST_LINES = 60
# The definitions that the HTML of texts links to, by the keys in its links.
LINKED = {}


class Names:
    """What the names in a text mean by its own definitions and by its imports."""

    def __init__(self, text="", crate="", path=""):
        self.imports, self.passed = imports(text)
        self.crate, self.path, self.own = crate, path, {}

    def find(self, token):
        """The definition that a token means, or None."""
        head, dot, rest = token.partition(".")
        path, name = self.imports.get(head + dot) or self.imports.get(head, ("", ""))
        return self.own.get(head) or module_of(path).lookup(name or rest.partition(".")[0])

    def lookup(self, name):
        """The definition that other files get by this name, or None."""
        path, there = self.passed.get(name, ("", ""))
        return self.own.get(name) or (module_of(path).lookup(there) if there else None)


class Definition:
    """A word that contracts cite, with the text that unfolds."""

    def __init__(self, ident, kind, doc, text, scope, where, context="", declaration="", values=()):
        self.ident, self.kind, self.doc, self.text = ident, kind, doc, text
        self.scope, self.where, self.context = scope, where, context
        self.declaration, self.values, self.crate = declaration, values, scope.crate
        self.key, self.name = f"{scope.crate}/{ident}", ident.rpartition(".")[2]
        self.is_ours = scope.crate in CRATES

    @cached_property
    def fields(self):
        """The names of its fields, if it is a record or a struct."""
        declared = self.text if re.match(r".*\brecord\b", self.text) else self.declaration
        return set(re.findall(r"^ +(?:pub(?:\(\w+\))? )?(?:ghost )?(\w+) ?:(?!:)", declared, re.M))

    @cached_property
    def texts(self):
        """Its context, and the text."""
        hidden = binders(self.text + "\n" + self.context) | {self.name, ""}
        hidden |= set(re.findall(r"(?m)^    (\w+)", self.text)) if self.kind == "enum" else set()
        lines = re.sub(r"(?m)^(\s*)(?:(?:abbrev|unfoldable|pub) )+", r"\1", self.text).split("\n")
        if len(lines) > MOST_LINES:
            lines[MOST_LINES:] = [f"-- {len(lines) - MOST_LINES} more lines"]
        token = TYPE_TOKEN if self.kind in TYPES else TOKEN
        return [Text(it, self.scope, hidden, token) for it in (self.context, "\n".join(lines))]

    @cached_property
    def html(self):
        given, said = (it.html([self]) for it in self.texts)
        given = f"<p class=given>for given <code>{given}</code></p>" if given else ""
        values = listed(f"for <code>{html.escape(of)}</code>: {it.html}" for of, it in self.values)
        values = f"<details><summary>Its values</summary>{values}</details>" if values else ""
        return f"{given}<pre>{said}</pre>{values}"


def binders(text):
    """The variables that a text binds: they are no definitions, whatever their names."""
    groups = re.findall(r"[({]\s*([^:(){}=]+?)\s+:|λ ([^.]*)\.|\blet (\S+)|[{;]\s*(\w+) =", text)
    found = set(re.sub(r"[(),]", " ", " ".join(map(" ".join, groups))).split())
    for left in re.findall(r"^\s*\S+ ([^:=\n]*?) =", text, re.M):
        found |= {it for it in re.findall(r"[^\s(){}=]+", left) if it[0].islower()}
    return found - CONSTRUCTORS


class Text:
    """A text of a contract or a definition: its tokens with the definitions that they cite, and the
    names without a definition. No comment, string, field of a value or variable is looked up."""

    def __init__(self, text, scope, hidden, token=TOKEN):
        self.text, self.scope, self.tokens, self.missing = text, scope, [], []
        for it in token.finditer(text):
            target = None
            if it["member"]:
                target = ghost_member(scope.crate, it["trait"], it["member"])
            elif not (it["aside"] or it[0].split(".")[0] in hidden):
                target = scope.find(OPERATORS.get(it[0], it[0]))
                self.missing += [] if target else [it[0]]
            fields = () if target or it["aside"] else FIELD.finditer(text, *it.span())
            self.tokens += [(of, None) for of in fields] or [(it, target)]
        self.links = {it for _, it in self.tokens if it}

    def html(self, roots=()):
        """The text in HTML, with a link at each word with a definition, and at each field of what
        is below these and `roots`."""
        out, at, roots = [], 0, [*roots, *self.links]
        for found, target in self.tokens:
            tags = ("<i>", "</i>") if found.lastgroup == "aside" else ("", "")
            if target := field_of(found[0], roots) if found.re is FIELD else target:
                LINKED[target.key] = target
                tags = f'<a {"w" if target.is_ours else "k"}="{html.escape(target.key)}">', "</a>"
            out += [html.escape(self.text[at:found.start()]), html.escape(found[0]).join(tags)]
            at = found.end()
        return "".join(out) + html.escape(self.text[at:])


def field_of(name, roots):
    """The nearest record or struct below these definitions that has a field of this name; None if
    several are as near."""
    seen, near = set(), set(roots)
    for _ in range(4):
        if having := [it for it in near if name in it.fields]:
            return having[0] if len(having) == 1 else None
        seen |= near
        near = {below for it in near for text in it.texts for below in text.links} - seen
    return None


class Module(Names):
    """A file of definitions."""

    def __init__(self, file, path, crate, dotted):
        text = file.read_text()
        super().__init__(text, crate, path)
        self.dotted, self.place = dotted, f"{crate}/specs/{dotted.replace('.', '/')}.antt"
        self.read(text)
        for it in [it for it in self.own.values() if re.match(r".*\bdata\b", it.text)]:
            constructors = " ".join(re.findall(r"^  ([^:(){}]+?) :", it.text, re.M)).split()
            self.own = dict.fromkeys(constructors, it) | self.own

    def read(self, text):
        """Reads the definitions, each with the comment above it; of a proof only the statement."""
        around, current, margin, comment, above = {}, None, 0, [], head_comments(text)
        for line in definition_lines(text):
            bare, at = line.strip(), indent(line)
            if not bare:
                comment = []
            elif current and at > margin:
                current.text += "\n" + line[margin:]
            elif bare.startswith("--"):
                comment.append(bare[2:].strip())
                current = None
            else:
                around = {it: block for it, block in around.items() if it < at}
                if block := BLOCK.match(bare):
                    around[at], current = block, None
                elif new := NEW.match(bare):
                    doc = " ".join(comment) or above.get(new[2], "")
                    current, margin = self.define(new, doc, around.values()), at
                elif KEYWORD.match(bare) and self.crate in CRATES:
                    row = text.split("\n").index(line) + 1
                    FAULTS.append(f"crates/{self.place}:{row}: is no definition that can be read")
                elif current and current.kind == "definition":
                    current.text += "\n" + bare
                else:
                    current = None
                comment = []

    def define(self, new, doc, around):
        """A definition, or a proof, by its first line and the blocks around it."""
        is_proof = not re.search(r"abbrev|unfoldable|data|record", new[1])
        kind = "proof" if is_proof and all(it["module"] for it in around) else "definition"
        context = " ".join(it["parameters"].strip() for it in around if it["parameters"])
        self.own[new[2]] = Definition(f"{self.dotted}.{new[2]}", kind, doc, new.string, self,
                                      self.place, context)
        return self.own[new[2]]


class Declared(Names):
    """The types of a crate's sources, as definitions import them by such a path."""

    def __init__(self, crate, *names):
        super().__init__()
        self.crates = STD if crate == "std" else [crate]
        self.owner = [it for it in names if it not in ("TheVariants", "TheConstants")][-1]

    def lookup(self, name):
        return declared_type(self.owner, self.crates) or declared_type(name, self.crates)


@lru_cache(None)
def module_of(path):
    """The module of this path: a file, what another module passes on, or types of sources; an empty
    one if there is none."""
    first, *parts = path.split(".")
    logic = toolchain_home() / "logic" / first.title()
    if "declared" in parts:
        return Declared(*parts)
    if first == "Rattle":
        crate, dotted = parts[0], parts[2:] or ["Lib"]
        file = home_of(crate).joinpath(*parts[1:2], *dotted)
    elif logic.exists():
        crate, dotted, file = "logic", [first, *parts], logic.joinpath(*parts)
    else:
        crate, dotted = "mathlib", parts or [first]
        file = toolchain_home().joinpath("antt/port/mathlib/src", *parts)
    if file.with_suffix(".antt").is_file():
        return Module(file.with_suffix(".antt"), path, crate, ".".join(dotted))
    up, _, last = path.rpartition(".")
    above = module_of(up) if len(parts) > 1 else Names()
    if passed := above.passed.get(f"{last}.") or above.passed.get(last):
        return module_of(".".join(filter(None, passed)))
    return module_of(f"{above.path}.{last}") if above.path not in ("", up) else Names()


def first(found):
    return next(filter(None, found), None)


def below(crate):
    """A crate and those that it uses."""
    return [crate, *CRATES.get(crate, []), *STD]


@lru_cache(None)
def declared_items(crate):
    """The types, traits and constants of a crate by name."""
    found = [it for it in top_items(crate) if it.kind in DECLARED]
    return {it.name: it for it in sorted(found, key=lambda it: it.public)}


def declared(name, crates, kinds=DECLARED):
    """The type, trait or constant of this name, in the first of these crates that has it."""
    found = (declared_items(it).get(name) for it in crates)
    return first(it for it in found if it and it.kind in kinds)


def declared_type(*words):
    item = declared(*words)
    return item and type_definition(item)


@lru_cache(None)
def type_definition(item):
    """The type, trait or constant as a definition: the fields, the ghost members, and the value
    that contracts see."""
    text, scope = item.signature(), Scope(item)
    for impl in top_items(item.source.crate, "impl"):
        if (impl.trait, impl.type) == ("Model", item.name):
            members = (f"{it.name} = {it.body}" for it in impl.ghosts.values())
            text = "\n".join([text, "-- Contracts see its Value:", *members])
            scope = Scope(impl)
    return Definition(f"type.{item.name}", item.kind, item.note, text, scope, item.source.where(),
                      declaration=item.text if item.kind == "struct" else "")


@lru_cache(None)
def ghost_member(crate, trait, member):
    """A ghost member of a trait or of the traits above it."""
    item = declared(trait, below(crate), ["trait"])
    if not item or member in item.ghosts:
        return item and ghost_definition(item.ghosts[member])
    above = re.findall(r"\b[A-Z]\w*", item.head.partition(":")[2].partition("where")[0])
    return first(ghost_member(item.source.crate, it, member) for it in above if it != trait)


@lru_cache(None)
def ghost_definition(item):
    """A ghost member as a definition: of a trait of the project, with its values."""
    crate, trait, name = item.source.crate, item.parent.trait, item.name
    is_declared = item.parent.kind == "trait"
    impls = top_items(crate, "impl") if is_declared and crate in CRATES else []
    values = [(it.implemented["of"], ghost_definition(it.ghosts[name])) for it in impls
              if it.trait == trait and name in it.ghosts]
    return Definition(f"ghost.{trait}.{name}", f"ghost member of the trait {trait}", item.note,
                      f"{name} {':' if is_declared else '='} {item.body}", Scope(item),
                      item.source.where(), values=values)


CLOSURE_WORDS = {word: Definition(f"closure.{word}", "word", doc, f"F.{word}", Names("", "logic"),
                                  "CLOSURES.md of the toolchain") for word, doc in CLOSURES.items()}


class Scope(Names):
    """The names that a text of an item may use."""

    def __init__(self, item):
        around = [it for it in (item, item.parent) if it]
        inner = [child for it in around for child in it.children]
        used = (it.head for it in (*item.source.top, *inner) if it.kind == "ghost use")
        super().__init__("\n".join(used), item.source.crate)
        self.heads = " ".join(it.head for it in around if it.kind != "ghost")
        self.bounds = defaultdict(list)
        for name, traits in re.findall(r"\b([A-Z]\w*)\s*:(?!:)\s*([^,;{]*)", self.heads):
            self.bounds[name] += re.findall(r"(?:^|\+)\s*(?:\w+::)*([A-Z]\w*)", traits)
        self.bounds["Self"] += [it.trait for it in around if it.trait][:1]
        # The traits whose ghost members a text calls by their bare names.
        self.traits = self.bounds["Self"] + re.findall(r"dyn (\w+)", item.source.text)

    def find(self, token):
        head, *rest = token.split(".")
        if found := super().find(token):
            return found
        if rest and (head in self.bounds or re.fullmatch(r"[A-Z][A-Z0-9]?", head)):
            traits = [*self.bounds.get(head, []), *self.bounds["Self"]]
            traits = ["Iterator"] if "IntoIter" in rest else traits
            return (CLOSURE_WORDS.get(rest[-1]) or self.member(rest[-1], traits) or
                    declared_type(rest[-1], below(self.crate), ["trait"]))
        found = None if rest else self.member(head, self.traits)
        if found or not head[:1].isupper() or head in self.bounds:
            return found
        return declared_type(head, below(self.crate) if self.crate in CRATES else [self.crate])

    def member(self, name, traits):
        return first(ghost_member(self.crate, it, name) for it in traits)
