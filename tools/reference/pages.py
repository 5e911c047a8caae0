"""Writes the pages: a site of static files that needs no network and no server."""
import html
import json
import re
from collections import defaultdict
from functools import partial
from pathlib import Path
from string import Template

from crate_list import ROOT, layers
from source_reader import Source, exported_items, exports, items_at, module_source, public_modules

from .definitions import (LINKED, TYPE_TOKEN, Scope, Text, binders, ghost_definition,
                          type_definition)
from .markdown import a, first_sentence, inline, listed, markdown
from .project import GUIDE, SHOWN, Project, crates_of, page_of, title_of

HERE = Path(__file__).parent
# The functions that fill the templates.
FILL = {it.stem: Template(it.read_text()).substitute for it in HERE.glob("*.html")}
PATHS = [ROOT / "README.md", *sorted((ROOT / "docs").glob("*.md")), *GUIDE]
# The documents with their pages.
DOCUMENTS = {it: ".".join(["doc", *["guide"] * (it in GUIDE), it.stem, "html"]) for it in PATHS}


def link_to(item, clause=None):
    """Where an item is documented, or a clause of it; one hyphen more for each one of its name."""
    if not clause:
        return f"{item.page}#{item.anchor}"
    names = [it.name or it.kind for it in item.clauses[:item.clauses.index(clause) + 1]]
    return f"{item.page}#{item.anchor}.{names[-1]}" + "-" * names[:-1].count(names[-1])


def row(item, name=""):
    return a(link_to(item), f"<code>{name or item.name}</code>") + " " + summary(item.note)


def path_of(item):
    return f"{item.source.crate}::{item.path()}"


def summary(text):
    return inline(first_sentence(text))


def row_of(claim):
    return f"doc.GUARANTEES.html#row-{claim.number}"


def gloss(text, known):
    """The comments of the project's words that a text links to, each once in an item."""
    keys = dict.fromkeys(map(html.unescape, re.findall('<a w="([^"]*)"', text)))
    new = [it for it in map(LINKED.get, keys) if it.doc and it not in known]
    known.update(new)
    rows = (f"<code>{html.escape(it.name)}</code> {summary(it.doc)}" for it in new)
    return listed(rows, kind=" class=gloss")


class Site:
    """The pages by file name, and the definitions that they cite."""

    def __init__(self):
        self.project, self.files, self.search, self.clause_texts = Project(), {}, [], []
        for it in self.project.pages:
            self.add_page(page_of(it), it.name(), self.module_page(it), "module", it.crate, it.doc)
        for path, page in DOCUMENTS.items():
            body = markdown(path.read_text(), partial(self.link, crates_of(path), path.parent))
            self.add_page(page, path.stem, body, "document", "docs", title_of(path))
        for claim in self.project.rows:
            self.add_hit(claim.text, "claim", claim.crate, row_of(claim))
        self.add_page("index.html", "jj-core reference", self.index())
        self.add_definitions()
        self.add_data("search.js", "define_names", self.search)
        self.files |= {it: (HERE / it).read_text() for it in ("style.css", "script.js")}

    def add_page(self, name, title, body, kind="page", place="", doc=""):
        self.files[name] = FILL["page"](title=html.escape(title), body=body)
        self.add_hit(title, kind, place, name, doc)

    def add_data(self, name, function, *values):
        words = json.dumps(values, ensure_ascii=False, separators=(",", ":"))
        self.files[name] = f"{function}({words[1:-1]})"

    def add_hit(self, name, kind, place, page, doc=""):
        """Adds what a search may find."""
        self.search.append([re.sub(r"[`\[\]]", "", it)
                            for it in (name, kind, place, page, first_sentence(doc))])

    def write(self, out):
        for name, text in self.files.items():
            (out / name).parent.mkdir(parents=True, exist_ok=True)
            (out / name).write_text(text)

    def link(self, crates, folder, words, target=""):
        """Where a name is documented, looked up in these crates first; or the words and the target
        of a link in a document of the folder."""
        file, mark, anchor = target.partition("#")
        there = (folder / file).resolve() if target else ROOT / words
        if there in DOCUMENTS:
            return DOCUMENTS[there] + mark + anchor
        if words in SHOWN:
            return page_of(module_source(words, ""))
        name, _, clauses = words.partition(": ")
        known = [*crates, *SHOWN] if "::" in words else crates
        named = (it for crate in known for it in self.project.find(crate, words) if not target)
        found = [it for it in items_at(there, name) or named if it.anchor]
        cited = (link_to(it, clause) for it in found for clause in it.clauses
                 if clause.kind != "requires" and clause.name == clauses.split(",")[0] != "")
        elsewhere = "index.html" if file and there.exists() else target
        return next(cited, "") or next(map(link_to, found), elsewhere)

    def module_page(self, module):
        items = self.project.on_page[module].values()
        link = partial(self.link, [module.crate], ROOT)
        tops = [it for it in items if not it.parent]
        notes = inline(" ".join(self.project.notes[module.crate]), link)
        passed = [it for it in exported_items(module) if it.page and it.page != page_of(module)]
        modules = (f"{a(page_of(it), f'<code>{name}</code>')} {summary(it.doc)}"
                   for name, it in exports(module).items() if isinstance(it, Source))
        claims = (a(row_of(it), inline(it.text)) for it in self.project.rows
                  if module.name() == it.crate)
        body = [f"<h1>{module.name()}</h1>", markdown(module.doc, link),
                listed(claims, "Claims", " class=claims"),
                f"<p class=meta>Of the crate: {notes}</p>" if notes else "",
                listed(modules, "Modules"), listed(map(row, passed), "Re-exports"),
                listed(map(row, tops[1:] and tops), "Items"),
                FILL["legend"]() if any(it.clauses for it in items) else ""]
        for top in tops:
            below = (it for it in items if it.parent and it.anchor.startswith(f"{top.name}."))
            body.append(self.item(top, link, "".join(self.item(it, link) for it in below)))
        return "".join(body)

    def item(self, item, link, inner=""):
        """The section of an item, with the sections of what belongs to it."""
        module = item.page.removesuffix(".html").replace(".", "::")
        self.add_hit(item.path(), item.kind, module, link_to(item), item.note)
        level, kind = (3, item.kind.replace("fn", "method")) if item.parent else (2, item.kind)
        impl = item.parent.head if item.parent and item.parent.implemented["trait"] else ""
        parts = [self.declaration(item), markdown(item.doc, link), self.contract(item),
                 self.mentions(item), inner]
        return FILL["item"](anchor=html.escape(item.anchor), level=level, link=link_to(item),
                            path=item.path(), kind=kind, where=item.where(),
                            given=html.escape(" ".join(impl.split())), body="".join(parts))

    def declaration(self, item):
        """The declaration of an item with links from its words; of a type, also what contracts see
        of it."""
        if item.kind != "fn":
            definition = (ghost_definition if item.kind == "ghost" else type_definition)(item)
            is_glossed = item.owner and not definition.values
            return definition.html + (gloss(definition.html, set()) if is_glossed else "")
        text = re.sub(r"(?m)^    ", "", item.head) if item.parent else item.head.strip()
        hidden = set(re.findall(r"\b[a-z_]\w*", text))
        return f"<pre>{Text(text, Scope(item), hidden, TYPE_TOKEN).html()}</pre>"

    def contract(self, item):
        """The claims that cite a function, and its clauses."""
        rows = (f"{a(row_of(it), inline(it.text))} <span class=kind>{', '.join(names)}</span>"
                for it, names in self.project.claims[item].items())
        parts, known, scope = [listed(rows, kind=" class=claims")], set(), Scope(item)
        hidden = binders(" ".join(it.text for it in item.clauses)) | {"result", "self", ""}
        arguments = re.findall(r"(\w+):(?!:)", item.head.partition("(")[2])
        hidden |= set(arguments) - set(scope.bounds)
        types = Text(scope.heads, scope, hidden, TYPE_TOKEN).links
        for clause in item.clauses:
            text = Text(re.sub(r"\n\s+", "\n  ", clause.text), scope, hidden)
            formula = text.html(types)
            self.clause_texts.append((item, clause, text))
            link = html.escape(link_to(item, clause))
            parts.append(FILL["clause"](anchor=link.partition("#")[2], link=link, kind=clause.kind,
                                        name=clause.name, note=inline(clause.note),
                                        formula=formula, gloss=gloss(formula, known)))
        return "".join(parts) + (FILL["unfold"]() if item.clauses else "")

    def mentions(self, item):
        """The proved callers of an item, the claims that it shows, the pages of the guide that cite
        it, and the mutations that its proof rejects."""
        project, callers = self.project, self.project.callers[item]
        groups = {"proved caller": [row(it, path_of(it)) for it in callers],
                  "shown claim": [a(row_of(it), inline(it.text)) for it in project.shows[item]],
                  "guide page": [a(DOCUMENTS[it], inline(title_of(it)))
                                 for it in project.guide[item]],
                  "rejected mutation": [f"{name} of {path_of(it)}: <code>{html.escape(new)}</code>"
                                        for it in (item, *callers)
                                        for name, new in project.mutations[it]]}
        said = ", ".join(f"{len(rows)} {kind}{'s' * (len(rows) > 1)}"
                         for kind, rows in groups.items() if rows)
        rows = listed(f"{kind.capitalize()}: {it}" for kind, rows in groups.items() for it in rows)
        return f"<details><summary>{said}</summary>{rows}</details>" if said else ""

    def index(self):
        shown = layers()
        groups = {f"Layer {len(shown) - at}": names for at, names in enumerate(shown)}
        groups["Proved callers and tests"] = [it for it in SHOWN if it not in sum(shown, [])]
        crates = (listed(map(self.crate_row, names), title) for title, names in groups.items())
        documents = (a(page, inline(title_of(path))) for path, page in DOCUMENTS.items())
        return FILL["index"](crates="".join(crates), documents=listed(documents, "Documents"))

    def crate_row(self, name):
        front, *modules = sorted(public_modules(name), key=lambda it: it.module != "")
        links = (a(page_of(it), it.module.replace(".", "::")) for it in modules
                 if self.project.on_page[it])
        return (f"{a(page_of(front), name)}<p>{summary(front.doc)}"
                f"<p class=meta>{', '.join(links)}</p>")

    def add_definitions(self):
        """Adds each cited definition and those below it once, in the file of its crate, from which
        pages unfold it."""
        by_crate, texts = defaultdict(dict), {}
        while new := LINKED.keys() - texts.keys():
            texts |= {key: LINKED[key].html for key in new}
        for it in (LINKED[key] for key in sorted(texts)):
            by_crate[it.crate][it.ident] = [inline(it.doc), it.html, f"{it.kind} of {it.where}"]
            if it.is_ours and it.kind == "definition":
                self.add_hit(it.name, it.kind, it.where, f"words.html#{it.key}", it.doc)
        for crate, found in by_crate.items():
            self.add_data(f"d/{crate}.js", "define", crate, found)
        rows = (f'{a(f"words.html#{crate}", f"<code>{crate}</code>")} {len(found)}'
                for crate, found in by_crate.items())
        self.add_page("words.html", "Words", FILL["words"](crates=listed(rows)))
