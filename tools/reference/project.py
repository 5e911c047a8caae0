"""What the project says of an item elsewhere: claims of GUARANTEES, proved callers, mutations and
pages of the guide."""
import re
from collections import defaultdict

from crate_list import ROOT, is_library, is_test_support
from guarantees import LINK, claims, section_lines
from source_reader import (CRATES, exported_items, functions, home_of, items_at, public_modules,
                           source_at, sources, top_items)

SHOWN = [it for it in CRATES if not it.startswith("rows") and it != "conformance"]
# The crates whose functions are callers of the libraries, examples and the exports to C among them.
EXAMPLES = ("jj_store_walks", "failing_reads", "jj_core_c")
CALLERS = [it for it in SHOWN if not is_library(it) or it in EXAMPLES]
GUIDE = sorted((ROOT / "docs/guide").glob("*.md"))
# A call: the dot before a method or the type before a function, and the name.
CALL = re.compile(r"(\.\s*)?(?:(\w+)(?:::<[^>()]*>)?::)?\b(\w+)(?:::<[^>]*>)?\(")


def title_of(path):
    return path.read_text().partition("\n")[0].strip("# ")


def crates_of(path):
    """The crates that the title of a document names, each with its callers."""
    named = re.findall(r"`(\w+)`", title_of(path))
    return [it for name in named for it in (name, f"{name}_tests") if it in CRATES]


def page_of(module):
    return f"{module.name().replace('::', '.')}.html"


class Project:
    """Every shown item, with its page and anchor, and the claims, callers, mutations and pages of
    the guide of each."""

    def __init__(self):
        self.by_name, self.notes, self.shows, self.mutations = (defaultdict(list) for _ in range(4))
        self.on_page, self.claims, self.callers, self.guide = (defaultdict(dict) for _ in range(4))
        self.pages, self.rows = [], claims()
        for crate in SHOWN:
            self.place(crate)
        self.read_guarantees()
        self.read_mutations()
        self.read_callers()
        for page in GUIDE:
            for words in re.findall(r"`([\w:]+)`", page.read_text().partition("\n")[2]):
                for item in (it for crate in crates_of(page) for it in self.find(crate, words)):
                    self.guide[item][page] = True

    def place(self, crate):
        """Places each public item of a crate on the page of the module by which users name it, and
        what belongs to a type or a trait below it."""
        homes, modules = {}, sorted(public_modules(crate), key=lambda it: it.module.count("."))
        self.pages += modules
        for module in modules:
            for item in (it for it in exported_items(module) if it.source.crate == crate):
                if item not in homes or item.source is module:
                    homes[item] = module
        homes |= {it: homes.get(it, modules[0]) for it in top_items(crate, "fn")
                  if re.match(r'pub (?:unsafe )?extern "C"', it.text)}
        shown = {it.name for it in homes}
        for item, module in homes.items():
            self.add(item, module, item.name)
            for child in item.children:
                self.add(child, module, f"{item.name}.{child.name}")
            for impl in top_items(crate, "impl"):
                if impl.type == item.name:
                    self.add_impl(impl, module, f"{item.name}.{impl.trait}".rstrip("."))
                elif impl.trait == item.name and impl.type not in shown:
                    of = re.sub(r"[^A-Za-z0-9]+", "-", impl.implemented["of"]).strip("-")
                    self.add_impl(impl, module, f"{item.name}.for.{of}")

    def add_impl(self, impl, module, prefix):
        is_of_trait = impl.trait not in ("", "Model")
        for child in impl.children:
            if child.public or is_of_trait and (child.kind == "ghost" or child.clauses):
                self.add(child, module, f"{prefix}.{child.name}")

    def add(self, item, module, anchor):
        if item.kind == "ghost use" or item.page:
            return
        while anchor in self.on_page[module]:
            anchor += "-"
        item.page, item.anchor, self.on_page[module][anchor] = page_of(module), anchor, item
        self.by_name[item.name].append(item)

    def find(self, crate, words):
        """The items of a crate that a document means by a name, those with a page first; for a
        method without a page, also that of its trait."""
        found = [it for source in sources(crate) for it in items_at(source.path, words)
                 if it.kind != "ghost"]
        traits = {it.parent.trait for it in found if not it.anchor and it.parent} - {""}
        found += [it for it in self.by_name[words.split("::")[-1]] if it.owner in traits]
        return sorted(found, key=lambda it: (not it.anchor, bool(it.parent)))

    def read_guarantees(self):
        """Enters each claim, with the clauses, at the functions that it cites, and its callers at
        those that they call, or at all if they call none by its name."""
        for _, crate, line in section_lines():
            if not line.startswith("|"):
                self.notes[crate].append(LINK.sub(r"\1", line))
        for claim in self.rows:
            cited = [(item, clauses) for name, clauses, path in claim.cited
                     if not path.match(name) for item in items_at(path, name)]
            for item, clauses in cited:
                self.claims[item].setdefault(claim, []).extend(clauses)
            for caller in (it for name, _, path in claim.callers for it in items_at(path, name)):
                self.shows[caller].append(claim)
                names = {item.name for item, _ in cited}
                names = names & {it for *_, it in CALL.findall(caller.body)} or names
                for item in (item for item, _ in cited if item.name in names and caller.anchor):
                    self.callers[item][caller] = True

    def read_mutations(self):
        """Enters each mutation at the functions that it changes, or if these have no page at those
        of their file."""
        for file in sorted(it for crate in SHOWN for it in home_of(crate).glob("must-fail/*.edit")):
            said = dict(re.findall(r"^(file|old|new): ?(.*)$", file.read_text(), re.M))
            there = source_at(file.parent.parent / said["file"]).every_item()
            shown = [it for it in there if it.anchor and it.kind == "fn"]
            changed = [it for it in shown if said["old"].strip() in it.text]
            for item in changed or shown:
                self.mutations[item].append((file.stem, said.get("new", "").strip()))

    def read_callers(self):
        """Enters each function with a contract of a crate of callers at the functions of the
        libraries below that it calls: a method if the caller names only one type that has one of
        its name, at the type and at its traits."""
        types = {}
        for impl in (it for crate in CRATES for it in top_items(crate, "impl") if it.trait):
            types.setdefault(impl.trait, {impl.trait}).add(impl.type)
        callers = (it for crate in CALLERS for it in functions(crate) if it.anchor)
        for caller in (it for it in callers if any("ensures" in of.kind for of in it.clauses)):
            below = [it for it in CRATES[caller.source.crate] if not is_test_support(it)]
            heads = caller.head + (caller.parent.head if caller.parent else "")
            words = set(re.findall(r"\w+", heads + caller.body))
            for dot, owner, name in CALL.findall(caller.body):
                found = [it for it in self.by_name[name] if it.kind == "fn"]
                called = {caller.owner if owner == "Self" else owner if owner[:1].isupper() else ""}
                if dot:
                    called = {it.owner for it in found if types.get(it.owner, {it.owner}) & words}
                    called = called if len(called - types.keys()) <= 1 else set()
                for item in (it for it in found if it.source.crate in below):
                    if types.get(item.owner, {item.owner}) & called:
                        self.callers[item][caller] = True
