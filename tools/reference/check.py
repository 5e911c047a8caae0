"""Checks a site: forms that could not be read, public items without a page, words of clauses that
have no definition, and links that lead nowhere."""
import re

from source_reader import FAULTS, exported_items, public_modules, top_items

from .definitions import LINKED
from .project import SHOWN

# A link within the site, but not in a template of the script.
LINK = re.compile(r'<a href=\\?"(?!http)([^"\\$]*)\\?"')
ANCHOR = re.compile(r'\bid="([^"]*)"')
BUILT_IN = set("ℕ zero suc min max + - * / % ^ < ≤".split())
# Names that the toolchain makes, and words that contracts have without a definition.
GENERATED = re.compile(r"the_row$|(Some|None|Ok|Err|Type|Unit|Self|[A-Z]{1,2}\d?)\b")


def faults(site):
    yield from dict.fromkeys(FAULTS)
    for crate in SHOWN:
        yield from items_without_page(crate)
    for item, clause, text in site.clause_texts:
        where = f"crates/{item.where()}: {item.path()}: the clause {clause.name}"
        yield from (f"{where} cites {it}, which is not found"
                    for it in text.missing if is_unknown(it, text.scope))
    there = {*site.files, *(f"words.html#{it.crate}" for it in LINKED.values())}
    there |= {f"{name}#{it}" for name, text in site.files.items() for it in ANCHOR.findall(text)}
    for name, text in site.files.items():
        for target in dict.fromkeys(it for it in LINK.findall(text) if it not in there):
            yield f"{name}: the link to {target} leads nowhere"


def is_unknown(token, scope):
    head = token.split(".")[0]
    looks_defined = (scope.imports.keys() & {head, f"{head}."} or
                     re.fullmatch(r"[A-Z]\w+(\.\w+)*|[a-z]\w*_\w+", token))
    return head not in BUILT_IN and looks_defined and not GENERATED.match(head)


def items_without_page(crate):
    for item in (it for module in public_modules(crate) for it in exported_items(module)
                 if it.source.crate == crate):
        methods = [it for impl in top_items(crate, "impl") if impl.type == item.name
                   for it in impl.children if it.public]
        members = [it for it in item.children if it.kind != "ghost use"]
        yield from (f"crates/{it.where()}: {it.path()} has no page"
                    for it in (item, *methods, *members) if not it.page)
