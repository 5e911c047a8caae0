"""The subset of Markdown that comments and documents use, as HTML."""
import html
import re

SPAN = re.compile(r"\[(?P<said>(?:`[^`]*`|[^\]`])*)\]\((?P<target>[^)]*)\)|"
                  r"\[?`(?P<code>[^`]+)`\]?|\*\*(?P<b>.+?)\*\*|"
                  r"(?<!\w)\*(?P<em>[^*\s][^*]*)\*(?!\w)")
CELL_END = re.compile(r"(?<!\\)\|")
# The blocks, by how they begin; each goes on as far as its second pattern matches lines.
BLOCKS = re.compile(r"""^(?:(?P<code>[ ]{4}.*(?:\n(?:[ ]{4}.*|(?=\n)))*)
    |(?P<marks>\#+)[ ](?P<heading>.*)
    |(?P<table>\|.*(?:\n\|.*)*)
    |(?P<list>[-*][ ].*(?:\n(?![#|]).+)*)
    |(?P<said>.+(?:\n(?![#|]|[-*][ ]).+)*))$""", re.M | re.X)


def a(href, said):
    return f'<a href="{html.escape(href)}">{said}</a>'


def listed(rows, heading="", kind=""):
    found = "".join(f"<li>{row}" for row in rows)
    title = f"<h2>{heading}</h2>" if heading else ""
    return f"{title}<ul{kind}>{found}</ul>" if found else ""


def first_sentence(text):
    return re.split(r"(?<=[.])\s", text.replace("\n", " ").strip(), maxsplit=1)[0]


def inline(text, link=lambda words, target="": target):
    """A line in HTML. `link` returns where a name in code leads, or nothing; and where the words of
    a link lead that has a target."""
    def span(found):
        kind, words = found.lastgroup, html.unescape(found[found.lastgroup])
        if kind == "target":
            said = html.unescape(found["said"])
            return a(link(said.strip("`"), words), inline(said))
        if kind == "code":
            said, target = f"<code>{found['code']}</code>", link(words)
            return a(target, said) if target else said
        return f"<{kind}>{inline(words, link)}</{kind}>"

    return SPAN.sub(span, html.escape(text.replace("\n", " ")))


def table(text, link, number):
    """A table whose first line is the one of this number; a row has the number of its line."""
    head, _, *rows = ([inline(cell.strip(), link) for cell in CELL_END.split(line.strip("|"))]
                      for line in text.split("\n"))
    body = (f'<tr id="row-{at}"><td>{"<td>".join(row)}' for at, row in enumerate(rows, number + 2))
    return (f"<table><thead><tr><th>{'<th>'.join(head)}</thead>"
            f"<tbody>{''.join(body)}</tbody></table>")


def markdown(text, link):
    """A text in HTML, with links as of `inline`."""
    def block(found):
        if found["code"]:
            code = re.sub(r"^    ", "", found["code"], flags=re.M)
            return f"<pre>{html.escape(code.rstrip())}</pre>"
        if found["heading"]:
            level, name = len(found["marks"]), re.sub(r"\W+", "-", found["heading"].lower())
            return f'<h{level} id="{name.strip("-")}">{inline(found["heading"], link)}</h{level}>'
        if found["table"]:
            return table(found["table"], link, text.count("\n", 0, found.start()) + 1)
        if found["list"]:
            rows = re.split(r"^[-*] ", found["list"], flags=re.M)[1:]
            return listed(inline(row, link) for row in rows)
        return "" if found["said"].startswith("<!--") else f"<p>{inline(found['said'], link)}</p>"

    return "".join(map(block, BLOCKS.finditer(text)))
