"""A statement as one page: a definition folds away, and a name leads to what it means. The page has no script."""

import re
from html import escape

from mte_scripts import html_safe
from mte_scripts.gate import statements
from mte_scripts.gate.statements import Definition, Example, Foreign, Key, Statement

STYLE = """\
:root { --link: #0969da }
@media (prefers-color-scheme: dark) { :root { --link: #4493f8 } }
body { max-width: 68rem }
p { max-width: 50rem }
a { color: var(--link); text-decoration: none }
a:hover, a:focus { text-decoration: underline }
.comment { color: var(--soft) }
.soft { color: var(--soft); font-size: .875rem; font-weight: 400 }
pre { margin: .5rem 0; overflow-x: auto }
pre, code { font-size: .8125rem }
details { margin: .75rem 0; border-left: 3px solid var(--line); padding-left: .75rem }
details details { margin: .25rem 0; border-left: 0 }
details:target { border-left-color: var(--link) }
summary { cursor: pointer; font-weight: 600 }
.names { columns: 14rem; list-style: none; padding: 0; font-size: .875rem }
"""


def ids(found: Statement) -> "dict[Key, str]":
    """The place in the page of each definition. Numbers are plain in any browser."""
    return {key: f"d{at}" for at, key in enumerate(dict.fromkeys(it.key for it in found.definitions), 1)}


def link_names(each: Definition, places: "dict[Key, str]") -> str:
    """A definition's text, in which a name leads to its definition; a word of the kit's says so."""
    parts, last = [], 0
    for start, end, key in sorted(each.links, key=lambda link: link[:2]):
        is_kit = isinstance(key, Foreign)
        begin = f'<span title="{escape(key.name)}, of {escape(key.crate)}">' if is_kit else f'<a href="#{places[key]}">'
        parts += [plain(each.text[last:start]), begin, escape(each.text[start:end]), "</span>" if is_kit else "</a>"]
        last = end
    return "".join(parts) + plain(each.text[last:])


def plain(code: str) -> str:
    """A text without links. Comments, which begin a line or follow two spaces, are set apart."""
    return re.sub(r"(?m)(^ *|  )((?:--|//).*)$", r'\1<span class="comment">\2</span>', escape(code))


def comment_paragraphs(comment: str) -> str:
    """A comment's words, in paragraphs."""
    words = "\n".join(line.lstrip("-/").strip() for line in comment.split("\n"))
    shown = (re.sub("`([^`]+)`", r"<code>\1</code>", escape(" ".join(each.split()))) for each in words.split("\n\n") if comment)
    return "".join(f"<p>{each}</p>\n" for each in shown)


def fold_definition(each: Definition, places: "dict[Key, str]", example: "Example | None" = None) -> str:
    place = f' id="{places[each.key]}"' if each.key in places else ""
    where, laws = escape(statements.short(each.key)), escape(statements.laws_on(each).removeprefix("-- "))
    told = f'<p class="soft">{laws}</p>\n' if laws else ""
    if example:
        told += f'<details><summary class="soft">worked out</summary>\n<pre>{escape(example.text)}</pre>\n</details>\n'
    return (
        f'<details open{place}><summary><code>{escape(each.key.name)}</code> <span class="soft">{where}</span></summary>\n'
        f"{comment_paragraphs(each.comment)}<pre>{link_names(each, places)}</pre>\n{told}</details>\n"
    )


def names(found: Statement, places: "dict[Key, str]") -> str:
    order = sorted(found.definitions, key=lambda it: (it.key.name.lower(), not it.key.is_source, it.key.place))
    items = "".join(f'<li><a href="#{places[it.key]}">{escape(it.key.name)}</a></li>\n' for it in order)
    return f'<details><summary>All names</summary>\n<ul class="names">\n{items}</ul>\n</details>\n' if order else ""


def page(found: Statement) -> str:
    """The statement in HTML, with its policy."""
    places, examples, title = ids(found), statements.examples(), escape(found.title.replace("`", ""))
    lead = f"{statements.counts_text(found)}. A module stands after all that cite it." if found.contracts else statements.NO_CONTRACT
    of_kit = (f"<p>{escape(crate)}: <code>{escape(words)}</code></p>\n" for crate, words in found.kit_words.items())
    sections = {
        "The contract" if len(found.contracts) == 1 else "The contracts": "".join(fold_definition(it, places) for it in found.contracts),
        "The definitions": "".join(fold_definition(it, places, examples.get(it.key)) for it in found.definitions),
        "Words that the kit defines": "".join(of_kit),
    }
    body = "".join(f"<h2>{heading}</h2>\n{text}" for heading, text in sections.items() if text)
    return html_safe.document(f"{title}: the statement", STYLE, f"""<h1>{title}: what its contract says</h1>
<p>{escape(lead)}</p>
{names(found, places)}{body}""")
