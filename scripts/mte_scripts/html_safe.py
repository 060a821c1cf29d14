"""What makes a page in HTML keep to itself: data that ends no element, and a policy by which the browser runs only the page's own scripts and
styles, and lets nothing out. And what pages without a script share."""

import base64
import hashlib
import json
import re

HEAD = '<meta charset="utf-8">\n'
INLINE = re.compile(r"<(script|style)>(.*?)</\1>", re.DOTALL)
# none of these may stand in a script: they end it, or begin what hides its end
ENDS = re.compile(r"<!--|<script|</script", re.IGNORECASE)

STYLE = """
:root { color-scheme: light dark; --back: #ffffff; --text: #1f2328; --soft: #59636e; --line: #d1d9e0; --shade: #f6f8fa }
@media (prefers-color-scheme: dark) { :root { --back: #0d1117; --text: #e6edf3; --soft: #9198a1; --line: #3d444d; --shade: #151b23 } }
* { box-sizing: border-box }
body { margin: 0 auto; padding: 1.5rem 1rem 3rem; background: var(--back); color: var(--text); overflow-wrap: anywhere;
  font: 16px/1.5 system-ui, -apple-system, "Segoe UI", "Noto Sans", "DejaVu Sans", sans-serif }
h1 { font-size: 1.5rem; line-height: 1.25; margin: 0 0 .5rem }
h2 { font-size: 1.15rem; margin: 2.25rem 0 .5rem; padding-top: .75rem; border-top: 1px solid var(--line) }
p { margin: .5rem 0 }
pre { background: var(--shade); border: 1px solid var(--line); border-radius: 6px; padding: .75rem }
pre, code { font-family: ui-monospace, "DejaVu Sans Mono", monospace; font-size: .875rem }
"""


def escape_unprintable(text: object) -> str:
    """A text from outside. Characters that are no text, as a file's name may have them, are shown escaped, and raw bytes by their number."""
    return "".join(c if c.isprintable() else escape_of(c) for c in str(text))


def escape_of(character: str) -> str:
    if "\udc80" <= character <= "\udcff":
        return f"\\x{ord(character) - 0xDC00:02x}"
    return character.encode("unicode_escape").decode()


def data(value: object) -> str:
    """A value in JSON for an element of the page: no text in it begins a tag or a comment."""
    return json.dumps(value, ensure_ascii=True).replace("<", "\\u003c")


def code(source: str) -> str:
    """JavaScript for an element of the page. `</` stands there in strings alone, in which the backslash means nothing."""
    text = source.replace("</", "<\\/")
    if found := ENDS.search(text):
        raise ValueError(f"a script of the page has {found[0]}")
    return text


def digest(text: str) -> str:
    return f"'sha256-{base64.b64encode(hashlib.sha256(text.encode()).digest()).decode()}'"


def policy(page: str, allowed: "dict[str, str] | None" = None) -> str:
    """The Content-Security-Policy of a page: its inline scripts and styles by their digests, and nothing else but what is ALLOWED, sources
    by the name of their directive."""
    rules: dict = {name: [] for name in ("default-src", "script-src", "style-src", "connect-src", "base-uri", "form-action")}
    for kind, text in INLINE.findall(page):
        rules[f"{kind}-src"].append(digest(text))
    for name, sources in (allowed or {}).items():
        rules.setdefault(name, []).append(sources)
    return "; ".join(" ".join([name, *(sources or ["'none'"])]) for name, sources in rules.items())


def with_policy(page: str, allowed: "dict[str, str] | None" = None) -> str:
    """The page with its policy, which stands before all that it speaks of."""
    before, mark, after = page.partition(HEAD)
    if not mark:
        raise ValueError(f"the page has no line {HEAD.strip()}")
    return f'{before}{mark}<meta http-equiv="Content-Security-Policy" content="{policy(page, allowed)}">\n{after}'


def document(title: str, style: str, body: str) -> str:
    """A page with its policy and STYLE, and with this style. What it is made of is escaped already."""
    return with_policy(f"""<!DOCTYPE html>
<html lang="en">
<head>
{HEAD}<meta name="viewport" content="width=device-width, initial-scale=1">
<title>{title}</title>
<style>{STYLE}{style}</style>
</head>
<body>
{body}</body>
</html>
""")
