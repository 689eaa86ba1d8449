"""HTML and SVG, in which whatever is not markup already is text, and is escaped."""
import base64
import hashlib
import html
import json


class Markup(str):
    """Text that is HTML already."""


def tag(name, /, *children, **words):
    """Returns an element of HTML. What isn't Markup is text, and is escaped."""
    opened = "".join(f' {key.rstrip("_").replace("_", "-")}="{html.escape(str(value))}"'
                     for key, value in words.items() if value is not None)
    inner = "".join(it if isinstance(it, Markup) else html.escape(str(it), quote=False) for it in children)
    return Markup(f"<{name}{opened}>{inner}" + ("" if name in ("meta", "input") else f"</{name}>"))


def table_of(heads, rows, **words):
    """Returns a table."""
    head = tag("tr", *(tag("th", it, scope="col") for it in heads))
    return tag("table", tag("thead", head), tag("tbody", *rows), **words)


def json_markup(value):
    """Returns the value as JSON for an element of HTML: without letters by which that could end or begin."""
    text = json.dumps(value, separators=(",", ":"))
    return Markup(text.replace("&", "\\u0026").replace("<", "\\u003c").replace(">", "\\u003e"))


def digest(text):
    """Returns how the page's policy tells a script or style that may stand in it."""
    return "'sha256-" + base64.b64encode(hashlib.sha256(text.encode()).digest()).decode() + "'"
