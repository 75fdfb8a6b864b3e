"""Pieces of pictures in SVG."""
from xml.sax.saxutils import escape, quoteattr

FONT = "font-family='DejaVu Sans Mono, Menlo, Consolas, monospace'"


def attributes(given):
    """Attributes of an element; `_` in a name stands for `-`."""
    return "".join(f" {name.replace('_', '-')}={quoteattr(str(value))}" for name, value in given.items())


def rectangle(x, y, width, height, **given):
    """A rectangle."""
    return f"<rect x='{x:g}' y='{y:g}' width='{width:g}' height='{height:g}'{attributes(given)}/>"


def line(x1, y1, x2, y2, **given):
    """A line."""
    return f"<line x1='{x1:g}' y1='{y1:g}' x2='{x2:g}' y2='{y2:g}'{attributes(given)}/>"


def path(points, **given):
    """A path by its own commands."""
    return f"<path d='{points}'{attributes(given)}/>"


def text(x, y, content, size=12, **given):
    """A line of text."""
    return f"<text x='{x:g}' y='{y:g}' font-size='{size}'{attributes(given)}>{escape(content)}</text>"


def titled(element, title):
    """An element that shows a title where one points at it."""
    return f"<g><title>{escape(title)}</title>{element}</g>"


def whole(width, height, title, pieces, definitions=""):
    """A picture that stands alone."""
    size = f"width='{width:g}' height='{height:g}' viewBox='0 0 {width:g} {height:g}'"
    head = f"<svg xmlns='http://www.w3.org/2000/svg' {size} {FONT}>"
    body = "\n".join([head, f"<title>{escape(title)}</title>", definitions,
                      rectangle(0, 0, width, height, fill="#ffffff"), *pieces, "</svg>"])
    return body + "\n"
