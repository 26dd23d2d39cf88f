"""What a page of `abd draw` or of `abd trace --draw` says and shows, in lines, as the worked rows of pages say it: the head of each file in
crates/abd/rows/pages tells how. An element of which nothing is known here is a fault of the page.
"""

from typing import NamedTuple

from page_elements import elements, expect, words
from page_strips import read_page
from picture_lines import say_picture

VERDICTS = ("yes", "no", "undecided")
PICTURES = ("picture", "messages")
LEADS = {"title": "title", "h1": "heading 1", "h2": "heading 2", "caption": "caption", "summary": "summary"}
OF_KEYS = {"h2", "p", "a", "tr", "th", "td"}
AROUND = {"title", "h1", "caption", "summary", "pre", "section", "span"}
HOLDERS = {"body", "details", "div", "head", "html", "main", "meta", "style", "table", "tbody", "thead"}


class Extent(NamedTuple):
    """How much of a page is said: which elements are, by name; and which are left out with all that is in them, by name or class."""

    said: set
    left_out: set


EXTENTS = {
    "page": Extent(OF_KEYS | AROUND, set()),
    "pictures": Extent(OF_KEYS, {"thead", "rows"}),
    "keys": Extent(OF_KEYS, {"thead", "rows", *PICTURES}),
    "sums": Extent({"p", "a"}, {"table", *PICTURES}),
}
KINDS = [*EXTENTS, "legend"]


def say_cell(text):
    return f" | {text}" if text else ""


def say_link(link, parent):
    """Says a link and its place, as cells of a table or within a sentence; and what comes after it."""
    text, place, rest = words(link), link.get("href"), link.tail or ""
    return f" | {text} | {place}{rest}" if parent.tag == "th" else f"{text}[{place}]{rest}"


def say_element(element, parent):
    """Says an element, without those that stand in it."""
    name, kind, text = element.tag, element.get("class"), words(element)
    if name in LEADS:
        return f"\n{LEADS[name]}: {text}"
    if name == "p":
        return f"\n{kind}: {text.lstrip()}" if text else ""
    if name == "pre":
        return f"\npre: {text.strip()}"
    if name == "section":
        return f"\nsection: {kind}"
    if name == "span":
        return f"\n{element.get('id')}: {text}" if element.get("id") else ""
    if name == "tr":
        return f"\n{kind or 'heads'}"
    return say_link(element, parent) if name == "a" else say_cell(text)


def say_part(element, parent, extent):
    """Says an element and those that stand in it."""
    name, kind = element.tag, element.get("class")
    expect(name in OF_KEYS | AROUND | HOLDERS, "element", name)
    if name in extent.left_out or kind in extent.left_out:
        return ""
    if kind in PICTURES:
        return say_picture(element)
    own = say_element(element, parent) if name in extent.said else ""
    return own + "".join(say_part(it, element, extent) for it in element)


def say_legend(root):
    """Says what the signs of the page's pictures mean: the samples, and the sentences."""
    legends = elements(root, "p", "legend")
    expect(len(legends) == 1, "legends", len(legends))
    return "\nlegend" + "".join(say_cell(text.strip()) for text in legends[0].itertext())


def say_page(page, kind):
    """Says as much of a page as a row of that kind does."""
    root = read_page(page)
    if kind == "legend":
        return say_legend(root)
    text = say_part(root, None, EXTENTS[kind])
    if kind == "sums":
        return f"{text}\nrows: {sum(it.get('class') in VERDICTS for it in root.iter('tr'))}"
    return text
