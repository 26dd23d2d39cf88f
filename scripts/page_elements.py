"""The elements of a page of `abd draw` or of `abd trace --draw`, read as XML, and what each page has to keep: nothing on it runs or fetches
something, each link has its place, no level of headings is left out, and boxes, tables and styles are as a browser needs them.
"""

import re
import xml.etree.ElementTree as tree
from typing import NamedTuple


class Wrong(Exception):
    """What a page shows otherwise than it is."""


class Frame(NamedTuple):
    """The sides of a bar, in pixels."""

    left: float
    right: float
    top: float
    foot: float

    def holds(self, x, y):
        """Whether the point lies within the sides, and on none of them."""
        return self.left < x < self.right and self.top < y < self.foot


def expect(is_so, *what):
    if not is_so:
        raise Wrong(" ".join(str(it) for it in what))


def elements(root, name, kind=None):
    """All elements of that name, or of that name and class."""
    return [it for it in root.iter(name) if kind is None or kind in it.get("class", "").split(" ")]


def words(it):
    """The text of the element, up to the first element in it."""
    return it.text or ""


def number(it, name):
    """The number that the attribute of that name is."""
    expect(it.get(name), it.tag, "without", name)
    return float(it.get(name))


def points_of(line):
    """The corners of a line, each so far right and so far down."""
    points = [float(it) for it in line.get("points").split()]
    return list(zip(points[::2], points[1::2]))


def frame_of(shape):
    """The frame of a bar's shape: of a rectangle, or of a line around it that leaves out the side below."""
    if shape.tag == "rect":
        left, top = number(shape, "x"), number(shape, "y")
        return Frame(left, left + number(shape, "width"), top, top + number(shape, "height"))
    across, down = zip(*points_of(shape))
    return Frame(min(across), max(across), min(down), max(down))


def check_headings(root):
    levels = [int(it.tag[1]) for it in root.iter() if re.fullmatch("h[1-6]", it.tag)]
    expect(levels.count(1) == 1 and levels[0] == 1, "title among", levels)
    expect(all(below <= above + 1 for above, below in zip(levels, levels[1:])), "headings", levels)


def on_one_line(text):
    """The text as an attribute has it: XML reads each end of a line there as a blank."""
    return re.sub(r"\s", " ", text)


def check_boxes(root):
    """Each box that scrolls is a region with a name and can have the focus; a picture's and a table's say on which keys the calls are."""
    boxes = {kind: elements(root, "div", kind) for kind in ("picture", "rows", "messages")}
    for it in sum(boxes.values(), []):
        expect(it.get("role") == "region" and it.get("aria-label") and it.get("tabindex") == "0", "box", it.attrib)
    for it in boxes["picture"]:
        expect(it.get("aria-label") == on_one_line(it.findall("svg")[-1].find("title").text), "name of a picture", it.get("aria-label"))
    for it in boxes["rows"]:
        words = on_one_line(it.find("table").find("caption").text)
        expect(it.get("aria-label") == "Table of the" + words.removeprefix("The"), "name of a table", it.get("aria-label"))


def check_tables(root):
    """Each table has a caption, headings of its columns, and in each row below a heading of the row."""
    for table in root.iter("table"):
        expect(table[0].tag == "caption" and table[0].text, "caption of", [it.tag for it in table])
        first, *rows = table.iter("tr")
        expect(all(it.tag == "th" and it.get("scope") == "col" for it in first), "headings of columns", [it.attrib for it in first])
        for row in rows:
            scopes = [it.get("scope") for it in row if it.tag == "th"]
            expect(row[0].tag == "th" and scopes == ["row"], "heading of a row", [it.tag for it in row])


def check_styles(root):
    """What a browser may not know kills no rule but its own: all selectors of a rule need it, or none."""
    for style in root.iter("style"):
        for rule in re.findall(r"([^{};]*)\{", style.text or ""):
            selectors = re.split(r",(?![^(]*\))", rule)
            for word in (":has(", "::details-content", ":is(", ":where("):
                expect(len({word in it for it in selectors}) == 1, "selectors", rule)


def read_elements(text):
    """The page's elements; none of them can run or fetch something."""
    first, _, rest = text.partition("\n")
    expect(first == "<!DOCTYPE html>", "first line", first)
    try:
        root = tree.fromstring(rest)
    except tree.ParseError as fault:
        raise Wrong(f"no XML: {fault}") from fault
    for it in root.iter():
        it.tag = it.tag.rpartition("}")[2]
        expect(it.tag not in ("script", "link", "iframe", "object", "img", "image", "use"), "element", it.tag)
        expect(not any(name.startswith("on") or name in ("src", "style") for name in it.attrib), "attributes", it.attrib)
    places = [it.get("id") for it in root.iter() if it.get("id")]
    expect(len(places) == len(set(places)), "places", places)
    for it in root.iter("a"):
        expect(it.get("href")[1:] in places, "link", it.get("href"))
    check_headings(root)
    check_styles(root)
    check_tables(root)
    check_boxes(root)
    return root
