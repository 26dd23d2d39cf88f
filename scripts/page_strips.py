"""What a picture of `abd draw` has on paper alone: strips of its rows, one below the other, each with the clients' names above it. They are
compared with the picture, and taken out of what is read of a page.
"""

import re

from page_elements import elements, expect, frame_of, number, points_of, read_elements

# Where a picture's first row begins; a row's height; how many rows a strip has; and how much of a picture's height isn't rows.
TOP, ROW, STRIP, FOOT = 26, 20, 32, 58
# How many columns and rows a picture may have that is cut.
MOST_COLUMNS, MOST_ROWS = 16, 2048


def marks_of(*images):
    """What stands in rows of a picture or a strip beside bars, each with how far down it is."""
    marks = []
    for it in (it for image in images for it in image):
        kind = it.get("class")
        if it.tag == "line" and kind in ("tick", "gap"):
            marks.append((number(it, "y1"), kind, ""))
        elif it.tag == "path":
            marks += [(float(y), kind, "") for y in re.findall(r"M96 (\d+)H", it.get("d"))]
        elif it.tag == "circle":
            marks.append((number(it, "cy"), kind, it.get("cx")))
        elif it.tag == "text" and kind in ("line", "omitted", "number"):
            marks.append((number(it, "y"), kind, it.text))
    return sorted(marks)


def bars_within(image, top, bottom):
    """Of each bar that crosses these rows its class, its shape, and what it says in them."""
    found = []
    for bar in image.iter("g"):
        shape = next(it for it in bar if it.tag in ("rect", "polyline"))
        frame = frame_of(shape)
        if frame.top < bottom and frame.foot > top:
            texts = [(it.get("class"), it.attrib, it.text) for it in bar.iter("text") if top < number(it, "y") < bottom]
            found.append((bar.get("class"), shape.tag, shape.attrib, texts))
    return found


def path_within(image, top, bottom):
    """The corners of the line along the order that are joined within these rows."""
    corners_of = points_of(elements(image, "polyline", "path")[0])
    joined = zip(corners_of[:1] + corners_of, corners_of, corners_of[1:] + corners_of[-1:])
    return [it for before, it, after in joined if before[1] < bottom and after[1] > top]


def check_strip(strip, names, image, top, bottom):
    """A strip has the names, and what the picture shows in its rows; no place, and nothing that takes the focus. Its marks."""
    above, below = strip.findall("svg")
    expect([(it.attrib, it.text) for it in above] == [(it.attrib, it.text) for it in names], "names of a strip")
    expect([float(it) for it in above.get("viewBox").split()] == [0, 0, number(image, "width"), TOP], "view of names", above.attrib)
    expect([float(it) for it in below.get("viewBox").split()] == [0, top, number(image, "width"), bottom - top], "view of", below.attrib)
    expect(bars_within(below, top, bottom) == bars_within(image, top, bottom), "bars of the strip from", top)
    expect(len(list(below.iter("g"))) == len(bars_within(below, top, bottom)), "bars beside the strip from", top)
    expect(points_of(elements(below, "polyline", "path")[0]) == path_within(image, top, bottom), "path of the strip from", top)
    for tag, kind in (("polyline", "arrow"), ("text", "before"), ("line", "lane")):
        expect([it.attrib for it in elements(below, tag, kind)] == [it.attrib for it in elements(image, tag, kind)], kind, "of a strip")
    expect(not any(it.get("id") or it.get("tabindex") or it.tag in ("a", "title") for it in strip.iter()), "places of a strip")
    return marks_of(below)


def take_paper(box):
    """Takes out what a picture's box has on paper alone: if the picture is cut, each row is in one strip, with the names above it."""
    names, lines, image = box.findall("svg")
    marks, count = marks_of(lines, image), int(number(image, "height") - FOOT) // ROW
    expect(sorted(it[0] for it in marks if it[1] in ("tick", "gap", "dot")) == [TOP + ROW * (row + 0.5) for row in range(count)], "rows", marks)
    is_cut = STRIP < count <= MOST_ROWS and len(names) <= MOST_COLUMNS
    papers = box.findall("div")
    expect(len(papers) == is_cut, "strips of a picture of", count, "rows and", len(names), "columns")
    found, bottom = [], TOP
    for paper in papers:
        for strip in paper:
            top, bottom = bottom, min(bottom + STRIP * ROW, TOP + count * ROW)
            own = check_strip(strip, names, image, top, bottom)
            expect(all(top < it[0] < bottom for it in own), "rows of the strip from", top)
            found += own
        box.remove(paper)
    expect(not papers or (found == marks and bottom == TOP + count * ROW), "rows of the strips", found)


def read_page(text):
    """The page's elements, without what its pictures have on paper alone."""
    root = read_elements(text)
    for box in elements(root, "div", "picture"):
        take_paper(box)
    return root
