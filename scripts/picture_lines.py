"""What a picture of a page shows, in lines, as the worked rows of pages say it: its columns and rows, and where each bar, dot, arrow and
text stands. `-` stands where nothing is. A sign of which nothing is known here is a fault of the page. The strips that only paper has are
left out; pages.py reads them.
"""

from page_elements import expect, frame_of, number, points_of, words

NEAR = 12  # how far beside a lifeline what belongs to it stands at most, in pixels
BELOW = 10  # how far below the middle of its row the base of a text stands at most
BASE = 4  # how far below the middle of its row the base of the row's name stands

HIDDEN = ("lit", "strips")  # what is seen only while something is pointed at, and what only paper has
AREAS = ("band", "curtain")  # areas that hide or mark rows
ARROWS = ("arriving", "stale", "lost", "under-way")
GUIDES = ("cross", "gap", "lane", "lifeline", "step", "tick")  # lines that say nothing of a call or a message
HOLDERS = ("a", "defs", "div", "marker", "path", "svg")

IN_BAR, AT_LIFELINE, IN_ROW = "; {row} {text}", "\n{name} {row}: {text}", "\n{row}: {text}"
TEXTS = {
    **dict.fromkeys(("does", "noted", "answers"), IN_BAR),
    **dict.fromkeys(("begin", "note", "outcome", "counted", "ignored", "holds", "keeps", "down"), AT_LIFELINE),
    **dict.fromkeys(("command", "refused"), IN_ROW),
    "reason": "\n{row}{text}",
    "label": ", {text}",
    "more": "\nmore: {text}",
    "before": ": {text}",
    # These are said of the columns, the rows and the dots, or by the trace in words, which stands on the page, too.
    **dict.fromkeys(("client", "who", "line", "source", "omitted", "number", "link", "sentence"), ""),
}


def signs_in(element):
    """The element and all that stands in it, in the order of the page, but for what is hidden."""
    if element.get("class") not in HIDDEN:
        yield element
        for it in element:
            yield from signs_in(it)


class Picture:
    """The signs of a picture, and who and which row stands where in it."""

    def __init__(self, box):
        self.signs = list(signs_in(box))
        self.names = [(number(it, "x"), words(it)) for it in self.found("text", "client", "who")]
        self.rows = [(number(it, "y") - BASE, words(it)) for it in self.found("text", "line", "source")]
        self.bars = [bar_of(it) for it in self.signs if it.get("id", "").startswith("call-")]
        self.floor = max((number(it, "y2") for it in self.found("line", "lane")), default=None)
        middles = [(number(it, "cx"), number(it, "cy")) for it in self.found("circle", "dot")]
        numbers = [words(it) for it in self.found("text", "number")]
        self.dots = dict(zip(middles, numbers))
        lines = [number(it, "y1") for it in self.found("line", "tick", "step")]
        expect(lines == [middle for middle, _ in self.rows], "lines of rows at", *lines)
        expect(len(self.dots) == len(middles) == len(numbers), "numbers", *numbers, "at dots", *middles)

    def found(self, name, *kinds):
        """The signs of that name that have one of the classes."""
        return [it for it in self.signs if it.tag == name and it.get("class") in kinds]

    def name_in(self, left, right):
        """The name of the first column whose middle lies there."""
        return next((name for x, name in self.names if left <= x <= right), "-")

    def name_near(self, x):
        """The name of the lifeline near which that lies."""
        return self.name_in(x - NEAR, x + NEAR)

    def first_row(self, top, foot):
        """The name of the first row whose middle lies there."""
        return next((name for middle, name in self.rows if top <= middle <= foot), "-")

    def last_row(self, top, foot):
        """The name of the last row whose middle lies there."""
        return next((name for middle, name in reversed(self.rows) if top <= middle <= foot), "-")

    def row_at(self, y):
        """The name of the row of that middle."""
        return self.first_row(y, y)

    def call_at(self, x, y):
        """The call within whose bar the point lies."""
        return next((call for frame, call in self.bars if frame.holds(x, y)), "-")

    def call_beside(self, x, y):
        """The call at whose bar the point lies, or just beside it."""
        calls = [self.call_at(x + aside, y) for aside in (-1, 0, 1)]
        return next((call for call in calls if call != "-"), "-")


def bar_of(group):
    """The frame of a call's bar, and the call."""
    shape = next(it for it in group if it.tag in ("rect", "polyline"))
    return frame_of(shape), words(group.find("title")).partition(",")[0]


def say_group(_, group):
    """Says what kind of sign comes, and the place of a bar to which links lead."""
    kind, place = group.get("class"), group.get("id", "")
    if kind in AREAS or group.get("aria-hidden"):
        return ""
    return f"\n{kind}: " + (f"{place}: " if place.startswith("call-") else "")


def say_path(picture, line):
    """Says the numbers of the dots through which the line goes."""
    return "\npath:" + "".join(f" {picture.dots.get(point, '-')}" for point in points_of(line))


def say_before(picture, arrow):
    """Says from which call's bar to which other's an arrow leads: its first corner is at the one, and its third on top of the other."""
    (x, y), _, (tip, top) = points_of(arrow)[:3]
    return f"\narrow: {picture.call_beside(x, y)} to {picture.call_beside(tip, top + 1)}"


def shape_of(bar):
    """The class of a bar or of a part of one, or else how its corners are."""
    return bar.get("class") or ("square" if bar.get("rx") == "0" else "round")


def end_of(picture, bar, frame):
    """Down to which row a bar stands. One that leaves out the side below has no end, and is said to stand down to a row if it doesn't reach
    the bottom of a picture of calls."""
    last = picture.last_row(frame.top, frame.foot)
    if bar.tag == "rect":
        return last
    if bar.get("class") == "open" and frame.foot != picture.floor:
        return f"no end, down to {last}"
    return "no end"


def say_bar(picture, bar):
    """Says where a bar, or a part of one, stands."""
    frame = frame_of(bar)
    name, first = picture.name_in(frame.left, frame.right), picture.first_row(frame.top, frame.foot)
    return f"\n  {shape_of(bar)} {name}, {first} to {end_of(picture, bar, frame)}"


def say_shape(picture, shape):
    kind = shape.get("class")
    if kind in AREAS:
        return ""
    return {"path": say_path, "arrow": say_before}.get(kind, say_bar)(picture, shape)


def say_dot(picture, dot):
    """Says in which bar the dot lies, and below which row."""
    x, y = number(dot, "cx"), number(dot, "cy")
    return f"\ndot {picture.dots[x, y]}: {picture.call_at(x, y)}, below {picture.last_row(0, y)}"


def say_line(picture, line):
    """Says from where to where an arrow goes, or where a call ends since its client stopped."""
    kind = line.get("class")
    left, top, right, foot = [number(line, name) for name in ("x1", "y1", "x2", "y2")]
    if kind in ARROWS:
        begin, end = picture.row_at(top), picture.row_at(foot)
        return f"\n  {kind} {picture.name_near(left)} {begin} to {picture.name_near(right)} {end}"
    if kind == "stop":
        return f"\n  stop {picture.name_in(left, right)} {picture.row_at(top)}"
    expect(kind in GUIDES, "line", kind)
    return ""


def say_text(picture, text):
    """Says a text with the row, or the column too, where it stands."""
    kind, x, y = text.get("class"), number(text, "x"), number(text, "y")
    expect(kind in TEXTS, "text", kind)
    return TEXTS[kind].format(name=picture.name_near(x), row=picture.last_row(y - BELOW, y), text=words(text))


SAID = {
    "title": lambda _, title: words(title),
    "g": say_group,
    "rect": say_shape,
    "polyline": say_shape,
    "circle": say_dot,
    "line": say_line,
    "text": say_text,
}


def say_sign(picture, sign):
    expect(sign.tag in SAID or sign.tag in HOLDERS, "sign", sign.tag)
    return SAID[sign.tag](picture, sign) if sign.tag in SAID else ""


def say_all(picture, kind):
    """Says the texts of that class, as a line."""
    texts = [words(it) for it in picture.found("text", kind)]
    return f"\n{kind}: {', '.join(texts)}" if texts else ""


def say_omitted(picture):
    """Says how many calls are left out below which row."""
    marks = [(number(it, "y"), words(it)) for it in picture.found("text", "omitted")]
    return "".join(f"\nbelow {picture.last_row(0, y)}: {text}" for y, text in marks)


def say_picture(box):
    """Says what the picture in a box of a page shows."""
    picture = Picture(box)
    heads = [say_all(picture, "client"), say_all(picture, "line"), say_omitted(picture), say_all(picture, "who")]
    return "".join([*heads, "\npicture: ", *(say_sign(picture, it) for it in picture.signs)])
