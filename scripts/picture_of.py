"""Takes a picture out of a page of `abd draw` or `abd trace --draw`, as an SVG file that stands alone:

    python3 scripts/picture_of.py PAGE [NUMBER] > FILE.svg

NUMBER is that of the picture on the page, from 0. On a page with a diagram of messages 0 is the diagram.

The strips with names and lines, which on a page stay in sight while the picture scrolls, become part of it: all have the same places. What
a page shows only step by step, or only while something is pointed at, is left out. The page's styles come along, so it reads in light and
dark.
"""

import re
import sys
import xml.etree.ElementTree as tree

SVG = "http://www.w3.org/2000/svg"
MOVING = {"curtain", "lit"}  # the classes of what isn't always seen


def boxes_of(root):
    """The boxes of the page's pictures and diagrams."""
    return [it for it in root.iter("div") if it.get("class") in ("picture", "messages")]


def still(root):
    """Takes out what isn't always seen, and puts what a link holds in its place; of the link to a curtain nothing stays."""
    for parent in list(root.iter()):
        kept = []
        for it in parent:
            if it.tag == "a":
                kept.extend(link for link in it if link.get("class") != "link")
            elif it.get("class") not in MOVING:
                kept.append(it)
        parent[:] = kept


def group_of(box):
    """The box's last image, and a group of that class with what the image and the strips above it show."""
    *strips, picture = [it for it in box if it.tag == "svg"]
    title, *shapes = picture
    group = tree.Element("g", {"class": box.get("class")})
    group.extend([it for strip in strips for it in strip] + shapes)
    picture[:] = [title, group]
    return picture


def alone(styles, kind):
    """The styles of a page, for an image that stands alone."""
    styles = re.sub(r"[^{}]*:has[^}]*}", "", styles)
    return styles.replace(f".{kind} svg{{", "svg{") + "svg{background:var(--paper,#fff)}"


def main(page, number="0"):
    with open(page, encoding="utf-8") as file:
        root = tree.fromstring(file.read().partition("\n")[2])
    for it in root.iter():
        it.tag = it.tag.rpartition("}")[2]
    box = boxes_of(root)[int(number)]
    picture = group_of(box)
    still(picture)
    picture.set("xmlns", SVG)
    picture.set("role", "img")
    style = tree.Element("style")
    style.text = alone("".join(it.text or "" for it in root.iter("style")), box.get("class"))
    picture.insert(1, style)
    print(tree.tostring(picture, encoding="unicode"))


if __name__ == "__main__":
    if len(sys.argv) not in (2, 3):
        sys.exit(__doc__)
    main(*sys.argv[1:])
