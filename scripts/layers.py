"""layers.py [--check]

Run it at the top when crates.txt or the first sentence of a crate has changed. From crates.txt, and from the first sentence of each crate's root
file, it makes

- the tables of docs/LAYERS.md, one for each group of crates.txt (its comments), between its two marks;
- docs/layers.svg: a band for each group, the lowest at the bottom, and in each crate's box the crates right below it: those that no other crate
  below it stands on.

With --check it only says which of the two isn't what it would make, and ends with 1 then.
"""

import os
import re
import sys
from xml.sax.saxutils import escape

BEGIN, END = "<!-- made by scripts/layers.py -->", "<!-- so far -->"
WIDTH, LEFT, GAP, BOX, LINE = 1000, 150, 10, 200, 14
STYLE = """
  text { font: 13px sans-serif; fill: #1a1a1a }
  .group { font-weight: bold }
  .below { font-size: 10.5px; fill: #555 }
  .band { fill: #f2f4f7 }
  .crate { fill: #fff; stroke: #8a94a6 }
  @media (prefers-color-scheme: dark) {
    text { fill: #e8e8e8 } .below { fill: #aab } .band { fill: #22262d } .crate { fill: #2e343d; stroke: #6b7688 }
  }
"""


def read_groups():
    """The groups of crates.txt with their crates, the lowest first; and what each crate stands on."""
    groups, below = [], {}
    with open("crates.txt", encoding="utf-8") as file:
        for line in file:
            if line.startswith("#"):
                groups.append((line[1:].strip(), []))
            elif ":" in line:
                crate, stands_on = line.split(":")
                below[crate.split()[0]] = stands_on.split()
                if not groups:
                    groups.append(("", []))
                groups[-1][1].append(crate.split()[0])
    return groups, below


def all_below(crate, below):
    """All crates of the repository that the crate stands on, however far below."""
    found = set()
    todo = [it for it in below[crate] if it in below]
    while todo:
        one = todo.pop()
        if one not in found:
            found.add(one)
            todo += [it for it in below[one] if it in below]
    return found


def right_below(crate, below):
    """The crates that the crate stands on and no other crate below it does."""
    own = [it for it in below[crate] if it in below]
    return [it for it in own if not any(it in all_below(other, below) for other in own)]


def in_lines(names, width):
    """The names, as lines of at most so many characters."""
    lines = [""]
    for name in names:
        more = f"{lines[-1]}, {name}" if lines[-1] else name
        if len(more) > width and lines[-1]:
            lines[-1] += ","
            lines.append(name)
        else:
            lines[-1] = more
    return lines


def draw_box(crate, lines, x, y, height):
    """The elements of a crate's box."""
    yield f'<rect class="crate" x="{x}" y="{y}" width="{BOX}" height="{height}" rx="5"/>'
    yield f'<text x="{x + 10}" y="{y + 19}">{escape(crate)}</text>'
    for number, line in enumerate(lines):
        yield f'<text class="below" x="{x + 10}" y="{y + 35 + LINE * number}">{escape(line)}</text>'


def draw(groups, below):
    """The picture."""
    columns = (WIDTH - LEFT) // (BOX + GAP)
    shapes, y = [], GAP
    for name, crates in reversed(groups):
        lines = {crate: in_lines(right_below(crate, below), 34) for crate in crates}
        box = 30 + LINE * max(len(it) for it in lines.values())
        rows = -(-len(crates) // columns)
        height = rows * (box + GAP) + GAP
        shapes.append(f'<rect class="band" x="0" y="{y}" width="{WIDTH}" height="{height}" rx="6"/>')
        shapes.append(f'<text class="group" x="12" y="{y + 30}">{escape(name)}</text>')
        for place, crate in enumerate(crates):
            row, column = divmod(place, columns)
            shapes += draw_box(crate, lines[crate], LEFT + column * (BOX + GAP), y + GAP + row * (box + GAP), box)
        y += height + GAP
    head = f'<svg xmlns="http://www.w3.org/2000/svg" viewBox="0 0 {WIDTH} {y}" role="img" aria-labelledby="title">'
    return "\n".join([head, '<title id="title">The crates by layer, the lowest at the bottom</title>', f"<style>{STYLE}</style>", *shapes, "</svg>", ""])


def first_sentence(crate):
    """The first sentence of the crate's root file, without its end."""
    root = next(path for path in (f"crates/{crate}/src/{name}.rt" for name in ("lib", "main")) if os.path.exists(path))
    words = []
    with open(root, encoding="utf-8") as file:
        for line in file:
            if not line.startswith("//!") or not line[3:].strip():
                break
            words.append(line[3:].strip())
    return re.split(r"\.(?: |$)", " ".join(words), maxsplit=1)[0]


def tables(groups, below):
    """The tables of docs/LAYERS.md."""
    for name, crates in groups:
        yield f"## {name[0].upper()}{name[1:]}\n\n| Crate | What it is | Stands on |\n|---|---|---|"
        for crate in crates:
            on = ", ".join(f"`{it}`" if it in below else it for it in below[crate]) or "std"
            yield f"| `{crate}` | {first_sentence(crate)} | {on} |"
        yield ""


def layers(groups, below):
    """The text of docs/LAYERS.md."""
    text = read("docs/LAYERS.md")
    before, rest = text.split(BEGIN)
    after = rest.split(END)[1]
    return "\n".join([before + BEGIN, "", *tables(groups, below), END + after])


def read(path):
    with open(path, encoding="utf-8") as file:
        return file.read()


def main():
    groups, below = read_groups()
    made = {"docs/LAYERS.md": layers(groups, below), "docs/layers.svg": draw(groups, below)}
    old = [path for path, text in made.items() if read(path) != text]
    if "--check" in sys.argv:
        for path in old:
            print(f"{path} isn't what scripts/layers.py makes of crates.txt and of the first sentences of the crates")
        sys.exit(1 if old else 0)
    for path in old:
        with open(path, "w", encoding="utf-8") as file:
            file.write(made[path])


if __name__ == "__main__":
    main()
