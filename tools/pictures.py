#!/usr/bin/env python3
"""Draws the pictures of docs/: counts.svg from the text below, speed.svg from a table of SPEED.md, crates.svg from crates.txt.

    python3 tools/pictures.py [FOLDER]     at the repository's top; draws into docs/, or into the folder

It calls `dot` (Debian's package graphviz) for the crates.
"""
import subprocess
import sys

INK, LINE, FILL, MARK = "#222222", "#888888", "#f4f4f0", "#2f6f8f"
SHADES = (MARK, "#8fb3c3", "#d5e2e8", "#e5c99a", "#c9c9c9")


class Picture:
    def __init__(self, width, height):
        self.width, self.height, self.parts = width, height, []

    def text(self, x, y, words, size=13, anchor="start", color=INK):
        words = str(words).replace("&", "&amp;").replace("<", "&lt;")
        self.parts.append(f'<text x="{x}" y="{y}" font-size="{size}" text-anchor="{anchor}" fill="{color}">{words}</text>')

    def box(self, x, y, width, height, lines=(), fill=FILL):
        self.parts.append(f'<rect x="{x}" y="{y}" width="{width}" height="{height}" rx="4" fill="{fill}" stroke="{LINE}"/>')
        for row, words in enumerate(lines):
            self.text(x + 10, y + 20 + 18 * row, words, 14 if row == 0 else 12)

    def bar(self, x, y, width, fill):
        self.parts.append(f'<rect x="{x}" y="{y}" width="{width:.0f}" height="14" fill="{fill}"/>')

    def arrow(self, x1, y1, x2, y2, words=""):
        self.parts.append(f'<line x1="{x1}" y1="{y1}" x2="{x2}" y2="{y2}" stroke="{MARK}" stroke-width="1.5" marker-end="url(#tip)"/>')
        if words:
            self.text((x1 + x2) / 2, (y1 + y2) / 2 - 6, words, 12, "middle", MARK)

    def write(self, path):
        head = f'<svg xmlns="http://www.w3.org/2000/svg" width="{self.width}" height="{self.height}" font-family="sans-serif">'
        tip = f'<defs><marker id="tip" markerWidth="8" markerHeight="8" refX="7" refY="3" orient="auto"><path d="M0,0 L7,3 L0,6 z" fill="{MARK}"/></marker></defs>'
        back = '<rect width="100%" height="100%" fill="white"/>'
        with open(path, "w") as file:
            file.write("\n".join([head, tip, back, *self.parts, "</svg>", ""]))


def counts():
    """Owners with their rows and deltas, the words that they raise, and what a reader adds up."""
    picture = Picture(820, 330)
    picture.box(20, 30, 230, 92, ["part 0", "the rows of its subscribers", "unposted deltas: cell 26, +1"])
    picture.box(20, 218, 230, 92, ["part 1", "the rows of its subscribers", "unposted deltas: none"])
    picture.box(20, 134, 230, 72, ["piece 1, from part 0", "its rows, with their own count;", "its subscribers get Moving"], "#fff3e0")
    picture.box(350, 74, 180, 174, ["the board", "slot 0: words of part 0", "slot 1: words of part 1", "", "a plus-word and a minus-", "word for each of 72 cells;", "a word only rises, and", "only the desk of its", "slot raises it"])
    picture.box(620, 90, 180, 130, ["views", "for each cell: what is", "published (plus less minus,", "over all slots) and the", "unposted deltas, which", "are the count now"])
    picture.arrow(250, 90, 350, 120, "post")
    picture.arrow(250, 246, 350, 214, "post")
    picture.arrow(530, 150, 620, 150, "published")
    picture.arrow(250, 40, 700, 88)
    picture.arrow(250, 304, 700, 222)
    picture.text(540, 58, "unposted", 12, color=MARK)
    picture.text(540, 276, "unposted", 12, color=MARK)
    picture.arrow(135, 206, 135, 218)
    picture.arrow(135, 122, 135, 134)
    picture.text(142, 131, "give", 12, color=MARK)
    picture.text(142, 216, "take", 12, color=MARK)
    picture.text(20, 20, "divide adds a part, which gets a free slot; dissolve removes one", 12, color=MARK)
    return picture


def cells(row):
    return [cell.strip() for cell in row.strip("|\n").split("|")]


def table(head):
    """The rows of the first table of SPEED.md whose head begins so, the head first."""
    with open("docs/SPEED.md") as file:
        rows = (head + file.read().split(f"\n{head}", 1)[1]).split("\n")
    rows = rows[: next(n for n, row in enumerate(rows) if not row.startswith("|"))]
    return [cells(rows[0]), *map(cells, rows[2:])]


def speed():
    """Instructions a command: a bar for each program of the table, in the order of its columns."""
    head, *rows = table("| command | hlr |")
    rows = [(row[0].strip("`"), [cell.replace(",", "") for cell in row[1:]]) for row in rows]
    programs = list(zip(head[1:], SHADES))
    top, high = 40 + 20 * len(programs), 16 * len(programs) + 12
    picture = Picture(640, top + high * len(rows))
    picture.text(20, 26, "Instructions a command", 14)
    for place, (program, fill) in enumerate(programs):
        picture.bar(20, 38 + 20 * place, 28, fill)
        picture.text(56, 50 + 20 * place, program.replace("`", ""), 12)
    scale = 460 / max(int(count) for _, counts in rows for count in counts if count.isdigit())
    for place, (name, counts) in enumerate(rows):
        y = top + high * place
        picture.text(20, y + 8 * len(counts) + 4, name, 13)
        for line, (count, (_, fill)) in enumerate(zip(counts, programs)):
            if count.isdigit():
                picture.bar(80, y + 16 * line, int(count) * scale, fill)
                picture.text(86 + int(count) * scale, y + 12 + 16 * line, f"{int(count):,}", 11)
    return picture


def crates():
    """The crates, each above those on which it stands; an arrow that others imply is left out."""
    with open("crates.txt") as file:
        rows = [line.split(":") for line in file]
    named = [row[0].split()[0] for row in rows]
    below = {name: [word for word in row[1].split() if word in named] for name, row in zip(named, rows)}
    graph = ["digraph {", f'bgcolor="white"; pad=0.2; nodesep=0.35; ranksep=0.45;',
             f'node [shape=box, style="filled,rounded", fillcolor="{FILL}", color="{LINE}", fontname="sans-serif", fontsize=13, fontcolor="{INK}"];',
             f'edge [color="{MARK}", arrowsize=0.7];']
    for name in named:
        graph.append(f"{name};")
        graph += [f"{name} -> {other};" for other in below[name] if not any(other in below[third] for third in below[name])]
    return subprocess.run(["dot", "-Tsvg"], input="\n".join([*graph, "}"]), capture_output=True, text=True, check=True).stdout


if __name__ == "__main__":
    folder = sys.argv[1] if len(sys.argv) > 1 else "docs"
    for draw in (counts, speed):
        draw().write(f"{folder}/{draw.__name__}.svg")
    with open(f"{folder}/crates.svg", "w") as file:
        file.write(crates())
