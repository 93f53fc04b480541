#!/usr/bin/env python3
"""Draws the pictures of README.md as SVG, for a light and a dark page (`make pictures`).

docs/before-after.svg has tools/io.h, and what ./unifdef leaves of it, side by side. A line that is
removed is red and struck through, and an edited one is yellow. bench/speed.svg has some rows and
programs of the first table of speeds in bench/README.md.
"""
import subprocess
from html import escape
from pathlib import Path

from files import TOP, text_of

STYLE = """<style>
.page { fill: #fff } text { fill: #222 } line { stroke: #ddd }
.removed { fill: #fbe3e0 } .edited { fill: #fdf3d0 } text.gone { fill: #b03a2e }
@media (prefers-color-scheme: dark) {
.page { fill: #0d1117 } text { fill: #e6edf3 } line { stroke: #3d444d }
.removed { fill: #4a1d1b } .edited { fill: #4b3d10 } text.gone { fill: #ff9f95 }
}
</style>"""
GONE = ' class="gone" text-decoration="line-through"'

# What is drawn of the header, and of the speeds: the programs with their names and colours.
OPTIONS = ["-UVMS", "-DUNIX"]
TEXTS = ["C source", "C headers", "comments", "conditionals"]
PROGRAMS = {
    "this": ("this program", "#12966c"),
    "newer": ("2.12", "#9566b3"),
    "rebuilt": ("2.10, cc -O2", "#e9a03b"),
    "cat": ("cat", "#8a8d91"),
}


def write(file, title, width, height, font, drawn):
    size = f'width="{width:.0f}" height="{height}" viewBox="0 0 {width:.0f} {height}"'
    head = f'<svg xmlns="http://www.w3.org/2000/svg" {size}\n role="img" {font}>'
    page = '<rect width="100%" height="100%" class="page"/>'
    lines = [head, f"<title>{escape(title)}</title>", STYLE, page, *drawn, "</svg>", ""]
    Path(TOP, file).write_text("\n".join(lines), encoding="utf-8")


def text(x, y, words, more=""):
    return f'<text x="{x:.1f}" y="{y:.1f}" xml:space="preserve"{more}>{escape(words)}</text>'


def rect(x, y, width, height, more):
    return f'<rect x="{x:.1f}" y="{y:.1f}" width="{width:.1f}" height="{height}" {more}/>'


def printed(*words):
    run = subprocess.run([f"{TOP}/unifdef", *words], stdout=subprocess.PIPE, text=True)
    return run.stdout.splitlines()


def draw_header(file):
    before = text_of(file).splitlines()
    # Under -b each line is still in its position.
    in_place, after = printed(*OPTIONS, "-b", file), printed(*OPTIONS, file)
    command, line, top = f"unifdef {' '.join(OPTIONS)}", 17, 44
    width = 7.25 * max(map(len, before)) + 24
    right, bold, drawn = width + 24, ' font-weight="bold"', []
    drawn += [text(12, 26, "io.h", bold), text(right, 26, command, bold)]
    for row, (words, left) in enumerate(zip(before, in_place)):
        y, gone = top + line * row, words and not left
        if words != left:
            drawn.append(rect(6, y, width - 6, line, f'class="{"removed" if gone else "edited"}"'))
        drawn.append(text(12, y + 13, words, GONE if gone else ""))
    edited = [left for words, left in zip(before, in_place) if left not in ("", words)]
    for row, words in enumerate(after):
        y = top + line * row
        if words in edited:
            drawn.append(rect(right - 6, y, width - 12, line, 'class="edited"'))
        drawn.append(text(right, y + 13, words))
    title, font = f"A header before and after {command}", 'font-family="monospace" font-size="12"'
    height = top + line * len(before) + 12
    write("docs/before-after.svg", title, 2 * width + 12, height, font, drawn)


def speeds():
    """Returns the speeds of the programs on each text with 50 symbols, as the page has them."""
    page = text_of(f"{TOP}/bench/README.md")
    lines = page[page.index("| text and options | bytes | this MB/s") :].splitlines()
    head, *rows = [[cell.strip() for cell in line.split("|")] for line in lines]
    of_text = {row[1]: row for row in reversed(rows) if row[1:]}
    columns = [head.index(f"{program} MB/s") for program in PROGRAMS]
    return [[of_text[f"{it}, 50 symbols"][n] for n in columns] for it in TEXTS]


def draw_speeds():
    # Bars begin at `left`, and have this length for each MB/s.
    title, left, scale = "Millions of bytes a second (processor time)", 92, 0.114
    x, drawn = 8, [text(8, 18, title)]
    for name, colour in PROGRAMS.values():
        drawn += [rect(x, 30, 10, 10, f'fill="{colour}"'), text(x + 15, 40, name)]
        x += 34 + 7.4 * len(name)
    for speed in range(0, 4000, 1000):
        x = left + scale * speed
        drawn.append(f'<line x1="{x:.1f}" x2="{x:.1f}" y1="66" y2="360"/>')
        drawn.append(text(x, 62, f"{speed:,}", ' text-anchor="middle"'))
    y = 70
    for name, found in zip(TEXTS, speeds()):
        drawn.append(text(left - 8, y + 34, name, ' text-anchor="end"'))
        for (_, colour), speed in zip(PROGRAMS.values(), found):
            length = scale * float(speed.replace(",", ""))
            drawn.append(rect(left, y, length, 14, f'fill="{colour}"'))
            drawn.append(text(left + length + 4, y + 12, speed))
            y += 15
        y += 12
    write("bench/speed.svg", title, 480, 368, 'font-family="sans-serif" font-size="13"', drawn)


draw_header(f"{TOP}/tools/io.h")
draw_speeds()
