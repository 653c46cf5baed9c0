"""The window as a picture: in the terminal and as SVG."""

from __future__ import annotations

from dataclasses import dataclass
from html import escape

from rich.text import Text

from .belief import Belief
from .images import differences

COLUMNS = 64
ROWS = 32
RULER = 16


@dataclass(frozen=True)
class Look:
    """How a kind of byte is drawn: a letter, a style of the terminal, a colour, and what it means."""

    letter: str
    style: str
    colour: str
    meaning: str


TRAP = Look("T", "bold white on red", "#d62728", "under a trap (believed)")
DIFFERS = Look("d", "black on magenta", "#c05fc0", "differs from the image")
CHANGED = Look("c", "black on yellow", "#e6b800", "changed since first seen")
PROTECTED = Look("P", "white on blue", "#1f4fbf", "protected (believed)")
SAME = Look(".", "dim", "#dcdcdc", "as first seen")
ORDER = (TRAP, DIFFERS, CHANGED, PROTECTED, SAME)


@dataclass(frozen=True)
class Picture:
    """Cells from an address on, each of so many bytes; a cell shows the foremost kind of its bytes."""

    base: int
    size: int
    cell: int
    cells: list[Look]


def cell_size(size: int) -> int:
    """The least power of two with which the window fits."""
    cell = 1
    while size > cell * COLUMNS * ROWS:
        cell *= 2
    return cell


def draw(belief: Belief, base: int, data: bytes, image: tuple[int, bytes] | None = None) -> Picture:
    """The picture of a window whose bytes are these; image is another one's address and bytes."""
    looks = [SAME] * len(data)
    for at in range(len(data)):
        if belief.is_protected(base + at):
            looks[at] = PROTECTED
        if belief.changed(base + at):
            looks[at] = CHANGED
    if image is not None:
        start = image[0] - base
        for run in differences(data[start:start + len(image[1])], image[1]):
            looks[start + run.start:start + run.start + run.length] = [DIFFERS] * run.length
    for at in belief.under_traps(base, len(data)):
        looks[at - base] = TRAP
    cell = cell_size(len(data))
    cells = [min(looks[at:at + cell], key=ORDER.index) for at in range(0, len(data), cell)]
    return Picture(base, len(data), cell, cells)


def as_text(picture: Picture) -> list[Text]:
    """Rows of letters in colour, each with its address, a ruler above, and what the letters mean."""
    columns = min(COLUMNS, len(picture.cells))
    ruler = "".join(f"+{at * picture.cell:<{RULER - 1}x}" for at in range(0, columns, RULER))
    lines = [Text(" " * 12 + ruler.rstrip(), style="dim")]
    for at in range(0, len(picture.cells), COLUMNS):
        line = Text(f"{picture.base + at * picture.cell:#010x}  ")
        for look in picture.cells[at:at + COLUMNS]:
            line.append(look.letter, style=look.style)
        lines.append(line)
    told = "a byte:" if picture.cell == 1 else f"{picture.cell} bytes, of which one is:"
    lines.append(Text(f"one letter is {told}"))
    lines += [Text("  ").append(look.letter, style=look.style).append(f" {look.meaning}")
              for look in ORDER if look in picture.cells]
    return lines


WIDTH, HEIGHT, LEFT, TOP = 12, 16, 96, 40


def as_svg(picture: Picture, title: str) -> str:
    """The same as SVG: a square for each cell, which says its address when the pointer is over it."""
    rows = -(-len(picture.cells) // COLUMNS)
    high = TOP + rows * HEIGHT + 28 + 20 * len(ORDER)
    wide = LEFT + COLUMNS * WIDTH + 16
    parts = [f'<svg xmlns="http://www.w3.org/2000/svg" width="{wide}" height="{high}" '
             'font-family="monospace" font-size="12">',
             f'<rect width="{wide}" height="{high}" fill="white"/>',
             f'<text x="16" y="24" font-size="14">{escape(title)}</text>']
    for at, look in enumerate(picture.cells):
        row, column = divmod(at, COLUMNS)
        address = picture.base + at * picture.cell
        if column == 0:
            parts.append(f'<text x="16" y="{TOP + row * HEIGHT + 12}">{address:#010x}</text>')
        parts.append(f'<rect x="{LEFT + column * WIDTH}" y="{TOP + row * HEIGHT}" width="{WIDTH - 1}" '
                     f'height="{HEIGHT - 1}" fill="{look.colour}"><title>{address:#x}: {look.meaning}</title></rect>')
    for at, look in enumerate(ORDER):
        y = TOP + rows * HEIGHT + 20 + 20 * at
        parts.append(f'<rect x="16" y="{y}" width="11" height="15" fill="{look.colour}"/>'
                     f'<text x="36" y="{y + 12}">{look.meaning}</text>')
    return "\n".join([*parts, "</svg>"]) + "\n"
