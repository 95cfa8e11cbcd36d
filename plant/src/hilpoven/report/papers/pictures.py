"""Pictures of which lot went into which, by Graphviz: boxes in columns by their steps."""
import html
import re
import shutil
import subprocess
from collections.abc import Iterable
from typing import NamedTuple

SIGNS = {"released": "✓", "quarantined": "◇", "rejected": "✕", "held": "✕", "mixed": "≡", "plant": "▪"}
TINTS = {
    "released": "#e3f3e6",
    "quarantined": "#fdf1d3",
    "rejected": "#fbe3e1",
    "held": "#fbe3e1",
    "mixed": "#eef0f3",
    "plant": "#ffffff",
}
FRAMES = {"released": "rounded", "quarantined": "rounded,dashed", "mixed": "rounded,dotted"}
SHEET = (757.0, 455.0)  # points of a sheet of A4, across, beneath a heading
SMALLEST = 0.68  # of nine points: letters that are still read on paper
OVERLAP = 170.0  # points that two sheets share, more than a box is wide
PATIENCE = 20  # seconds
HEAD = (
    "digraph g { rankdir=LR; bgcolor=transparent; nodesep=0.12; ranksep=0.5; "
    'node [shape=plain, fontname="DejaVu Sans", fontsize=9]; edge [arrowsize=0.6, color="#333333"];'
)


class Box(NamedTuple):
    """A box: its key, its column, its title, the lines below, its disposition, and whether it is the asked lot's."""

    key: str
    column: int
    title: str
    lines: list[str]
    disposition: str
    is_asked: bool = False


class Arrow(NamedTuple):
    """An arrow between two boxes, by their keys; dashed if the plant noted it and no actual was recorded."""

    start: str
    end: str
    is_noted: bool = False


def draw(boxes: list[Box], arrows: Iterable[Arrow]) -> list[str]:
    """The picture as SVG, on one sheet or on two; nothing without boxes, if it would be larger, or without Graphviz."""
    program = shutil.which("dot")
    if not program or not boxes:
        return []
    columns: dict[int, list[str]] = {}
    for box in boxes:
        columns.setdefault(box.column, []).append(box.key)
    ranks = "".join(f"{{rank=same; {' '.join(map(quoted, keys))}}}" for _, keys in sorted(columns.items()))
    text = HEAD + "".join(map(node_of, boxes)) + ranks + "".join(map(edge_of, arrows)) + "}"
    try:
        done = subprocess.run([program, "-Tsvg"], input=text, capture_output=True, text=True, timeout=PATIENCE)
    except (OSError, subprocess.TimeoutExpired):
        return []
    return sheets(done.stdout) if done.returncode == 0 else []


def quoted(word: str) -> str:
    """A word as Graphviz reads it; keys of boxes have neither quotes nor backslashes."""
    return f'"{word}"'


def node_of(box: Box) -> str:
    """A box for Graphviz. A disposition is a sign, a word and a frame, so that it is known without its colour."""
    # bold letters are wider than Graphviz reckons
    title = f"<b>{SIGNS[box.disposition]} {html.escape(box.title)}</b>&#160;&#160;"
    text = "".join(f'{line}<br align="left"/>' for line in [title, *(html.escape(line) for line in box.lines)])
    frame = f'style="{FRAMES[box.disposition]}"' if box.disposition in FRAMES else ""
    return (
        f'{quoted(box.key)} [label=<<table border="{3 if box.is_asked else 1}" cellborder="0" cellspacing="0" '
        f'cellpadding="6" bgcolor="{TINTS[box.disposition]}" {frame}>'
        f'<tr><td balign="left">{text}</td></tr></table>>];'
    )


def edge_of(arrow: Arrow) -> str:
    """An arrow for Graphviz."""
    style = " [style=dashed]" if arrow.is_noted else ""
    return f"{quoted(arrow.start)}->{quoted(arrow.end)}{style};"


def sheets(svg: str) -> list[str]:
    """A picture of Graphviz, cut for one sheet or two."""
    match = re.search(r'<svg width="([\d.]+)pt" height="([\d.]+)pt"\s+viewBox="[^"]*"[^>]*>(.*)</svg>', svg, re.S)
    if not match:
        return []
    wide, high, inner = float(match[1]), float(match[2]), match[3]
    across, down = SHEET[0] / SMALLEST, SHEET[1] / SMALLEST
    if wide <= across and high <= down:
        return [part(inner, 0, 0, wide, high)]
    if wide <= 2 * across - OVERLAP and high <= down:
        half = (wide + OVERLAP) / 2
        return [part(inner, 0, 0, half, high), part(inner, wide - half, 0, half, high)]
    if wide <= across and high <= 2 * down - OVERLAP:
        half = (high + OVERLAP) / 2
        return [part(inner, 0, 0, wide, half), part(inner, 0, high - half, wide, half)]
    return []


def part(inner: str, left: float, top: float, wide: float, high: float) -> str:
    """What a sheet has of a picture."""
    scale = min(1.0, SHEET[0] / wide, SHEET[1] / high)
    return (
        '<svg xmlns="http://www.w3.org/2000/svg" role="img" aria-label="which lot went into which" '
        f'width="{wide * scale:.1f}pt" height="{high * scale:.1f}pt" '
        f'viewBox="{left:.1f} {top:.1f} {wide:.1f} {high:.1f}">{inner}</svg>'
    )
