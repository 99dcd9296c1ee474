"""A drawing as one HTML page that needs nothing else: status, charts, legend, and all calls as a table."""
from __future__ import annotations

from pathlib import Path

from drawing.around import facts_of, legend_of, status_of, table_of
from drawing.chart import DEFS, Chart, names_of_axis, names_of_lanes, num
from drawing.columns import Piece
from drawing.picture import STYLE
from drawing.replay import is_fault, is_refused
from drawing.scene import HEAD_HEIGHT, Scene
from drawing.text import escaped

NAMES_WIDTH = 104
HERE = Path(__file__).parent
XMLNS = 'xmlns="http://www.w3.org/2000/svg"'


def _file(*names: str) -> str:
    return "\n".join((HERE / it).read_text(encoding="utf-8").strip() for it in names)


def _steps(scene: Scene, piece: Piece) -> str:
    """Links to the pieces before and behind."""
    if len(scene.pieces) == 1:
        return ""

    def step(to: int, words: str) -> str:
        return f'<a href="#piece-{to}">{words}</a>' if 1 <= to <= len(scene.pieces) else f"<span>{words}</span>"

    here = f"piece {piece.number} of {len(scene.pieces)}: places {piece.first:,} to {piece.last:,}"
    back, on = step(piece.number - 1, "\u2190 previous"), step(piece.number + 1, "next \u2192")
    return f'<nav class="steps" aria-label="Pieces">{back}<b>{here}</b>{on}</nav>'


def _chart(scene: Scene, piece: Piece) -> str:
    chart = Chart(scene, piece)
    width, height = num(chart.right), num(scene.height - HEAD_HEIGHT)
    where = f"places {piece.first:,} to {piece.last:,}" if piece.columns else "no place"
    first = " first" if piece.number == 1 else ""
    names = f'<svg {XMLNS} width="{NAMES_WIDTH}"'
    shown = f'height="{height}" viewBox="0 {HEAD_HEIGHT}'
    return f"""<div class="piece{first}" id="piece-{piece.number}">{_steps(scene, piece)}
<div class="scroll"><div class="chart">
<div class="corner">{names} height="{HEAD_HEIGHT}" aria-hidden="true">
{names_of_axis(NAMES_WIDTH)}
</svg></div>
<div class="axis-box"><svg {XMLNS} class="axis" width="{width}" height="{HEAD_HEIGHT}" aria-hidden="true">
{chart.head()}
</svg></div>
<div class="names-box">{names} {shown} {NAMES_WIDTH} {height}" aria-hidden="true">
{names_of_lanes(scene, NAMES_WIDTH)}
</svg></div>
<svg {XMLNS} class="timeline" width="{width}" {shown} {width} {height}" role="group" aria-label="Timeline, {where}">
{chart.body()}
</svg>
</div></div></div>
"""


def _overview(scene: Scene) -> str:
    """A link to each piece, which says where calls were refused."""
    if len(scene.pieces) < 3:
        return ""
    items = []
    for piece in scene.pieces:
        calls = scene.ordered[piece.first - 1 : piece.last]
        refused, is_cut = sum(map(is_refused, calls)), any(map(is_fault, calls))
        end = ", the end of the device's text" if is_cut else ""
        words = f"places {piece.first:,} to {piece.last:,}, {refused:,} refused{end}"
        bad = f' class="bad" aria-label="{words}"' if refused or is_cut else ""
        sign = (f" \u25b2{refused:,}" if refused else "") + (" \u00d7" if is_cut else "")
        items.append(f'<li><a href="#piece-{piece.number}"{bad}>{piece.first:,}\u2013{piece.last:,}{sign}</a></li>')
    return f'<nav aria-label="All pieces"><ul class="pieces">{"".join(items)}</ul></nav>'


def page(scene: Scene) -> str:
    """The whole page."""
    title = escaped(f"{scene.title}: timeline of a run")
    without = "" if scene.scripts else " Arguments and the marks of scripts are in the scenario, which wasn't given."
    derived = (
        "<p>Sessions' states are derived: replayed from the calls and device events by the rules of the machine. "
        "A report prints only those that were polled.</p>"
    )
    charts = "".join(_chart(scene, piece) for piece in scene.pieces)
    return f"""<!DOCTYPE html>
<html lang="en">
<head>
<meta charset="utf-8">
<meta name="viewport" content="width=device-width, initial-scale=1">
<link rel="icon" href="data:,">
<title>{title}</title>
<style>
{STYLE}{_file("page.css")}
</style>
</head>
<body>
<svg class="defs" width="0" height="0" aria-hidden="true">{DEFS}</svg>
<header><h1>{title}</h1>
{status_of(scene)}
{facts_of(scene)}
<p class="hint">Point at a call to see its arguments and values, or reach it by Tab and the arrow keys.{without}</p>
</header>
<section aria-label="Timeline">{_overview(scene)}
{charts}</section>
{legend_of(scene)}
{table_of(scene)}
<footer>{derived if scene.sessions else ''}</footer>
<div id="tip" hidden></div>
<script>
{_file("page.js", "filter.js")}
</script>
</body>
</html>
"""
