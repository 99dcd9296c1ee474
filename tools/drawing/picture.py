"""A drawing as one SVG file with its own styles, for a page that shows pictures."""
from __future__ import annotations

from pathlib import Path

from drawing.chart import DEFS, Chart, names_of_axis, names_of_lanes, num
from drawing.scene import MEANINGS, Scene
from drawing.text import escaped, width_of

NAMES_WIDTH = 112
HEAD = 52
STYLE = (Path(__file__).parent / "style.css").read_text(encoding="utf-8")


def picture(scene: Scene) -> str:
    """The SVG file of a run that is drawn in one piece, or of the first piece of a longer run."""
    chart = Chart(scene, scene.pieces[0])
    meaning = f"status {scene.report.status}: {MEANINGS[scene.report.status]}"
    chart.right = max(chart.right, width_of(meaning, 12) + 24 - NAMES_WIDTH)
    width, height = NAMES_WIDTH + chart.right, HEAD + scene.height
    size = f'viewBox="0 0 {num(width)} {num(height)}" width="{num(width)}" height="{num(height)}"'
    label = escaped(f"Timeline of {scene.title}. {meaning}")
    return f"""<svg xmlns="http://www.w3.org/2000/svg" {size} role="img" aria-label="{label}">
<style>
{STYLE}</style>
{DEFS}
<rect class="lane" width="{num(width)}" height="{num(height)}"/>
<text class="title" x="12" y="22">{escaped(scene.title)}</text>
<text class="subtitle" x="12" y="40">{escaped(meaning)}</text>
<g transform="translate({NAMES_WIDTH} {HEAD})">
{chart.head()}
{chart.body()}
</g>
<g transform="translate(0 {HEAD})">
{names_of_axis(NAMES_WIDTH)}
{names_of_lanes(scene, NAMES_WIDTH)}
</g>
</svg>
"""
