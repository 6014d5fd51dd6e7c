"""Bars of counts by set, as SVG that stands in a page (matplotlib, without a display)."""

import io
import re

from matplotlib import rc_context
from matplotlib.backends.backend_svg import FigureCanvasSVG
from matplotlib.figure import Figure

_COLOURS = ("#1f5fa8", "#c8641b", "#3b8c4a", "#8a4fa3", "#7a6a2f", "#4a4a4a")
_PROLOG = re.compile(r"^.*?(?=<svg)", re.S)
_METADATA = re.compile(r"<metadata>.*?</metadata>", re.S)
_WIDTH, _BAR, _REST = 5.2, 0.19, 0.9


def bars(title: str, counts: dict[str, list[int]], sets: list[str]) -> str:
    """Horizontal bars: for each name a bar a set; on a logarithmic axis, with the counts as words at the bars."""
    with rc_context({"svg.fonttype": "none", "svg.hashsalt": title, "font.size": 9, "font.family": "sans-serif"}):
        figure = Figure(figsize=(_WIDTH, _REST + _BAR * len(counts) * (len(sets) + 0.6)))
        FigureCanvasSVG(figure)
        axes = figure.add_subplot()
        height = 1 / (len(sets) + 0.6)
        for place, name in enumerate(sets):
            values = [row[place] for row in counts.values()]
            at = [row + place * height for row in range(len(counts))]
            drawn = axes.barh(at, values, height * 0.92, label=name, color=_COLOURS[place % len(_COLOURS)])
            axes.bar_label(drawn, [f"{value:,}" for value in values], padding=2, fontsize=7)
        axes.set_yticks([row + height * (len(sets) - 1) / 2 for row in range(len(counts))], list(counts))
        axes.invert_yaxis()
        axes.set_xscale("symlog", linthresh=1)
        axes.set_xlim(0, 6 * max(max(row) for row in counts.values()) + 1)
        axes.set_title(title, fontsize=10)
        axes.spines[["top", "right"]].set_visible(False)
        axes.legend(fontsize=8, loc="lower right", frameon=False, ncols=len(sets), bbox_to_anchor=(1, -0.02 - 0.55 / figure.get_figheight()))
        out = io.StringIO()
        figure.savefig(out, format="svg", bbox_inches="tight", metadata={"Date": None, "Creator": None, "Format": None, "Type": None})
    return _METADATA.sub("", _PROLOG.sub("", out.getvalue()))
