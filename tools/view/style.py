"""Classes of shapes, patterns of buffers and ghosts."""

from __future__ import annotations

from typing import Iterable, List

from . import colours

STYLE = f"""text{{font:10px "DejaVu Sans",Verdana,sans-serif;fill:{colours.INK}}}
.paper{{fill:{colours.PAPER}}}
.title{{font-size:14px;font-weight:bold}}.note{{fill:#4a5565}}.head{{font-size:11px;font-weight:bold}}
.small{{font-size:8.5px;fill:#4a5565}}.end{{text-anchor:end}}.mid{{text-anchor:middle}}
.name{{font-size:9.5px;text-anchor:middle}}.light{{fill:#fff}}.warm{{fill:#5a2a05}}.halo{{paint-order:stroke;stroke:#fff;stroke-width:2.6px;stroke-linejoin:round}}
.free{{fill:{colours.FREE};stroke:#c3c9d1;stroke-width:.6}}.fold{{fill:url(#fold);stroke:#c3c9d1;stroke-width:.6}}
.ghost{{fill:url(#ghost);stroke:#5d636c;stroke-width:.6}}
.dense rect{{stroke:none;shape-rendering:crispEdges}}.dense .ghost{{stroke:#5d636c;stroke-width:.4}}
.live{{fill:{colours.LIVE}}}.target{{fill:url(#target)}}
.axis{{stroke:#000;stroke-opacity:.1;stroke-width:.6;fill:none}}
.back{{stroke:#fff;stroke-width:4;stroke-opacity:.85;fill:none}}
.move{{stroke:{colours.INK};stroke-width:1.6;fill:none}}.tip{{fill:{colours.INK}}}
.busy{{fill:{colours.BUSY};stroke:#fff;stroke-width:.4}}.ready{{stroke:{colours.BUSY};stroke-width:1.2;stroke-dasharray:2 2;fill:none}}
.wait{{fill:{colours.PALE};stroke:{colours.WAIT};stroke-width:.8}}
.command{{fill:#e3ebf4;stroke:#7d8ca0;stroke-width:.6}}.entry{{fill:{colours.BUSY}}}
path.ghost{{stroke:none}}.waits{{fill:{colours.WARM}}}.pointed{{fill:#000;fill-opacity:0}}.count{{fill:#7b6a9c}}
.backoff{{fill:{colours.WAIT};stroke:#fff;stroke-width:.5}}.refused{{stroke:#b00020;stroke-width:2;fill:none}}
"""
FIXED = f"""<pattern id="ghost" width="5" height="5" patternUnits="userSpaceOnUse"><path d="M0 0h5v5h-5z" fill="#d6d9de"/>\
<path d="M1 1h1.6v1.6h-1.6zM3.5 3.5h1.6v1.6h-1.6z" fill="#6b717b"/></pattern>
<pattern id="fold" width="6" height="6" patternUnits="userSpaceOnUse"><path d="M0 0h6v6h-6z" fill="#fff"/>\
<path d="M2.5 2.5h1v1h-1z" fill="#aab1bb"/></pattern>
<pattern id="target" width="5" height="5" patternUnits="userSpaceOnUse" patternTransform="rotate(45)"><path d="M0 0h5v5h-5z" fill="#fff"/>\
<path d="M0 0h2v5h-2z" fill="{colours.LIVE}"/></pattern>
"""
# How the white lines of a colour's second, third .. buffer are turned.
TURNS = (0, 90, 45, 135, 22, 68, 112)


def _pattern(name: str, turn: int, ground: str, lines: str, width: float) -> str:
    """Returns a pattern of lines on a ground."""
    return (
        f'<pattern id="{name}" width="5" height="5" patternUnits="userSpaceOnUse" patternTransform="rotate({turn})">'
        f'<path d="M0 0h5v5h-5z" fill="{ground}"/><path d="M0 0h{width}v5h-{width}z" fill="{lines}"/></pattern>\n'
    )


def patterns(buffers: Iterable[int]) -> str:
    """Returns the patterns that pictures of these buffers use."""
    parts: List[str] = [FIXED]
    for index in sorted(buffers):
        colour = colours.of_buffer(index)
        parts.append(_pattern(f"p{index}", 45, "#fff", colour, 2.2))
        if colours.round_of(index):
            parts.append(_pattern(f"q{index}", TURNS[(colours.round_of(index) - 1) % len(TURNS)], colour, "#fff", 1))
    return "".join(parts)


def classes(buffers: Iterable[int]) -> str:
    """Returns the classes of these buffers: `l` with the index where they stand, `t` for their targets."""
    parts: List[str] = [STYLE]
    for index in sorted(buffers):
        colour = colours.of_buffer(index)
        fill = f"url(#q{index})" if colours.round_of(index) else colour
        parts.append(f".l{index}{{fill:{fill};stroke:#2a323d;stroke-width:.4}}.t{index}{{fill:url(#p{index});stroke:{colour}}}\n")
    return "".join(parts)
