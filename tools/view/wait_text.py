"""Says what a thread waits for."""

from __future__ import annotations

from .needs import Need
from .script import Script


def wait_text(script: Script, need: Need) -> str:
    """Returns what must happen first, to stand after "waits for"."""
    buffer = script.buffer_name(need.buffer)
    if need.job is not None:
        return f"{need.job}, a fence of {buffer}"
    if need.kind == "ghost":
        return f"ghost {need.ghost}, whose pages {buffer} needs"
    return f"{buffer}, held by ticket {need.stamp}"
