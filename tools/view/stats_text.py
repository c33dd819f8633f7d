"""What a report adds up to as tables."""

from __future__ import annotations

from typing import Any, Iterable, Sequence, Tuple

from .draw_pages import counted
from .stats_rows import Rows

SHORT = {
    "evicted_from_vram": "out_of_vram",
    "evicted_from_tt": "out_of_tt",
    "evicted_to_swap": "to_swap",
    "bytes_moved": "moved",
    "bytes_swapped_out": "swapped_out",
    "bytes_swapped_in": "swapped_in",
}
ABOUT = {
    "NoBuffer": "{buffer} is dead",
    "Exists": "{buffer} is live",
    "Pinned": "{buffer} has {pins}",
    "NotPinned": "{buffer} isn't pinned",
    "PinMax": "{buffer} has {pins}",
    "NoSwap": "no slot is free for {buffer}",
}
MOST_ROWS = 40
MOST_CAUSES = 6
MOST_WAITS = 20


def text_of(rows: Rows) -> str:
    """Returns all tables."""
    parts = [f"{rows['name']}: {rows['entries']:,} entries{', unfinished' if rows['is_unfinished'] else ''}\n"]
    parts.append(table("entries", [row for row in rows["kinds"] if row["entries"]]))
    parts.append(table("memory", rows["memory"]))
    parts.append(table("moves", rows["moves"]))
    parts.append(table("evictions", rows["evictions"]))
    parts.append(table("ghosts", [rows["ghosts"]]))
    parts.append(table("buffers, evictions, and bytes moved and swapped", [_buffer(row) for row in rows["buffers"]]))
    parts.append(table("engines", [_engine(row) for row in rows["engines"]]))
    parts.append(table("reaper", [rows["reaper"]]))
    parts.append(table("threads", rows["threads"]))
    parts.append(table("refusals", [_refusal(row) for row in rows["refusals"]], MOST_ROWS))
    longest = sorted(rows["waits"], key=lambda row: (-row["entries"], row["since"]))
    parts.append(table("waits of threads, the longest first", [_wait(row) for row in longest], MOST_WAITS))
    return "\n".join(parts)


def table(heading: str, rows: Sequence[Rows], most: int = 0) -> str:
    """Returns a heading, and rows under the names of their keys; of more than `most` rows, where that isn't 0, the first ones."""
    if not rows:
        return f"{heading}: none\n"
    shown = rows[:most] if most else rows
    names = list(shown[0])
    cells = [[name.replace("_", " ") for name in names], *([_cell(row[name]) for name in names] for row in shown)]
    widths = [max(len(line[at]) for line in cells) for at in range(len(names))]
    is_text = [isinstance(shown[0][name], str) for name in names]
    lines = [heading, *(_line(line, widths, is_text) for line in cells)]
    if len(shown) < len(rows):
        lines.append(f"  and {len(rows) - len(shown):,} more")
    return "\n".join(lines) + "\n"


def _cell(value: Any) -> str:
    """Returns a value as it stands in a table."""
    return f"{value:,}" if isinstance(value, int) else str(value)


def _line(cells: Sequence[str], widths: Sequence[int], is_text: Sequence[bool]) -> str:
    """Returns a line of a table: texts at the left, numbers at the right."""
    columns: Iterable[Tuple[str, int, bool]] = zip(cells, widths, is_text)
    return ("  " + "  ".join(cell.ljust(width) if left else cell.rjust(width) for cell, width, left in columns)).rstrip()


def _buffer(row: Rows) -> Rows:
    """Returns the row of a buffer."""
    spans = ",".join(f"{span['first']}-{span['last']}" for span in row["spans"][:4])
    where = f"{row['where']} {spans}{',..' if len(row['spans']) > 4 else ''}".rstrip()
    rest = {SHORT.get(name, name): value for name, value in row.items() if name not in ("buffer", "pages", "where", "spans")}
    return {"buffer": row["buffer"], "pages": row["pages"], "where": where, **rest}


def _engine(row: Rows) -> Rows:
    """Returns the row of an engine."""
    return {**row, "engine": f"e{row['engine']}", "busy_share": f"{row['busy_share']:.1%}"}


def _refusal(row: Rows) -> Rows:
    """Returns the row of a refusal, its causes as reports write them."""
    causes = [ABOUT[row["refusal"]].format(buffer=row["buffer"], pins=counted(row["pins"], "pin"))] if row["buffer"] else []
    for cause in row["causes"]:
        causes.append(f"{cause['buffer']}: {'no frame' if cause['kind'] == 'nopages' else _dry(cause)}")
    where = f"t{row['thread']} {row['command']}"
    text = row["text"] if len(row["text"]) <= 40 else row["text"][:38] + ".."
    return {"entry": row["entry"], "command": where, "text": text, "refusal": row["refusal"], "causes": "; ".join(causes[:6])}


def _dry(cause: Rows) -> str:
    """Returns why a place is dry."""
    blockers = cause["blockers"]
    items = [f"{one['buffer']}:{one['why']}{':' + str(one['stamp']) if one['stamp'] else ''}" for one in blockers[:MOST_CAUSES]]
    if len(blockers) > MOST_CAUSES:
        items.append(f"and {len(blockers) - MOST_CAUSES} more")
    return f"place {cause['place']} {'short' if cause['is_short'] else ','.join(items) or '-'}"


def _wait(row: Rows) -> Rows:
    """Returns the row of a wait, with what it was for in words."""
    reasons = {
        "job": f"job {row['job']} of e{row['engine']}, which uses {row['buffer']}",
        "holder": f"t{row['holder']} to let {row['buffer']} go",
        "ghost": f"ghost {row['ghost']}, for room for {row['buffer']}",
    }
    where = f"t{row['thread']} {row['command']}"
    return {"command": where, "since": row["since"], "until": row["until"], "entries": row["entries"], "for": reasons[row["for"]]}
