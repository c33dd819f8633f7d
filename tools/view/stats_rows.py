"""What a report adds up to as plain values: the object of `stats json`, whose keys are always the same (STATS.md)."""

from __future__ import annotations

from collections import Counter
from typing import Any, Dict, List, Sequence, Tuple

from .entries import REASONS, VERBS, Dry, Entry, Packet, SwapIn, SwapOut
from .limits import PAGE_BYTES
from .observers import Wait
from .report import Report
from .script import Script, Span
from .state import AREAS, Area, State
from .totals import WHYS, OfActor, Refusal, Totals

VERSION = 1
Rows = Dict[str, Any]


def rows_of(report: Report, totals: Totals, state: State) -> Rows:
    """Returns everything."""
    entries = report.entries
    kinds = Counter(map(type, entries))
    actors = Counter(entry[0] for entry in entries)
    packets = Counter(entry[0] for entry in entries if type(entry) is Packet)
    return {
        "version": VERSION,
        "name": report.name,
        "script_version": report.script.version,
        "is_unfinished": report.unfinished is not None,
        "entries": len(entries),
        "kinds": [{"kind": verb, "entries": kinds[kind]} for kind, verb in VERBS.items()],
        "memory": [_memory(totals, state, area) for area in AREAS],
        "moves": _moves(totals, entries, kinds[SwapOut], kinds[SwapIn]),
        "evictions": [_evictions(totals, why) for why in WHYS],
        "ghosts": _ghosts(totals, state),
        "buffers": _buffers(totals, state, entries),
        "engines": [_engine(number, of, packets, len(entries)) for number, of in enumerate(totals.engines)],
        "reaper": {"reaped": totals.reaper.done, "waits": totals.reaper.waits, "waited_entries": totals.reaper.waited},
        "threads": [_thread(report.script, number, of, actors) for number, of in enumerate(totals.threads, 1)],
        "refused": [{"refusal": reason, "count": sum(one.reason == reason for one in totals.refusals)} for reason in REASONS],
        "refusals": [_refusal(report, one) for one in totals.refusals],
        "waits": [_wait(report.script, totals, wait) for wait in totals.waits],
    }


def holes(area: Area) -> List[Span]:
    """Returns the longest spans of free pages of an area, from the lowest on."""
    found: List[Span] = []
    first = None
    for page, holder in enumerate([*area.owner, True]):
        if holder is None:
            first = page if first is None else first
        elif first is not None:
            found.append(Span(first, page))
            first = None
    return found


def _memory(totals: Totals, state: State, name: str) -> Rows:
    """Returns who holds an area in the end, the most that was held, and how its free pages lie."""
    size, free, live, target, ghost = state.account(name)
    lengths = [last - first for first, last in holes(state.areas[name])]
    return {
        "memory": name,
        "size": size,
        "free": free,
        "live": live,
        "target": target,
        "ghost": ghost,
        "most_held": size - totals.least_free[name],
        "longest_free": max(lengths, default=0),
        "holes": len(lengths),
    }


def _moves(totals: Totals, entries: Sequence[Entry], swapped_out: int, swapped_in: int) -> List[Rows]:
    """Returns moves by direction: those of buffers by jobs, and those of single pages from frames to slots and back."""
    ways: List[Tuple[str, str, int, int]] = [(*way, *counts) for way, counts in totals.ways.items()]
    ways += [("frames", "swap", swapped_out, swapped_out), ("swap", "frames", swapped_in, swapped_in)]
    return [{"from": old, "to": new, "moves": moves, "pages": pages, "bytes": pages * PAGE_BYTES} for old, new, moves, pages in ways]


def _evictions(totals: Totals, why: str) -> Rows:
    """Returns how many victims that were caught for an area left it, and how many were passed over."""
    evicted = sum(of.evicted[why] for of in totals.buffers)
    skipped = sum(of.skipped[why] for of in totals.buffers)
    return {"caught_for": why, "evicted": evicted, "skipped": skipped}


def _ghosts(totals: Totals, state: State) -> Rows:
    """Returns how many ghosts there were, and for how many entries."""
    lives = totals.ghosts
    return {"made": len(lives), "left": len(state.ghosts), "entries": sum(lives), "longest": max(lives, default=0)}


def _buffers(totals: Totals, state: State, entries: Sequence[Entry]) -> List[Rows]:
    """Returns where each buffer is, and what happened to it."""
    outs = Counter(entry[1] for entry in entries if type(entry) is SwapOut)
    ins = Counter(entry[1] for entry in entries if type(entry) is SwapIn)
    rows: List[Rows] = []
    for buffer, of in zip(state.buffers, totals.buffers):
        rows.append({
            "buffer": buffer.declared.name,
            "pages": buffer.declared.pages,
            "where": buffer.memory if buffer.is_live else "dead",
            "spans": [{"first": first, "last": last} for first, last in buffer.spans],
            "frames": buffer.frame_count,
            "slots": buffer.slot_count,
            "pins": buffer.pins,
            "evicted_from_vram": of.evicted["vram"],
            "evicted_from_tt": of.evicted["tt"],
            "evicted_to_swap": of.evicted["swap"],
            "skipped": sum(of.skipped.values()),
            "moves": of.moves,
            "bytes_moved": of.pages * PAGE_BYTES,
            "bytes_swapped_out": outs[buffer.index] * PAGE_BYTES,
            "bytes_swapped_in": ins[buffer.index] * PAGE_BYTES,
        })  # fmt: skip
    return rows


def _engine(number: int, of: OfActor, packets: Dict[Any, int], entries: int) -> Rows:
    """Returns what an engine did. It is busy from the first packet of a job to its end."""
    return {
        "engine": number,
        "jobs": of.done,
        "packets": packets["e", number],
        "busy_entries": of.busy,
        "busy_share": round(of.busy / entries, 4) if entries else 0.0,
        "waits": of.waits,
        "waited_entries": of.waited,
    }


def _thread(script: Script, number: int, of: OfActor, actors: Dict[Any, int]) -> Rows:
    """Returns what a thread did."""
    return {
        "thread": number,
        "commands": len(script.threads[number - 1].commands),
        "answered": of.done,
        "entries": actors["t", number],
        "waits": of.waits,
        "waited_entries": of.waited,
        "waits_for_jobs": of.kinds["job"],
        "waits_for_holders": of.kinds["holder"],
        "waits_for_ghosts": of.kinds["ghost"],
        "backoffs": of.backoffs,
        "refusals": of.refusals,
    }


def _refusal(report: Report, one: Refusal) -> Rows:
    """Returns a refused command, with what it was refused for."""
    return {
        "entry": one.entry,
        "thread": one.command.thread,
        "command": one.command.number,
        "text": one.command.text,
        "refusal": one.reason,
        "buffer": one.buffer,
        "pins": one.pins,
        "causes": [_cause(report, number, entry) for number, entry in one.found],
    }


def _cause(report: Report, number: int, entry: Entry) -> Rows:
    """Returns what a Dry or NoPages entry says."""
    is_dry = type(entry) is Dry
    blockers = [
        {"buffer": report.script.buffer_name(cause.buffer), "why": cause.why, "stamp": cause.stamp} for cause in (entry.causes if is_dry else ())
    ]
    return {
        "entry": number,
        "kind": "dry" if is_dry else "nopages",
        "buffer": report.script.buffer_name(entry[1]),
        "place": entry.place if is_dry else 0,
        "is_short": is_dry and entry.is_short,
        "blockers": blockers,
    }


def _wait(script: Script, totals: Totals, wait: Wait) -> Rows:
    """Returns a wait of a thread, with what it was for."""
    need = wait.need
    until = totals.until(wait)
    return {
        "thread": wait.thread,
        "command": wait.command,
        "since": wait.since,
        "until": until,
        "entries": until - wait.since,
        "for": need.kind,
        "buffer": script.buffer_name(need.buffer),
        "engine": need.job.engine if need.job else 0,
        "job": need.job.number if need.job else 0,
        "holder": totals.stamps.get(need.stamp, 0),
        "ghost": need.ghost,
    }
