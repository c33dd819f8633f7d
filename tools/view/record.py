"""Records what a run leaves to be drawn, while it is replayed."""

from __future__ import annotations

from typing import Dict, Iterable, List, Optional, Tuple

from .entries import Backoff, Entry, Refused, Ticket
from .needs import Need
from .observers import Moved, Observer, Wait
from .past import Doing, Past, Pause, Sign, Stretch, Way, Work
from .script import Command, Script
from .state import AREAS, Course, Ghost, Holder, Job, State

Raw = Tuple[str, Holder, int, int, int]  # area, holder, start, end, page


def last_done(jobs: Iterable[Job], until: int) -> Tuple[int, Optional[Job]]:
    """Returns the entry with which the last of these jobs is done, and the job; one that isn't done ends with entry `until`."""
    last, found = 0, None
    for job in jobs:
        if (job.done or until) > last:
            last, found = job.done or until, job
    return last, found


class Names:
    """Says in words what is waited for."""

    def __init__(self, script: Script) -> None:
        self.script = script
        self.threads: Dict[int, int] = {}

    def see(self, entry: Entry) -> None:
        """Learns of a ticket whose it is."""
        if type(entry) is Ticket:
            self.threads[entry.stamp] = entry.actor.number

    def of(self, need: Need) -> Tuple[str, Tuple[str, ...]]:
        """Returns what a thread waits for, and the same in a few words, and in fewer."""
        if need.job is not None:
            return job_name(need.job), (job_name(need.job), f"job {need.job.number}")
        if need.kind == "holder":
            name = self.script.buffer_name(need.buffer)
            thread = self.threads.get(need.stamp, 0)
            return f"t{thread} to let {name} go", (f"t{thread} to let {name} go", f"t{thread} has {name}", name)
        return f"ghost {need.ghost}", (f"ghost {need.ghost}", f"g{need.ghost}")


def job_name(job: Job) -> str:
    """Returns a job in words."""
    return f"job {job.number} of e{job.engine}"


class Recorder(Observer):
    """Keeps the past of the entries from `first` to `last`."""

    def __init__(self, script: Script, first: int, last: int) -> None:
        self.past = Past()
        self.names = Names(script)
        self.first = first
        self.last = last
        self.at = 1
        self.since = {area: [0] * script.size(area) for area in AREAS}
        self.raw: List[Raw] = []
        self.jobs: Dict[Job, int] = {}
        self.free_from = [0] * (script.engines + 1)
        self.commands: Dict[int, Tuple[Command, int]] = {}
        self.ghosts_end = 0
        self.moves_done: Dict[int, int] = {}

    def pages(self, area: str, first: int, last: int, before: Optional[Holder], after: Optional[Holder]) -> None:
        since = self.since[area]
        for page in range(first, last):
            if before is not None and self.at > self.first:
                self.raw.append((area, before, max(since[page], self.first - 1), self.at, page))
            since[page] = self.at

    def emitted(self, job: Job) -> None:
        self.jobs[job] = job.emitted

    def done(self, job: Job) -> None:
        self.jobs.pop(job, None)
        if job.is_move:
            self.moves_done[job.number] = self.at
        self._work(job, self.at)

    def _work(self, job: Job, until: int) -> None:
        """Records a job that is done, or that the end finds."""
        head = max(job.emitted, self.free_from[job.engine])
        self.free_from[job.engine] = job.done or until
        if self._is_shown(head, job.done or until):
            ready, last = last_done(job.waits, until)
            reason = job_name(last) if last else ""
            begun = job.begun or job.done or until
            self.past.works.append(Work(job.engine, job.number, job.thread, job.emitted, head, max(ready, head), begun, job.done or until, reason))

    def ghost_reaped(self, ghost: Ghost) -> None:
        self._ghost(ghost, self.at)

    def _ghost(self, ghost: Ghost, until: int) -> None:
        """Records how long the reaper waits for the jobs of a ghost, once it is the first one."""
        head = max(ghost.made, self.ghosts_end)
        self.ghosts_end = ghost.reaped or until
        ready, last = last_done(ghost.jobs, until)
        if last is not None and ready > head and self._is_shown(head, ready):
            reason = f"{job_name(last)}, which uses ghost {ghost.number}"
            self.past.pauses.append(Pause("r", head, ready, reason, (job_name(last), f"job {last.number}")))

    def command_begun(self, course: Course, command: Command) -> None:
        self.commands[course.thread] = command, self.at

    def command_ended(self, course: Course, command: Command, answer: Entry) -> None:
        self._doing(course.thread, self.at, answer.reason if type(answer) is Refused else "")

    def _doing(self, thread: int, until: int, answer: str) -> None:
        """Records a command that is answered, or that the end finds at work."""
        command, start = self.commands.pop(thread)
        if self._is_shown(start, until):
            self.past.doings.append(Doing(thread, command.number, command.text, start, until, answer))
            if answer:
                self._sign(thread, "refused", until, f"refused {answer}")

    def moved(self, move: Moved) -> None:
        job = move.job
        old, new = move.old[0], move.new[0]
        pages = sum(span.last - span.first for span in move.new)
        if move.entry <= self.last:
            self.past.ways.append(Way(move.buffer, move.before, old.first, move.after, new.first, pages, job.number, move.entry, 0))

    def waited(self, wait: Wait) -> None:
        until = self.last + 1 if wait.until is None else wait.until
        if self._is_shown(wait.since, until):
            self.past.pauses.append(Pause(f"t{wait.thread}", wait.since, until, *self.names.of(wait.need)))

    def _sign(self, thread: int, kind: str, entry: int, text: str) -> None:
        """Records a mark at an entry."""
        if self.first <= entry <= self.last:
            self.past.signs.append(Sign(thread, kind, entry, text))

    def entry(self, number: int, entry: Entry) -> None:
        self.names.see(entry)
        if number >= self.first:
            self.past.entries.setdefault(str(entry.actor), []).append(number)
            if type(entry) is Backoff:
                self._sign(entry.actor.number, "backoff", number, "backoff")
        self.at = number + 1

    def _is_shown(self, start: int, end: int) -> bool:
        """Tells whether what begins and ends with these entries has a column."""
        return end >= self.first and start <= self.last

    def finish(self, state: State) -> Past:
        """Ends what is still there after the last entry, and returns the past."""
        end = self.last + 1
        for name, area in state.areas.items():
            since = [max(start, self.first - 1) for start in self.since[name]]
            self.raw += [(name, holder, since[page], end, page) for page, holder in enumerate(area.owner) if holder is not None]
            self.past.ends[name] = state.account(name)[1:]
        for job in list(self.jobs):
            self._work(job, end)
        for ghost in state.ghosts.values():
            self._ghost(ghost, end)
        for thread in list(self.commands):
            self._doing(thread, end, "")
        self.past.stretches = _joined(self.raw)
        self._end_ways()
        return self.past

    def _end_ways(self) -> None:
        """Gives each move the entry with which its job is done; those that begin or end outside of what is shown are only counted."""
        end = self.last + 1
        ways = [way._replace(end=self.moves_done.get(way.job, end)) for way in self.past.ways]
        self.past.ways = [way for way in ways if self.first <= way.start and way.end < end]
        self.past.cut_ways = sum(way.end >= self.first for way in ways) - len(self.past.ways)


def _joined(raw: List[Raw]) -> List[Stretch]:
    """Returns pages side by side that one holder has from one entry to another as one stretch."""
    found: List[Stretch] = []
    for area, holder, start, end, page in sorted(raw):
        last = found[-1] if found else None
        if last and last.last == page and (last.area, last.holder, last.start, last.end) == (area, holder, start, end):
            found[-1] = last._replace(last=page + 1)
        else:
            found.append(Stretch(area, page, page + 1, holder, start, end))
    return found
