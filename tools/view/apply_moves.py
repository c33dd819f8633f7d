"""What entries change: jobs, moves and ghosts."""

from __future__ import annotations

from typing import List, Optional

from .apply_commands import ApplyCommands
from .apply_pages import Told
from .entries import Arm, Done, Free, Move, Packet, Reap
from .observers import Moved
from .script import TT, VRAM
from .state import KERNEL, READ, WRITE, BufferState, Course, Ghost, Job, State


class ApplyMoves(ApplyCommands):
    """Adds the entries on jobs, moves and ghosts."""

    def __init__(self, state: State, told: Told) -> None:
        super().__init__(state, told)
        self.handlers.update({Free: self.free, Move: self.move, Arm: self.arm, Packet: self.packet, Done: self.done, Reap: self.reap})

    def _emit(self, course: Course, engine: int, number: int, packets: int) -> Job:
        """Makes a job, which nothing waits for yet."""
        if (engine, number) in self.state.jobs:
            raise ValueError(f"there is a job {number} of engine {engine} already")
        job = Job(engine, number, course.thread, course.answered + 1, packets, self.number)
        self.state.jobs[engine, number] = job
        self.state.last_job[engine] = number
        return job

    def _fence(self, job: Job, buffer: BufferState, usage: str) -> None:
        """Makes a job wait for what a usage of a buffer must wait for, and a fence of the buffer."""
        job.waits += [other for other in buffer.unfinished(usage != READ) if other not in job.waits]
        buffer.add_fence(job, usage)
        job.buffers.append(buffer.index)

    def _ghost(self, number: int, buffer: BufferState, jobs: List[Job]) -> Ghost:
        """Makes a ghost that has nothing yet."""
        if number == 0 or number in self.state.ghosts:
            raise ValueError(f"ghost {number} can't be made")
        ghost = Ghost(number, buffer.index, self.number)
        ghost.jobs = jobs
        self.state.ghosts[number] = ghost
        self.state.last_ghost = number
        return ghost

    def _leave(self, buffer: BufferState, ghost: Optional[Ghost], with_frames: bool) -> None:
        """Gives what a buffer has to a ghost, or frees it."""
        holder = None if ghost is None else ghost.holder
        if buffer.memory in (VRAM, TT):
            self.pass_spans(buffer.memory, buffer.spans, buffer.as_live, holder)
        frames = self.drop_frames(buffer, holder) if with_frames else []
        if ghost is not None:
            ghost.frames = frames
            if buffer.memory == VRAM:
                ghost.vram = buffer.spans
            elif buffer.memory == TT:
                ghost.tt = buffer.spans

    def free(self, course: Course, entry: Free) -> None:
        buffer = self.live(entry.buffer)
        if buffer.targets:
            raise ValueError(f"{buffer.declared.name} has a target")
        ghost = self._ghost(entry.ghost, buffer, list(buffer.fences)) if entry.ghost else None
        for slot in buffer.slots:
            if slot is not None:
                self.pass_one("swap", slot, buffer.as_live, None)
        self._leave(buffer, ghost, True)
        self.state.take_off(buffer)
        buffer.clear(False)
        if entry.buffer in course.held:
            course.held.remove(entry.buffer)
        course.made = True
        if ghost is not None:
            for tell in self.told["ghost_made"]:
                tell(ghost)

    def move(self, course: Course, entry: Move) -> None:
        buffer = self.live(entry.buffer)
        if buffer.memory not in (VRAM, TT):
            raise ValueError(f"{buffer.declared.name} isn't in vram or tt")
        new = buffer.targets.pop(entry.memory)
        old, before = buffer.spans, buffer.memory
        job = self._emit(course, 0, entry.job, buffer.declared.pages)
        self._fence(job, buffer, KERNEL)
        ghost = None if entry.ghost is None else self._ghost(entry.ghost, buffer, [job])
        self._leave(buffer, ghost, before == TT)
        if ghost is None:
            self.state.move_fence = job
        buffer.spans = new
        self.pass_spans(entry.memory, new, buffer.as_target, buffer.as_live)
        self.relist(buffer, entry.memory)
        is_victim = any(victim.buffer == entry.buffer for victim in course.caught)
        for tell in self.told["emitted"]:
            tell(job)
        if ghost is not None:
            for tell in self.told["ghost_made"]:
                tell(ghost)
        for tell in self.told["moved"]:
            tell(Moved(self.number, buffer.index, before, entry.memory, old, new, job, ghost, is_victim))

    def arm(self, course: Course, entry: Arm) -> None:
        command = course.command()
        assert command is not None
        if command.verb != "submit" or command.engine != entry.engine:
            raise ValueError("the command at work isn't a submit to that engine")
        job = self._emit(course, entry.engine, entry.job, sum(op.packets() for op in command.operations))
        written = {op.buffer for op in command.operations if op.writes}
        for index in command.buffers:
            self._fence(job, self.live(index), WRITE if index in written else READ)
        course.made = True
        for tell in self.told["emitted"]:
            tell(job)

    def packet(self, course: None, entry: Packet) -> None:
        job = self.state.jobs[entry.actor.number, entry.job]
        if job.ran != entry.packet or job.ran >= job.packets:
            raise ValueError(f"packet {job.ran} of {job.packets} would be next")
        job.ran += 1
        if not job.begun:
            job.begun = self.number
            for tell in self.told["begun"]:
                tell(job)

    def done(self, course: None, entry: Done) -> None:
        job = self.state.jobs.pop((entry.actor.number, entry.job))
        if job.ran != job.packets:
            raise ValueError(f"{job.ran} of its {job.packets} packets have run")
        job.done = self.number
        for index in job.buffers:
            self.state.buffers[index].fences.pop(job, None)
        for tell in self.told["done"]:
            tell(job)

    def reap(self, course: None, entry: Reap) -> None:
        ghost = self.state.ghosts.pop(entry.ghost)
        ghost.reaped = self.number
        self.pass_spans("vram", ghost.vram, ghost.holder, None)
        self.pass_spans("tt", ghost.tt, ghost.holder, None)
        for frame in ghost.frames:
            self.pass_one("frames", frame, ghost.holder, None)
        for tell in self.told["ghost_reaped"]:
            tell(ghost)
