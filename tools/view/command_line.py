"""Runs the viewer that the first word names, and ends as its status says."""

from __future__ import annotations

import gc
import os
import sys
from importlib import import_module
from typing import List

from .errors import ViewError
from .words import WORDS

USAGE, NO_VIEW, INTERRUPTED, BROKEN_PIPE = 2, 1, 130, 141


def main(args: List[str]) -> int:
    """Returns the status: the viewer's own, 1 where the input can't be shown, 2 where there is no such word."""
    words = {word.name: word for word in WORDS}
    if not args or args[0] not in words:
        print(usage(), file=sys.stdout if args[:1] == ["--help"] else sys.stderr)
        return 0 if args[:1] == ["--help"] else USAGE
    gc.disable()  # A viewer keeps what it reads until it ends, and looking for garbage among millions of entries takes half of its time.
    module = import_module(f".{words[args[0]].module}", __package__)
    try:
        status = int(module.main(args[1:]))
        sys.stdout.flush()
        return status
    except ViewError as error:
        print(error.shown(args[0]), file=sys.stderr)
        return NO_VIEW
    except KeyboardInterrupt:
        return INTERRUPTED
    except BrokenPipeError:
        os.dup2(os.open(os.devnull, os.O_WRONLY), 1)
        return BROKEN_PIPE


def usage() -> str:
    """Returns one line for each word."""
    lines = [f"  {word.name:<10} {word.reads:<24} {word.help}" for word in WORDS]
    return "\n".join(["usage: python3 tools/view WORD ARGS..", *lines])
