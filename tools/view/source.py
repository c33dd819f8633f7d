"""Reads inputs: files, and standard input under the name `-`."""

from __future__ import annotations

import sys

from .errors import ViewError
from .limits import REPORT_BYTES

MOST_BYTES = 2 * REPORT_BYTES


def read_bytes(path: str) -> bytes:
    """Returns the bytes of a file, or of standard input for `-`; raises ViewError where there are too many, or none can be read."""
    try:
        if path == "-":
            data = sys.stdin.buffer.read(MOST_BYTES + 1)
        else:
            with open(path, "rb") as file:
                data = file.read(MOST_BYTES + 1)
    except OSError as error:
        raise ViewError(f"{path}: {error.strerror}") from None
    if len(data) > MOST_BYTES:
        raise ViewError(f"there are more than {MOST_BYTES} bytes")
    return data


def name_of(path: str) -> str:
    """Returns the name under which an input is spoken of."""
    return "standard input" if path == "-" else path
