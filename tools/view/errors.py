"""The one kind of error that a viewer shows: a text, and the line that it is about."""

from __future__ import annotations


class ViewError(Exception):
    """Says why an input can't be shown; `line` counts from 1 in the file, and 0 is the whole input."""

    def __init__(self, text: str, line: int = 0) -> None:
        super().__init__(text)
        self.text = text
        self.line = line

    def shown(self, source: str) -> str:
        """Returns the error as one line, for an input of the name `source`."""
        place = f"{source}:{self.line}" if self.line else source
        return f"{place}: {self.text}"
