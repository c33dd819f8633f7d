"""Starts a viewer: `python3 tools/view WORD ARGS..`."""

from __future__ import annotations

import os
import sys

sys.path[0] = os.path.dirname(os.path.dirname(os.path.abspath(__file__)))

from view.command_line import main  # noqa: E402

sys.exit(main(sys.argv[1:]))
