"""Runs a page in headless Chromium, for tests: what the page puts into an element comes back as JSON."""

from __future__ import annotations

import html
import json
import os
import re
import shutil
import subprocess
import tempfile
from pathlib import Path
from typing import Any, Optional

NAMES = ("chromium", "chromium-browser", "google-chrome", "chrome")
SECONDS = 300  # much more than a quiet machine takes
WORDS = ("--headless", "--no-sandbox", "--disable-gpu", "--disable-dev-shm-usage", "--window-size=1440,1000", "--virtual-time-budget=2000", "--dump-dom")
FOUND = re.compile(r'<pre id="found">(.*?)</pre>', re.DOTALL)


def browser() -> Optional[str]:
    """Returns the path of a browser, or None where there is none."""
    return os.environ.get("CHROMIUM") or next(filter(None, map(shutil.which, NAMES)), None)


def with_check(page: str, code: str, data: Any) -> str:
    """Returns a page with a script at its end, whose function `check` gets `data`, and what it returns is put into the page."""
    text = json.dumps(data).replace("<", "\\u003c")
    run = f'const found = document.createElement("pre"); found.id = "found"; found.textContent = JSON.stringify(check({text})); document.body.append(found);'
    return page.replace("</body>", f"<script>\n{code}\n{run}\n</script>\n</body>")


def found_in(path: str, page: str) -> Any:
    """Runs a page with a check in the browser `path`, and returns what the check returned."""
    with tempfile.TemporaryDirectory() as folder:
        file = Path(folder) / "page.html"
        file.write_text(page, encoding="utf-8")
        words = [path, *WORDS, f"--user-data-dir={folder}/profile", file.as_uri()]
        done = subprocess.run(words, stdout=subprocess.PIPE, stderr=subprocess.DEVNULL, timeout=SECONDS, check=False)
    found = FOUND.search(done.stdout.decode("utf-8"))
    if found is None:
        raise AssertionError("the page didn't come to its end")
    return json.loads(html.unescape(found.group(1)))
