#!/usr/bin/env python3
"""Tests of what the build takes of a kernel, on a source of a few lines. usage: tools/kernel_peer/test_kernels.py"""

from __future__ import annotations

import tempfile
import unittest
from pathlib import Path

from build import make_headers
from kernels import Kernel, kernel_of


def write(path: Path, text: str) -> None:
    path.parent.mkdir(parents=True, exist_ok=True)
    path.write_text(text)


class Kernels(unittest.TestCase):
    def test_a_kernel_is_told_by_its_placements(self) -> None:
        with tempfile.TemporaryDirectory() as name:
            placement = Path(name) / "include/drm/ttm/ttm_placement.h"
            self.assertRaises(SystemExit, kernel_of, Path(name))
            write(placement, "struct ttm_placement { const struct ttm_place *busy_placement; };")
            self.assertEqual(kernel_of(Path(name)).name, "6.1")
            write(placement, "struct ttm_placement { const struct ttm_place *placement; };")
            write(Path(name) / "include/drm/ttm/ttm_bo.h", "")
            self.assertRaises(SystemExit, kernel_of, Path(name))
            write(Path(name) / "include/drm/ttm/ttm_bo.h", "s64 ttm_lru_walk_for_evict(struct ttm_lru_walk *walk);")
            self.assertEqual(kernel_of(Path(name)).name, "6.12")

    def test_headers_are_the_kernels_own_or_empty(self) -> None:
        with tempfile.TemporaryDirectory() as name:
            source, include = Path(name) / "source", Path(name) / "made"
            write(source / "a.c", "#include <linux/list.h>\n# include <linux/slab.h>\n")
            write(source / "include/linux/list.h", "#include <linux/types.h>\n")
            kernel = Kernel("test", ("a.c",), ("include/linux/list.h",), (), (), "")
            make_headers(source, kernel, include)
            self.assertEqual((include / "linux/list.h").read_text(), "#include <linux/types.h>\n")
            self.assertEqual([(include / f"linux/{one}.h").read_text() for one in ("types", "slab")], ["", ""])


if __name__ == "__main__":
    unittest.main()
