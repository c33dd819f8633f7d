#!/usr/bin/env python3
"""Compiles crates/mm_c without proving it, to the object of a C library (tools/build/build_c_library.sh).

usage: unproved_object.py OBJECT.o

A library isn't built without its proof, a program is, for a try. So a copy of mm_c becomes a program whose `main` reaches each call of C
(reach.rt.in). The LLVM module that `rt try` makes of it is caught, the calls get their C names, the checks of a run that isn't proved are
left out, as a proof does, the sources' hints on inlining, which a try leaves out, are put back, and it is compiled with the flags of `rt run`.
It takes a minute or two of processor time.
"""

import os
import re
import shutil
import subprocess
import sys
import tempfile
import time
from pathlib import Path

HERE = Path(__file__).resolve().parent
TOP = HERE.parent.parent.parent
LLVM_FLAGS = """-no-trap-after-noreturn -trap-unreachable -no-x86-call-frame-opt -disable-machine-licm -disable-postra-machine-licm
    -sink-common-insts=false""".split()
HINT_WORDS = {"inline(always)": "alwaysinline", "inline(never)": "noinline", "inline": "inlinehint", "cold": "cold"}
HINT = re.compile(r"\s*#\[(%s)\]$" % "|".join(re.escape(hint) for hint in HINT_WORDS))
FUNCTION = re.compile(r"(\s*)(?:pub(?:\(\w+\))? )?fn (\w+)")
IMPL = re.compile(r"impl(?:<[^>]*>)? (?:\w+(?:<[^>]*>)? for )?(\w+)")
DEFINED = re.compile(r'define internal .*?@"([^"]*?)(?:::<[^"]*)?"\(.*\)(?= #\d+ \{$)')
CALL = re.compile(r'@"mm_c::\w+::(pearoar_\w+)"')


def needs():
    """The libraries that each crate names in crates.txt."""
    lines = (line.split("#")[0].partition(":") for line in (TOP / "crates.txt").read_text().splitlines())
    return {head.split()[0]: tail.split() for head, colon, tail in lines if colon}


def copy_crates(room):
    """A repository of mm_c, as a program, and of what is below it."""
    named, wanted, todo = needs(), [], ["mm_c"]
    while todo:
        crate = todo.pop()
        if crate in named and crate not in wanted:
            wanted.append(crate)
            todo += named[crate]
    (room / "crates.txt").write_text("".join(f"{crate}: {' '.join(named[crate])}\n" for crate in named if crate in wanted))
    for crate in wanted:
        shutil.copytree(TOP / "crates" / crate, room / "crates" / crate, ignore=shutil.ignore_patterns("out"))
    source = room / "crates/mm_c/src"
    (source / "main.rt").write_text((source / "lib.rt").read_text() + (HERE / "reach.rt.in").read_text())
    (source / "lib.rt").unlink()
    for kind in ("Range", "Block"):
        text = (HERE / "handle.rt.in").read_text().replace("HANDLE", f"{kind}Handle").replace("MANAGER", f"{kind}s")
        with (source / f"{kind.lower()}_handle.rt").open("a") as file:
            file.write(text)


def modules_in(folder):
    """The modules of tries that are there; none where one goes while it is looked for."""
    try:
        return list(folder.glob("*/*/module.bc"))
    except FileNotFoundError:
        return []


def catch_module(room):
    """The module of a try: a file that is there for a moment, and is kept by a link of ours. Of several the largest is the program's."""
    temporary, links = room / "tmp", []
    temporary.mkdir()
    log = (room / "log").open("w")
    environment = {**os.environ, "TMPDIR": str(temporary)}
    files = {"stdin": subprocess.DEVNULL, "stdout": log, "stderr": log}
    tried = subprocess.Popen(["rt", "try"], cwd=room / "crates/mm_c", env=environment, **files)
    seen = set()
    while tried.poll() is None:
        for module in modules_in(temporary):
            if module not in seen:
                seen.add(module)
                link = room / f"module{len(seen)}.bc"
                try:
                    os.link(module, link)
                except FileNotFoundError:
                    continue
                links.append(link)
        time.sleep(0.002)
    if not links or tried.returncode != 0:
        sys.exit((room / "log").read_text() + "unproved_object.py: no module was made")
    return max(links, key=lambda link: link.stat().st_size)


def hints_in(crates):
    """LLVM's words for the hints on inlining that stand in these crates' sources, by the names of the functions."""
    hints = {}
    for file in crates.glob("*/src/**/*.rt"):
        crate, _, *folders = file.relative_to(crates).parts[:-1]
        module = [crate, *folders, *([file.stem] if file.stem not in ("lib", "main") else [])]
        owner, words = [], []
        for line in file.read_text().splitlines():
            if hint := HINT.match(line):
                words.append(HINT_WORDS[hint[1]])
            elif impl := IMPL.match(line):
                owner = [impl[1]]
            elif function := FUNCTION.match(line):
                if words:
                    hints["::".join([*module, *(owner if function[1] else []), function[2]])] = " ".join(words)
                words = []
    return hints


def as_library(text, hints):
    """The module with C's names and with hints on inlining, without `main` and without checks."""
    lines = []
    for line in text.splitlines():
        if "call void @llvm.trap()" in line:
            continue
        if (defined := DEFINED.match(line)) and defined[1] in hints:
            line = f"{defined[0]} {hints[defined[1]]}{line[defined.end() :]}"
        if line.startswith("define internal ") and CALL.search(line.split("(")[0]):
            line = line.replace("define internal ", "define ", 1)
        if line.startswith("define i32 @main("):
            line = line.replace("define ", "define internal ", 1)
        lines.append(CALL.sub(r"@\1", line))
    return "\n".join(lines) + "\n"


def main():
    if len(sys.argv) != 2 or sys.argv[1].startswith("-"):
        sys.exit(__doc__)
    kit = Path(subprocess.run(["rt", "doc"], check=True, capture_output=True, text=True).stdout.strip()).parent
    clang = [kit / "toolchain/bin/clang", "--target=x86_64-unknown-linux-gnu"]
    with tempfile.TemporaryDirectory() as folder:
        room = Path(folder)
        copy_crates(room)
        module = catch_module(room)
        made = room / "module.ll"
        subprocess.run([*clang, "-S", "-emit-llvm", "-O0", "-Xclang", "-disable-llvm-passes", "-x", "ir", module, "-o", made], check=True)
        made.write_text(as_library(made.read_text(), hints_in(room / "crates")))
        flags = [f"--sysroot={kit / 'toolchain'}", "-march=x86-64", "-O3", "-fPIE", "-ffunction-sections", "-fdata-sections"]
        flags += [word for flag in LLVM_FLAGS for word in ("-mllvm", flag)]
        subprocess.run([*clang, *flags, "-c", "-x", "ir", made, "-o", sys.argv[1]], check=True)


if __name__ == "__main__":
    main()
