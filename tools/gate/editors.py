#!/usr/bin/env python3
"""Makes the files in editors/ for vim and VS Code of the table editors/words.txt, and for bash of tools/launcher/commands.txt, and checks them.
Needs Python alone.

usage: tools/gate/editors.py           whether the files are what the tables make; whether the grammar of VS Code shows the lines of
                                  editors/lines.txt as that file says, and no line of a script in examples/ as wrong; the same of vim, where there is
                                  a vim with syntax files; whether the words are those that scripts are read by
       tools/gate/editors.py --write   writes the files

Each fault is a line; the exit status is 1 if there is one.
"""
import json
import pathlib
import re
import shutil
import subprocess
import sys
import tempfile

TOP = pathlib.Path(__file__).resolve().parent.parent.parent
EDITORS = TOP / "editors"
SCOPES = {"k": "keyword.control.ttm", "n": "constant.numeric.ttm", "b": "variable.other.ttm", "p": "support.type.ttm",
          "h": "constant.other.ttm", "a": "entity.name.function.ttm", "#": "comment.line.number-sign.ttm", "!": "invalid.illegal.ttm"}
GROUPS = {"k": ("ttmKeyword", "Keyword"), "n": ("ttmNumber", "Number"), "b": ("ttmName", "Identifier"), "p": ("ttmPlaces", "Type"),
          "h": ("ttmBytes", "Constant"), "a": ("ttmActor", "Function"), "#": ("ttmComment", "Comment"), "!": ("ttmError", "Error")}
LETTERS = {"NUMBER": "n", "GROUP": "n", "NAME": "b", "PLACES": "p", "BYTES": "h", "BYTE": "h", "ACTOR": "a"}


class Table:
    def __init__(self):
        self.classes, self.lines, self.jobs = {}, [], {}
        for row in (EDITORS / "words.txt").read_text().splitlines():
            kind, _, words = row.partition(" ")
            if kind == "class":
                name, _, pattern = words.partition(" ")
                self.classes[name] = pattern.replace("(", "(?:")
            elif kind == "job":
                first, _, words = words.partition(" ")
                self.jobs.setdefault(first, []).append(words.split(" "))
            elif kind == "line":
                self.lines.append(words.split(" "))

    def parts(self, words):
        """Each word's pattern and letter."""
        return [(self.classes.get(word) or f"(?:{word})", LETTERS.get(word, "k")) for word in words]


def whole_lines(table):
    """Of each line with a fixed number of words the patterns and letters of its words."""
    return [table.parts(words) for words in table.lines]


def jobs_of(table):
    """Of each line with operations its first word, the patterns and letters of their words, and the pattern of one."""
    for first, rows in table.jobs.items():
        jobs = [table.parts(words) for words in rows]
        yield first, jobs, "(?:" + "|".join(" ".join(pattern for pattern, _ in parts) for parts in jobs) + ")"


END = "(?=(?: +#.*)?$)"  # of a line: what is left of it is a comment, or nothing


def vscode(table):
    def rule(parts, start, end):
        scopes = {str(i + 1): {"name": SCOPES[letter]} for i, (_, letter) in enumerate(parts)}
        return {"match": start + " ".join(f"({pattern})" for pattern, _ in parts) + end, "captures": scopes}

    number, actor = table.classes["NUMBER"], table.classes["ACTOR"]
    return {
        "$schema": "https://raw.githubusercontent.com/martinring/tmlanguage/master/tmlanguage.json",
        "name": "TTM script",
        "scopeName": "source.ttm",
        "patterns": [{"match": "(?:^ *| +)(#.*)$", "captures": {"1": {"name": SCOPES["#"]}}}] + [
            rule(parts, "^", END) for parts in whole_lines(table)] + [
            {"match": f"^({first}) ({number}) ({one}(?: ; {one})*)" + END,
             "captures": {"1": {"name": SCOPES["k"]}, "2": {"name": SCOPES["n"]}, "3": {"patterns": [
                 *[rule(parts, "(?:^|(?<= ))", "(?= ;|$)") for parts in jobs], {"match": ";", "name": SCOPES["k"]}]}}}
            for first, jobs, one in jobs_of(table)] + [
            {"match": f"^(schedule)((?: {actor})+)" + END,
             "captures": {"1": {"name": SCOPES["k"]}, "2": {"patterns": [{"match": actor, "name": SCOPES["a"]}]}}},
            {"match": "^.+?(?= +#|$)", "name": SCOPES["!"]},
        ],
    }


def vim(table):
    def vim_of(pattern):
        return pattern.replace("(?:", "%(").replace("@", "\\@")

    text = ["\" Vim syntax file for scripts of ttm. Made by tools/gate/editors.py of editors/words.txt.",
            "if exists(\"b:current_syntax\")", "  finish", "endif", "",
            "syntax match ttmError /\\v^%( *#)@!.{-1,}\\ze%( +#.*)?$/",
            "syntax match ttmComment /\\v%(^| )@1<=#.*$/"]
    end = "%( +#.*)?$"
    number, actor = table.classes["NUMBER"], table.classes["ACTOR"]
    for i, parts in enumerate(whole_lines(table)):
        pattern = " ".join(vim_of(word) for word, _ in parts)
        text.append(f"syntax match ttmLine{i} /\\v^{pattern}{end}/ contains=ttmComment,ttmWord{i}_0")
        for j, (word, letter) in enumerate(parts):
            then = f" nextgroup=ttmWord{i}_{j + 1} skipwhite" if j + 1 < len(parts) else ""
            text.append(f"syntax match ttmWord{i}_{j} /\\v{vim_of(word)}/ contained{then}")
            text.append(f"highlight default link ttmWord{i}_{j} {GROUPS[letter][0]}")
    for first, jobs, one in jobs_of(table):
        own = f"ttm{first.capitalize()}"
        firsts = ",".join(f"{own}Job{i}_0" for i in range(len(jobs)))
        text.append(f"syntax match {own} /\\v^{first} {number} {vim_of(one)}%( ; {vim_of(one)})*{end}/ contains=ttmComment,{own}Word,{own}End")
        text.append(f"syntax match {own}Word /\\v^{first}/ contained nextgroup={own}Engine skipwhite")
        text.append(f"syntax match {own}Engine /\\v{number}/ contained nextgroup={firsts} skipwhite")
        text.append(f"syntax match {own}End /;/ contained nextgroup={firsts} skipwhite")
        text += [f"highlight default link {own}Word ttmKeyword", f"highlight default link {own}Engine ttmNumber", f"highlight default link {own}End ttmKeyword"]
        for i, parts in enumerate(jobs):
            for j, (word, letter) in enumerate(parts):
                then = f"{own}Job{i}_{j + 1}" if j + 1 < len(parts) else f"{own}End"
                text.append(f"syntax match {own}Job{i}_{j} /\\v{vim_of(word)}/ contained nextgroup={then} skipwhite")
                text.append(f"highlight default link {own}Job{i}_{j} {GROUPS[letter][0]}")
    text.append(f"syntax match ttmSchedule /\\v^schedule%( {vim_of(actor)})+{end}/ contains=ttmComment,ttmScheduleWord,ttmActor")
    text.append("syntax match ttmScheduleWord /\\v^schedule/ contained")
    text.append(f"syntax match ttmActor /\\v {vim_of(actor)}/hs=s+1 contained")
    text.append("highlight default link ttmScheduleWord ttmKeyword")
    text += [f"highlight default link {name} {link}" for name, link in GROUPS.values()]
    text += ["", "let b:current_syntax = \"ttm\""]
    return "\n".join(text) + "\n"


def calls():
    """Returns each word of ./ttm with the words that may follow it, in the order of the table."""
    found = {}
    for row in (TOP / "tools" / "launcher" / "commands.txt").read_text().splitlines():
        kind, bar, rest = row.partition(" | ")
        if bar and kind.rstrip("+") in ("program", "viewer", "launcher"):
            first, *others = re.findall(r"[A-Za-z-]+", rest.partition(" | ")[0])
            found[first] = [word for word in others if not word.isupper()]
    return found


def bash():
    words = calls()
    text = ["# Completion of ./ttm for bash: source this file. Made by tools/gate/editors.py of tools/launcher/commands.txt.", "_ttm() {",
            "  local word=${COMP_WORDS[COMP_CWORD]}", "  local words=", "  case $COMP_CWORD in", f"    1) words='{' '.join(words)}' ;;",
            "    2)", "      case ${COMP_WORDS[1]} in"]
    text += [f"        {first}) words='{' '.join(others)}' ;;" for first, others in words.items() if others]
    text += ["      esac", "      ;;", "  esac", "  COMPREPLY=($(compgen -W \"$words\" -- \"$word\"))", "}",
             "complete -o default -F _ttm ttm ./ttm"]
    return "\n".join(text) + "\n"


def package():
    return {"name": "ttm-scripts", "displayName": "TTM scripts", "version": "1.0.0", "engines": {"vscode": "^1.0.0"}, "contributes": {
        "languages": [{"id": "ttm", "extensions": [".ttm"], "configuration": "./language-configuration.json"}],
        "grammars": [{"language": "ttm", "scopeName": "source.ttm", "path": "./ttm.tmLanguage.json"}]}}


def files(table):
    as_json = lambda value: json.dumps(value, indent=1) + "\n"
    return {"vscode/ttm.tmLanguage.json": as_json(vscode(table)), "vscode/package.json": as_json(package()),
            "vscode/language-configuration.json": as_json({"comments": {"lineComment": "#"}}), "vim/syntax/ttm.vim": vim(table),
            "vim/ftdetect/ttm.vim": "autocmd BufRead,BufNewFile *.ttm setfiletype ttm\n",
            "vim/ftplugin/ttm.vim": "setlocal comments=:# commentstring=#\\ %s\n", "ttm.bash": bash()}


def shown(rules, line):
    """What the grammar's rules show of a line, as VS Code goes on: at each place the first rule that matches there, and else the next byte."""
    letters, at = [" "] * len(line), 0
    names = {scope: letter for letter, scope in SCOPES.items()}
    while at < len(line):
        found = None
        for rule in rules:
            match = re.compile(rule["match"]).search(line, at)
            if match and (found is None or match.start() < found[0].start()):
                found = match, rule
        if not found:
            break
        match, rule = found
        if "name" in rule:
            letters[match.start():match.end()] = names[rule["name"]] * (match.end() - match.start())
        for number, capture in rule.get("captures", {}).items():
            start, end = match.span(int(number))
            if "name" in capture:
                letters[start:end] = names[capture["name"]] * (end - start)
            else:
                letters[start:end] = shown(capture["patterns"], line[start:end])
        at = max(match.end(), at + 1)
    return "".join(letters)


def shown_by_vim(lines):
    """What vim shows of each line, or None where there is no vim with syntax files."""
    version = shutil.which("vim") and subprocess.run(["vim", "--version"], capture_output=True, text=True).stdout
    if not version or "+syntax" not in version or "+eval" not in version:
        return None
    names = {name: letter for letter, (name, _) in GROUPS.items()}
    with tempfile.TemporaryDirectory() as room:
        script, said = pathlib.Path(room, "all.ttm"), pathlib.Path(room, "said")
        script.write_text("".join(line + "\n" for line in lines))
        unlink = "\n".join(f"highlight! link {name} NONE" for name in names)
        walk = f"""
{unlink}
let rows = []
for at in range(1, line('$'))
  let row = ''
  for place in range(1, len(getline(at)))
    let row .= synIDattr(synIDtrans(synID(at, place, 1)), 'name') . ' '
  endfor
  call add(rows, row)
endfor
call writefile(rows, '{said}')
quit!
"""
        pathlib.Path(room, "walk.vim").write_text(walk)
        words = ["vim", "-N", "-u", "NONE", "-i", "NONE", "-n", "-e", "-s", "-c", "syntax on", "-c", f"source {EDITORS}/vim/syntax/ttm.vim", "-c", f"source {room}/walk.vim", script]
        subprocess.run(words, stdin=subprocess.DEVNULL, capture_output=True, timeout=60)
        rows = said.read_text().split("\n")
    letters = ["".join(names.get(name, " ") for name in row.split(" ")[:-1]) for row in rows]
    return ["".join(letter if byte != " " or letter in "!#" else " " for byte, letter in zip(line, row)) for line, row in zip(lines, letters)]


def faults():
    table = Table()
    for name, text in files(table).items():
        path = EDITORS / name
        if not path.is_file() or path.read_text() != text:
            yield f"editors/{name} isn't what its table makes: tools/gate/editors.py --write"
    rows = [row for row in (EDITORS / "lines.txt").read_text().split("\n") if row and not row.startswith("#")]
    lines, wanted = rows[::2], [row.ljust(len(line)) for line, row in zip(rows[::2], rows[1::2])]
    rules = vscode(table)["patterns"]
    examples = [(path, line) for path in sorted((TOP / "examples").rglob("*.ttm")) for line in path.read_text().splitlines()]
    for line, want in zip(lines, wanted):
        if shown(rules, line) != want:
            yield f"VS Code shows '{line}' as '{shown(rules, line)}', and not '{want}'"
    for path, line in examples:
        if "!" in shown(rules, line):
            yield f"VS Code shows a line of {path.name} as wrong: {line}"
    by_vim = shown_by_vim(lines + [line for _, line in examples])
    for line, want, seen in zip(lines, wanted, by_vim or []):
        if seen != want:
            yield f"vim shows '{line}' as '{seen}', and not '{want}'"
    for (path, line), seen in zip(examples, (by_vim or [])[len(lines):]):
        if "!" in seen:
            yield f"vim shows a line of {path.name} as wrong: {line}"
    print("editors: the files are what the tables make" + ("" if by_vim else "; there is no vim that could be asked"))
    sources = "".join(path.read_text() for path in (TOP / "crates").glob("script_*/src/*.rt"))
    firsts = [words[0] for words in [*table.lines, *(words for rows in table.jobs.values() for words in rows)]]
    for first in [*firsts, *table.jobs, "schedule"]:
        if f'"{first}"' not in sources:
            yield f"the word {first} isn't one that scripts are read by"


def main(words):
    if words == ["--write"]:
        for name, text in files(Table()).items():
            path = EDITORS / name
            path.parent.mkdir(parents=True, exist_ok=True)
            path.write_text(text)
        return 0
    if words:
        print(__doc__)
        return 2
    found = list(faults())
    for fault in found:
        print(f"editors: {fault}")
    return 1 if found else 0


if __name__ == "__main__":
    sys.exit(main(sys.argv[1:]))
