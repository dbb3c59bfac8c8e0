#!/usr/bin/env python3
"""Writes the manual pages and completions of csa into a folder, from the program's own --help.

    release/help_pages.py PROGRAM VERSION FOLDER
"""

from __future__ import annotations

import re
import subprocess
import sys
from collections.abc import Iterator
from pathlib import Path
from typing import NamedTuple

# what an option's value may begin with, where --help has no list; and the names of values that are files
BEGINNINGS = {"--first": ["today", "today-1"], "--zone": ["file:/usr/share/zoneinfo/", "fixed:0", "posix:"]}
FILES = ("FILE", "IMAGE", "FOLDER", "OUT")


class Option(NamedTuple):
    word: str
    # the name of its value, or "" if it takes none
    value: str
    # the possible values, or beginnings of some
    values: list[str]
    says: str


class Help:
    """One --help text: its summary, its sections of items, and the lines after them, where an empty line separates paragraphs."""

    def __init__(self, text: str) -> None:
        self.summary = text.splitlines()[0]
        usage = re.search(r"^Usage: (.*)$", text, re.M)
        assert usage is not None, text
        self.usage = usage[1]
        self.sections: dict[str, list[tuple[str, str]]] = {}
        self.notes: list[str] = []
        section = None
        for line in text.splitlines()[1:]:
            if line in ("Commands:", "Arguments:", "Options:"):
                section = self.sections.setdefault(line[:-1], [])
            elif line.startswith("  ") and section is not None:
                head, _, says = re.sub(r" {2,}", "\n", line.strip(), count=1).partition("\n")
                section.append((head, says))
            elif not line:
                section = None
                if self.notes:
                    self.notes.append("")
            elif not line.startswith("Usage: "):
                self.notes.append(line)

    def options(self) -> Iterator[Option]:
        """Each long option."""
        for head, says in self.sections.get("Options", []):
            word, value = re.search(r"--[a-z-]+", head), re.search(r"<([A-Z_]+)>", head)
            possible = re.search(r"\[possible values: (.*?)\]", says)
            assert word is not None, head
            values = possible[1].split(", ") if possible else BEGINNINGS.get(word[0], [])
            yield Option(word[0], value[1] if value else "", values, says)


def read(program: str, *words: str) -> Help:
    run = subprocess.run([program, *words, "--help"], check=True, capture_output=True, text=True)
    return Help(run.stdout)


def roff(text: str) -> str:
    text = text.replace("\\", "\\e").replace("-", "\\-").replace("'", "\\(aq")
    return "\\&" + text if text.startswith(".") else text


def is_shown(line: str) -> bool:
    """Whether a line is shown unchanged, as lists, examples and JSON are, which must not be broken or hyphenated."""
    return line.startswith((" ", "Example:")) or '{"' in line


def notes(lines: list[str]) -> Iterator[str]:
    """The lines after the sections. Lines that are shown unchanged stay; of the others, those that end a sentence do, and the rest are filled."""
    was_shown, before = False, ""
    for line in lines:
        shown = is_shown(line)
        if not line:
            yield from ([".fi"] if was_shown else []) + [".PP"]
            was_shown, before = False, ""
            continue
        if shown != was_shown:
            yield ".nf" if shown else ".fi"
        elif before.endswith((".", ":", ")")) and not shown:
            yield ".br"
        yield roff(line)
        was_shown, before = shown, line
    if was_shown:
        yield ".fi"


def page(name: str, version: str, help_: Help, others: dict[str, Help]) -> str:
    lines = [f'.TH "{name.upper()}" 1 "" "csa {version}" "User Commands"', ".SH NAME",
             f"{roff(name)} \\- {roff(help_.summary)}", ".SH SYNOPSIS", roff(help_.usage)]
    for title, items in help_.sections.items():
        lines.append(f".SH {title.upper()}")
        for head, says in items:
            lines += [".TP", f"\\fB{roff(head)}\\fR", roff(says)]
    if help_.notes:
        lines += [".SH NOTES", *notes(help_.notes)]
    lines += [".SH SEE ALSO", ", ".join(f"{roff(other)}(1)" for other in others if other != name)]
    return "\n".join(lines) + "\n"


def bash(commands: dict[str, Help]) -> str:
    """Completions for bash, which takes `=` and `:` for words of their own."""
    names = " ".join(commands)
    lines = ["_csa() {", "    local word=${COMP_WORDS[COMP_CWORD]} before=${COMP_WORDS[COMP_CWORD-1]} words=",
             "    if [ \"$word\" = = ]; then word=; elif [ \"$before\" = = ]; then before=${COMP_WORDS[COMP_CWORD-2]}; fi",
             "    if [ \"$COMP_CWORD\" = 1 ]; then",
             f"        COMPREPLY=($(compgen -W '{names} help --help --version' -- \"$word\")); return", "    fi",
             "    if [ \"${COMP_WORDS[1]}\" = help ]; then", f"        COMPREPLY=($(compgen -W '{names}' -- \"$word\")); return", "    fi",
             "    case ${COMP_WORDS[1]},$before in"]
    for name, help_ in commands.items():
        for option in help_.options():
            # the program says itself what other values, such as clocks and stop_ids, look like
            if option.values or option.value and option.value not in FILES:
                lines.append(f"        {name},{option.word}) COMPREPLY=($(compgen -W '{' '.join(option.values)}' -- \"$word\")); return ;;")
    lines += ["    esac", "    case ${COMP_WORDS[1]} in"]
    for name, help_ in commands.items():
        lines.append(f"        {name}) words='{' '.join(option.word for option in help_.options())}' ;;")
    lines += ["    esac", "    case $word in", "        -*) COMPREPLY=($(compgen -W \"$words\" -- \"$word\")) ;;",
              "        *) COMPREPLY=($(compgen -f -- \"$word\")) ;;", "    esac", "}", "complete -o filenames -F _csa csa"]
    return "\n".join(lines) + "\n"


def zsh_text(text: str) -> str:
    return text.replace("'", "'\\''").replace("[", "\\[").replace("]", "\\]").replace(":", "\\:")


def zsh_action(option: Option) -> str:
    """What zsh offers as the value of an option."""
    if option.values:
        return f":value:({' '.join(map(zsh_text, option.values))})"
    return ":value:_files" if option.value in FILES else ":value:" if option.value else ""


def zsh(commands: dict[str, Help]) -> str:
    lines = ["#compdef csa", "local -a commands", "commands=("]
    lines += [f"    '{name}:{zsh_text(help_.summary)}'" for name, help_ in commands.items()]
    lines += [")", "if (( CURRENT == 2 )); then", "    _describe command commands", "    compadd -- help --help --version", "    return", "fi",
              "local command=$words[2]", "if [[ $command == help ]]; then", "    _describe command commands", "    return", "fi",
              "shift words", "(( CURRENT-- ))", "case $command in"]
    for name, help_ in commands.items():
        lines.append(f"    {name}) _arguments \\")
        for option in help_.options():
            lines.append(f"        '{option.word}{'=' if option.value else ''}[{zsh_text(option.says)}]{zsh_action(option)}' \\")
        lines.append("        '*:file:_files' ;;")
    return "\n".join([*lines, "esac"]) + "\n"


def main() -> None:
    program, version, folder = sys.argv[1], sys.argv[2], Path(sys.argv[3])
    top = read(program)
    commands = {name: read(program, name) for name, _ in top.sections["Commands"] if name != "help"}
    pages = {"csa": top, **{f"csa-{name}": help_ for name, help_ in commands.items()}}
    folder.mkdir(parents=True, exist_ok=True)
    for name, help_ in pages.items():
        (folder / f"{name}.1").write_text(page(name, version, help_, pages))
    (folder / "csa.bash").write_text(bash(commands))
    (folder / "_csa").write_text(zsh(commands))


if __name__ == "__main__":
    main()
