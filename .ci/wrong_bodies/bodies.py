"""The wrong bodies of a crate: their files, and what they change."""
import os
import re
from dataclasses import dataclass, field

from wrong_bodies.source_text import HEAD, Function, functions_of, parts_of, read, sources


class Fault(Exception):
    """Why a wrong body counts for nothing."""


@dataclass
class Body:
    crate: str
    name: str
    words: list[str] = field(default_factory=list)
    # (file, old, new)
    pairs: list[tuple[str, str, str]] = field(default_factory=list)
    at: list[str] = field(default_factory=list)
    # What applying it gives: lines by file and number, and the functions that must refuse it.
    lines: dict[tuple[str, int], str] = field(default_factory=dict)
    targets: list[Function] = field(default_factory=list)

    def label(self):
        return f"{self.crate}/{self.name}"

    def is_alone(self):
        """Returns whether it is tried alone, since it changes more than functions: others in its wave would see the change, too."""
        return any(not any(of.file == file and of.first <= line <= of.last for of in self.targets) for file, line in self.lines)

    def is_copied(self):
        """Returns whether it is tried in a copy of its function."""
        of = self.targets[0]
        return len(self.targets) == 1 and not of.is_of_trait and not of.is_recursive and not self.is_alone()

    def copy_path(self):
        """Returns the path of the copy in which it is tried."""
        return f"{self.targets[0].path}_as_{self.name}"

    def copy(self, lines):
        """Returns the copy of its function in which it is tried, from the lines of the file."""
        of = self.targets[0]
        copied = [self.lines.get((of.file, at), lines[at]) for at in range(of.first, of.last + 1)]
        head = next(at for at, it in enumerate(copied) if HEAD.match(it))
        copied[head] = re.sub(rf"\bfn {of.name()}\b", f"fn {of.name()}_as_{self.name}", copied[head])
        return copied


def bodies_of(crate, folder, part):
    """Returns the wrong bodies in a folder of a crate: `wrong`, or `must-fail` for those that `rt ci` tries."""
    names = sorted(os.listdir(f"{folder}/{part}")) if os.path.isdir(f"{folder}/{part}") else []
    return [parse(crate, name.removesuffix(".edit"), read(f"{folder}/{part}/{name}")) for name in names]


def parse(crate, name, text):
    """Returns the wrong body of a file."""
    body, file, old = Body(crate, name), None, None
    for line in filter(str.strip, text.split("\n")):
        word, _, rest = line.removeprefix("# ").partition(":")
        rest = rest.removeprefix(" ")
        if word == "file":
            file = rest.strip()
        elif word == "at":
            body.at.append(rest.strip())
        elif word == "old":
            old = rest
        elif word == "new":
            body.pairs.append((file, old, rest))
            old = None
        else:
            body.words.append(line)
    return body


def apply(body, folder):
    """Finds the lines that a body changes, and the functions that these stand in."""
    texts, functions = {}, {}
    if not body.words:
        raise Fault("no sentence says what is wrong with it")
    if not body.pairs:
        raise Fault("it has no `old:` and `new:`")
    for file, old, new in body.pairs:
        if not file or not old:
            raise Fault("a `new:` stands before any `file:` or `old:`")
        # (a proof file changes only where it names what the body calls)
        if not re.fullmatch(r"src/[\w/]+\.rt|proofs/[\w/]+\.antt", file) or not os.path.isfile(f"{folder}/{file}"):
            raise Fault(f"there is no file {file}")
        if file not in texts:
            texts[file] = read(f"{folder}/{file}")
            functions[file] = functions_of(file, texts[file])
        found = texts[file].count(old)
        if found != 1:
            raise Fault(f"an `old:` text stands {found} times in {file}, and not once: {old.strip()}")
        line = texts[file][: texts[file].index(old)].count("\n")
        texts[file] = texts[file].replace(old, new)
        body.lines[file, line] = texts[file].split("\n")[line]
        around = [it for it in functions[file] if it.first <= line <= it.last]
        if around and around[-1] not in body.targets:
            body.targets.append(around[-1])
        if around and not body.at and line < around[-1].last + 1 - len(parts_of(around[-1], texts[file].split("\n"))[2]):
            raise Fault(f"it changes the contract of {around[-1].path}, or its parameters")
    if all(read(f"{folder}/{file}") == text for file, text in texts.items()):
        raise Fault("it changes nothing")
    if body.at:
        every = [it for file in sources(folder) for it in functions_of(file, read(f"{folder}/{file}"))]
        body.targets = [it for it in every if it.path in body.at]
    if any(it.first and re.match(r"\s*\)*\]$", read(f"{folder}/{it.file}").split("\n")[it.first - 1]) for it in body.targets):
        raise Fault("its function has an attribute of several lines, which wouldn't be copied")
    if not body.targets:
        raise Fault("it changes no function: name by a line `at:` the one that must refuse it")


def citations(crate, folder):
    """Returns which proof files cite the goals of a function from outside the function's own folder: such a proof doesn't fit a copy of the function."""
    for at, _, names in sorted(os.walk(f"{folder}/proofs")):
        own = os.path.relpath(at, f"{folder}/proofs").replace("/", ".")
        for name in sorted(names):
            cited = re.findall(rf"Rattle\.{crate}\.proofs\.(\S+)\.(?:Goals|Given)\b", read(f"{at}/{name}"))
            yield from (f"{os.path.relpath(at, folder)}/{name} cites the goals of {it}" for it in sorted({*cited} - {own}))
