"""The crates of a checkout, the kit that proves them, and what earlier runs saw refused."""
import hashlib
import json
import os
import re
import shutil
import sys
import tempfile

from wrong_bodies.source_text import read
from wrong_bodies.verdicts import REFUSALS, Result

PARTS = ("src", "specs", "proofs")


class Repository:
    """The crates of crates.txt, and the kit that proves them."""

    def __init__(self, top):
        self.top, self.uses = top, {}
        for line in read(f"{top}/crates.txt").split("\n"):
            row = re.match(r"(\w+)[^:#]*:([^#]*)", line)
            if row:
                self.uses[row[1]] = row[2].split()
        rt = shutil.which("rt")
        if not rt:
            sys.exit("edits: rt is not on the path")
        self.kit = os.path.dirname(os.path.dirname(os.path.realpath(rt)))

    def folder(self, crate):
        return f"{self.top}/crates/{crate}"

    def below(self, crate):
        """Returns the crates below one, each after those that it stands on."""
        found = []
        for it in self.uses[crate]:
            if it in self.uses:
                found += [one for one in [*self.below(it), it] if one not in found]
        return found

    def rlib(self, crate):
        return f"{self.folder(crate)}/out/rlib/{crate}.rlib"

    def is_stamped(self, crate):
        """Returns whether its library is of `rt lib` or `rt check`, which leave a stamp, and not of `rt ci`."""
        return os.path.exists(f"{os.path.dirname(self.rlib(crate))}/stamp")

    def size(self, crate):
        """Returns how many lines a check of a crate reads: the longest goes first."""
        return sum(read(f"{at}/{it}").count("\n") for at, it in self.files(crate))

    def files(self, crate):
        for part in PARTS:
            for at, folders, names in os.walk(f"{self.folder(crate)}/{part}"):
                folders.sort()
                yield from ((at, it) for it in sorted(names))

    def words(self, crate):
        """Returns the words of a check."""
        words = [f"{self.kit}/bin/rattle", "check", "--crate-name", crate]
        words.append("src/main.rt" if os.path.isfile(f"{self.folder(crate)}/src/main.rt") else "src/lib.rt")
        for it in ["std", *self.uses[crate]]:
            words += ["--extern", f"{it}={self.rlib(it) if it in self.uses else f'{self.kit}/rlibs/{it}.rlib'}"]
        words += ["-L", f"dependency={self.kit}/rlibs"]
        for it in self.below(crate):
            words += ["-L", f"dependency={os.path.dirname(self.rlib(it))}"]
        words += ["--antt-project", f"{self.kit}/rattle/logic/antt-project.json", "--logic-built", f"{self.kit}/logic_built"]
        return [*words, "--jobs", "1"]

    def kit_texts(self):
        """Returns the texts that name the kit."""
        return [read(f"{self.kit}/{it}") for it in ("KIT-ID", "WHAT")]

    def sum(self, crate):
        """Returns a checksum of all that a check of a crate reads, and of the part of this script that judges."""
        sum = hashlib.sha256(repr([judge(), self.kit_texts()]).encode())
        for name in [*self.below(crate), crate]:
            sum.update(repr((name, self.uses[name])).encode())
            for at, it in self.files(name):
                with open(f"{at}/{it}", "rb") as file:
                    sum.update(repr((os.path.relpath(f"{at}/{it}", self.top), file.read())).encode())
        return sum.hexdigest()


class Kept:
    """What earlier runs on this machine saw refused. A failure is never kept."""

    def __init__(self, is_anew):
        self.is_anew = is_anew
        cache = os.environ.get("XDG_CACHE_HOME") or os.path.expanduser("~/.cache")
        self.at = f"{cache}/csa-edits"

    def place(self, sum, body):
        key = hashlib.sha256(repr((sum, sorted(body.lines.items()), body.targets)).encode()).hexdigest()
        return f"{self.at}/{key[:2]}/{key}"

    def mark(self, texts):
        """Returns the file whose presence says that the script with these texts passed its own tests."""
        return f"{self.at}/selftest-{hashlib.sha256(repr(texts).encode()).hexdigest()}"

    def look(self, sum, body):
        try:
            kind, said = json.loads(read(self.place(sum, body)))
        except (OSError, ValueError):
            return None
        return None if self.is_anew or kind not in REFUSALS else Result(body, kind, said)

    def keep(self, sum, result):
        if not result.is_refused():
            return
        place = self.place(sum, result.body)
        try:
            os.makedirs(os.path.dirname(place), exist_ok=True)
            with tempfile.NamedTemporaryFile("w", dir=os.path.dirname(place), delete=False, encoding="utf-8") as it:
                json.dump([result.kind, result.said], it)
            os.replace(it.name, place)
        except OSError:
            # (a full disk, say: it is tried again next time)
            pass


def judge():
    """Returns the text of these modules: what was refused may not be by others."""
    folder = os.path.dirname(os.path.abspath(__file__))
    return [read(f"{folder}/{it}") for it in sorted(os.listdir(folder)) if it.endswith(".py")]
