"""What the prover printed of a check, and which bodies it refuses by that."""
import re
from dataclasses import dataclass

from wrong_bodies.bodies import Body
from wrong_bodies.rooms import ways_to

# What each kind of refusal is called, the one that says most first.
FALSE, WRITTEN, SEARCH = "false", "written", "search"
REFUSALS = {
    FALSE: "its goal is false",
    WRITTEN: "its written proof no longer fits",
    SEARCH: "a search found no proof",
}
# What is no refusal: it is proved, or it wasn't tried, whatever else is in the wave, or perhaps only beside the rest of it.
PROVED, FAILED, OPEN = "proved", "failed", "open"


LOCATED = re.compile(r"(?:note: )?(?:\./)?((?:src|specs|proofs)/[^\s:]+):(\d+):\d+: (.*)")
ARROW = re.compile(r"\s*--> (?:\./)?(src/[^\s:]+):(\d+)")
VERDICT = re.compile(r"(?:fn|impl|trait|struct|enum) (\S+): (.*)")
NOT_PROVED = re.compile(r"^error|it is not proved|found no proof")
# What an error says of a name that a proof file cites and the edit took away.
GONE = re.compile(r"has no field|is not in scope|has no `|was not admitted|is no name|names? no ")


@dataclass
class Result:
    body: Body
    kind: str
    said: str

    def is_refused(self):
        return self.kind in REFUSALS


class Verdict:
    """What the prover printed for a wave."""

    def __init__(self, crate, text, status, tried, stubs):
        # (`tried` has the functions that must refuse a body, by the body's `id`, and `stubs` the paths of those that are replaced)
        self.text, self.status, self.tried, self.stubs, self.reports, self.fates = text, status, tried, stubs, [], {}
        last = text.rstrip("\n").rpartition("\n")[2]
        self.is_reached = last.startswith(("logic=", "only="))
        for line in text.split("\n"):
            fate, located = VERDICT.match(line), LOCATED.match(line) or ARROW.match(line)
            if fate:
                self.fates[fate[1].removeprefix(f"{crate}::")] = fate[2]
            elif located:
                said = located[3] if located.re is LOCATED else line
                if NOT_PROVED.search(said) or located.re is ARROW:
                    self.reports.append((located[1], int(located[2]) - 1, said))
            elif self.reports and line[:1].isspace() and self.reports[-1][0].startswith("proofs/"):
                # (what an error of a proof file says may go on in lines that are indented)
                file, at, said = self.reports[-1]
                self.reports[-1] = (file, at, f"{said} {line.strip()}")

    def stands(self):
        """Returns whether the prover came to its verdict, and each stub is proved."""
        return self.is_reached and all(self.fates.get(it, "proved").startswith("proved") for it in self.stubs)

    def path_of(self, function):
        """Returns how the prover names a function: a method is of its type's module, wherever its `impl` stands."""
        tail = function.path.split("::")[-2:]
        found = [it for it in self.fates if it.split("::")[-2:] == tail]
        is_method = tail[0][:1].isupper()
        return found[0] if function.path not in self.fates and is_method and len(found) == 1 else function.path

    def of(self, function):
        """Returns what became of a function, and what was said."""
        path = self.path_of(function)
        own = [said for file, line, said in self.reports if file == function.file and function.first <= line <= function.last]
        folders = tuple("/".join(["proofs", *it, ""]) for it in ways_to(path))
        written = [said for file, _, said in self.reports if file.startswith(folders)]
        fate = self.fates.get(path)
        if fate is not None and fate.startswith("proved"):
            # (whatever stands beside it: a warning, or an error of what calls it)
            return PROVED, "it is proved, so the contract lets it pass"
        if any("is false" in it for it in own):
            return FALSE, next(it for it in own if "is false" in it)
        stands = [it for it in written if not GONE.search(it)]
        if stands:
            return WRITTEN, stands[0]
        if own and not written:
            return SEARCH, own[0]
        if written:
            return FAILED, f"its proof cites a name that is gone, which says nothing of the contract: {written[0]}"
        if fate is None:
            return OPEN, "the prover didn't come to its function"
        if "`search` did not prove" in fate:
            return SEARCH, fate
        return OPEN, f"its function has no verdict of its own: {fate}"

    def of_body(self, body):
        """Returns what says least of the functions that a body changes: each of them must be refused."""
        found = [(*self.of(it), of) for it, of in zip(self.tried[id(body)], body.targets)]
        kind, said, function = max(found, key=lambda it: [*REFUSALS, OPEN, PROVED, FAILED].index(it[0]))
        return Result(body, kind, f"{function.path}: {shortened(said)}")

    def culprits(self, wave):
        """Returns the bodies in whose functions the crate's text could not be read."""
        at = {(file, line) for file, line, _ in self.reports}
        return [it for it in wave if any(of.file == file and of.first <= line <= of.last for of in self.tried[id(it)] for file, line in at)]

    def first_error(self):
        lines = [it for it in self.text.split("\n") if re.search(r"\berror\b", it)]
        return shortened((lines or self.text.strip().split("\n")[-1:])[0])


def shortened(text):
    return text if len(text) <= 170 else text[:167] + "..."
