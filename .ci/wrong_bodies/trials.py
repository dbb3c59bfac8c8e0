"""Tries the wrong bodies of a crate by checks of its copies."""
import contextlib
import os
import shutil
import signal
import subprocess
import tempfile
import threading

from wrong_bodies.bodies import Body
from wrong_bodies.repository import PARTS
from wrong_bodies.rooms import copy_proofs, put_stubs, text_with, tried_by
from wrong_bodies.source_text import homes_of, read
from wrong_bodies.verdicts import FAILED, FALSE, OPEN, PROVED, Result, Verdict

# How many bodies are tried in copies by one check: more would make checks so long that processors wait for the last.
MOST = 20

# The checks that run, which a signal ends.
RUNNING, STOPPED = set(), threading.Event()


def stop(*_):
    STOPPED.set()
    for it in list(RUNNING):
        with contextlib.suppress(ProcessLookupError):
            os.kill(it.pid, signal.SIGTERM)


def run(words, folder):
    """Runs a check in a folder, and returns what it printed, its status and what it used."""
    with tempfile.TemporaryFile("w+", encoding="utf-8", errors="replace") as out:
        ran = subprocess.Popen(words, cwd=folder, stdin=subprocess.DEVNULL, stdout=out, stderr=subprocess.STDOUT)
        RUNNING.add(ran)
        _, status, usage = os.wait4(ran.pid, 0)
        RUNNING.discard(ran)
        ran.returncode = os.waitstatus_to_exitcode(status)
        if STOPPED.is_set():
            raise SystemExit("edits: stopped")
        out.seek(0)
        return out.read(), ran.returncode, usage


class Trial:
    """Tries the wrong bodies of one crate. Its waves may be tried side by side."""

    def __init__(self, repository, crate, bodies, options, room):
        self.repository, self.crate, self.bodies, self.options, self.room = repository, crate, bodies, options, room
        self.seconds, self.checks, self.memory, self.results, self.lock = 0.0, 0, 0, [], threading.Lock()
        # (the unchanged copies that are proved)
        self.controls = set()
        self.homes = homes_of(repository.folder(crate))
        self.waves = self.put_together()
        self.left = len(self.waves)

    def named(self, function):
        """Returns how the prover names a function: a method is of its type's module, wherever its `impl` stands."""
        *_, kind, name = ["", *function.path.split("::")]
        homes = self.homes.get(kind, [])
        return f"{homes[0]}::{kind}::{name}".removeprefix("::") if len(homes) == 1 else function.path

    def make(self, room, wave):
        """Makes a copy of the crate with these bodies."""
        folder = self.repository.folder(self.crate)
        for part in PARTS:
            if os.path.isdir(f"{folder}/{part}"):
                shutil.copytree(f"{folder}/{part}", f"{room}/{part}")
        for file in {file for it in wave for file in (it.targets[0].file, *(file for file, _ in it.lines))}:
            with open(f"{room}/{file}", "w", encoding="utf-8") as out:
                out.write(text_with(wave, file, read(f"{folder}/{file}")))
        for it in (it for it in wave if it.is_copied()):
            copy_proofs(room, self.crate, self.named(it.targets[0]), it.copy_path().rpartition("::")[2])

    def check(self, wave, has_stubs):
        """Checks a copy of the crate with these bodies, and with stubs for the other functions if it is to have them."""
        if STOPPED.is_set():
            raise SystemExit("edits: stopped")
        with tempfile.TemporaryDirectory(prefix="check-", dir=self.room) as room:
            return self.check_in(room, wave, has_stubs)

    def check_in(self, room, wave, has_stubs):
        """Makes the copy in a folder, and checks it."""
        self.make(room, wave)
        find = lambda: {id(it): tried_by(it, self.repository.folder(self.crate), room) for it in wave}
        stubs = put_stubs(room, [it for found in find().values() for it in found], self.named) if has_stubs else []
        tried = find()
        words = ["nice", "-n", "19"] * self.options.with_proofs + self.repository.words(self.crate)
        for it in sorted({self.named(it) for found in tried.values() for it in found}):
            words += ["--only", it]
        text, status, usage = run(words, room)
        if status == -signal.SIGKILL:
            # (memory ran out, most likely: once more)
            text, status, usage = run(words, room)
        self.note(usage)
        return Verdict(self.crate, text, status, tried, stubs)

    def note(self, usage):
        """Adds up what the checks take."""
        with self.lock:
            self.checks += 1
            self.seconds += usage.ru_utime + usage.ru_stime
            self.memory = max(self.memory, usage.ru_maxrss)

    def put_together(self):
        """Puts bodies together: those in copies are dealt out evenly, and of those in place no two change the same function."""
        copied = [it for it in self.bodies if it.is_copied()]
        parts = -(-len(copied) // MOST)
        waves = [copied[at::parts] for at in range(parts)]
        for body in (it for it in self.bodies if not it.is_copied() and not it.is_alone()):
            in_place = lambda wave: [of for it in wave if not it.is_copied() for of in it.targets]
            fits = next((it for it in waves if not any(of in body.targets for of in in_place(it))), None)
            if fits is None:
                waves.append([body])
            else:
                fits.append(body)
        return waves + [[it] for it in self.bodies if it.is_alone()]

    def settle_beside_stubs(self, wave):
        """Tries a wave beside stubs, and what isn't refused there beside the functions as they are."""
        verdict = self.check(wave, has_stubs=True)
        settled = [it for it in map(verdict.of_body, wave if verdict.stands() else ()) if it.is_refused()]
        self.add(settled)
        rest = [it for it in wave if it not in [one.body for one in settled]]
        if rest:
            self.settle(rest)

    def control(self):
        """Tries an unchanged copy of each function of which a body was refused otherwise than by a false goal. It must be proved, beside the same stubs
        or at least without them: otherwise something else than its change may refuse the body, which then counts for nothing."""
        self.controls |= self.proved_of(self.without_control(), has_stubs=True)
        again = [it for it in self.results if not self.is_controlled(it)]
        self.results = [it for it in self.results if it not in again]
        if again:
            self.settle([it.body for it in again])
        self.controls |= self.proved_of(self.without_control(), has_stubs=False)
        why = "an unchanged copy of its function isn't proved either, so it isn't known what refuses it"
        self.results = [it if self.is_controlled(it) else Result(it.body, FAILED, f"{why}: {it.said}") for it in self.results]

    def is_controlled(self, result):
        """Returns whether no control is needed, or an unchanged copy of each of the functions is proved."""
        return not result.is_refused() or result.kind == FALSE or self.controls.issuperset(result.body.targets)

    def without_control(self):
        """Returns the functions that still need a control, each once."""
        return list(dict.fromkeys(of for it in self.results if not self.is_controlled(it) for of in it.body.targets if of not in self.controls))

    def proved_of(self, functions, has_stubs):
        """Returns those of the functions of which an unchanged copy is proved."""
        proved = set()
        for first in range(0, len(functions), MOST):
            wave = [Body(self.crate, f"unchanged_{number}", targets=[it]) for number, it in enumerate(functions[first : first + MOST])]
            verdict = self.check(wave, has_stubs)
            stands = verdict.stands() if has_stubs else verdict.is_reached
            proved |= {it.targets[0] for it in wave if stands and verdict.of_body(it).kind == PROVED}
        return proved

    def settle(self, wave):
        """Tries a wave, and again what it left open: together while that settles something, and at last one by one."""
        verdict = self.check(wave, has_stubs=False)
        if not verdict.is_reached:
            self.part(wave, verdict)
            return
        results = [verdict.of_body(it) for it in wave]
        again = [it.body for it in results if it.kind == OPEN] if len(wave) > 1 else []
        self.add([it for it in results if it.body not in again])
        if len(again) == len(wave):
            for it in again:
                self.settle([it])
        elif again:
            self.settle(again)

    def add(self, results):
        with self.lock:
            self.results += results

    def part(self, wave, verdict):
        """Goes on where the check of a wave ended without a verdict: without those whose text can't be read, or by halves."""
        if len(wave) == 1:
            how = "the crate's text can't be read" if verdict.status == 1 else f"its check ended with status {verdict.status}"
            self.add([Result(wave[0], FAILED, f"{how}, so the contract wasn't tried: {verdict.first_error()}")])
            return
        culprits = verdict.culprits(wave)
        rest = [it for it in wave if it not in culprits]
        for it in culprits if rest else []:
            self.settle([it])
        if culprits and rest:
            self.settle(rest)
        else:
            self.settle(wave[: len(wave) // 2])
            self.settle(wave[len(wave) // 2 :])
