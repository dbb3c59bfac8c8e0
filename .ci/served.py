"""Servers under test, and sessions with them: for the checks in .ci/ and deploy/, and the measurements in bench/."""
import concurrent.futures
import fcntl
import glob
import inspect
import itertools
import os
import re
import resource
import select
import socket
import struct
import subprocess
import sys
import tempfile
import termios
import time

TOP = os.path.dirname(os.path.dirname(os.path.abspath(__file__)))
FIRST = "20240115"
PLAN = ["--first", FIRST, "--days", "1", "--zone", "fixed:0"]
# Anything that doesn't come within this time, in seconds, is reported as wrong.
SECONDS = 60
# The program that a `SampleServer` runs.
TESTED = os.environ.get("CSA", f"{TOP}/csa")
# Why sessions fail, as a server says at its end.
LOST = "a connection broke, was idle for longer than --idle allows, or with --idle began like HTTP; --log shows which"
# The servers that were started.
STARTED = []


class Wrong(Exception):
    """What isn't as it should be."""


def check(what, is_so):
    if not is_so:
        raise Wrong(what)


def expect(what, got, wanted):
    check(f"{what}: {got!r}, not {wanted!r}", got == wanted)


def attempts():
    """Gives a number for each attempt at something that comes after a while, a hundredth of a second apart."""
    until = time.monotonic() + SECONDS
    for number in itertools.count():
        if time.monotonic() > until:
            return
        yield number
        time.sleep(0.01)


def try_all(title, names, prepare=lambda room: None):
    """Tries those of a script's functions that take a folder alone, four side by side, all with the same folder, which is prepared first. Prints
    those that find something wrong, and returns the status. No server is left."""
    tests = [it for it in names.values() if inspect.isfunction(it) and list(inspect.signature(it).parameters) == ["folder"]]
    failed = 0
    with tempfile.TemporaryDirectory() as folder, concurrent.futures.ThreadPoolExecutor(4) as pool:
        prepare(folder)
        for test, tried in [(test, pool.submit(test, folder)) for test in tests]:
            try:
                tried.result()
            except Exception as fault:
                failed += 1
                print(f"{title}: {test.__name__}: {type(fault).__name__}: {fault!s:.2000}", flush=True)
    for process in STARTED:
        process.kill()
    print(f"{title}: {len(tests) - failed} passed, {failed} failed")
    return 1 if failed else 0


def program(given=None):
    """Returns the path of csa: the one that is given, or the one built here, or else the released one."""
    places = [given, f"{TOP}/crates/csa/out/csa", f"{TOP}/release/x86_64-linux-gnu/csa"]
    found = next((it for it in places if it and os.access(it, os.X_OK)), None)
    return os.path.abspath(found) if found else sys.exit("no program csa is built or released: ./csa --build")


def serve_words(image, sessions, workers=1, feeds=(), port=0, plan=PLAN):
    """Returns the words of `csa serve` behind the program, with the feeds as NAME=FOLDER."""
    served = ["serve", "--image", image, "--port", str(port), "--workers", str(workers), "--sessions", str(sessions)]
    return [*served, *plan, *feeds]


def answers_of(csa, image, queries, clocks):
    """Returns what `csa profile` prints for each of the queries, a source, a target and a criterion: the points (departure, arrival,
    journey, trips and seconds on foot), and the seconds of the direct footpath. `clocks` has the clock of each option of the window."""
    answers = {}
    for source, target, criterion in queries:
        words = [csa, "profile", image, "--from", source, "--to", target, "--criterion", criterion]
        words += [word for name, clock in clocks.items() for word in (f"--{name}", clock)]
        *lines, last = subprocess.run(words, check=True, capture_output=True, text=True).stdout.splitlines()
        points = []
        for line in lines:
            dep, arr, trips, walked, journey = re.fullmatch(r"dep (\S+) arr (\S+)(?: trips (\d+))?(?: walked (\d+))? : (.*)", line).groups()
            points.append((dep, arr, journey, trips and int(trips), walked and int(walked)))
        walk = last.split()[-1]
        answers[source, target, criterion] = points, None if walk == "none" else int(walk)
    return answers


def answer_of(profile):
    """Returns the same of a reply that the Python client has read."""
    return [(it.dep, it.arr, it.journey, it.trips, it.walked) for it in profile.points], profile.walk


def preloaded(source, folder):
    """Compiles a library of this repository, which is to be preloaded into a program, into a folder, and returns its path."""
    library = os.path.join(folder, os.path.basename(source).replace(".c", ".so"))
    subprocess.run(["cc", "-O2", "-Wall", "-Wextra", "-Werror", "-shared", "-fPIC", "-o", library, f"{TOP}/{source}", "-ldl"], check=True)
    return library


class Clock:
    """The time of day of the programs that run in its environment (deploy/try_clock.c)."""

    def __init__(self, folder, **environment):
        self.path = os.path.join(folder, "clock")
        self.environment = {**os.environ, "LD_PRELOAD": preloaded("deploy/try_clock.c", folder), "CLOCK": self.path, **environment}

    def show(self, instant):
        """Sets the clock to an instant, in seconds since 1970-01-01T00:00:00Z."""
        with open(self.path + ".new", "w", encoding="utf-8") as file:
            file.write(str(instant))
        os.replace(self.path + ".new", self.path)

    def nightly(self, csa, folder, setting, ports, *words):
        """Runs deploy/nightly over a folder instead of /var/lib/csa, with these settings and ports of servers."""
        conf = os.path.join(os.path.dirname(self.path), "csa.conf")
        with open(conf, "w", encoding="utf-8") as file:
            file.write("# as deploy/csa.conf\nPORT=7077\n" + "".join(f"{name}={value}\n" for name, value in setting.items()))
        own = {"CONF": conf, "PLACE": folder, "CSA": csa, "PORTS": " ".join(map(str, ports)), "TIMEOUT": "30"}
        return subprocess.run([f"{TOP}/deploy/nightly", *words], env={**self.environment, **own}, cwd=folder, capture_output=True, text=True, timeout=120)


def slow_to_open(path, seconds, folder):
    """Returns the environment of a program that takes so many seconds to open this file, as from a slow disk. The folder gets the library
    that does so."""
    return {**os.environ, "LD_PRELOAD": preloaded("deploy/try_clock.c", folder), "SLOW_FILE": path, "SLOW_SECONDS": str(seconds)}


class Server:
    """A program that prints `listening PORT` and then serves sessions there."""

    def __init__(self, words, **streams):
        self.process = subprocess.Popen(words, stdout=subprocess.PIPE, **streams)
        STARTED.append(self.process)
        said = self.process.stdout.readline().split()
        if said[:1] != [b"listening"]:
            self.process.kill()
            raise Wrong(f"a server printed {said!r} when it began: {words}")
        self.port = int(said[1])

    def processor_seconds(self):
        """Returns the processor time of all its threads so far."""
        total = 0
        for path in glob.glob(f"/proc/{self.process.pid}/task/*/schedstat"):
            with open(path, encoding="utf-8") as file:
                total += int(file.read().split()[0])
        return total / 1e9

    def megabytes(self, which="VmRSS"):
        """Returns its resident memory, or the greatest that it had (`VmHWM`)."""
        with open(f"/proc/{self.process.pid}/status", encoding="utf-8") as status:
            return next(int(line.split()[1]) for line in status if line.startswith(which + ":")) / 1000

    def descriptors(self):
        """Returns how many file descriptors it has open."""
        return len(os.listdir(f"/proc/{self.process.pid}/fd"))

    def stop(self):
        self.process.terminate()
        self.process.wait()
        self.process.stdout.close()

    def may_open(self, more):
        """From now on it may open so many more file descriptors."""
        most = max(map(int, os.listdir(f"/proc/{self.process.pid}/fd"))) + 1 + more
        _, hard = resource.prlimit(self.process.pid, resource.RLIMIT_NOFILE)
        resource.prlimit(self.process.pid, resource.RLIMIT_NOFILE, (most, hard))


class SampleServer(Server):
    """A server of the sample image, which serves so many sessions. Whatever it prints is compared."""

    def __init__(self, sessions, *options, workers=1, before=(), env=None):
        words = [*before, TESTED, *serve_words(f"{TOP}/examples/base.csa", sessions, workers, options)]
        super().__init__(words, stderr=subprocess.PIPE, bufsize=0, env=env)
        self.sessions = sessions

    def tells(self, wanted):
        """Waits for the next line of its errors that doesn't explain another line. It has to be one of those that are wanted."""
        line = b"csa: "
        while line.startswith(b"csa: "):
            if not select.select([self.process.stderr], [], [], SECONDS)[0]:
                self.process.kill()
                raise Wrong("the server reported nothing")
            line = self.process.stderr.readline()
        told = line.decode().rstrip("\n")
        check(f"the loader printed {told!r}, and not one of {wanted}", told in wanted)
        return told

    def replies(self, *lines):
        """The replies to all of these lines in a session of their own."""
        with Session(self) as one:
            one.send(b"".join(it + b"\n" for it in lines))
            return one.rest().splitlines()

    def failed(self, sessions):
        """Returns the line of its errors which says that so many of its sessions failed."""
        return f"csa: {sessions} of {self.sessions} sessions failed: {LOST}"

    def rest(self, status):
        """Waits for its end, and returns all lines of its errors that weren't read yet."""
        printed, errors = self.process.communicate(timeout=2 * SECONDS)
        expect("the server printed", printed, b"served %d\n" % self.sessions)
        expect("its status", self.process.returncode, status)
        return errors.decode().splitlines()

    def ends(self, status, told=(), after=()):
        """Ends these sessions, and waits for its end; the loader's lines that weren't read yet, without those that explain others, have to be
        these."""
        for session in after:
            session.ends()
        expect("the errors", [line for line in self.rest(status) if not line.startswith("csa: ")], list(told))


class Session:
    """A session of a server."""

    def __init__(self, server, source="127.0.0.1"):
        self.socket = socket.create_connection(("127.0.0.1", server.port), SECONDS, (source, 0))
        self.socket.setsockopt(socket.IPPROTO_TCP, socket.TCP_NODELAY, 1)
        self.lines = self.socket.makefile("rb")

    def __enter__(self):
        return self

    def __exit__(self, *_):
        self.lines.close()
        self.socket.close()

    def send(self, data):
        self.socket.sendall(data)

    def send_unread(self, line):
        """Sends a line over and over, and reads nothing, for as long as the server takes the lines. Returns how many bytes it took."""
        self.socket.settimeout(1)
        sent = 0
        try:
            while True:
                sent += self.socket.send((line * 1000)[sent % len(line):])
        except (TimeoutError, ConnectionError):
            self.socket.settimeout(SECONDS)
            return sent

    def reply_to(self, line):
        """Sends a line, and returns the reply, with its LF."""
        self.send(line + b"\n")
        return self.lines.readline()

    def asks(self, line, wanted):
        """Sends a line, and compares the reply."""
        expect(f"{line!r:.60} was answered", self.reply_to(line), wanted + b"\n")

    def asks_all(self, *talk):
        """Sends one line after another, each of which is followed by the reply that it has to get."""
        for line, wanted in zip(talk[::2], talk[1::2], strict=True):
            self.asks(line, wanted)

    def ends(self):
        """Ends the session, in which nothing more may come."""
        expect("after the last reply", self.rest(), b"")
        self.__exit__()

    def half_close(self):
        """Ends the sending side."""
        self.socket.shutdown(socket.SHUT_WR)

    def rest(self):
        """Ends the sending side, and returns everything that still comes."""
        self.half_close()
        return self.lines.read()

    def reset(self, has_arrived=False):
        """Resets the connection, whatever is still unread: at once, or when all that was sent has arrived."""
        while has_arrived and struct.unpack("i", fcntl.ioctl(self.socket, termios.TIOCOUTQ, b"\0" * 4))[0]:
            time.sleep(0.0001)
        self.socket.setsockopt(socket.SOL_SOCKET, socket.SO_LINGER, struct.pack("ii", 1, 0))
        self.__exit__()
