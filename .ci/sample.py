"""The sample feed and others like it, and the requests and replies of sessions over them: for the checks in .ci/ and deploy/."""
import json
import os
import shutil
import subprocess

from served import PLAN, TOP

FEED, IMAGE = f"{TOP}/examples/base", f"{TOP}/examples/base.csa"
# The first second of its service day, and of the query that has one journey, which arrives at 08:20:00.
BASE, DAY = 1705276800, 86400
CLOCKS = {"after": "07:00:00", "until": "09:00:00", "by": "10:00:00"}
QUERIES = [(a, b, criterion) for a in "ABC" for b in "ABC" if a != b for criterion in ("arrival", "arrival+trips")]
WINDOW = [word for name, clock in CLOCKS.items() for word in (f"--{name}", clock)]
# The header of transfers.txt, and the row that makes the feed `slow`: whoever changes at B now misses the fast trip.
TRANSFERS = "from_stop_id,to_stop_id,transfer_type,min_transfer_time\n"
SLOW = TRANSFERS + "B,B,2,121\n"
ERRORS = {31: "UnknownStop", 32: "SameStop", 33: "BadWindow", 92: "AlreadyPinned", 93: "NotPinned", 111: "BadJson", 112: "BadRequest",
          113: "LineTooLong", 114: "UnknownFeed", 116: "OutOfMemory"}


def make_feed(folder, without=(), **tables):
    """Copies the sample feed into a folder: with these texts of tables, and without some of its files. Returns the folder."""
    shutil.copytree(FEED, folder)
    for name in without:
        os.remove(f"{folder}/{name}")
    for name, text in tables.items():
        with open(f"{folder}/{name}.txt", "w", encoding="utf-8") as file:
            file.write(text)
    return str(folder)


def clock(seconds):
    return f"{seconds // 3600:02}:{seconds // 60 % 60:02}:{seconds % 60:02}"


def build(csa, feed, image, plan=PLAN):
    """Builds an image without a word about it."""
    subprocess.run([csa, "build", feed, image, *plan], check=True, stdout=subprocess.DEVNULL)


def request(what, **members):
    """A line that asks for something, without its LF."""
    return json.dumps({"do": what, **members}, separators=(",", ":")).encode()


def profile(source="A", target="C", criterion="arrival", **clocks):
    return request("profile", **{"from": source, "to": target, **CLOCKS, **clocks, "criterion": criterion})


def load(feed, **members):
    return request("load", feed=feed, **members)


def waited(feed):
    """Orders a load, whose reply comes when it is done."""
    return load(feed, wait=True)


PIN, RELEASE, PROFILE, LOAD_SLOW = request("pin"), request("release"), profile(), load("slow")


def reply(**members):
    return json.dumps(members, separators=(",", ":"), sort_keys=True).encode()


def refused(number):
    return reply(error=number, name=ERRORS[number])


def load_refused(number):
    return reply(error=120, name="LoadRefused", refusal=number)


def loaded(feed, version=None):
    return reply(ok="load", feed=feed, **({} if version is None else {"version": version}))


def pinned(version, base=BASE):
    return reply(ok="pin", base=base, version=version)


RELEASED = reply(ok="release")


def point(dep, arr, journey, **further):
    return {"dep": dep, "arr": arr, "journey": journey, **further}


def found(version, *points):
    """The reply to a profile whose stops have no direct footpath."""
    return reply(ok="profile", points=points, version=version, walk=None)


# What changes at B, and what doesn't.
FAST_POINT = point("08:00:00", "08:20:00", "ride 0 0 walk 1 1 0 ride 2 2")
SLOW_POINT = point("08:00:00", "08:30:00", "ride 0 1")


def fast(version):
    """The reply to PROFILE over the sample."""
    return found(version, FAST_POINT)


def slow(version):
    """The same over the feed `slow`."""
    return found(version, SLOW_POINT)
