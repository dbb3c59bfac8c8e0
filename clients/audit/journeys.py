"""Journeys of a planner: reading them from lines, and writing them with the numbers of an image."""

from __future__ import annotations

import argparse
import csv
import json
import re
from collections import defaultdict
from collections.abc import Collection
from dataclasses import dataclass, field
from datetime import datetime
from itertools import product
from typing import Any, NamedTuple

from csa_client import seconds_of
from csa_client.image import Connection, Image


USAGE = 64
CRITERIA = ("arrival", "arrival+trips", "arrival+trips+walk")
# the most legs of a journey, since they go onto the command line of csa
MOST_LEGS = 1000
# what `csa profile --names` prints before a journey
PRINTED = re.compile(r"^dep \S+ arr \S+(?: trips \d+)?(?: walked \d+)? : ")


class Stop(Exception):
    """Ends the audit with a line and a status."""

    def __init__(self, line: str, status: int = 3) -> None:
        super().__init__(line)
        self.status = status


class Unreadable(Exception):
    """What is wrong with a line."""


class Unknown(Exception):
    """Which id isn't in the image."""


class Impossible(Exception):
    """Why no trip runs like this."""


class Pair(NamedTuple):
    """A query from one stop to another."""

    source: str
    target: str
    after: str
    until: str
    by: str
    criterion: str


class Query(NamedTuple):
    """A query from any of several stops to any of several others."""

    sources: tuple[str, ...]
    targets: tuple[str, ...]
    after: str
    until: str
    by: str
    criterion: str

    def pairs(self) -> list[Pair]:
        """The queries between two stops whose answers together are the answer to this one."""
        return [Pair(source, target, *self[2:]) for source, target in product(self.sources, self.targets)]


@dataclass(frozen=True)
class Ride:
    trip: str
    day: int | None
    source: str
    departure: int
    target: str
    arrival: int


@dataclass(frozen=True)
class Walk:
    source: str
    target: str
    seconds: int | None


class Point(NamedTuple):
    """The values that a criterion compares; those that it doesn't count are 0."""

    dep: int
    arr: int
    trips: int
    walked: int

    def beats(self, other: Point) -> bool:
        return self != other and self.dep >= other.dep and all(mine <= its for mine, its in zip(self[1:], other[1:]))


@dataclass
class Journey:
    """A line, and the findings about it. `text` is its journey with the numbers of the image."""

    line: int
    id: Any = None
    legs: list[Ride | Walk] = field(default_factory=list)
    query: Query | None = None
    text: str = ""
    verdict: str = ""
    why: str = ""
    point: Point | None = None
    by: list[tuple[Point, str]] = field(default_factory=list)

    def judged(self, verdict: str, why: str = "") -> None:
        self.verdict, self.why = verdict, why

    @property
    def asked(self) -> Query:
        """The query of a journey that was read."""
        assert self.query is not None
        return self.query

    @property
    def ends(self) -> tuple[str, str]:
        """The stops where it begins and ends."""
        return self.legs[0].source, self.legs[-1].target

    @property
    def misses(self) -> str:
        """Why it can't be an answer to its query, by its ends; empty if it may be one."""
        (source, target), sources, targets = self.ends, self.asked.sources, self.asked.targets
        # if its own ends are one stop, csa journey says so
        if source != target and (both := sorted(set(sources) & set(targets))):
            return f"stop {both[0]!r} is one where its query begins, and one where it ends"
        if source not in sources:
            return f"it begins at {source!r}, and its query at none but {', '.join(map(repr, sources))}"
        return "" if target in targets else f"it ends at {target!r}, and its query at none but {', '.join(map(repr, targets))}"


def stations_of(path: str, known: Collection[str]) -> dict[str, tuple[str, ...]]:
    """The stops of the station of each stop that has one, as far as they are known, by a feed's stops.txt."""
    try:
        with open(path, encoding="utf-8-sig", newline="") as file:
            rows = [{name.strip(): (row[name] or "").strip() for name in row if name is not None} for row in csv.DictReader(file)]
    except OSError as fault:
        raise Stop(f"{path}: {fault.strerror}") from fault
    except (UnicodeDecodeError, csv.Error) as fault:
        raise Stop(f"{path}: {fault}") from fault
    if rows and not {"stop_id", "parent_station"} <= rows[0].keys():
        raise Stop(f"{path} isn't a stops.txt with the columns stop_id and parent_station")
    stops: dict[str, list[str]] = defaultdict(list)
    for row in rows:
        if row["parent_station"] and row["stop_id"] in known:
            stops[row["parent_station"]].append(row["stop_id"])
    return {stop: tuple(those) for those in stops.values() for stop in those}


def clock_of(seconds: int) -> str:
    return f"{seconds // 3600:02}:{seconds // 60 % 60:02}:{seconds % 60:02}"


class Reader:
    """Reads lines into journeys."""

    def __init__(self, base: int, asked: argparse.Namespace, stations: dict[str, tuple[str, ...]]) -> None:
        self.base, self.asked, self.stations = base, asked, stations

    def journey(self, number: int, line: str) -> Journey:
        journey = Journey(number)
        try:
            record = self.record(line)
            journey.id = record.get("id")
            if not isinstance(record["legs"], list) or not all(isinstance(leg, dict) for leg in record["legs"]):
                raise Unreadable("its 'legs' aren't a list of objects")
            journey.legs = [self.leg(leg) for leg in record["legs"]]
            if len(journey.legs) > MOST_LEGS:
                raise Unreadable(f"it has more than {MOST_LEGS} legs")
            if not any(isinstance(leg, Ride) for leg in journey.legs):
                raise Unreadable("it has no ride")
            journey.query = self.query(number, journey.legs, record)
        except Unreadable as fault:
            journey.judged("unreadable", str(fault))
        except KeyError as fault:
            journey.judged("unreadable", f"it has no {fault}")
        except (ValueError, TypeError, OverflowError, RecursionError) as fault:
            journey.judged("unreadable", str(fault))
        return journey

    def record(self, line: str) -> dict[str, Any]:
        """A line of either form, as an object of the first form."""
        if line.lstrip().startswith("{"):
            record: dict[str, Any] = json.loads(line)
            return record
        words, legs = PRINTED.sub("", line).split(), []
        while words:
            kind, *rest = words
            keys = {"ride": ("trip", "day", "dep", "from", "arr", "to"), "walk": ("from", "to", "secs")}.get(kind, ())
            # as `csa profile --names` prints it: a time follows the trip
            if kind == "ride" and ":" in "".join(rest[1:2]):
                keys = tuple(key for key in keys if key != "day")
            if not keys or len(rest) < len(keys):
                raise Unreadable(f"{' '.join(words)[:60]!r} is neither `ride TRIP DAY TIME STOP TIME STOP` nor `walk STOP STOP SECS`")
            legs.append({key: word for key, word in zip(keys, rest) if word != "-" or key not in ("day", "secs")})
            words = rest[len(keys) :]
        return {"legs": legs}

    def leg(self, leg: dict[str, Any]) -> Ride | Walk:
        source, target = self.text(leg["from"]), self.text(leg["to"])
        if "trip" in leg:
            return Ride(self.text(leg["trip"]), self.day(leg.get("day")), source, self.seconds(leg["dep"]), target, self.seconds(leg["arr"]))
        return Walk(source, target, None if leg.get("secs") is None else self.whole(leg["secs"]))

    def text(self, value: Any) -> str:
        if not isinstance(value, str):
            raise Unreadable(f"{value!r} isn't a text")
        return value

    def whole(self, value: Any) -> int:
        """Whole seconds, which some planners write as 60.0."""
        if not float(value).is_integer():
            raise Unreadable(f"{value!r} isn't a whole number of seconds")
        return int(float(value))

    def day(self, value: Any) -> int | None:
        """A service day, YYYYMMDD or YYYY-MM-DD."""
        if value is None:
            return None
        digits = str(value).replace("-", "")
        if re.fullmatch("[0-9]{1,8}", digits) is None:
            raise Unreadable(f"{value!r} isn't a service day, YYYYMMDD")
        return int(digits)

    def seconds(self, value: Any) -> int:
        """The seconds after the image's base of a clock or an instant."""
        if "T" not in self.text(value):
            return seconds_of(value)
        instant = datetime.fromisoformat(re.sub("Z$", "+00:00", value))
        if instant.tzinfo is None:
            raise Unreadable(f"{value!r} has no offset such as +01:00")
        return int(instant.timestamp()) - self.base

    def query(self, number: int, legs: list[Ride | Walk], record: dict[str, Any]) -> Query:
        window: list[str] = []
        for name in ("after", "until", "by"):
            clock = record.get(name, getattr(self.asked, name))
            if clock is None:
                raise Stop(f"line {number} has no {name!r}, and the command line no --{name}; --help has an example", USAGE)
            window.append(clock_of(seconds_of(self.text(clock))))
        criterion = record.get("criterion", self.asked.criterion)
        if criterion not in CRITERIA:
            raise Unreadable(f"{criterion!r} isn't a criterion")
        after, until, by = window
        return Query(self.stops("from", legs[0].source, record), self.stops("to", legs[-1].target, record), after, until, by, criterion)

    def stops(self, name: str, own: str, record: dict[str, Any]) -> tuple[str, ...]:
        """The stops of one side of a query: those of the line or else of the command line, or else those of the station of the journey's own stop."""
        given = record.get(name, getattr(self.asked, name))
        if given is None:
            return self.stations.get(own, (own,))
        stops = [self.text(stop) for stop in (given if isinstance(given, list) else [given])]
        if not stops or len(set(stops)) < len(stops):
            raise Unreadable(f"its {name!r} has no stop, or one twice")
        return tuple(sorted(stops))


class Spelling:
    """Translates journeys from ids to the numbers of an image, and back."""

    def __init__(self, image: Image, journeys: list[Journey]) -> None:
        self.image = image
        self.runs = image.runs({leg.trip for journey in journeys for leg in journey.legs if isinstance(leg, Ride)})
        self.rides = image.rides({trip for runs in self.runs.values() for trip, _ in runs})

    def spell(self, journey: Journey) -> None:
        """Sets the journey's text, or else its verdict: which id is unknown, or why no trip runs like this."""
        try:
            for stop in (*journey.asked.sources, *journey.asked.targets):
                self.stop(stop)
            words: list[str] = []
            before: Ride | Walk | None = None
            for number, leg in enumerate(journey.legs):
                if isinstance(before, Ride) and isinstance(leg, Ride) and before.target == leg.source:
                    words.append(self.walk(Walk(leg.source, leg.source, None)))
                words.append(self.ride(number, leg) if isinstance(leg, Ride) else self.walk(leg))
                before = leg
            journey.text = " ".join(words)
        except Unknown as fault:
            journey.judged("unknown", str(fault))
        except Impossible as fault:
            journey.judged("impossible", str(fault))

    def stop(self, name: str) -> int:
        if name not in self.image.stop_numbers:
            raise Unknown(f"stop_id {name!r} isn't in the image")
        return self.image.stop_numbers[name]

    def walk(self, leg: Walk) -> str:
        source, target = self.stop(leg.source), self.stop(leg.target)
        seconds = self.image.footpath(source, target) if leg.seconds is None else leg.seconds
        if seconds is None:
            raise Impossible(f"no footpath leads from {leg.source} to {leg.target}")
        return f"walk {source} {target} {seconds}"

    def other_footpaths(self, journey: Journey) -> str:
        """How long the image's own footpaths take, if those of the journey take another time."""
        found = []
        for leg in journey.legs:
            if isinstance(leg, Walk) and leg.seconds is not None:
                seconds = self.image.footpath(self.stop(leg.source), self.stop(leg.target))
                if seconds is None:
                    found.append(f"no footpath leads from {leg.source} to {leg.target}")
                elif seconds != leg.seconds:
                    found.append(f"from {leg.source} to {leg.target} it takes {seconds} s, not {leg.seconds}")
        return ", ".join(found)

    def ride(self, number: int, leg: Ride) -> str:
        source, target = self.stop(leg.source), self.stop(leg.target)
        if leg.trip not in self.runs:
            raise Unknown(f"trip_id {leg.trip!r} isn't in the image")
        rides = [self.rides[trip] for trip, day in self.runs[leg.trip] if leg.day in (None, day)]
        if not rides:
            days = ", ".join(sorted({str(day) for _, day in self.runs[leg.trip]}))
            raise Impossible(f"leg {number}: trip {leg.trip} doesn't run on {leg.day} in the image, but on {days}")
        boarded = [(ride, place) for ride in rides for place, (_, it) in enumerate(ride) if it.source == source]
        on_time = [(ride, place) for ride, place in boarded if ride[place][1].departure == leg.departure]
        if not on_time:
            raise Impossible(f"leg {number}: trip {leg.trip} doesn't leave {leg.source} at {clock_of(leg.departure)}" + self.times(boarded, 2))
        left = [(ride[place:], end) for ride, place in on_time for end, (_, it) in enumerate(ride[place:]) if it.target == target]
        for ride, end in left:
            if ride[end][1].arrival == leg.arrival:
                return f"ride {ride[0][0]} {ride[end][0]}"
        raise Impossible(f"leg {number}: trip {leg.trip} doesn't reach {leg.target} at {clock_of(leg.arrival)}" + self.times(left, 3))

    def times(self, places: list[tuple[list[tuple[int, Connection]], int]], which: int) -> str:
        """The first few times at which the trip does so."""
        seen = sorted({ride[place][1][which] for ride, place in places})
        return f", but at {', '.join(map(clock_of, seen[:5]))}{' ..' if len(seen) > 5 else ''}" if seen else ", nor at another time"

    def named(self, text: str) -> str:
        """A journey's text with ids and times, as `csa profile --names` prints it."""
        numbers, words = iter(text.split()), []
        for kind in numbers:
            one, two = int(next(numbers)), int(next(numbers))
            if kind == "walk":
                words += ["walk", self.image.stop_id(one), self.image.stop_id(two), next(numbers)]
            else:
                first, last = self.image.connection(one), self.image.connection(two)
                ends = [clock_of(first.departure), self.image.stop_id(first.source), clock_of(last.arrival), self.image.stop_id(last.target)]
                words += ["ride", self.image.trip_id(first.trip), *ends]
        return " ".join(words)
