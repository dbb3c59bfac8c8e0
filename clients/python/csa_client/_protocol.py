"""The lines of a session: the line that each request sends, and the content of its reply. Both clients use this module."""

from __future__ import annotations

import json
import re
from collections.abc import Callable, Iterable, Sequence
from dataclasses import dataclass
from datetime import datetime, timedelta, timezone, tzinfo
from itertools import product
from typing import Any, Generic, Literal, TypeVar, Union, get_args
from zoneinfo import ZoneInfo

Criterion = Literal["arrival", "arrival+trips", "arrival+trips+walk"]

#: One stop_id, or several, as those of a station's platforms.
Stops = Union[str, Sequence[str]]
Reply = dict[str, Any]
Result = TypeVar("Result")

DEFAULT_PORT = 7077

# numbers of refusals
ALREADY_PINNED, BAD_REQUEST, LINE_TOO_LONG = 92, 112, 113

# how many stops a side of one request may have
MOST_STOPS = 1000

# the longest reply that a client reads, in bytes
LONGEST_REPLY = 256 * 1024 * 1024

NUMBER = "([0-9]{1,10})"
LEG = re.compile(f"ride {NUMBER} {NUMBER}|walk {NUMBER} {NUMBER} {NUMBER}")
JOURNEY = re.compile(f"(?:{LEG.pattern})(?: (?:{LEG.pattern}))*")
CLOCK = re.compile("([0-9]{1,6}):([0-5][0-9]):([0-5][0-9])")


class CsaError(Exception):
    """The base class of this client's exceptions. Exceptions of the socket, such as TimeoutError, are OSErrors as usual."""


class Refused(CsaError):
    """The server refused a request. The session goes on as before (after 97 SeatLost nothing is pinned)."""

    def __init__(self, number: int, name: str, newest: int | None = None, refusal: int | None = None) -> None:
        super().__init__(f"{number} {name}" if refusal is None else f"{number} {name} {refusal}")
        self.number = number
        self.name = name
        #: With 91 Moved only: the newest version that the server saw.
        self.newest = newest
        #: With 120 LoadRefused only: the number with which the load was refused.
        self.refusal = refusal


class SessionEnded(CsaError, ConnectionError):
    """The server ended the session, or sent something that isn't a reply to the request. The client is closed."""


@dataclass(frozen=True)
class Pinned:
    """The version that the session holds, and the instant from which its clocks count, in seconds since 1970-01-01T00:00:00Z."""

    version: int
    base: int

    def instant(self, clock: str, zone: tzinfo | str = timezone.utc) -> datetime:
        """Returns the instant of a clock text in this version, in a zone such as `"Europe/Berlin"`, or any tzinfo. Raises ValueError if it isn't a clock."""
        start = datetime.fromtimestamp(self.base, timezone.utc)
        return (start + timedelta(seconds=seconds_of(clock))).astimezone(_zone(zone))

    def clock(self, instant: datetime) -> str:
        """Returns the clock text of an instant in this version, in whole seconds.

        Raises ValueError if the instant has no zone, is before the base, or is so late that no clock has it.
        """
        if instant.tzinfo is None:
            raise ValueError("the instant has no zone: give it a tzinfo")
        seconds = int(instant.timestamp() // 1) - self.base
        if seconds < 0:
            raise ValueError("the instant is before the base of this version")
        if seconds >= 3600 * 10**6:
            raise ValueError("the instant is later than the last clock, 999999:59:59 after the base")
        return f"{seconds // 3600:02}:{seconds // 60 % 60:02}:{seconds % 60:02}"


@dataclass(frozen=True)
class Ride:
    """A ride: the numbers of the first and the last of its connections in the image of the version that answered."""

    first: int
    last: int


@dataclass(frozen=True)
class Walk:
    """A footpath: the numbers of its stops in the image of the version that answered, and its seconds. A change if both stops are the same."""

    from_stop: int
    to_stop: int
    seconds: int


@dataclass(frozen=True)
class NamedRide:
    """A ride: its trip_id, the service day as the number YYYYMMDD, and the stop_ids and clocks of its ends, which count from the base.

    `repeat` says which of that day's repeats of the trip it is, counted from 0.
    """

    trip: str
    day: int
    from_stop: str
    dep: str
    to_stop: str
    arr: str
    repeat: int = 0


@dataclass(frozen=True)
class NamedWalk:
    """A footpath: the stop_ids of its ends, and its seconds. A change if both stops are the same."""

    from_stop: str
    to_stop: str
    seconds: int


@dataclass(frozen=True)
class Point:
    """A best departure: its clocks, the text of its journey, and `trips` and `walked` (seconds on foot) if the criterion counts them.

    `named_legs` are the journey's rides and walks in order, with ids, if the server was started with `--legs`; otherwise None.
    """

    dep: str
    arr: str
    journey: str
    trips: int | None = None
    walked: int | None = None
    named_legs: tuple[NamedRide | NamedWalk, ...] | None = None

    @property
    def legs(self) -> tuple[Ride | Walk, ...]:
        """The journey's rides and walks in order, with the numbers of the image."""
        return parse_journey(self.journey)


@dataclass(frozen=True)
class Profile:
    """An answer: the version that gave it, all best departures in order, and the seconds of the direct footpath, if there is one."""

    version: int
    points: tuple[Point, ...]
    walk: int | None


def parse_journey(text: str) -> tuple[Ride | Walk, ...]:
    """Returns the legs of a journey's text: `ride FIRST LAST` and `walk FROM TO SECONDS`, separated by spaces. Raises ValueError for other texts."""
    if JOURNEY.fullmatch(text) is None:
        raise ValueError(f"not a journey: {text[:80]!r}")
    return tuple(_leg(*numbers) for numbers in LEG.findall(text))


def seconds_of(clock: str) -> int:
    """Returns the seconds of a clock text `HH:MM:SS`, whose hours may pass 24. Raises ValueError if the text isn't a clock."""
    matched = CLOCK.fullmatch(clock)
    if matched is None:
        raise ValueError(f"not a clock, HH:MM:SS: {clock[:80]!r}")
    hours, minutes, seconds = map(int, matched.groups())
    return hours * 3600 + minutes * 60 + seconds


@dataclass(frozen=True)
class Request(Generic[Result]):
    """A request's fields, and how its reply is read."""

    fields: dict[str, Any]
    read: Callable[[Reply], Result]

    def line(self) -> bytes:
        """Returns the line to send."""
        return json.dumps(self.fields, ensure_ascii=False).encode() + b"\n"

    def result(self, line: bytes) -> Result:
        """Returns the content of the reply. Raises Refused if the server refused the request, SessionEnded if the line isn't a reply to it."""
        try:
            reply = json.loads(line)
            if "error" in reply:
                refused = Refused(_number(reply, "error"), reply["name"], reply.get("newest"), reply.get("refusal"))
            elif reply["ok"] != self.fields["do"]:
                raise SessionEnded(f"the server sent something else than a reply to {self.fields['do']}")
            else:
                return self.read(reply)
        except (ValueError, KeyError, TypeError, AttributeError, RecursionError) as error:
            raise SessionEnded(f"the reply can't be read: {error}") from error
        raise refused


def pin() -> Request[Pinned]:
    return Request({"do": "pin"}, lambda reply: Pinned(_number(reply, "version"), _number(reply, "base")))


def release() -> Request[None]:
    return Request({"do": "release"}, lambda _: None)


def load(feed: str) -> Request[None]:
    return Request({"do": "load", "feed": feed}, lambda _: None)


def load_and_wait(feed: str) -> Request[int]:
    return Request({"do": "load", "feed": feed, "wait": True}, lambda reply: _number(reply, "version"))


@dataclass(frozen=True)
class Question:
    """What a profile asks: the best departures from any of some stops to any of others."""

    sources: tuple[str, ...]
    targets: tuple[str, ...]
    #: The times and the criterion, as a request has them.
    window: dict[str, str]

    @property
    def most(self) -> int:
        """How many stops the larger side has."""
        return max(len(self.sources), len(self.targets))

    def pairs(self) -> list[Request[Profile]]:
        """A request for each pair of stops, whose answers `merged` puts together."""
        return [self._request(source, target) for source, target in product(self.sources, self.targets)]

    def at_once(self) -> Request[Profile]:
        """One request for all pairs, which not every server takes: a side of several stops is an array."""
        source, target = (stops[0] if len(stops) == 1 else list(stops) for stops in (self.sources, self.targets))
        return self._request(source, target)

    def _request(self, source: Stops, target: Stops) -> Request[Profile]:
        return Request({"do": "profile", "from": source, "to": target, **self.window}, _profile)


def question(sources: Stops, targets: Stops, after: str, until: str, by: str, criterion: Criterion) -> Question:
    """The question of a profile. Raises ValueError if the server could only refuse it with 112: if a clock isn't one, there is no such criterion, or
    a side has no stop, or one twice."""
    for name, clock in (("after", after), ("until", until), ("by", by)):
        if not isinstance(clock, str) or CLOCK.fullmatch(clock) is None:
            raise ValueError(f"{name} isn't a clock, HH:MM:SS: {str(clock)[:80]!r}")
    if criterion not in get_args(Criterion):
        raise ValueError(f"{criterion!r} isn't a criterion: {', '.join(get_args(Criterion))}")
    sides = [(stops,) if isinstance(stops, str) else tuple(stops) for stops in (sources, targets)]
    for stops in sides:
        if not stops or len(set(stops)) < len(stops):
            raise ValueError("there must be at least one stop on each side, and none twice")
    return Question(sides[0], sides[1], {"after": after, "until": until, "by": by, "criterion": criterion})


def merged(profiles: Iterable[Profile]) -> Profile:
    """The answer of several pairs in one version: the points of all that no other of them dominates, each once, in order, and the shortest walk."""
    answers = list(profiles)
    points = sorted((point for answer in answers for point in answer.points), key=lambda it: (-seconds_of(it.dep), _value(it)))
    kept: list[Point] = []
    for point in points:
        if not any(all(mine <= its for mine, its in zip(_value(other), _value(point))) for other in kept):
            kept.append(point)
    walks = [answer.walk for answer in answers if answer.walk is not None]
    return Profile(answers[0].version, tuple(sorted(kept, key=lambda it: (seconds_of(it.dep), _value(it)))), min(walks, default=None))


def _value(point: Point) -> tuple[int, int, int]:
    return seconds_of(point.arr), point.trips or 0, point.walked or 0


def _profile(reply: Reply) -> Profile:
    walk = reply["walk"]
    return Profile(_number(reply, "version"), tuple(map(_point, reply["points"])), None if walk is None else _number(reply, "walk"))


def _point(it: Reply) -> Point:
    if JOURNEY.fullmatch(it["journey"]) is None:
        raise ValueError("a point without a journey")
    legs = tuple(map(_named_leg, it["legs"])) if "legs" in it else None
    return Point(it["dep"], it["arr"], it["journey"], it.get("trips"), it.get("walked"), legs)


def _named_leg(it: Reply) -> NamedRide | NamedWalk:
    if "trip" not in it:
        return NamedWalk(_text(it, "from"), _text(it, "to"), _number(it, "secs"))
    repeat = _number(it, "repeat") if "repeat" in it else 0
    return NamedRide(_text(it, "trip"), _number(it, "day"), _text(it, "from"), _clock(it, "dep"), _text(it, "to"), _clock(it, "arr"), repeat)


def _leg(first: str, last: str, source: str, target: str, seconds: str) -> Ride | Walk:
    return Ride(int(first), int(last)) if first else Walk(int(source), int(target), int(seconds))


def _number(reply: Reply, key: str) -> int:
    number = reply[key]
    if type(number) is not int:
        raise TypeError(f"{key} isn't a whole number")
    return number


def _text(reply: Reply, key: str) -> str:
    text = reply[key]
    if not isinstance(text, str):
        raise TypeError(f"{key} isn't a text")
    return text


def _clock(reply: Reply, key: str) -> str:
    clock = _text(reply, key)
    seconds_of(clock)
    return clock


def _zone(zone: tzinfo | str) -> tzinfo:
    return ZoneInfo(zone) if isinstance(zone, str) else zone
