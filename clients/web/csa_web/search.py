"""A search: the query to the csa server, and its answer as instants, stops and trips.

All instants are in UTC: within another zone Python compares and subtracts local times, which go back once a year.
"""

from __future__ import annotations

import threading
from collections.abc import Callable, Collection, Iterator
from contextlib import contextmanager
from dataclasses import dataclass, replace
from datetime import datetime, timedelta, timezone

from csa_client import Criterion, CsaClient, CsaError, NamedRide, NamedWalk, Pinned, Point, Profile, Refused, Ride, Walk
from csa_client.image import Image

from .feed import Place

# how long after the latest departure the latest arrival is, or how long before the earliest arrival the earliest departure
LONGEST_JOURNEY = timedelta(hours=12)

# of how many pairs of stops a search may be
MOST_PAIRS = 10_000
STATUS_OF_REFUSAL = {31: 404, 32: 400, 33: 400, 112: 400, 113: 400}
OUTSIDE = "This time is outside the timetable."
REASON_OF_REFUSAL = {
    31: "One of these stops isn't in the timetable.",
    32: "Both are the same place.",
    33: "This time is outside the timetable, or these are more hours than the server takes.",
}


class Problem(Exception):
    """Why there is no answer: an HTTP status and a sentence, and the places that could be meant if it isn't clear which."""

    def __init__(self, status: int, reason: str, field: str = "", candidates: list[Place] | None = None) -> None:
        super().__init__(reason)
        self.status, self.reason, self.field, self.candidates = status, reason, field, candidates or []


@dataclass(frozen=True)
class Query:
    """The best departures from one place to another by a criterion: those in some hours from an instant in UTC on, or, if `arrive`, those that
    arrive in some hours before it."""

    source: Place
    target: Place
    instant: datetime
    hours: int
    criterion: Criterion
    arrive: bool = False

    def moved(self, by: timedelta) -> Query:
        """The same query at another instant."""
        return replace(self, instant=self.instant + by)


@dataclass(frozen=True)
class Leg:
    """A part of a journey between two stops, given by their ids: a ride if it has a trip, otherwise a walk."""

    source: str
    target: str
    departure: datetime
    arrival: datetime
    trip: str | None = None

    @property
    def is_change(self) -> bool:
        """Whether it is a change at one stop, and no way on foot."""
        return self.trip is None and self.source == self.target


@dataclass(frozen=True)
class Departure:
    """A best departure. Its legs are None if the server sends none and the image isn't the one that answered."""

    departure: datetime
    arrival: datetime
    rides: int
    walked: int | None
    legs: tuple[Leg, ...] | None


@dataclass(frozen=True)
class Answer:
    """All best departures, how long the direct walk takes, if there is one, and when the timetable begins."""

    version: int
    departures: tuple[Departure, ...]
    walk: timedelta | None
    begins: datetime


class Sessions:
    """Sessions with the server: a few at once, each closed as soon as it has answered."""

    def __init__(self, connect: Callable[[], CsaClient], most: int, patience: float) -> None:
        """`connect` opens a session. If `most` of them are open, a search waits for up to `patience` seconds."""
        self._connect, self._patience = connect, patience
        self._free = threading.BoundedSemaphore(most)

    @contextmanager
    def session(self) -> Iterator[CsaClient]:
        if not self._free.acquire(timeout=self._patience):
            raise Problem(503, "Too many searches at once. Please try again in a moment.")
        try:
            with self._connect() as client:
                yield client
        except Refused as refused:
            status = STATUS_OF_REFUSAL.get(refused.number, 503)
            raise Problem(status, REASON_OF_REFUSAL.get(refused.number, f"The timetable server refused: {refused}.")) from refused
        except (CsaError, OSError) as error:
            raise Problem(503, "The timetable server doesn't answer. Please try again in a moment.") from error
        finally:
            self._free.release()


def search(sessions: Sessions, image: Image | None, query: Query) -> Answer:
    """Asks the server. The legs are those that it sends, or else those of the image, if it is the one that answered. Problem if there is no
    answer."""
    sources, targets = query.source.ids, query.target.ids
    if set(sources) & set(targets):
        raise Problem(400, REASON_OF_REFUSAL[32])
    if len(sources) * len(targets) > MOST_PAIRS:
        raise Problem(400, "These places have too many stops: please choose a platform.")
    with sessions.session() as client, client.pinned() as pinned:
        profile = client.profile(sources, targets, **_window(pinned, query), criterion=query.criterion)
    return _answer(pinned, profile, image, query)


def _window(pinned: Pinned, query: Query) -> dict[str, str]:
    """The clocks of a query's window in the version that is pinned. A journey may begin as early as the version does."""
    span = timedelta(hours=query.hours)
    try:
        if query.arrive:
            first = max(query.instant - span - LONGEST_JOURNEY, datetime.fromtimestamp(pinned.base, timezone.utc))
            ends = first, query.instant, query.instant
        else:
            ends = query.instant, query.instant + span, query.instant + span + LONGEST_JOURNEY
        return dict(zip(("after", "until", "by"), map(pinned.clock, ends)))
    except (ValueError, OverflowError) as error:
        raise Problem(400, OUTSIDE) from error


def _answer(pinned: Pinned, profile: Profile, image: Image | None, query: Query) -> Answer:
    departures = []
    for point in profile.points:
        if query.arrive and pinned.instant(point.arr) < query.instant - timedelta(hours=query.hours):
            continue
        legs = _legs(point, image, pinned, query)
        rides = sum(isinstance(leg, Ride) for leg in point.legs)
        ends = pinned.instant(point.dep), pinned.instant(point.arr)
        departures.append(Departure(*ends, rides, point.walked, legs))
    walk = None if profile.walk is None else timedelta(seconds=profile.walk)
    return Answer(profile.version, tuple(departures), walk, datetime.fromtimestamp(pinned.base, timezone.utc))


def _legs(point: Point, image: Image | None, pinned: Pinned, query: Query) -> tuple[Leg, ...] | None:
    """The legs of a point, from the server or else from the image."""
    if point.named_legs is not None:
        return named_legs_of(point.named_legs, pinned, pinned.instant(point.dep))
    return None if image is None else legs_of(point, image, pinned, query.source.ids, query.target.ids)


def named_legs_of(parts: tuple[NamedRide | NamedWalk, ...], pinned: Pinned, now: datetime) -> tuple[Leg, ...]:
    """The legs that the server sends; a walk begins when the leg before it ends."""
    legs = []
    for part in parts:
        if isinstance(part, NamedWalk):
            leg = Leg(part.from_stop, part.to_stop, now, now + timedelta(seconds=part.seconds))
        else:
            leg = Leg(part.from_stop, part.to_stop, pinned.instant(part.dep), pinned.instant(part.arr), part.trip)
        legs.append(leg)
        now = leg.arrival
    return tuple(legs)


def legs_of(point: Point, image: Image, pinned: Pinned, sources: Collection[str], targets: Collection[str]) -> tuple[Leg, ...] | None:
    """The legs of a point in an image. None if they don't lead from a source to a target at its times: then it is another image."""
    legs: list[Leg] = []
    here, now = sources, pinned.instant(point.dep)
    try:
        for part in point.legs:
            leg = _walk(part, image, now) if isinstance(part, Walk) else _ride(part, image)
            if leg is None or leg.source not in here or leg.departure < now:
                return None
            legs.append(leg)
            here, now = (leg.target,), leg.arrival
    except IndexError:
        return None
    fits = image.base == pinned.base and now == pinned.instant(point.arr) and any(stop in targets for stop in here)
    return tuple(legs) if fits else None


def _walk(walk: Walk, image: Image, now: datetime) -> Leg:
    return Leg(image.stop_id(walk.from_stop), image.stop_id(walk.to_stop), now, now + timedelta(seconds=walk.seconds))


def _ride(ride: Ride, image: Image) -> Leg | None:
    """The ride, or None if its ends belong to different trips."""
    first, last = image.connection(ride.first), image.connection(ride.last)
    if first.trip != last.trip:
        return None
    departure = datetime.fromtimestamp(image.base + first.departure, timezone.utc)
    arrival = datetime.fromtimestamp(image.base + last.arrival, timezone.utc)
    return Leg(image.stop_id(first.source), image.stop_id(last.target), departure, arrival, image.trip_id(first.trip))
