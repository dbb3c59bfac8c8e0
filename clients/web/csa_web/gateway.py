"""The page and its JSON addresses."""

from __future__ import annotations

import threading
from collections.abc import Callable
from datetime import date, datetime, time, timedelta, timezone
from pathlib import Path
from typing import Any, Generic, TypeVar, get_args
from zoneinfo import ZoneInfo

from csa_client import Criterion
from csa_client.image import Image
from flask import Flask, Response, jsonify, render_template, request, url_for

from .feed import Feed, Place, Stop
from .search import Answer, Departure, Leg, Problem, Query, Sessions, search
from .words import axis_of, changes, clock, duration

Value = TypeVar("Value")

LONGEST_QUERY = 4096
HOURS = (1, 2, 4, 8)
WHEN = {"leave": "Leave after", "arrive": "Arrive by"}
DEFAULTS = {"hours": "2", "when": "leave"}
CRITERIA: dict[Criterion, str] = {
    "arrival": "arrival alone",
    "arrival+trips": "arrival, changes",
    "arrival+trips+walk": "arrival, changes, walking",
}
assert set(CRITERIA) == set(get_args(Criterion))
HEADERS = {
    "Content-Security-Policy": "default-src 'none'; style-src 'self'; script-src 'self'; connect-src 'self'; form-action 'self'; "
    "base-uri 'none'; frame-ancestors 'none'",
    "X-Content-Type-Options": "nosniff",
    "Referrer-Policy": "no-referrer",
}


class Kept(Generic[Value]):
    """A value that is read from a path, and read again when the file is replaced; if that fails, the old value is kept."""

    def __init__(self, read: Callable[[Path], Value], path: Path, mark: Path) -> None:
        """`mark` is the file that shows whether it was replaced. If the first `read` raises an exception, so does this."""
        self._read, self._path, self._mark = read, path, mark
        self._turn = threading.Lock()
        self._seen = self._signature()
        self._value = read(path)

    def __call__(self) -> Value:
        with self._turn:
            seen = self._signature()
            if seen is not None and seen != self._seen:
                self._seen = seen
                try:
                    self._value = self._read(self._path)
                except (OSError, ValueError, KeyError):
                    pass
            return self._value

    def _signature(self) -> tuple[int, ...] | None:
        try:
            status = self._mark.stat()
        except OSError:
            return None
        return status.st_dev, status.st_ino, status.st_mtime_ns


def create_app(feed: Callable[[], Feed], image: Callable[[], Image | None], sessions: Sessions) -> Flask:
    """The gateway over a feed, the image from which legs are resolved, and the server's sessions."""
    app = Flask(__name__)
    app.jinja_env.filters["duration"] = duration
    app.jinja_env.globals["changes"] = changes
    app.jinja_env.trim_blocks = app.jinja_env.lstrip_blocks = True

    @app.before_request
    def refuse_long() -> tuple[Response, int] | None:
        if len(request.query_string) <= LONGEST_QUERY:
            return None
        return jsonify(error="The address is too long.", status=414), 414

    @app.after_request
    def add_headers(response: Response) -> Response:
        response.headers.update(HEADERS)
        return response

    @app.get("/")
    def page() -> tuple[str, int]:
        words, current = request.args, feed()
        fields = _fields(words, current, image())
        answer = query = problem = None
        if words.get("from", "").strip() or words.get("to", "").strip():
            try:
                query = _query(fields, current)
                answer = search(sessions, image(), query)
            except Problem as it:
                problem = it
        if query is not None:
            fields |= {"from": query.source.label, "to": query.target.label}
        return _show(current, fields, query, answer, problem)

    @app.get("/api/stops")
    def stops() -> Response | tuple[Response, int]:
        text = request.args.get("q", "").strip()
        if not text:
            return _refuse(Problem(400, "q is missing: a part of a stop's name."))
        return jsonify([_place(place) for place in feed().complete(text)])

    @app.get("/api/stops/<path:number>")
    def stop(number: str) -> Response | tuple[Response, int]:
        place = feed().place(number)
        if place is None:
            return _refuse(Problem(404, "No stop or station of the timetable has this stop_id."))
        return jsonify({**_place(place), "station": feed().stops[number].station if number in feed().stops else ""})

    @app.get("/api/profile")
    def profile() -> Response | tuple[Response, int]:
        current = feed()
        try:
            query = _api_query(request.args, current)
            return jsonify(_answer(search(sessions, image(), query), query, current))
        except Problem as problem:
            return _refuse(problem)

    @app.get("/health")
    def health() -> Response | tuple[Response, int]:
        try:
            with sessions.session() as client, client.pinned() as pinned:
                return jsonify(status="ok", version=pinned.version)
        except Problem as problem:
            return _refuse(problem)

    return app


def _fields(words: Any, feed: Feed, image: Image | None) -> dict[str, str]:
    """What the form shows: the query, or else the time that it is now, on the nearest day of the timetable."""
    now = datetime.now(feed.zone)
    days = image.days if image else None
    day = min(max(now.date(), days[0]), days[1]) if days else now.date()
    defaults = {"from": "", "to": "", "day": day.isoformat(), "time": now.strftime("%H:%M"), **DEFAULTS, "criterion": "arrival+trips"}
    fields = {name: words.get(name, default).strip() for name, default in defaults.items()}
    return fields | {"first": days[0].isoformat() if days else "", "last": days[1].isoformat() if days else ""}


def _query(fields: dict[str, str], feed: Feed) -> Query:
    source, target = (_find(feed, fields[name], name) for name in ("from", "to"))
    instant, hours, criterion = _when(fields, feed.zone)
    if fields["when"] not in WHEN:
        raise Problem(400, f"when must be one of {', '.join(WHEN)}.", "when")
    return Query(source, target, instant, hours, criterion, fields["when"] == "arrive")


def _find(feed: Feed, text: str, field: str) -> Place:
    """The place that the text means: a stop_id, a name or a part of one."""
    if not text:
        raise Problem(400, f"Please enter a stop in “{field.title()}”.", field)
    found = feed.find(text)
    if not found:
        raise Problem(404, f"No stop is called “{text[:80]}”.", field)
    if len(found) > 1:
        raise Problem(400, f"Which stop is “{text[:80]}”?", field, found)
    return found[0]


def _api_query(words: Any, feed: Feed) -> Query:
    for field in ("from", "to", "day", "time"):
        if field not in words:
            raise Problem(400, f"{field} is missing.", field)
    return _query({**DEFAULTS, "criterion": "arrival", **words.to_dict()}, feed)


def _when(fields: dict[str, str], zone: ZoneInfo) -> tuple[datetime, int, Criterion]:
    """The instant, the hours and the criterion of the query."""
    try:
        there = datetime.combine(date.fromisoformat(fields["day"]), time.fromisoformat(fields["time"]).replace(tzinfo=zone))
        instant = there.astimezone(timezone.utc)
    except (ValueError, OverflowError) as error:
        raise Problem(400, "The day must be YYYY-MM-DD, and the time HH:MM.", "day") from error
    if fields["hours"] not in map(str, HOURS):
        raise Problem(400, f"hours must be one of {', '.join(map(str, HOURS))}.", "hours")
    criterion = next((it for it in CRITERIA if it == fields["criterion"]), None)
    if criterion is None:
        raise Problem(400, f"criterion must be one of {', '.join(CRITERIA)}.", "criterion")
    return instant, int(fields["hours"]), criterion


def _show(feed: Feed, fields: dict[str, str], query: Query | None, answer: Answer | None, problem: Problem | None) -> tuple[str, int]:
    """The page with its status."""
    day = query.instant.astimezone(feed.zone).date() if query else None
    asked: dict[str, Any] = {name: fields[name] for name in ("from", "to", "day", "time", "hours", "when", "criterion")}

    def moved(hours: int) -> str:
        """The address of the same query, some hours later."""
        assert query is not None
        there = (query.instant + timedelta(hours=hours)).astimezone(feed.zone)
        words: dict[str, Any] = asked | {"day": there.date().isoformat(), "time": there.strftime("%H:%M")}
        return url_for("page", **words)

    page = render_template(
        "page.html",
        fields=fields,
        hours=HOURS,
        when=WHEN,
        criteria=CRITERIA,
        query=query,
        answer=answer,
        axis=axis_of(answer, feed.zone) if answer else None,
        begins=answer.begins.astimezone(feed.zone).date() if answer else None,
        problem=problem,
        feed=feed,
        clock=lambda instant: clock(instant, feed.zone, day),
        hour=lambda instant: clock(instant, feed.zone),
        link=lambda field, meant: url_for("page", **{**asked, field: meant.id or meant.label}),
        now=url_for("page", **{name: value for name, value in asked.items() if name not in ("day", "time", "when")}),
        moved=moved,
        stop=lambda number: feed.stops[number].spot if number in feed.stops else number,
    )
    return page, problem.status if problem else 200


def _refuse(problem: Problem) -> tuple[Response, int]:
    meant = {"candidates": [_place(place) for place in problem.candidates]} if problem.candidates else {}
    return jsonify(error=problem.reason, status=problem.status, **meant), problem.status


def _place(place: Place) -> dict[str, Any]:
    platform = place.stops[0].platform if len(place.stops) == 1 else ""
    return {"id": place.id, "label": place.label, "name": place.name, "platform": platform, "stops": list(place.ids)}


def _stop(number: str, feed: Feed) -> dict[str, str]:
    stop = feed.stops.get(number)
    return {"id": number, "name": stop.name if stop else number, "platform": stop.platform if stop else ""}


def _answer(answer: Answer, query: Query, feed: Feed) -> dict[str, Any]:
    return {
        "version": answer.version,
        "from": _place(query.source),
        "to": _place(query.target),
        "zone": str(feed.zone),
        "walk": None if answer.walk is None else int(answer.walk.total_seconds()),
        "departures": [_departure(it, feed) for it in answer.departures],
    }


def _departure(it: Departure, feed: Feed) -> dict[str, Any]:
    legs = None if it.legs is None else [_leg(leg, feed) for leg in it.legs]
    return {**_times(it, feed.zone), "rides": it.rides, "walked": it.walked, "legs": legs}


def _leg(leg: Leg, feed: Feed) -> dict[str, Any]:
    fields: dict[str, Any] = {**_times(leg, feed.zone), "from": _stop(leg.source, feed), "to": _stop(leg.target, feed)}
    if leg.trip is None:
        return fields
    trip = feed.trips.get(leg.trip)
    route = trip and {"name": trip.route.name, "colour": trip.route.colour, "text": trip.route.text}
    return {**fields, "trip": leg.trip, "route": route, "headsign": trip and trip.headsign}


def _times(it: Departure | Leg, zone: ZoneInfo) -> dict[str, str]:
    return {"dep": it.departure.astimezone(zone).isoformat(), "arr": it.arrival.astimezone(zone).isoformat()}
