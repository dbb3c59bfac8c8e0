"""How instants and durations are written on the page, and their positions on its time axis."""

from __future__ import annotations

from dataclasses import dataclass
from datetime import date, datetime, timedelta, timezone
from zoneinfo import ZoneInfo

from .search import Answer

STEPS = [timedelta(minutes=minutes) for minutes in (5, 10, 15, 30, 60, 120, 240, 480)]


def clock(instant: datetime, zone: ZoneInfo, day: date | None = None) -> str:
    """The local time, with seconds unless they are 0, and how many days it is after the day of the query."""
    there = instant.astimezone(zone)
    text = there.strftime("%H:%M:%S" if there.second else "%H:%M")
    days = (there.date() - day).days if day else 0
    return f"{text} ({days:+} d)" if days else text


def duration(span: timedelta) -> str:
    """A duration in hours and minutes; in seconds below a minute."""
    seconds = int(span.total_seconds())
    if seconds < 60:
        return f"{seconds} s"
    hours, minutes = divmod((seconds + 30) // 60, 60)
    return f"{hours} h {minutes:02} min" if hours else f"{minutes} min"


def changes(count: int) -> str:
    """How many changes there are."""
    return "direct" if count == 0 else "1 change" if count == 1 else f"{count} changes"


@dataclass(frozen=True)
class Axis:
    """A span of time that all bars of an answer share."""

    begin: datetime
    end: datetime
    zone: ZoneInfo

    def percent(self, instant: datetime) -> str:
        """Where an instant is, from 0% to 100%."""
        return f"{100 * ((instant - self.begin) / (self.end - self.begin)):.3f}%"

    def width(self, begin: datetime, end: datetime) -> str:
        """How wide a span is."""
        return f"{100 * ((end - begin) / (self.end - self.begin)):.3f}%"

    def ticks(self) -> list[datetime]:
        """At most six round instants."""
        step = next((it for it in STEPS if (self.end - self.begin) / it <= 5), timedelta(days=1))
        midnight = self.begin.astimezone(self.zone).replace(hour=0, minute=0, second=0, microsecond=0).astimezone(timezone.utc)
        first = midnight + -((midnight - self.begin) // step) * step
        count = int((self.end - first) / step) + 1 if first <= self.end else 0
        return [first + number * step for number in range(count)]


def axis_of(answer: Answer, zone: ZoneInfo) -> Axis | None:
    """The axis from the first departure to the last arrival; None if there are no departures."""
    if not answer.departures:
        return None
    begin = min(it.departure for it in answer.departures)
    end = max(it.arrival for it in answer.departures)
    return Axis(begin, max(end, begin + timedelta(minutes=1)), zone)
