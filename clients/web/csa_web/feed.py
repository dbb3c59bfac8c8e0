"""What a feed has and an image doesn't: names, colours, headsigns and platforms of its stops, routes and trips, its stations and its zone."""

from __future__ import annotations

import csv
import re
import unicodedata
from collections import Counter, defaultdict
from collections.abc import Iterable, Iterator
from dataclasses import dataclass
from pathlib import Path
from zoneinfo import ZoneInfo, ZoneInfoNotFoundError

# routes without a colour of their own take these in turn
COLOURS = ("#1f5fa8", "#b3432b", "#2e7d4f", "#7a4b9e", "#8a6100", "#00707a", "#a63a72", "#4d5b66")

# a longer name is cut on the page
LONGEST_NAME = 120

csv.field_size_limit(1 << 24)


@dataclass(frozen=True)
class Stop:
    """A point where vehicles stop, such as one platform. Its label is its name, with its platform or id if other stops have the same name."""

    id: str
    name: str
    platform: str
    label: str
    station: str

    @property
    def spot(self) -> str:
        """The name, with the platform if there is one."""
        return f"{self.name}, platform {self.platform}" if self.platform else self.name


@dataclass(frozen=True)
class Place:
    """What a rider names: one stop, or all stops of a station, or all stops of one name. `id` is that of the stop or the station, if there is one."""

    id: str
    name: str
    label: str
    stops: tuple[Stop, ...]

    @property
    def ids(self) -> tuple[str, ...]:
        """The stop_ids of its stops."""
        return tuple(stop.id for stop in self.stops)


@dataclass(frozen=True)
class Route:
    """The name by which riders know a route, and the colours `#rrggbb` of its bar and of the text on it."""

    name: str
    colour: str
    text: str


@dataclass(frozen=True)
class Trip:
    route: Route
    headsign: str


class Feed:
    """A feed's folder, read once."""

    def __init__(self, folder: Path) -> None:
        """Reads the folder. OSError if a file can't be read, ValueError if it lacks a column or the system doesn't know the zone."""
        agency: dict[str, str] = next(_rows(folder / "agency.txt"), {})
        self.zone = _zone(agency.get("agency_timezone") or "UTC", folder / "agency.txt")
        self.stops, stations = _read_stops(folder)
        self.trips = _read_trips(folder, _read_routes(folder))
        self.places = _places(self.stops.values(), stations)
        single = {stop.id: Place(stop.id, stop.name, stop.label, (stop,)) for stop in self.stops.values()}
        self._by_id = single | {place.id: place for place in self.places if place.id}
        self._folded = [(folded(place.label), place) for place in self.places]

    def place(self, number: str) -> Place | None:
        """The stop or station with this stop_id."""
        return self._by_id.get(number)

    def complete(self, text: str, most: int = 12) -> list[Place]:
        """The places whose labels contain the text, whatever its case and accents: first those that are called so, all of them; then, up to `most`
        in all, labels that begin with it, labels with a word that does, and the others."""
        wanted = folded(text)
        word = re.compile(rf"\b{re.escape(wanted)}")
        found = [(label, place) for label, place in self._folded if wanted in label]

        def rank(it: tuple[str, Place]) -> tuple[bool, bool, bool, bool, str]:
            label, place = it
            return not _is_called(place, wanted), not label.startswith(wanted), word.search(label) is None, len(place.stops) == 1, label

        found.sort(key=rank)
        alike = sum(_is_called(place, wanted) for _, place in found)
        return [place for _, place in found[: max(most, alike)]]

    def find(self, text: str) -> list[Place]:
        """The place with this label or id; otherwise the places that a name or a part of a label may mean: the first that has all stops of the
        others, if there is one, or several if it isn't clear which."""
        wanted = folded(text)
        exact = self._by_id.get(text) or next((place for label, place in self._folded if label == wanted), None)
        if exact is not None:
            return [exact]
        found = self.complete(text)
        found = [place for place in found if _is_called(place, wanted)] or found
        return [place for place in found if all(set(it.ids) <= set(place.ids) for it in found)][:1] or found


def folded(text: str) -> str:
    """The text without regard to case, accents and spaces at its ends."""
    parts = unicodedata.normalize("NFKD", text.strip().casefold())
    return "".join(part for part in parts if not unicodedata.combining(part))


def _is_called(place: Place, wanted: str) -> bool:
    return wanted in (folded(place.name), folded(place.label))


def _zone(name: str, path: Path) -> ZoneInfo:
    try:
        return ZoneInfo(name)
    except (ZoneInfoNotFoundError, ValueError, OSError) as error:
        raise ValueError(f"{path}: this system has no time zone {name!r}") from error


def _rows(path: Path, *needed: str) -> Iterator[dict[str, str]]:
    """The records of a file. A field that a record lacks is empty; ValueError if the file lacks one of the columns that are needed."""
    with open(path, encoding="utf-8-sig", newline="") as file:
        reader = csv.DictReader(file)
        columns = {name.strip() for name in reader.fieldnames or ()}
        for column in needed:
            if column not in columns:
                raise ValueError(f"{path}: no column {column}")
        for row in reader:
            yield {name.strip(): (value or "").strip() for name, value in row.items() if name is not None}


def _read_stops(folder: Path) -> tuple[dict[str, Stop], dict[str, str]]:
    """The stops by their ids, and the names of the stations by theirs; entrances and the like are neither."""
    everything = list(_rows(folder / "stops.txt", "stop_id"))
    stations = {row["stop_id"]: row.get("stop_name", "") or row["stop_id"] for row in everything if row.get("location_type") == "1"}
    rows = [row for row in everything if row.get("location_type", "") in ("", "0")]
    names = Counter(row.get("stop_name", "") for row in rows) + Counter(set(stations.values()))
    platforms = Counter((row.get("stop_name", ""), row.get("platform_code", "")) for row in rows)
    stops = {}
    for row in rows:
        number, name, platform = row["stop_id"], row.get("stop_name", ""), row.get("platform_code", "")
        label = _label(row, names[name], platforms[name, platform])
        stops[number] = Stop(number, name or number, platform, label, row.get("parent_station", ""))
    return stops, stations


def _label(row: dict[str, str], alike: int, alike_platforms: int) -> str:
    """A stop's name, with its platform or else its id if another stop or station has the same name, or if the name is cut."""
    name, platform = row.get("stop_name", ""), row.get("platform_code", "")
    if len(name) > LONGEST_NAME:
        return f"{name[:LONGEST_NAME]}… ({row['stop_id']})"
    if alike == 1 and name:
        return name
    return f"{name}, platform {platform}" if platform and alike_platforms == 1 else f"{name} ({row['stop_id']})".strip()


def _places(stops: Iterable[Stop], stations: dict[str, str]) -> list[Place]:
    """Each station with its stops, each name that several stops have and no station, and each stop, by their labels; of two with one label the first."""
    children: dict[str, list[Stop]] = defaultdict(list)
    named: dict[str, list[Stop]] = defaultdict(list)
    for stop in stops:
        children[stop.station].append(stop)
        named[stop.name].append(stop)
    alike = Counter(name for number, name in stations.items() if children.get(number))
    places = []
    for number, name in stations.items():
        if not children.get(number):
            continue
        # a stop of the station's name that names no station is one of its platforms, if only one station has that name
        beside = [stop for stop in named.get(name, ()) if not stop.station] if alike[name] == 1 else []
        places.append(Place(number, name, name if alike[name] == 1 else f"{name} ({number})", (*children[number], *beside)))
    for name, those in named.items():
        if len(those) > 1 and name not in alike:
            places.append(Place("", name, name, tuple(those)))
    places += [Place(stop.id, stop.name, stop.label, (stop,)) for those in named.values() for stop in those]
    first = {place.label: place for place in reversed(places)}
    return sorted(first.values(), key=lambda place: folded(place.label))


def _read_routes(folder: Path) -> dict[str, Route]:
    """The routes by their ids; a feed need not have the file, since csa needs none."""
    routes: dict[str, Route] = {}
    if not (folder / "routes.txt").exists():
        return routes
    for index, row in enumerate(_rows(folder / "routes.txt", "route_id")):
        name = row.get("route_short_name") or row.get("route_long_name") or row["route_id"]
        colour = _colour(row.get("route_color", "")) or COLOURS[index % len(COLOURS)]
        routes[row["route_id"]] = Route(name, colour, _readable(_colour(row.get("route_text_color", "")), colour))
    return routes


def _read_trips(folder: Path, routes: dict[str, Route]) -> dict[str, Trip]:
    """The trips by their ids; a route that isn't in routes.txt is named by its id."""
    trips = {}
    for row in _rows(folder / "trips.txt", "trip_id"):
        route_id = row.get("route_id", "")
        if route_id not in routes:
            colour = COLOURS[len(routes) % len(COLOURS)]
            routes[route_id] = Route(route_id, colour, _readable(None, colour))
        trips[row["trip_id"]] = Trip(routes[route_id], row.get("trip_headsign", ""))
    return trips


def _colour(digits: str) -> str | None:
    return f"#{digits.lower()}" if re.fullmatch(r"[0-9A-Fa-f]{6}", digits) else None


def _readable(text: str | None, colour: str) -> str:
    """The text's colour if it is legible on the other, otherwise black or white."""
    if text is not None and _contrast(text, colour) >= 4.5:
        return text
    return max("#000000", "#ffffff", key=lambda it: _contrast(it, colour))


def _contrast(one: str, other: str) -> float:
    """The contrast ratio of the Web Content Accessibility Guidelines, 1 to 21."""
    darker, lighter = sorted((_luminance(one), _luminance(other)))
    return (lighter + 0.05) / (darker + 0.05)


def _luminance(colour: str) -> float:
    parts = [int(colour[index : index + 2], 16) / 255 for index in (1, 3, 5)]
    red, green, blue = (part / 12.92 if part <= 0.04045 else float(((part + 0.055) / 1.055) ** 2.4) for part in parts)
    return 0.2126 * red + 0.7152 * green + 0.0722 * blue
