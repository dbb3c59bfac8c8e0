"""Reads images, as docs/IMAGE.md of csa describes them. This module doesn't verify the file: it relies on `csa verify` to accept it.

    image = Image.open("city.csa")
    connection = image.connection(26854)
    print(image.stop_id(connection.source), image.trip_id(connection.trip))
"""

from __future__ import annotations

import mmap
import os
import struct
from collections.abc import Iterator
from datetime import date
from functools import cached_property
from pathlib import Path
from typing import BinaryIO, NamedTuple

MAGIC = 0x50415343
HEADER = struct.Struct("<7Iq")
CONNECTION = struct.Struct("<6I")
FOOTPATH = struct.Struct("<2I")


class Connection(NamedTuple):
    """One hop of a trip, from one stop to the next. Times are seconds after the image's base; stops and the trip are numbers in the image."""

    source: int
    target: int
    departure: int
    arrival: int
    trip: int
    flags: int


class Image:
    """An image file, mapped into memory. The file may then be closed, and replacing it under its name doesn't change this image.

    `base` is the instant from which its times count, in seconds since 1970-01-01T00:00:00Z; `stops`, `trips` and `connections` are counts.
    Stops, trips and connections are numbered from 0.
    """

    def __init__(self, file: BinaryIO) -> None:
        """Maps the file. Raises ValueError if it isn't an image of layout 1 or 2, or its length doesn't fit its counts."""
        # an empty file can't be mapped
        if os.fstat(file.fileno()).st_size < HEADER.size:
            raise ValueError(f"{file.name} isn't an image: it is too short")
        self._bytes = mmap.mmap(file.fileno(), 0, access=mmap.ACCESS_READ)
        magic, layout, stops, trips, connections, footpaths, text, self.base = HEADER.unpack_from(self._bytes)
        if magic != MAGIC or layout not in (1, 2):
            raise ValueError(f"{file.name} isn't an image of layout 1 or 2")
        self.stops, self.trips, self.connections = stops, trips, connections
        self._foot_index = 9 + 6 * connections
        self._footpaths = self._foot_index + stops + 1
        self._names = self._footpaths + 2 * footpaths
        self._days = self._names + stops + trips + 1
        self._text = self._days + layout * trips
        if len(self._bytes) != 4 * (self._text + (text + 3) // 4):
            raise ValueError(f"{file.name} isn't a whole image: its length doesn't fit its counts")

    @classmethod
    def open(cls, path: str | Path) -> Image:
        """Opens the image in this file. Raises OSError if the file can't be opened, ValueError as `Image` does."""
        with open(path, "rb") as file:
            return cls(file)

    def connection(self, number: int) -> Connection:
        """The connection with this number; IndexError if there is none."""
        _check("connection", number, self.connections)
        return Connection(*CONNECTION.unpack_from(self._bytes, HEADER.size + CONNECTION.size * number))

    def stop_id(self, number: int) -> str:
        """The stop_id of the stop with this number; IndexError if there is none."""
        _check("stop", number, self.stops)
        return self._text_of(number)

    def trip_id(self, number: int) -> str:
        """The trip_id of the trip with this number; IndexError if there is none."""
        _check("trip", number, self.trips)
        return self._text_of(self.stops + number)

    @cached_property
    def stop_numbers(self) -> dict[str, int]:
        """The number of each stop_id; if two stops have the same stop_id, the number of the first, as in csa."""
        return {self._text_of(stop): stop for stop in reversed(range(self.stops))}

    @cached_property
    def days(self) -> tuple[date, date] | None:
        """The first and the last service day; None if there is no trip, or a day isn't a date."""
        numbers = memoryview(self._bytes)[4 * self._days : 4 * (self._days + self.trips)]
        first, last = 2**32, 0
        for (day,) in struct.iter_unpack("<I", numbers):
            first, last = min(first, day), max(last, day)
        try:
            return (_date(first), _date(last)) if self.trips else None
        except ValueError:
            return None

    def runs(self, trip_ids: set[str]) -> dict[str, list[tuple[int, int]]]:
        """The runs of each of these trip_ids: the number of the trip in the image, and its service day as the number YYYYMMDD.

        A trip_id that the image doesn't have has no entry.
        """
        # a name that can't be encoded in UTF-8 is in no image
        wanted = {name.encode(errors="surrogatepass"): name for name in trip_ids}
        found: dict[str, list[tuple[int, int]]] = {}
        for trip, name in enumerate(self._names_from(self.stops, self.trips)):
            if name in wanted:
                found.setdefault(wanted[name], []).append((trip, self._word(self._days + trip)))
        return found

    def rides(self, trips: set[int]) -> dict[int, list[tuple[int, Connection]]]:
        """The connections of each of these trips with their numbers, in the trip's order."""
        found: dict[int, list[tuple[int, Connection]]] = {trip: [] for trip in trips}
        rows = CONNECTION.iter_unpack(memoryview(self._bytes)[HEADER.size : HEADER.size + CONNECTION.size * self.connections])
        for number, row in enumerate(rows):
            if row[4] in found:
                found[row[4]].append((number, Connection(*row)))
        return found

    def footpath(self, source: int, target: int) -> int | None:
        """The seconds of the footpath from one stop to another, or None if there is none; from a stop to itself, the change time there.

        IndexError if one of the numbers isn't that of a stop.
        """
        _check("stop", source, self.stops)
        _check("stop", target, self.stops)
        for path in range(self._word(self._foot_index + target), self._word(self._foot_index + target + 1)):
            left, seconds = map(int, FOOTPATH.unpack_from(self._bytes, 4 * (self._footpaths + 2 * path)))
            if left == source:
                return seconds
        return None

    def _word(self, index: int) -> int:
        return int(struct.unpack_from("<I", self._bytes, 4 * index)[0])

    def _text_of(self, number: int) -> str:
        return next(self._names_from(number, 1)).decode(errors="replace")

    def _names_from(self, first: int, count: int) -> Iterator[bytes]:
        begin = self._word(self._names + first)
        for name in range(first, first + count):
            end = self._word(self._names + name + 1)
            yield self._bytes[4 * self._text + begin : 4 * self._text + end]
            begin = end


def _check(what: str, number: int, count: int) -> None:
    if not 0 <= number < count:
        raise IndexError(f"no {what} {number}: the image has {count}, numbered from 0")


def _date(number: int) -> date:
    return date(number // 10000, number // 100 % 100, number % 100)
