"""An independent reader of GTFS feeds, for `bench/feeds`: it shares no code with csa, and says what csa has to print of a feed, and each byte of the image.

`Feed` raises what `csa tables` refuses, `Feed.counts` is its line, and `Feed.build` gives the line of `csa build` and the image, or raises what that refuses.
"""
import datetime
import itertools
import re
import struct
from collections import defaultdict

NAMES = {1: "MissingFile", 2: "MissingColumn", 3: "BadUtf8", 4: "RowLength", 5: "BadTime", 6: "BadDate", 7: "BadNumber", 8: "IdTwice", 9: "UnknownId",
         10: "ZonesDiffer", 11: "SequenceTwice", 12: "EndWithoutTime", 13: "TimeGoesBack", 14: "HopWithoutDuration", 15: "NotAStop", 18: "BadHeadway",
         22: "DayOutOfRange", 41: "WalkTooLong"}
WEEKDAYS = ["monday", "tuesday", "wednesday", "thursday", "friday", "saturday", "sunday"]
REQUIRED = {
    "agency": ["agency_timezone"],
    "stops": ["stop_id"],
    "trips": ["service_id", "trip_id"],
    "stop_times": ["trip_id", "arrival_time", "departure_time", "stop_id", "stop_sequence"],
    "calendar": ["service_id", *WEEKDAYS, "start_date", "end_date"],
    "calendar_dates": ["service_id", "date", "exception_type"],
    "transfers": ["from_stop_id", "to_stop_id"],
    "frequencies": ["trip_id", "start_time", "end_time", "headway_secs"],
}
BETWEEN = ["from_route_id", "to_route_id", "from_trip_id", "to_trip_id"]
OPTIONAL = {"stops": ["location_type", "parent_station"], "stop_times": ["pickup_type", "drop_off_type"],
            "transfers": ["transfer_type", "min_transfer_time", *BETWEEN]}
UNIQUE = {"stops": ["stop_id"], "trips": ["trip_id"], "calendar": ["service_id"], "calendar_dates": ["service_id", "date"]}
# The last instant of a noon, and the longest footpath of a closure, in seconds.
LAST_INSTANT, LONGEST_WALK = 253_402_207_200, 1_000_000


class Refused(Exception):
    """A refusal: its number, and for a table the file and the record."""


def records_of(text):
    """The records of a file: lists of fields."""
    records, fields, field, state = [], [], b"", "record"
    for piece in re.findall(rb'[^\r\n,"]+|.', text, re.DOTALL):
        if state == "quoted":
            state, field = ("closed", field) if piece == b'"' else (state, field + piece)
        elif piece in b"\r\n":
            if state != "record":
                records.append([*fields, field])
            fields, field, state = [], b"", "record"
        elif piece == b",":
            fields, field, state = [*fields, field], b"", "start"
        elif piece == b'"' and state != "field":
            state, field = "quoted", field + b'"' * (state == "closed")
        else:
            state, field = "field", field + piece
    return records + ([[*fields, field]] if state != "record" else [])


def number(text):
    return int(text.split(b".")[0]) if re.fullmatch(rb"[0-9]{1,9}(\.0+)?", text) else None


def time(text):
    parts = re.fullmatch(rb"([0-9]{1,2}):([0-5][0-9]):([0-5][0-9])", text)
    return int(parts[1]) * 3600 + int(parts[2]) * 60 + int(parts[3]) if parts else None


def date(text):
    try:
        return datetime.date(int(text[:4]), int(text[4:6]), int(text[6:])) if re.fullmatch(rb"[0-9]{8}", text) else None
    except ValueError:
        return None


def judged(column, text):
    """The value of a field, and the number of its refusal or None."""
    if column in ("stop_sequence", "headway_secs", "exception_type", *WEEKDAYS):
        allowed = {"stop_sequence": [number(text)], "headway_secs": [number(text)], "exception_type": [1, 2]}.get(column, [0, 1])
        return number(text), None if number(text) in allowed and number(text) is not None else 7
    if column in ("location_type", "pickup_type", "drop_off_type"):
        return (number(text) if number(text) in range(5 if column == "location_type" else 4) else 0), None
    if column in ("arrival_time", "departure_time", "start_time", "end_time"):
        return time(text), None if time(text) is not None or not text and column in ("arrival_time", "departure_time") else 5
    if column in ("date", "start_date", "end_date"):
        return date(text), None if date(text) else 6
    return text, None


def read(files, name):
    """The rows of a table, as dictionaries."""
    def refuse(fault, record=0):
        raise Refused(fault, name + ".txt", record)
    if name not in files:
        refuse(1)
    try:
        files[name].decode("utf-8")
    except UnicodeDecodeError:
        refuse(3)
    header, *records = records_of(files[name].removeprefix(b"\xef\xbb\xbf")) or [[]]
    header = [column.strip(b" ").decode() for column in header]
    if not set(REQUIRED[name]) <= set(header):
        refuse(2)
    rows, seen = [], set()
    for record, fields in enumerate(records, 1):
        if len(fields) != len(header):
            refuse(4, record)
        row = {"record": record}
        for column in REQUIRED[name] + OPTIONAL.get(name, []):
            row[column], fault = judged(column, fields[header.index(column)].strip(b" ") if column in header else b"")
            if fault:
                refuse(fault, record)
        if name == "agency" and rows and row["agency_timezone"] != rows[0]["agency_timezone"]:
            refuse(10, record)
        key = tuple(row[column] for column in UNIQUE.get(name, ["record"]))
        if key in seen:
            refuse(8, record)
        if row.get("headway_secs") == 0:
            refuse(18, record)
        seen.add(key)
        rows.append(row)
    return rows


class Feed:
    """The tables of a feed that `csa tables` doesn't refuse, and the times of its trips. Making one raises the refusal."""

    def __init__(self, files, strict):
        self.tables = {}
        for name in REQUIRED:
            missing = name not in files and name in ("calendar", "calendar_dates", "transfers", "frequencies")
            self.tables[name] = [] if missing else read(files, name)
            if name == "calendar_dates" and not {"calendar", "calendar_dates"} & set(files):
                raise Refused(1, "calendar.txt", 0)
        self.kinds = {row["stop_id"]: row["location_type"] for row in self.tables["stops"]}
        self.stops = [stop for stop, kind in self.kinds.items() if kind == 0]
        self.children = defaultdict(list)
        for row in self.tables["stops"]:
            if row["location_type"] == 0 and row["parent_station"]:
                self.look_up("stops", row, ["parent_station"], [1], 9)
                self.children[row["parent_station"]].append(row["stop_id"])
        self.rows = {row["trip_id"]: [] for row in self.tables["trips"]}
        self.flex = {row["trip_id"] for row in self.tables["stop_times"] if not row["stop_id"]} & set(self.rows)
        for row in self.tables["stop_times"]:
            if row["trip_id"] not in self.rows:
                raise Refused(9, "stop_times.txt", row["record"])
            if row["trip_id"] not in self.flex:
                self.look_up("stop_times", row, ["stop_id"], [0], 15)
            self.rows[row["trip_id"]].append(row)
        for row in self.tables["frequencies"]:
            if row["trip_id"] not in self.rows:
                raise Refused(9, "frequencies.txt", row["record"])
        self.times, self.lifted = {}, 0
        for trip, rows in self.rows.items():
            if trip not in self.flex and len(rows) >= 2:
                self.judge(trip, sorted(rows, key=lambda row: (row["stop_sequence"], row["record"])), strict)
        self.walks = [row for row in self.tables["transfers"] if not any(row[column] for column in BETWEEN)
                      and (not row["transfer_type"] or number(row["transfer_type"]) in range(4))]
        for row in self.walks:
            self.look_up("transfers", row, ["from_stop_id", "to_stop_id"], [0, 1], 15)

    def look_up(self, name, row, columns, kinds, fault):
        found = [self.kinds.get(row[column]) for column in columns]
        if not set(found) <= set(kinds):
            raise Refused(9 if None in found else fault, name + ".txt", row["record"])

    def judge(self, trip, rows, strict):
        """Refuses a trip's rows, or notes its times after they are spread and lifted."""
        def refuse(fault, row):
            raise Refused(fault, "stop_times.txt", row["record"])
        for before, row in itertools.pairwise(rows):
            if before["stop_sequence"] == row["stop_sequence"]:
                refuse(11, row)
        known = [[row[column] for column in ("arrival_time", "departure_time") if row[column] is not None] for row in rows]
        timed = [at for at, times in enumerate(known) if times]
        for end in (0, len(rows) - 1):
            if end not in timed:
                refuse(12, rows[end])
        spread = [[times[0], times[-1]] if times else None for times in known]
        departure = 0
        for at in timed:
            if not departure <= spread[at][0] <= spread[at][1]:
                refuse(13, rows[at])
            departure = spread[at][1]
        for first, last in itertools.pairwise(timed):
            start, end = spread[first][1], spread[last][0]
            for at in range(first + 1, last):
                spread[at] = [start + (at - first) * (end - start) // (last - first)] * 2
        lifted = spread[:1]
        for row, before, (arrival, departure) in zip(rows[1:], spread, spread[1:]):
            if strict and arrival <= before[1]:
                refuse(14, row)
            arrival = max(arrival, lifted[-1][1] + 1)
            lifted.append([arrival, max(departure, arrival)])
        self.lifted += lifted != spread
        self.times[trip] = [(self.stops.index(row["stop_id"]), times, row["pickup_type"] != 1, 2 * (row["drop_off_type"] != 1))
                            for row, times in zip(rows, lifted)]

    def counts(self):
        return "tables agencies {agency} stops {stops} trips {trips} stop_times {stop_times} calendar {calendar} calendar_dates {calendar_dates} " \
            "transfers {transfers}\n".format(**{name: len(rows) for name, rows in self.tables.items()})

    def is_active(self, service, day):
        rows = [row for row in self.tables["calendar"] if row["service_id"] == service]
        dated = [row["exception_type"] for row in self.tables["calendar_dates"] if (row["service_id"], row["date"]) == (service, day)]
        return 2 not in dated and (1 in dated or any(row[WEEKDAYS[day.weekday()]] and row["start_date"] <= day <= row["end_date"] for row in rows))

    def starts(self, trip):
        """The starts of a trip: those that frequencies.txt gives it, or that of its times."""
        rows = [row for row in self.tables["frequencies"] if row["trip_id"] == trip]
        starts = {start for row in rows for start in range(row["start_time"], row["end_time"], row["headway_secs"])}
        return sorted(starts) if rows else [self.times[trip][0][1][1]]

    def footpaths(self):
        """For each pair of stops the time of the shortest walk, where there is one."""
        claims = defaultdict(list)
        for row in self.walks:
            ends = [row["from_stop_id"], row["to_stop_id"]]
            kind, secs = number(row["transfer_type"]) or 0, number(row["min_transfer_time"])
            for one, other in itertools.product(*(self.children[end] if self.kinds[end] == 1 else [end] for end in ends)):
                usual = 120 if kind == 2 or kind == 0 and one != other else 0
                if kind != 3 or one != other:
                    claims[one, other].append((1 in [self.kinds[end] for end in ends], kind != 3, usual if secs is None else min(secs, 86_400)))
        walks = {(stop, stop): 0 for stop in self.stops}
        walks |= {pair: 120 for family in self.children.values() for pair in itertools.permutations(family, 2)}
        walks |= {pair: min(claimed)[2] for pair, claimed in claims.items()}
        walks = {pair: secs for pair, secs in walks.items() if pair not in claims or min(claims[pair])[1]}
        for middle, start, end in itertools.product(self.stops, repeat=3):
            if (start, middle) in walks and (middle, end) in walks:
                walked = walks[start, middle] + walks[middle, end]
                walks[start, end] = min(walked, walks.get((start, end), walked))
        return walks

    def build(self, first, days, offset):
        """The line of `csa build`, and the image. `offset` gives the seconds east of Greenwich at noon of a day."""
        hops, runs, bases = [], [], []
        for ordinal in range(first.toordinal(), first.toordinal() + days):
            if ordinal > datetime.date.max.toordinal():
                raise Refused(22)
            bases.append((ordinal - 719_163) * 86_400 - offset(datetime.date.fromordinal(ordinal)))
            if bases[-1] + 43_200 > LAST_INSTANT:
                raise Refused(22)
        for day, base in enumerate(bases, first.toordinal()):
            day = datetime.date.fromordinal(day)
            for trip in self.tables["trips"]:
                name = trip["trip_id"]
                is_run = name in self.times and self.is_active(trip["service_id"], day)
                for repeat, start in enumerate(self.starts(name) if is_run else []):
                    later = base - bases[0] + start - self.times[name][0][1][1]
                    for place, (here, there) in enumerate(itertools.pairwise(self.times[name])):
                        departure, arrival = here[1][1] + later, there[1][0] + later
                        hops.append((departure, arrival, len(runs), place, [here[0], there[0], departure, arrival, len(runs), here[2] + there[3]]))
                    runs.append((name, int(f"{day:%Y%m%d}"), repeat))
        walks = self.footpaths()
        if max(walks.values(), default=0) > LONGEST_WALK:
            raise Refused(41)
        into = [[[start, walks[name, stop]] for start, name in enumerate(self.stops) if (name, stop) in walks] for stop in self.stops]
        names = self.stops + [name for name, _, _ in runs]
        text = b"".join(names)
        words = [0x50415343, 2, len(self.stops), len(runs), len(hops), len(walks), len(text), bases[0] % 2**32, bases[0] // 2**32 % 2**32]
        words += itertools.chain(*(hop[-1] for hop in sorted(hops)), itertools.accumulate(map(len, into), initial=0), *itertools.chain(*into))
        words += itertools.chain(itertools.accumulate(map(len, names), initial=0), *zip(*(run[1:] for run in runs)))
        named = {row["trip_id"] for row in self.tables["frequencies"]}
        line = f"stops {len(self.stops)} runs {len(runs)} connections {len(hops)} footpaths {len(walks)} lifted {self.lifted} flex {len(self.flex)}"
        line += f" frequencies {len(named)} skipped {len(self.tables['transfers']) - len(self.walks)}\n"
        return line, struct.pack(f"<{len(words)}I", *words) + text + bytes(-len(text) % 4)
