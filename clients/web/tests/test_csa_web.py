"""Tests of the gateway, with a client that makes up its answers.

    PYTHONPATH=clients/python:clients/web python3 clients/web/tests/test_csa_web.py
"""

from __future__ import annotations

import re
import struct
import tempfile
import unittest
from collections.abc import Iterator, Sequence
from contextlib import contextmanager
from dataclasses import replace
from datetime import date, datetime, timedelta, timezone
from pathlib import Path
from urllib.parse import unquote
from zoneinfo import ZoneInfo

from csa_client import NamedRide, NamedWalk, Pinned, Point, Profile, Refused, SessionEnded
from csa_client.image import Connection, Image
from csa_web.feed import Feed, _contrast
from csa_web.gateway import Kept, create_app
from csa_web.search import Leg, Sessions, legs_of, named_legs_of
from csa_web.words import Axis, clock, duration

TOP = Path(__file__).resolve().parents[3]
BASE = 1705276800
FAST = Point("08:00:00", "08:20:00", "ride 0 0 walk 1 1 0 ride 2 2", trips=2)
SLOW = Point("08:00:00", "08:30:00", "ride 0 1", trips=1)
BERLIN = ZoneInfo("Europe/Berlin")
EVIL = '<script>alert("1")</script>'
STOPS = f"""stop_id,stop_name,location_type,platform_code
A,"{EVIL.replace('"', '""')}",,
B,Café & Müller's,0,
C,Central,,1
C2,Central,,2
D,Central,,
S,Central,1,
"""
ROUTES = 'route_id,route_short_name,route_color,route_text_color\nR,"1""2",FFEE00,FFFFFF\n'
TRIPS = "route_id,service_id,trip_id,trip_headsign\nR,S,T1,End\nQ,S,T2,\n"
DAY = {"day": "2024-01-15", "time": "07:00"}


class FakeClient:
    """A session that answers every profile alike, or raises."""

    def __init__(self, answer: Profile | Exception, base: int = BASE) -> None:
        self.answer, self.base = answer, base
        self.asked: list[tuple] = []
        self.open = 0

    def __enter__(self) -> FakeClient:
        self.open += 1
        return self

    def __exit__(self, *_: object) -> None:
        self.open -= 1

    @contextmanager
    def pinned(self) -> Iterator[Pinned]:
        yield Pinned(1, self.base)

    def profile(self, sources: Sequence[str], targets: Sequence[str], **window: str) -> Profile:
        self.asked.append((tuple(sources), tuple(targets), window))
        if isinstance(self.answer, Exception):
            raise self.answer
        return self.answer


class Folder(unittest.TestCase):
    def setUp(self) -> None:
        room = tempfile.TemporaryDirectory()
        self.addCleanup(room.cleanup)
        self.folder = Path(room.name)
        self.write(self.folder)
        self.feed = Feed(self.folder)

    def write(self, folder: Path) -> None:
        agency = "agency_id,agency_name,agency_url,agency_timezone\n1,A,http://a.example,Europe/Berlin\n"
        for name, text in {"agency": "\ufeff" + agency, "stops": STOPS, "routes": ROUTES, "trips": TRIPS}.items():
            (folder / f"{name}.txt").write_text(text, encoding="utf-8")


class Feeds(Folder):
    def test_labels_tell_stops_apart(self) -> None:
        labels = {stop.id: stop.label for stop in self.feed.stops.values()}
        self.assertEqual(labels, {"A": EVIL, "B": "Café & Müller's", "C": "Central, platform 1", "C2": "Central, platform 2", "D": "Central (D)"})
        self.assertEqual(self.feed.zone, BERLIN)

    def test_long_and_empty_names_have_labels(self) -> None:
        (self.folder / "stops.txt").write_text(f"stop_id,stop_name\nL,{'x' * 60_000}\nE,\n")
        labels = [stop.label for stop in Feed(self.folder).stops.values()]
        self.assertEqual(labels, ["x" * 120 + "… (L)", "(E)"])

    def test_completes(self) -> None:
        for text in ("MÜL", "mul", "Muller", " cafe "):
            self.assertEqual([place.ids for place in self.feed.complete(text)], [("B",)], text)
        # the labels that begin with it come first, of them those of several stops, then labels of which a word begins so, then the others
        self.assertEqual([place.ids for place in self.feed.complete("c")], [("C", "C2", "D"), ("B",), ("D",), ("C",), ("C2",), ("A",)])
        self.assertEqual([place.ids for place in self.feed.complete("p")], [("C",), ("C2",), ("A",)])
        self.assertEqual(len(self.feed.complete("c", most=2)), 2)
        self.assertEqual(self.feed.complete("x"), [])

    def test_finds(self) -> None:
        for text, found in {"Central, platform 2": [("C2",)], "D": [("D",)], "central": [("C", "C2", "D")], "caf": [("B",)], "x": []}.items():
            self.assertEqual([place.ids for place in self.feed.find(text)], found, text)

    def stops(self, *rows: str) -> Feed:
        (self.folder / "stops.txt").write_text("stop_id,stop_name,location_type,parent_station,platform_code\n" + "".join(f"{row}\n" for row in rows))
        return Feed(self.folder)

    def test_a_station_is_all_its_stops(self) -> None:
        feed = self.stops("P,Zürich HB,1,,", "8503000,Zürich HB,,,", "z31,Zürich HB,,P,31", "z32,Zürich HB,,P,32", "E,Zürich HB,2,P,")
        (place,) = feed.find("zurich hb")
        self.assertEqual((place.id, place.label, place.ids), ("P", "Zürich HB", ("z31", "z32", "8503000")))
        self.assertEqual([it.label for it in feed.complete("zur")], ["Zürich HB", "Zürich HB (8503000)", "Zürich HB, platform 31", "Zürich HB, platform 32"])
        self.assertEqual([feed.find(text)[0].ids for text in ("z31", "Zürich HB, platform 31")], [("z31",), ("z31",)])

    def test_a_name_is_found_beside_many_that_begin_with_it(self) -> None:
        longer = [f"b{number},\"Bern, {number}gasse\",,," for number in range(30)]
        feed = self.stops(*longer, "P,Bern,1,,", "8,Bern,,P,8", "9,Bern,,P,9")
        self.assertEqual([place.ids for place in feed.find("bern")], [("8", "9")])
        self.assertEqual([place.label for place in feed.complete("Bern")][:3], ["Bern", "Bern, platform 8", "Bern, platform 9"])

    def test_a_station_and_its_only_stop_are_not_told_apart(self) -> None:
        feed = self.stops("P,Évian-les-Bains,1,,", "e1,Évian-les-Bains,,P,")
        self.assertEqual([[place.id for place in feed.find(text)] for text in ("evian", "les bains", "evian-les-bains")], [["P"], [], ["P"]])

    def test_two_stations_of_one_name_are_two_places(self) -> None:
        feed = self.stops("P,Neustadt,1,,", "Q,Neustadt,1,,", "p1,Neustadt,,P,1", "q1,Neustadt,,Q,2")
        self.assertEqual([(place.id, place.label) for place in feed.find("Neustadt")][:2], [("P", "Neustadt (P)"), ("Q", "Neustadt (Q)")])

    def test_text_on_a_route_can_be_read(self) -> None:
        route = self.feed.trips["T1"].route
        self.assertEqual((route.name, route.colour, route.text), ('1"2', "#ffee00", "#000000"))
        self.assertEqual(self.feed.trips["T1"].headsign, "End")
        other = self.feed.trips["T2"].route
        self.assertEqual(other.name, "Q")
        self.assertGreaterEqual(_contrast(other.colour, other.text), 4.5)


class Images(unittest.TestCase):
    def sample(self) -> list[int]:
        content = (TOP / "examples/base.csa").read_bytes()
        return list(struct.unpack(f"<{len(content) // 4}I", content))

    def image(self, words: list[int]) -> Image:
        file = tempfile.NamedTemporaryFile()
        self.addCleanup(file.close)
        file.write(struct.pack(f"<{len(words)}I", *words))
        file.flush()
        return Image.open(file.name)

    def test_both_layouts_say_the_same(self) -> None:
        words = self.sample()
        second = [words[0], 2, *words[2:45], 0, 0, *words[45:]]
        for image in (self.image(words), self.image(second)):
            self.assertEqual((image.base, image.stops, image.trips, image.connections), (BASE, 3, 2, 3))
            self.assertEqual(image.connection(2), Connection(1, 2, 29520, 30000, 1, 3))
            self.assertEqual([image.stop_id(number) for number in range(3)], ["A", "B", "C"])
            self.assertEqual([image.trip_id(number) for number in range(2)], ["T1", "T2"])
            self.assertEqual(image.days, (date(2024, 1, 15), date(2024, 1, 15)))
            for look_up, number in ((image.connection, 3), (image.stop_id, 3), (image.trip_id, 2)):
                with self.assertRaises(IndexError):
                    look_up(number)

    def test_what_is_no_image(self) -> None:
        words = self.sample()
        for wrong in ([1], [1, *words[1:]], [words[0], 3, *words[2:]], words[:-1], [*words, 0], [*words[:4], 4, *words[5:]]):
            with self.assertRaises(ValueError, msg=wrong[:9]):
                self.image(wrong)

    def test_legs(self) -> None:
        image, pinned = self.image(self.sample()), Pinned(1, BASE)
        at = lambda clock: pinned.instant(clock)  # noqa: E731
        legs = legs_of(FAST, image, pinned, ("B", "A"), ("C",))
        change = Leg("B", "B", at("08:10:00"), at("08:10:00"))
        self.assertEqual(legs, (Leg("A", "B", at("08:00:00"), at("08:10:00"), "T1"), change, Leg("B", "C", at("08:12:00"), at("08:20:00"), "T2")))
        self.assertEqual([leg.is_change for leg in legs], [False, True, False])

    def test_named_legs_need_no_image(self) -> None:
        pinned = Pinned(1, BASE)
        at = lambda clock: pinned.instant(clock)  # noqa: E731
        parts = NamedWalk("A", "B", 60), NamedRide("T2", 20240115, "B", "08:12:00", "C", "08:20:00"), NamedWalk("C", "D", 30)
        legs = (
            Leg("A", "B", at("08:11:00"), at("08:12:00")),
            Leg("B", "C", at("08:12:00"), at("08:20:00"), "T2"),
            Leg("C", "D", at("08:20:00"), at("08:20:30")),
        )
        self.assertEqual(named_legs_of(parts, pinned, at("08:11:00")), legs)

    def test_legs_of_another_image_are_none(self) -> None:
        image, pinned = self.image(self.sample()), Pinned(1, BASE)
        for point, source, target in (
            (FAST, "B", "C"),
            (FAST, "A", "B"),
            (Point("08:01:00", "08:20:00", FAST.journey), "A", "C"),
            (Point("08:00:00", "08:21:00", FAST.journey), "A", "C"),
            (Point("08:00:00", "08:20:00", "ride 0 2"), "A", "C"),
            (Point("08:00:00", "08:20:00", "ride 0 0 ride 7 7"), "A", "C"),
        ):
            self.assertIsNone(legs_of(point, image, pinned, (source,), (target,)), point)
        self.assertIsNone(legs_of(FAST, image, Pinned(1, BASE + 86400), ("A",), ("C",)))


class Words(unittest.TestCase):
    def test_clocks_and_durations(self) -> None:
        instant = datetime(2024, 1, 15, 23, 30, tzinfo=timezone.utc)
        self.assertEqual(clock(instant, BERLIN, date(2024, 1, 15)), "00:30 (+1 d)")
        self.assertEqual(clock(instant + timedelta(seconds=5), BERLIN), "00:30:05")
        self.assertEqual([duration(timedelta(seconds=it)) for it in (0, 59, 60, 3599, 3660)], ["0 s", "59 s", "1 min", "1 h 00 min", "1 h 01 min"])

    def test_ticks_are_round_also_where_the_clocks_change(self) -> None:
        # on 2024-10-27 the clocks of Berlin go back at 01:00 UTC
        axis = Axis(datetime(2024, 10, 27, 0, 10, tzinfo=timezone.utc), datetime(2024, 10, 27, 3, 10, tzinfo=timezone.utc), BERLIN)
        self.assertEqual([clock(tick, BERLIN) for tick in axis.ticks()], ["02:00", "03:00", "04:00"])
        self.assertEqual(axis.percent(axis.end), "100.000%")

    def test_there_are_at_most_six_ticks(self) -> None:
        begin = datetime(2024, 1, 15, 7, tzinfo=timezone.utc)
        for minutes in (1, 20, 25, 61, 300, 1439, 5000):
            axis = Axis(begin, begin + timedelta(minutes=minutes), BERLIN)
            self.assertTrue(1 <= len(axis.ticks()) <= 6, minutes)
            self.assertTrue(all(axis.begin <= tick <= axis.end for tick in axis.ticks()), minutes)


class Keeping(Folder):
    def test_another_file_of_the_name_is_read(self) -> None:
        kept = Kept(Feed, self.folder, self.folder / "stops.txt")
        self.assertIs(kept(), kept())
        before = kept()
        for text, is_new in (("stop_name\nX\n", False), ("stop_id,stop_name\nX,X\n", True)):
            (self.folder / "new").write_text(text)
            (self.folder / "new").replace(self.folder / "stops.txt")
            self.assertEqual(kept() is not before, is_new)
        self.assertEqual(list(kept().stops), ["X"])
        (self.folder / "stops.txt").unlink()
        self.assertEqual(list(kept().stops), ["X"])


class BadFeeds(Folder):
    def test_what_is_missing_is_named(self) -> None:
        for name, text, why in (
            ("stops.txt", "stop_name\nX\n", "stops.txt: no column stop_id"),
            ("trips.txt", "", "trips.txt: no column trip_id"),
            ("agency.txt", "agency_timezone\nMars/X\n", "agency.txt: this system has no time zone 'Mars/X'"),
        ):
            before = (self.folder / name).read_text()
            (self.folder / name).write_text(text)
            with self.assertRaisesRegex(ValueError, why):
                Feed(self.folder)
            (self.folder / name).write_text(before)


class Pages(Folder):
    def open(self, answer: Profile | Exception, most: int = 1, **words: int) -> None:
        self.client = FakeClient(answer, **words)
        self.sessions = Sessions(lambda: self.client, most, 0.05)
        image = Image.open(TOP / "examples/base.csa")
        self.app = create_app(lambda: self.feed, lambda: image, self.sessions).test_client()

    def get(self, path: str, status: int, **words: str) -> str:
        reply = self.app.get(path, query_string=words)
        self.assertEqual(reply.status_code, status, reply.text)
        self.assertIn("default-src 'none'", reply.headers["Content-Security-Policy"])
        self.assertNotIn("unsafe", reply.headers["Content-Security-Policy"])
        return reply.text

    def test_a_search(self) -> None:
        # 08:00 in Berlin is 07:00 after the base, which is that of UTC
        self.open(Profile(1, (FAST, SLOW), 1500))
        page = self.get("/", 200, **{"from": "A", "to": "Central, platform 1"}, **DAY, criterion="arrival+trips")
        window = {"after": "06:00:00", "until": "08:00:00", "by": "20:00:00", "criterion": "arrival+trips"}
        self.assertEqual(self.client.asked, [(("A",), ("C",), window)])
        self.assertEqual(re.findall(r'"times">(\d\d:\d\d – \d\d:\d\d)</span>\n<span class="facts">([^<]*)', page), [
            ("09:00 – 09:20", "20 min, 1 change"), ("09:00 – 09:30", "30 min, direct, walking is no slower"),
        ])
        self.assertIn("Directly on foot: <strong>25 min</strong>", page)
        self.assertEqual(page.count('class="ride"'), 3)
        self.assertIn('fill="#ffee00"', page)
        self.assertIn("towards End", page)

    def test_names_are_text_and_nothing_is_inline(self) -> None:
        self.open(Profile(1, (FAST,), None))
        for source in ("A", EVIL, '"><script>'):
            page = self.app.get("/", query_string={"from": source, "to": 'x"y', **DAY}).text
            self.assertEqual(re.findall(r"<script(?! defer src=\"/static/page.js\">)", page), [])
            self.assertEqual(re.findall(r"\s(?:style|on[a-z]+)=", page), [])
            self.assertNotIn('x"y', page)

    def test_no_journey(self) -> None:
        self.open(Profile(1, (), None))
        self.assertIn("No journey departs in this time", self.get("/", 200, **{"from": "A", "to": "B"}, **DAY))

    def test_an_answer_of_another_version_has_no_legs(self) -> None:
        self.open(Profile(2, (FAST,), None), base=BASE + 3600)
        page = self.get("/", 200, **{"from": "A", "to": "C"}, **DAY)
        self.assertIn("another timetable", page)
        self.assertEqual((page.count('class="plain"'), page.count('class="ride"')), (1, 0))

    def test_what_the_server_names_needs_no_image(self) -> None:
        self.open(Profile(2, (replace(FAST, named_legs=(NamedRide("T1", 20240115, "A", "08:00:00", "C", "08:20:00"),)),), None), base=BASE + 3600)
        page = self.get("/", 200, **{"from": "A", "to": "C"}, **DAY)
        self.assertNotIn("another timetable", page)
        self.assertEqual((page.count('class="plain"'), page.count('class="ride"')), (0, 1))

    def test_a_name_of_several_stops_is_all_of_them(self) -> None:
        self.open(Profile(1, (FAST,), None))
        page = self.get("/", 200, **{"from": "B", "to": "central"}, **DAY)
        self.assertEqual([ends[:2] for ends in self.client.asked], [(("B",), ("C", "C2", "D"))])
        self.assertIn("Café &amp; Müller&#39;s to Central</h2>", page)

    def test_asks_which_stop_is_meant(self) -> None:
        self.open(Profile(1, (), None))
        page = self.get("/", 400, **{"from": "B", "to": "platform"}, **DAY)
        links = re.findall(r'<li><a href="([^"]*)">([^<]*)</a>', page)
        self.assertEqual([label for _, label in links], ["Central, platform 1", "Central, platform 2"])
        self.assertEqual(self.app.get(links[0][0].replace("&amp;", "&")).status_code, 200)
        self.assertEqual([ends[:2] for ends in self.client.asked], [(("B",), ("C",))])

    def test_arrive_by(self) -> None:
        # from the version's base on, since twelve hours before would be earlier; only what arrives in the two hours before 10:25 in Berlin
        self.open(Profile(1, (replace(FAST, arr="07:24:59"), FAST, SLOW), None))
        page = self.get("/", 200, **{"from": "A", "to": "C", "day": "2024-01-15", "time": "10:25", "when": "arrive"})
        self.assertEqual(self.client.asked[0][2] | {"criterion": ""}, {"after": "00:00:00", "until": "09:25:00", "by": "09:25:00", "criterion": ""})
        self.assertEqual(re.findall(r'"times">(\d\d:\d\d – \d\d:\d\d)</span>\n<span class="facts">', page), ["09:00 – 09:20", "09:00 – 09:30"])

    def test_earlier_now_and_later(self) -> None:
        self.open(Profile(1, (), None))
        page = self.get("/", 200, **{"from": "A", "to": "C", "day": "2024-01-15", "time": "23:10", "hours": "4"})
        links = dict(re.findall(r'<a href="([^"]*)"[^>]*>(Earlier|Now|Later)</a>', page))
        moves = {text: re.findall(r"(day|time)=([^&]*)", unquote(address).replace("&amp;", "&")) for address, text in links.items()}
        self.assertEqual(moves, {"Earlier": [("day", "2024-01-15"), ("time", "19:10")], "Now": [], "Later": [("day", "2024-01-16"), ("time", "03:10")]})

    def test_what_the_page_refuses(self) -> None:
        self.open(Profile(1, (), None))
        for status, words in (
            (404, {"from": "nowhere", "to": "B"}),
            (400, {"from": "B", "to": ""}),
            (400, {"from": "B", "to": "B"}),
            (400, {"from": "A", "to": "B", "day": "2024-02-30"}),
            (400, {"from": "A", "to": "B", "day": "2024-01-14"}),
            (400, {"from": "A", "to": "B", "day": "9999-12-31", "time": "23:30"}),
            # later than the last clock after the base
            (400, {"from": "A", "to": "B", "day": "2150-01-01"}),
            (400, {"from": "A", "to": "B", "hours": "3"}),
            (400, {"from": "A", "to": "B", "when": "never"}),
            (400, {"from": "Central", "to": "C2"}),
        ):
            self.assertIn('role="alert"', self.get("/", status, **{**DAY, **words}))
        self.assertEqual(self.client.asked, [])
        self.assertNotIn('role="alert"', self.get("/", 200))

    def test_the_addresses_of_programs(self) -> None:
        self.open(Profile(3, (FAST,), None))
        self.assertEqual(self.app.get("/api/stops?q=caf").json, [{"id": "B", "label": "Café & Müller's", "name": "Café & Müller's", "platform": "", "stops": ["B"]}])
        self.assertEqual(self.app.get("/api/stops/C2").json, {"id": "C2", "label": "Central, platform 2", "name": "Central", "platform": "2", "stops": ["C2"], "station": ""})
        answer = self.app.get("/api/profile", query_string={"from": "A", "to": "C", **DAY}).json
        self.assertEqual((answer["version"], answer["zone"], answer["walk"], answer["from"]["id"]), (3, "Europe/Berlin", None, "A"))
        (departure,) = answer["departures"]
        self.assertEqual((departure["dep"], departure["arr"], departure["rides"]), ("2024-01-15T09:00:00+01:00", "2024-01-15T09:20:00+01:00", 2))
        self.assertEqual([leg.get("trip") for leg in departure["legs"]], ["T1", None, "T2"])
        self.assertEqual([leg.get("headsign") for leg in departure["legs"]], ["End", None, ""])
        self.assertEqual(departure["legs"][0]["route"], {"name": '1"2', "colour": "#ffee00", "text": "#000000"})
        self.assertEqual(departure["legs"][2]["to"], {"id": "C", "name": "Central", "platform": "1"})
        self.assertEqual(self.app.get("/api/profile", query_string={"from": "cafe", "to": "Central", **DAY}).json["to"]["stops"], ["C", "C2", "D"])
        self.assertEqual(self.app.get("/health").json, {"status": "ok", "version": 1})
        for status, path, words in (
            (400, "/api/stops", {}),
            (400, "/api/profile", {"from": "A", **DAY}),
            (400, "/api/profile", {"from": "A", "to": "C", "day": "2024-01-15"}),
            (400, "/api/profile", {"from": "A", "to": "C", **DAY, "criterion": "price"}),
            (404, "/api/profile", {"from": "A", "to": "Nowhere", **DAY}),
            (404, "/api/stops/Nowhere", {}),
        ):
            self.assertIn(f'"status":{status}', self.get(path, status, **words))

    def test_refusals_are_statuses_and_sessions_are_given_back(self) -> None:
        gone = ConnectionRefusedError("refused"), TimeoutError("timed out"), SessionEnded("ended")
        refused = {31: 404, 32: 400, 33: 400, 112: 400, 116: 503, 91: 503}
        for fault, status in (*((it, 503) for it in gone), *((Refused(number, "Name"), it) for number, it in refused.items())):
            self.open(fault)
            for path in ("/", "/api/profile", "/"):
                text = self.get(path, status, **{"from": "A", "to": "C"}, **DAY)
                self.assertEqual("more hours than the server takes" in text, isinstance(fault, Refused) and fault.number == 33)
            self.assertEqual(self.client.open, 0)

    def test_the_unit_may_read_the_folder_that_running_installs(self) -> None:
        installed = re.search(r"^ *install -d -o root -g (\S+) -m 750 /var/lib/csa ", (TOP / "docs/RUNNING.md").read_text(), re.MULTILINE)
        assert installed is not None
        self.assertIn(f"SupplementaryGroups={installed[1]}", (TOP / "clients/web/csa-web.service").read_text().splitlines())

    def test_who_finds_all_sessions_taken_is_refused(self) -> None:
        self.open(Profile(1, (), None))
        with self.sessions.session():
            self.get("/api/profile", 503, **{"from": "A", "to": "C"}, **DAY)
        self.get("/api/profile", 200, **{"from": "A", "to": "C"}, **DAY)

    def test_a_long_address_is_refused(self) -> None:
        self.open(Profile(1, (), None))
        for path in ("/", "/api/stops", "/api/profile"):
            self.get(path, 414, q="x" * 1_000_000)
        self.get("/", 200)


if __name__ == "__main__":
    unittest.main()
