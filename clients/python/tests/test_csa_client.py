"""Tests of the clients: against a server of canned replies, and against `csa serve` where a built or released program has that command.

    PYTHONPATH=clients/python python3 clients/python/tests/test_csa_client.py

`.ci/client` runs them over the package as pip installs it.
"""

from __future__ import annotations

import asyncio
import os
import random
import shutil
import socket
import struct
import subprocess
import tempfile
import threading
import time
import unittest
from dataclasses import replace
from datetime import datetime, timezone
from pathlib import Path

from csa_client import AsyncCsaClient, CsaClient, NamedRide, NamedWalk, Pinned, Point, Profile, Refused, Ride, SessionEnded, Walk, parse_journey, seconds_of
from csa_client._protocol import merged
from csa_client.image import Connection, Image

TOP = Path(__file__).resolve().parents[3]
WINDOW = {"after": "07:00:00", "until": "09:00:00", "by": "10:00:00"}
QUERY = '"from": "A", "to": "C", "after": "07:00:00", "until": "09:00:00", "by": "10:00:00"'
FAST = Point("08:00:00", "08:20:00", "ride 0 0 walk 1 1 0 ride 2 2")
SLOW = Point("08:00:00", "08:30:00", "ride 0 1")
FAST_LEGS = (
    NamedRide("T1", 20240115, "A", "08:00:00", "B", "08:10:00"),
    NamedWalk("B", "B", 0),
    NamedRide("T2", 20240115, "B", "08:12:00", "C", "08:20:00"),
)
PIN = ('{"do": "pin"}', b'{"base":1705276800,"ok":"pin","version":1}\n')
RELEASE = ('{"do": "release"}', b'{"ok":"release"}\n')
PROFILE = (
    f'{{"do": "profile", {QUERY}, "criterion": "arrival"}}',
    b'{"ok":"profile","points":[{"arr":"08:20:00","dep":"08:00:00","journey":"ride 0 0 walk 1 1 0 ride 2 2"}],"version":1,"walk":null}\n',
)


def of_pair(source: str) -> str:
    """The request of a profile from this stop."""
    return PROFILE[0].replace('"from": "A"', f'"from": "{source}"')


SET = PROFILE[0].replace('"from": "A"', '"from": ["A", "B"]')
BAD_REQUEST = b'{"error":112,"name":"BadRequest"}\n'
PAIRS = PIN, PROFILE, (of_pair("B"), PROFILE[1]), RELEASE
# what a session that may use arrays sends for some sides, where the server takes arrays, takes none, or finds a line too long
SETS = (
    ([(SET, PROFILE[1]), PROFILE, (SET, PROFILE[1])], [(["A", "B"], ["C"]), ("A", "C"), (("A", "B"), "C")]),
    ([(PROFILE[0].replace('"to": "C"', '"to": ["C", "D"]'), PROFILE[1])], [(["A"], ["C", "D"])]),
    ([(SET, BAD_REQUEST), *PAIRS, *PAIRS], [(["A", "B"], "C"), (["A", "B"], "C")]),
    ([(SET, b'{"error":113,"name":"LineTooLong"}\n'), *PAIRS, (SET, PROFILE[1])], [(["A", "B"], "C"), (["A", "B"], "C")]),
)


class CannedServer:
    """Answers the lines of one connection by a list of pairs: the line that must come, and the bytes that go back (none: it hangs).

    With a pause, in seconds, each byte of a reply waits for it. With `reset`, it resets the connection when the next request comes.
    """

    def __init__(self, *talk: tuple[str, bytes], pause: float = 0.0, reset: bool = False) -> None:
        self.talk = talk
        self.pause = pause
        self.reset = reset
        self.mistakes: list[str] = []
        self.listener = socket.create_server(("127.0.0.1", 0))
        self.port = self.listener.getsockname()[1]
        self.ended = threading.Event()
        self.thread = threading.Thread(target=self.serve)
        self.thread.start()

    def serve(self) -> None:
        connection, _ = self.listener.accept()
        with connection, connection.makefile("rb") as lines:
            for wanted, reply in self.talk:
                line = lines.readline().decode()
                if line != wanted + "\n":
                    self.mistakes.append(line)
                self.send(connection, reply)
                if not reply:
                    self.ended.wait(5)
            if self.reset:
                lines.readline()
                connection.setsockopt(socket.SOL_SOCKET, socket.SO_LINGER, struct.pack("ii", 1, 0))

    def send(self, connection: socket.socket, reply: bytes) -> None:
        if not self.pause:
            connection.sendall(reply)
            return
        for byte in reply:
            if self.ended.wait(self.pause):
                return
            try:
                connection.sendall(bytes([byte]))
            except OSError:
                # the client has had enough
                return

    def close(self) -> None:
        self.ended.set()
        self.thread.join()
        self.listener.close()


class Journeys(unittest.TestCase):
    def test_a_text_is_rides_and_walks(self) -> None:
        self.assertEqual(FAST.legs, (Ride(0, 0), Walk(1, 1, 0), Ride(2, 2)))
        self.assertEqual(parse_journey("walk 7 8 60 ride 10 12"), (Walk(7, 8, 60), Ride(10, 12)))

    def test_another_text_is_none(self) -> None:
        for text in ("", "ride 0", "ride 0 0 ", "ride 0 0  ride 1 1", "ride -1 0", "walk 1 1", "ride 0 0 swim 1 1 0", "ride 0 0\n", "ride 0 ٣", f"ride 0 {10**10}"):
            with self.assertRaises(ValueError, msg=text):
                parse_journey(text)


class Instants(unittest.TestCase):
    # the second at which 2024-03-31 begins in Berlin; an hour is left out in that night
    PINNED = Pinned(version=1, base=1711839600)

    def test_clocks_count_over_a_change_of_the_clocks(self) -> None:
        self.assertEqual(self.PINNED.instant("01:59:59", "Europe/Berlin").isoformat(), "2024-03-31T01:59:59+01:00")
        self.assertEqual(self.PINNED.instant("02:00:00", "Europe/Berlin").isoformat(), "2024-03-31T03:00:00+02:00")
        self.assertEqual(self.PINNED.instant("25:00:00", "Europe/Berlin").isoformat(), "2024-04-01T02:00:00+02:00")
        self.assertEqual(self.PINNED.instant("02:00:00"), datetime(2024, 3, 31, 1, tzinfo=timezone.utc))

    def test_an_instant_has_the_clock_that_has_the_instant(self) -> None:
        for clock in ("00:00:00", "01:59:59", "02:00:00", "25:10:03", "123:00:00"):
            self.assertEqual(self.PINNED.clock(self.PINNED.instant(clock, "Europe/Berlin")), clock)

    def test_what_has_no_clock(self) -> None:
        for instant in (datetime(2024, 3, 30, tzinfo=timezone.utc), datetime(2024, 3, 31, 12)):
            with self.assertRaises(ValueError):
                self.PINNED.clock(instant)
        for clock in ("8:60:00", "08:00", "-1:00:00", "08:00:00 ", "9999999:00:00"):
            with self.assertRaises(ValueError, msg=clock):
                self.PINNED.instant(clock)


class Images(unittest.TestCase):
    """The image of layout 1 that docs/IMAGE.md spells out."""

    def setUp(self) -> None:
        self.image = Image.open(TOP / "examples/base.csa")

    def test_what_it_has(self) -> None:
        self.assertEqual((self.image.base, self.image.stops, self.image.trips, self.image.connections), (1705276800, 3, 2, 3))
        self.assertEqual(self.image.connection(2), Connection(1, 2, 29520, 30000, 1, 3))
        self.assertEqual([self.image.stop_id(stop) for stop in range(3)], ["A", "B", "C"])
        self.assertEqual([self.image.trip_id(trip) for trip in range(2)], ["T1", "T2"])
        self.assertEqual((self.image.footpath(1, 1), self.image.footpath(0, 1)), (0, None))
        self.assertEqual(self.image.runs({"T2", "T3"}), {"T2": [(1, 20240115)]})

    def test_numbers_that_it_has_not(self) -> None:
        for look_up, count in ((self.image.connection, 3), (self.image.stop_id, 3), (self.image.trip_id, 2)):
            for number in (-1, count):
                with self.assertRaisesRegex(IndexError, f"the image has {count}, numbered from 0"):
                    look_up(number)
        for ends in ((0, 3), (3, 0), (-1, 0), (0, -1)):
            with self.assertRaises(IndexError):
                self.image.footpath(*ends)

    def test_files_that_are_no_image(self) -> None:
        whole = (TOP / "examples/base.csa").read_bytes()
        with tempfile.TemporaryDirectory() as room:
            path = Path(room, "image")
            for content, why in ((b"", "too short"), (whole[:35], "too short"), (b"P" + whole[1:], "layout 1 or 2"), (whole[:-4], "isn't a whole image")):
                path.write_bytes(content)
                with self.assertRaisesRegex(ValueError, why):
                    Image.open(path)
            with self.assertRaises(FileNotFoundError):
                Image.open(Path(room, "another"))


def dominates(one: Point, other: Point) -> bool:
    """Whether a point departs no earlier than another and is no worse."""
    values = [(seconds_of(it.arr), it.trips or 0, it.walked or 0) for it in (one, other)]
    return seconds_of(one.dep) >= seconds_of(other.dep) and all(mine <= its for mine, its in zip(*values))


class Merging(unittest.TestCase):
    def test_what_stays_is_what_no_other_point_dominates(self) -> None:
        draw = random.Random(7)
        for _ in range(300):
            answers = []
            for _ in range(draw.randrange(1, 5)):
                points = [Point(f"08:0{draw.randrange(4)}:00", f"09:0{draw.randrange(5)}:00", "ride 0 0", draw.randrange(3), draw.randrange(3)) for _ in range(draw.randrange(6))]
                answers.append(Profile(4, tuple(points), draw.choice([None, 60, 90])))
            every = [point for answer in answers for point in answer.points]
            wanted = {point for point in every if not any(dominates(it, point) and it != point for it in every)}
            found = merged(answers)
            self.assertEqual(set(found.points), wanted)
            self.assertEqual(len(found.points), len(wanted))
            self.assertEqual(list(found.points), sorted(found.points, key=lambda it: (it.dep, it.arr, it.trips, it.walked)))
            self.assertEqual(found.walk, min((it.walk for it in answers if it.walk is not None), default=None))


class CannedReplies(unittest.TestCase):
    def test_several_stops_are_a_request_for_each_pair(self) -> None:
        window = '"after": "07:00:00", "until": "09:00:00", "by": "10:00:00", "criterion": "arrival"'
        pairs = [f'{{"do": "profile", "from": "{stop}", "to": "C", {window}}}' for stop in "AB"]
        early = b'{"ok":"profile","points":[{"arr":"08:20:00","dep":"08:00:00","journey":"ride 0 0"}],"version":3,"walk":90}\n'
        late = b'{"ok":"profile","points":[{"arr":"08:20:00","dep":"08:10:00","journey":"ride 1 1"}],"version":3,"walk":null}\n'
        pin, release = ('{"do": "pin"}', b'{"base":0,"ok":"pin","version":3}\n'), ('{"do": "release"}', b'{"ok":"release"}\n')
        pinned = b'{"error":92,"name":"AlreadyPinned"}\n'
        both = (pairs[0], early), (pairs[1], late)
        wanted = Profile(3, (Point("08:10:00", "08:20:00", "ride 1 1"),), 90)
        with self.session(pin, *both, release) as client:
            self.assertEqual(client.profile(["A", "B"], ["C"], **WINDOW), wanted)
        with self.session(('{"do": "pin"}', pinned), *both) as client:
            self.assertEqual(client.profile(("A", "B"), "C", **WINDOW), wanted)
        with self.session((pairs[1], late)) as client:
            self.assertEqual(client.profile(["B"], "C", **WINDOW), replace(wanted, walk=None))
        with self.session() as client:
            for sources in ([], ["A", "A"]):
                with self.assertRaises(ValueError):
                    client.profile(sources, "C", **WINDOW)

    def test_several_stops_are_one_request_if_the_server_takes_arrays(self) -> None:
        for talk, ask in SETS:
            with self.session(*talk, sets=True) as client:
                self.assertEqual([client.profile(*sides, **WINDOW) for sides in ask], [Profile(1, (FAST,), None)] * len(ask))
        # other refusals are the answer
        with self.session((SET, b'{"error":31,"name":"UnknownStop"}\n'), sets=True) as client, self.assertRaises(Refused) as refused:
            client.profile(["A", "B"], "C", **WINDOW)
        self.assertEqual(refused.exception.number, 31)
        with self.session((SET, BAD_REQUEST), PIN, (of_pair("A"), BAD_REQUEST), RELEASE, sets=True) as client, self.assertRaises(Refused) as refused:
            client.profile(["A", "B"], "C", **WINDOW)
        self.assertEqual(refused.exception.number, 112)

    def test_more_stops_than_an_array_may_have_are_asked_for_by_pairs(self) -> None:
        stops = [f"S{number}" for number in range(1001)]
        with self.session(PIN, *((of_pair(stop), PROFILE[1]) for stop in stops), RELEASE, sets=True, timeout=30.0) as client:
            self.assertEqual(client.profile(stops, "C", **WINDOW), Profile(1, (FAST,), None))

    def test_what_the_server_could_only_refuse_is_not_sent(self) -> None:
        wrong = [("after", "7"), ("until", 7), ("by", "10:00:60"), ("by", "1000000:00:00"), ("after", None), ("criterion", "fast"), ("criterion", None)]
        with self.session() as client:
            for name, value in wrong:
                with self.assertRaisesRegex(ValueError, name if name != "criterion" else "isn't a criterion: arrival, "):
                    client.profile("A", "C", **{**WINDOW, name: value})

    def test_pinned_releases_at_the_end_of_its_block(self) -> None:
        talk = ('{"do": "pin"}', b'{"base":0,"ok":"pin","version":3}\n'), ('{"do": "release"}', b'{"ok":"release"}\n')
        with self.session(*talk) as client:
            with self.assertRaises(KeyError), client.pinned() as pinned:
                self.assertEqual(pinned.version, 3)
                raise KeyError("a fault in the block")
            # the canned talk has ended: a third request finds no server
            with self.assertRaises(SessionEnded):
                client.release()

    def test_a_connection_that_is_reset_is_the_end_of_the_session(self) -> None:
        with self.session(PIN, reset=True) as client, self.assertRaises(SessionEnded):
            client.pin()
            client.release()

    def test_a_reset_is_the_end_of_an_asyncio_session(self) -> None:
        async def ask(port: int) -> None:
            async with AsyncCsaClient(port=port, timeout=5.0) as client:
                await client.pin()
                await client.release()

        server = CannedServer(PIN, reset=True)
        self.addCleanup(server.close)
        with self.assertRaises(SessionEnded):
            asyncio.run(ask(server.port))

    def session(self, *talk: tuple[str, bytes], timeout: float = 5.0, pause: float = 0.0, reset: bool = False, sets: bool = False) -> CsaClient:
        server = CannedServer(*talk, pause=pause, reset=reset)
        client = CsaClient(port=server.port, timeout=timeout, sets=sets)
        self.addCleanup(lambda: self.assertEqual(server.mistakes, []))
        self.addCleanup(server.close)
        self.addCleanup(client.close)
        return client

    def test_pins_and_releases(self) -> None:
        client = self.session(
            ('{"do": "pin"}', b'{"base":1705276800,"ok":"pin","version":1}\n'),
            ('{"do": "release"}', b'{"ok":"release"}\n'),
        )
        pinned = client.pin()
        self.assertEqual((pinned.version, pinned.base), (1, 1705276800))
        self.assertEqual(pinned.instant("08:00:00"), datetime(2024, 1, 15, 8, tzinfo=timezone.utc))
        self.assertEqual(pinned.instant("25:10:00"), datetime(2024, 1, 16, 1, 10, tzinfo=timezone.utc))
        client.release()

    def test_profiles(self) -> None:
        client = self.session(
            (
                f'{{"do": "profile", {QUERY}, "criterion": "arrival"}}',
                b'{"ok":"profile","points":[{"arr":"08:20:00","dep":"08:00:00","journey":"ride 0 0 walk 1 1 0 ride 2 2"}],'
                b'"version":1,"walk":null}\n',
            ),
            (
                f'{{"do": "profile", {QUERY}, "criterion": "arrival+trips"}}',
                b'{"ok":"profile","points":[{"arr":"08:30:00","dep":"08:00:00","journey":"ride 0 1","trips":1}],"version":2,"walk":90}\n',
            ),
        )
        self.assertEqual(client.profile("A", "C", **WINDOW), Profile(1, (FAST,), None))
        one_trip = Point("08:00:00", "08:30:00", "ride 0 1", trips=1)
        self.assertEqual(client.profile("A", "C", **WINDOW, criterion="arrival+trips"), Profile(2, (one_trip,), 90))

    def legs_of(self, legs: bytes) -> Point:
        """A point with these legs, as the client reads it."""
        client = self.session((PROFILE[0], PROFILE[1].replace(b'ride 2 2"', b'ride 2 2","legs":' + legs)))
        return client.profile("A", "C", **WINDOW).points[0]

    def test_named_legs(self) -> None:
        point = self.legs_of(
            b'[{"from":"\\"","secs":60,"to":""},{"arr":"32:20:00","day":20240116,"dep":"32:12:00","from":"","repeat":3,"to":"C","trip":"T2"}]'
        )
        self.assertEqual(point.legs, FAST.legs)
        self.assertEqual(point.named_legs, (NamedWalk('"', "", 60), NamedRide("T2", 20240116, "", "32:12:00", "C", "32:20:00", 3)))
        self.assertIsNone(FAST.named_legs)

    def test_odd_legs_close(self) -> None:
        ride = b'{"arr":"08:20:00","day":20240115,"dep":"08:12:00","from":"B","to":"C","trip":"T2"}'
        self.assertEqual(self.legs_of(b"[%s]" % ride).named_legs, FAST_LEGS[2:])
        for legs in (
            b"7", b"[7]", b"[{}]", b'[{"from":"B","to":"B"}]', b'[{"from":"B","secs":"0","to":"B"}]',
            b"[%s]" % ride.replace(b'"T2"', b"2"), b"[%s]" % ride.replace(b"08:12:00", b"8"), b"[%s]" % ride.replace(b"20240115", b'"1"'),
        ):
            with self.assertRaises(SessionEnded, msg=legs):
                self.legs_of(legs)

    def test_refusals_leave_the_session_open(self) -> None:
        client = self.session(
            ('{"do": "pin"}', b'{"error":91,"name":"Moved","newest":7}\n'),
            ('{"do": "load", "feed": "none"}', b'{"error":114,"name":"UnknownFeed"}\n'),
            ('{"do": "load", "feed": "slow"}', b'{"feed":"slow","ok":"load"}\n'),
        )
        with self.assertRaises(Refused) as moved:
            client.pin()
        self.assertEqual((moved.exception.number, moved.exception.name, moved.exception.newest), (91, "Moved", 7))
        with self.assertRaises(Refused) as unknown:
            client.load("none")
        self.assertEqual((unknown.exception.number, unknown.exception.newest), (114, None))
        client.load("slow")

    def test_a_load_is_waited_for(self) -> None:
        client = self.session(
            ('{"do": "load", "feed": "slow", "wait": true}', b'{"feed":"slow","ok":"load","version":2}\n'),
            ('{"do": "load", "feed": "bad", "wait": true}', b'{"error":120,"name":"LoadRefused","refusal":1}\n'),
            ('{"do": "load", "feed": "slow", "wait": true}', b""),
            timeout=5.0,
        )
        self.assertEqual(client.load_and_wait("slow", timeout=2.0), 2)
        with self.assertRaises(Refused) as refused:
            client.load_and_wait("bad")
        self.assertEqual((refused.exception.number, refused.exception.refusal), (120, 1))
        self.assertEqual(str(refused.exception), "120 LoadRefused 1")
        with self.assertRaises(TimeoutError):
            client.load_and_wait("slow", timeout=0.2)

    def test_a_reply_in_slow_pieces_is_read_whole(self) -> None:
        client = self.session(PIN, PROFILE, pause=0.002)
        self.assertEqual(client.pin(), Pinned(1, 1705276800))
        self.assertEqual(client.profile("A", "C", **WINDOW), Profile(1, (FAST,), None))

    def test_pieces_do_not_prolong_the_timeout(self) -> None:
        client = self.session(PIN, timeout=0.3, pause=0.05)
        began = time.monotonic()
        with self.assertRaises(TimeoutError):
            client.pin()
        self.assertLess(time.monotonic() - began, 1.0)
        with self.assertRaises(SessionEnded):
            client.pin()

    def test_replies_that_are_none_close(self) -> None:
        for reply in (
            b"[]", b"7", b"", b"{}", b'{"ok":"pin"}', b'{"base":"0","ok":"pin","version":1}', b'{"error":true,"name":"Moved"}', b"\xff", b"[" * 100000
        ):
            client = self.session(('{"do": "pin"}', reply + b"\n"))
            with self.assertRaises(SessionEnded, msg=reply[:40]):
                client.pin()
            with self.assertRaises(SessionEnded):
                client.pin()

    def test_a_point_without_a_journey_closes(self) -> None:
        client = self.session((PROFILE[0], PROFILE[1].replace(b"ride 2 2", b"fly 2 2")))
        with self.assertRaises(SessionEnded):
            client.profile("A", "C", **WINDOW)

    def test_an_ended_session_raises(self) -> None:
        client = self.session(('{"do": "pin"}', b'{"base":0,'))
        with self.assertRaises(SessionEnded):
            client.pin()
        with self.assertRaises(SessionEnded):
            client.release()

    def test_a_late_reply_closes(self) -> None:
        client = self.session(('{"do": "pin"}', b""), timeout=0.2)
        with self.assertRaises(TimeoutError):
            client.pin()
        with self.assertRaises(SessionEnded):
            client.pin()

    def test_another_reply_closes(self) -> None:
        client = self.session(('{"do": "pin"}', b'{"ok":"release"}\n'))
        with self.assertRaises(SessionEnded):
            client.pin()


class CannedAsyncReplies(unittest.IsolatedAsyncioTestCase):
    def session(self, *talk: tuple[str, bytes], timeout: float = 5.0, pause: float = 0.0, sets: bool = False) -> AsyncCsaClient:
        server = CannedServer(*talk, pause=pause)
        self.addCleanup(lambda: self.assertEqual(server.mistakes, []))
        self.addCleanup(server.close)
        return AsyncCsaClient(port=server.port, timeout=timeout, sets=sets)

    async def test_a_session(self) -> None:
        load = '{"do": "load", "feed": "slow"}', b'{"feed":"slow","ok":"load"}\n'
        wait = '{"do": "load", "feed": "slow", "wait": true}', b'{"error":120,"name":"LoadRefused","refusal":1}\n'
        async with self.session(PIN, PROFILE, RELEASE, load, wait) as client:
            async with client.pinned() as pinned:
                self.assertEqual(pinned, Pinned(1, 1705276800))
                self.assertEqual(await client.profile("A", "C", **WINDOW), Profile(1, (FAST,), None))
            await client.load("slow")
            with self.assertRaises(Refused) as refused:
                await client.load_and_wait("slow")
            self.assertEqual((refused.exception.number, refused.exception.refusal), (120, 1))
            # the canned talk has ended
            with self.assertRaises(SessionEnded):
                await client.pin()
        with self.assertRaises(SessionEnded):
            await client.pin()

    async def test_tasks_take_turns(self) -> None:
        async with self.session(PIN, PIN, PIN, pause=0.002) as client:
            self.assertEqual(await asyncio.gather(client.pin(), client.pin(), client.pin()), [Pinned(1, 1705276800)] * 3)

    async def test_no_task_asks_between_the_pairs_of_another(self) -> None:
        # else the second task would use the pin of the first, which is released before its own pairs are answered
        second = PROFILE[0].replace('"from": "A"', '"from": "B"'), PROFILE[1]
        pairs = PIN, PROFILE, second, RELEASE
        async with self.session(*pairs, *pairs) as client:
            both = await asyncio.gather(*(client.profile(["A", "B"], "C", **WINDOW) for _ in range(2)))
        self.assertEqual(both, [Profile(1, (FAST,), None)] * 2)

    async def test_several_stops_are_one_request_if_the_server_takes_arrays(self) -> None:
        for talk, ask in SETS:
            async with self.session(*talk, sets=True) as client:
                self.assertEqual([await client.profile(*sides, **WINDOW) for sides in ask], [Profile(1, (FAST,), None)] * len(ask))

    async def test_pieces_do_not_prolong_the_timeout(self) -> None:
        async with self.session(PIN, timeout=0.3, pause=0.05) as client:
            with self.assertRaises(TimeoutError):
                await client.pin()
            with self.assertRaises(SessionEnded):
                await client.pin()

    async def test_a_task_that_is_cancelled_closes(self) -> None:
        async with self.session(('{"do": "pin"}', b"")) as client:
            task = asyncio.create_task(client.pin())
            await asyncio.sleep(0.1)
            task.cancel()
            with self.assertRaises(asyncio.CancelledError):
                await task
            with self.assertRaises(SessionEnded):
                await client.pin()


def program_that_serves() -> str | None:
    """The program, where one is built or released and has the command `serve`."""
    places = [os.environ.get("CSA_PROGRAM", ""), TOP / "crates/csa/out/csa", TOP / "release/x86_64-linux-gnu/csa"]
    for program in map(str, places):
        if os.access(program, os.X_OK):
            helped = subprocess.run([program, "--help"], capture_output=True, text=True)
            return program if "serve" in helped.stdout else None
    return None


def has_option(option: str) -> bool:
    """Whether the `serve` of that program knows the option."""
    program = program_that_serves()
    return program is not None and option in subprocess.run([program, "serve", "--help"], capture_output=True, text=True).stdout


@unittest.skipUnless(program_that_serves(), "no program with the command serve is built")
class RealServer(unittest.TestCase):
    OPTIONS: list[str] = []

    def setUp(self) -> None:
        room = tempfile.TemporaryDirectory()
        self.addCleanup(room.cleanup)
        shutil.copytree(TOP / "examples/base", f"{room.name}/slow")
        with open(f"{room.name}/slow/transfers.txt", "w") as transfers:
            transfers.write("from_stop_id,to_stop_id,transfer_type,min_transfer_time\nB,B,2,121\n")
        words = [program_that_serves(), "serve", "--image", str(TOP / "examples/base.csa"), "--port", "0", "--workers", "2"]
        words += ["--sessions", "0", "--first", "20240115", "--days", "1", "--zone", "fixed:0", f"slow={room.name}/slow"]
        words += self.OPTIONS
        self.server = subprocess.Popen(words, stdout=subprocess.PIPE, text=True)
        self.addCleanup(self.server.wait)
        self.addCleanup(self.server.kill)
        self.addCleanup(self.server.stdout.close)
        self.port = int(self.server.stdout.readline().split()[1])

    def test_a_load_reaches_who_comes_after_it(self) -> None:
        with CsaClient(port=self.port) as client:
            self.assertEqual(client.pin().version, 1)
            client.load("slow")
            self.assertEqual(client.profile("A", "C", **WINDOW), Profile(1, (FAST,), None))
            client.release()
            deadline = time.monotonic() + 30
            while client.profile("A", "C", **WINDOW).version == 1 and time.monotonic() < deadline:
                time.sleep(0.05)
            self.assertEqual(client.profile("A", "C", **WINDOW), Profile(2, (SLOW,), None))

    def test_from_any_of_several_stops(self) -> None:
        wanted = [("08:12:00", "08:20:00", "ride 2 2")]

        async def ask(sets: bool) -> Profile:
            async with AsyncCsaClient(port=self.port, timeout=10, sets=sets) as client:
                return await client.profile(["A", "B"], ["C"], **WINDOW)

        with CsaClient(port=self.port, sets=True) as client:
            at_once = client.profile(("A", "B"), "C", **WINDOW)
        with CsaClient(port=self.port) as client:
            for answer in (client.profile(("A", "B"), "C", **WINDOW), at_once, asyncio.run(ask(False)), asyncio.run(ask(True))):
                self.assertEqual([(point.dep, point.arr, point.journey) for point in answer.points], wanted)
            for stop, number in (("nowhere", 31), ("C", 32)):
                with self.assertRaises(Refused) as refused:
                    client.profile(["A", stop], "C", **WINDOW)
                self.assertEqual(refused.exception.number, number)
            # the pin that was made for the pairs was given back
            client.pin()

    def test_asyncio_clients_side_by_side(self) -> None:
        async def ask() -> Profile:
            async with AsyncCsaClient(port=self.port, timeout=10) as client, client.pinned():
                return await client.profile("A", "C", **WINDOW, criterion="arrival+trips+walk")

        async def ask_all() -> list[Profile]:
            return await asyncio.gather(ask(), ask(), ask())

        first, *others = asyncio.run(ask_all())
        self.assertEqual(others, [first, first])
        self.assertEqual([(point.arr, point.trips, point.walked) for point in first.points], [("08:20:00", 2, 0), ("08:30:00", 1, 0)])

    def test_who_comes_when_all_workers_are_taken_waits(self) -> None:
        with CsaClient(port=self.port) as one, CsaClient(port=self.port) as two:
            one.pin()
            two.pin()
            with CsaClient(port=self.port, timeout=0.3) as third, self.assertRaises(TimeoutError):
                third.pin()

    def test_refusals(self) -> None:
        with CsaClient(port=self.port) as client:
            for call, number in (
                (client.release, 93),
                (lambda: client.load("none"), 114),
                (lambda: client.profile("A", "X", **WINDOW), 31),
                (lambda: client.profile("A", "A", **WINDOW), 32),
                (lambda: client.profile("A", "C", after="09:00:00", until="07:00:00", by="10:00:00"), 33),
                # the last clock that the client sends: the server knows it, but no image is so long
                (lambda: client.profile("A", "C", after="07:00:00", until="999999:59:59", by="999999:59:59"), 33),
            ):
                with self.assertRaises(Refused) as refused:
                    call()
                self.assertEqual(refused.exception.number, number)
            client.pin()
            with self.assertRaises(Refused) as refused:
                client.pin()
            self.assertEqual((refused.exception.number, refused.exception.name), (92, "AlreadyPinned"))


@unittest.skipUnless(has_option("--legs"), "no program with serve --legs is built")
class RealServerWithLegs(RealServer):
    """All that holds without legs, and the legs."""

    OPTIONS = ["--legs"]

    def test_a_load_reaches_who_comes_after_it(self) -> None:
        with CsaClient(port=self.port) as client:
            self.assertEqual(client.profile("A", "C", **WINDOW), Profile(1, (replace(FAST, named_legs=FAST_LEGS),), None))
            client.load_and_wait("slow")
            ride = NamedRide("T1", 20240115, "A", "08:00:00", "C", "08:30:00")
            self.assertEqual(client.profile("A", "C", **WINDOW), Profile(2, (replace(SLOW, named_legs=(ride,)),), None))


@unittest.skipUnless(has_option("--sets"), "no program with serve --sets is built")
class RealServerWithSets(RealServer):
    """All that holds without arrays, and that an answer by one request is that of the pairs."""

    OPTIONS = ["--sets"]

    def test_both_ways_are_equal(self) -> None:
        def told(answer: Profile) -> object:
            return answer.version, answer.walk, [(point.dep, point.arr, point.trips, point.walked) for point in answer.points]

        sides = [(source, target) for source in (["A"], ["A", "B"], ["B", "A"]) for target in (["C"], ["B", "C"], ["C", "B"])]
        with CsaClient(port=self.port, sets=True) as at_once, CsaClient(port=self.port) as by_pairs:
            for source, target in [(source, target) for source, target in sides if not set(source) & set(target)]:
                for criterion in ("arrival", "arrival+trips", "arrival+trips+walk"):
                    answers = [client.profile(source, target, **WINDOW, criterion=criterion) for client in (at_once, by_pairs)]
                    self.assertEqual(*map(told, answers))
            # no array was refused
            self.assertTrue(at_once._sets)


if __name__ == "__main__":
    unittest.main()
