"""Clients for a csa server, which need only the standard library. A client is one session over one connection.

    with CsaClient(port=7077) as csa, csa.pinned() as pinned:
        for point in csa.profile("A", "C", after="07:00:00", until="09:00:00", by="10:00:00").points:
            print(pinned.instant(point.dep, "Europe/Berlin"), pinned.instant(point.arr, "Europe/Berlin"), point.legs)

AsyncCsaClient has the same calls for asyncio. Clocks are texts `HH:MM:SS` after the base of the version that answers, which `pin`
returns; hours may pass 24. Stops are given by their stop_id, or a side by several of them. A session occupies one worker of the server for as long as it is open:
close it when you don't need it.

A request that the server refuses raises Refused, and the session goes on. After SessionEnded, TimeoutError or another OSError the
client is closed.

`csa_client.image` reads image files.
"""

from ._asyncio import AsyncCsaClient
from ._blocking import CsaClient
from ._protocol import Criterion, CsaError, NamedRide, NamedWalk, Pinned, Point, Profile, Refused, Ride, SessionEnded, Stops, Walk, parse_journey, seconds_of

__version__ = "1.1.0"
__all__ = [
    "AsyncCsaClient",
    "Criterion",
    "CsaClient",
    "CsaError",
    "NamedRide",
    "NamedWalk",
    "Pinned",
    "Point",
    "Profile",
    "Refused",
    "Ride",
    "SessionEnded",
    "Stops",
    "Walk",
    "parse_journey",
    "seconds_of",
]
