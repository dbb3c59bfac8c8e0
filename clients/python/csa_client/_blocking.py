"""The client whose calls block."""

from __future__ import annotations

import socket
import time
from collections.abc import Iterator
from contextlib import contextmanager

from . import _protocol
from ._protocol import ALREADY_PINNED, BAD_REQUEST, DEFAULT_PORT, LINE_TOO_LONG, LONGEST_REPLY, MOST_STOPS
from ._protocol import Criterion, Pinned, Profile, Question, Refused, Request, Result, SessionEnded, Stops


class CsaClient:
    """One session. Don't share it between threads; open a client for each.

        with CsaClient(port=7077) as csa:
            answer = csa.profile("A", "C", after="07:00:00", until="09:00:00", by="10:00:00")
    """

    def __init__(self, host: str = "127.0.0.1", port: int = DEFAULT_PORT, timeout: float = 30.0, sets: bool = False) -> None:
        """Connects. `timeout`, in seconds, applies to connecting, and then to each request. TimeoutError closes the session.

        If all workers of the server are taken, connecting succeeds but no reply comes: the first request raises TimeoutError.

        With `sets`, a profile between several stops is asked for by one request, for servers that take arrays of stop_ids. One that refuses
        the first of them with 112 takes none: then the session asks each pair, as without `sets`.
        """
        self._socket: socket.socket | None = socket.create_connection((host, port), timeout)
        self._timeout = timeout
        self._sets = sets
        self._socket.setsockopt(socket.IPPROTO_TCP, socket.TCP_NODELAY, 1)
        self._received = bytearray()

    def pin(self) -> Pinned:
        """Pins the current version: profiles are answered from it until it is released. Raises Refused 92 if the session holds a pin."""
        return self._ask(_protocol.pin())

    def release(self) -> None:
        """Releases the pinned version. Raises Refused 93 if there is none."""
        self._ask(_protocol.release())

    @contextmanager
    def pinned(self) -> Iterator[Pinned]:
        """Pins the current version for a `with` block and releases it at its end, unless the session has ended by then."""
        pinned = self.pin()
        try:
            yield pinned
        finally:
            if self._socket is not None:
                self.release()

    def profile(
        self, source: Stops, target: Stops, *, after: str, until: str, by: str, criterion: Criterion = "arrival"
    ) -> Profile:
        """Returns every best departure from `after` to `until` that arrives no later than `by`, in the pinned version or else in the current one.

            csa.profile("A", "C", after="07:00:00", until="09:00:00", by="10:00:00", criterion="arrival+trips").points
            csa.profile(["A1", "A2"], ["C1", "C2"], after="07:00:00", until="09:00:00", by="10:00:00").points

        Each side is a stop_id or a sequence of them, as those of a station's platforms: then the answer is that from any of these to any of
        those. Without `sets` the server is asked each pair, in one version, and the answers are merged.
        Raises ValueError if a side has no stop or one twice, or a clock or the criterion isn't one, Refused 31 if a stop is unknown, and 32 if
        one is on both sides. To see which is unknown, ask for a profile from each to itself: 32 if it is known, else 31.
        """
        question = _protocol.question(source, target, after, until, by, criterion)
        if question.most == 1:
            return self._ask(question.at_once())
        if self._sets and question.most <= MOST_STOPS:
            answer = self._at_once(question)
            if answer is not None:
                return answer
        return self._by_pairs(question.pairs())

    def _at_once(self, question: Question) -> Profile | None:
        """The answer by one request; None if the server takes no arrays, or none of this length."""
        try:
            answer: Profile = self._ask(question.at_once())
            return answer
        except Refused as refused:
            if refused.number not in (BAD_REQUEST, LINE_TOO_LONG):
                raise
            self._sets = refused.number == LINE_TOO_LONG
            return None

    def _by_pairs(self, requests: list[Request[Profile]]) -> Profile:
        """The answer of several pairs, all in the version that is pinned, or else in one that is pinned for them."""
        try:
            self.pin()
        except Refused as refused:
            if refused.number != ALREADY_PINNED:
                raise
            return _protocol.merged([self._ask(request) for request in requests])
        try:
            return _protocol.merged([self._ask(request) for request in requests])
        finally:
            if self._socket is not None:
                self.release()

    def load(self, feed: str) -> None:
        """Orders the server to load the feed of this name and publish it. Returns once the order is queued, not once the load is done.

        Raises Refused 114 if the server wasn't started with a feed of this name, 115 if four orders are waiting already.
        """
        self._ask(_protocol.load(feed))

    def load_and_wait(self, feed: str, timeout: float | None = None) -> int:
        """Orders the server to load the feed, waits until it is published, and returns its version. The session's next pin holds it or a newer one.

        A worker of the server is occupied meanwhile. A load may take minutes: `timeout`, in seconds, applies to this request instead of the
        session's own. Raises Refused 120 if the load was refused; its `refusal` says with which number.
        """
        return self._ask(_protocol.load_and_wait(feed), timeout)

    def close(self) -> None:
        """Ends the session; the server then releases its pin."""
        if self._socket is not None:
            self._socket.close()
            self._socket = None

    def __enter__(self) -> CsaClient:
        return self

    def __exit__(self, *_: object) -> None:
        self.close()

    def _ask(self, request: Request[Result], timeout: float | None = None) -> Result:
        """Sends a request, and returns the content of its reply or raises its refusal."""
        if self._socket is None:
            raise SessionEnded("the session is closed: open another one")
        deadline = time.monotonic() + (self._timeout if timeout is None else timeout)
        try:
            return request.result(self._exchange(self._socket, request.line(), deadline))
        except Refused:
            raise
        except BaseException:
            # the next line of the connection could be the reply to this request
            self.close()
            raise

    def _exchange(self, connection: socket.socket, line: bytes, deadline: float) -> bytes:
        """Sends a line and returns the reply, without its line end."""
        try:
            connection.settimeout(_left(deadline))
            connection.sendall(line)
            return self._read_line(connection, deadline)
        except (ConnectionResetError, BrokenPipeError) as error:
            raise SessionEnded("the server ended the session") from error

    def _read_line(self, connection: socket.socket, deadline: float) -> bytes:
        """Returns the server's next line, without its line end; raises TimeoutError if the deadline passes before it is complete."""
        searched = 0
        while (end := self._received.find(b"\n", searched)) < 0:
            searched = len(self._received)
            connection.settimeout(_left(deadline))
            part = connection.recv(65536)
            if not part:
                raise SessionEnded("the server ended the session")
            if searched + len(part) > LONGEST_REPLY:
                raise SessionEnded("the reply is too long")
            self._received += part
        line = bytes(self._received[:end])
        del self._received[: end + 1]
        return line


def _left(deadline: float) -> float:
    """The seconds that are left until the deadline."""
    left = deadline - time.monotonic()
    if left <= 0:
        raise TimeoutError("timed out")
    return left
