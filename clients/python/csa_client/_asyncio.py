"""The client for asyncio."""

from __future__ import annotations

import asyncio
from collections.abc import AsyncIterator, Awaitable
from contextlib import asynccontextmanager
from typing import TypeVar

from . import _protocol
from ._protocol import ALREADY_PINNED, BAD_REQUEST, DEFAULT_PORT, LINE_TOO_LONG, LONGEST_REPLY, MOST_STOPS
from ._protocol import Criterion, Pinned, Profile, Question, Refused, Request, Result, SessionEnded, Stops

Value = TypeVar("Value")


class AsyncCsaClient:
    """One session of an asyncio program, open within `async with`. Tasks that share it take turns, and share its pin.

        async with AsyncCsaClient(port=7077) as csa, csa.pinned() as pinned:
            answer = await csa.profile("A", "C", after="07:00:00", until="09:00:00", by="10:00:00")
    """

    def __init__(self, host: str = "127.0.0.1", port: int = DEFAULT_PORT, timeout: float = 30.0, sets: bool = False) -> None:
        """`timeout`, in seconds, applies to connecting, which `async with` does, and then to each request. TimeoutError closes the session.

        If all workers of the server are taken, connecting succeeds but no reply comes: the first request raises TimeoutError.

        With `sets`, a profile between several stops is asked for by one request, for servers that take arrays of stop_ids. One that refuses
        the first of them with 112 takes none: then the session asks each pair, as without `sets`.
        """
        self._address = host, port
        self._timeout = timeout
        self._sets = sets
        self._streams: tuple[asyncio.StreamReader, asyncio.StreamWriter] | None = None
        self._turn = asyncio.Lock()

    async def pin(self) -> Pinned:
        """Pins the current version: profiles are answered from it until it is released. Raises Refused 92 if the session holds a pin."""
        return await self._ask(_protocol.pin())

    async def release(self) -> None:
        """Releases the pinned version. Raises Refused 93 if there is none."""
        await self._ask(_protocol.release())

    @asynccontextmanager
    async def pinned(self) -> AsyncIterator[Pinned]:
        """Pins the current version for an `async with` block and releases it at its end, unless the session has ended by then."""
        pinned = await self.pin()
        try:
            yield pinned
        finally:
            if self._streams is not None:
                await self.release()

    async def profile(
        self, source: Stops, target: Stops, *, after: str, until: str, by: str, criterion: Criterion = "arrival"
    ) -> Profile:
        """Returns every best departure from `after` to `until` that arrives no later than `by`, in the pinned version or else in the current one.

            answer = await csa.profile(["A1", "A2"], "C", after="07:00:00", until="09:00:00", by="10:00:00", criterion="arrival+trips")

        Each side is a stop_id or a sequence of them, as those of a station's platforms: then the answer is that from any of these to any of
        those. Without `sets` the server is asked each pair, in one version, and the answers are merged; other tasks' requests wait until the
        last pair. Raises ValueError if a side has no stop or one twice, or a clock or the criterion isn't one, Refused 31 if a stop is unknown,
        and 32 if one is on both sides. To see which is unknown, ask for a profile from each to itself: 32 if it is known, else 31.
        """
        question = _protocol.question(source, target, after, until, by, criterion)
        if question.most == 1:
            return await self._ask(question.at_once())
        if self._sets and question.most <= MOST_STOPS:
            answer = await self._at_once(question)
            if answer is not None:
                return answer
        return await self._by_pairs(question.pairs())

    async def _at_once(self, question: Question) -> Profile | None:
        """The answer by one request; None if the server takes no arrays, or none of this length."""
        try:
            answer: Profile = await self._ask(question.at_once())
            return answer
        except Refused as refused:
            if refused.number not in (BAD_REQUEST, LINE_TOO_LONG):
                raise
            self._sets = refused.number == LINE_TOO_LONG
            return None

    async def _by_pairs(self, requests: list[Request[Profile]]) -> Profile:
        """The answer of several pairs, all in the version that is pinned, or else in one that is pinned for them; no other task has a turn."""
        async with self._turn:
            try:
                await self._ask_in_turn(_protocol.pin())
            except Refused as refused:
                if refused.number != ALREADY_PINNED:
                    raise
                return _protocol.merged([await self._ask_in_turn(request) for request in requests])
            try:
                return _protocol.merged([await self._ask_in_turn(request) for request in requests])
            finally:
                if self._streams is not None:
                    await self._ask_in_turn(_protocol.release())

    async def load(self, feed: str) -> None:
        """Orders the server to load the feed of this name and publish it. Returns once the order is queued, not once the load is done.

        Raises Refused 114 if the server wasn't started with a feed of this name, 115 if four orders are waiting already.
        """
        await self._ask(_protocol.load(feed))

    async def load_and_wait(self, feed: str, timeout: float | None = None) -> int:
        """Orders the server to load the feed, waits until it is published, and returns its version. The session's next pin holds it or a newer one.

        A worker of the server is occupied meanwhile. A load may take minutes: `timeout`, in seconds, applies to this request instead of the
        session's own. Raises Refused 120 if the load was refused; its `refusal` says with which number.
        """
        return await self._ask(_protocol.load_and_wait(feed), timeout)

    def close(self) -> None:
        """Ends the session; the server then releases its pin."""
        if self._streams is not None:
            self._streams[1].close()
            self._streams = None

    async def __aenter__(self) -> AsyncCsaClient:
        self._streams = await _bounded(asyncio.open_connection(*self._address, limit=LONGEST_REPLY), self._timeout)
        return self

    async def __aexit__(self, *_: object) -> None:
        self.close()

    async def _ask(self, request: Request[Result], timeout: float | None = None) -> Result:
        """Sends a request when it is this task's turn, and returns the content of its reply or raises its refusal."""
        async with self._turn:
            return await self._ask_in_turn(request, timeout)

    async def _ask_in_turn(self, request: Request[Result], timeout: float | None = None) -> Result:
        """As `_ask`, for a task that has the turn."""
        if self._streams is None:
            raise SessionEnded("the session is not open: use `async with`, or open another one")
        try:
            line = await _bounded(_exchange(*self._streams, request.line()), self._timeout if timeout is None else timeout)
            return request.result(line)
        except Refused:
            raise
        except BaseException:
            # also if the task is cancelled: the next line of the connection could be the reply to this request
            self.close()
            raise


async def _exchange(reader: asyncio.StreamReader, writer: asyncio.StreamWriter, line: bytes) -> bytes:
    """Sends a line and returns the reply, with its line end."""
    try:
        writer.write(line)
        await writer.drain()
        return await reader.readuntil(b"\n")
    except (asyncio.IncompleteReadError, ConnectionResetError, BrokenPipeError) as error:
        raise SessionEnded("the server ended the session") from error
    except asyncio.LimitOverrunError as error:
        raise SessionEnded("the reply is too long") from error


async def _bounded(awaited: Awaitable[Value], timeout: float) -> Value:
    """Returns the awaited value, or raises the built-in TimeoutError; before Python 3.11 asyncio has a TimeoutError of its own."""
    try:
        return await asyncio.wait_for(awaited, timeout)
    except asyncio.TimeoutError as error:
        raise TimeoutError("timed out") from error
