"""A client and a server, over the functions of kifzaro.h."""

from __future__ import annotations

import contextlib
import ctypes
import enum
import hashlib
import operator
import os
import threading
import time
from collections.abc import Callable, Iterator
from ctypes import byref, c_int, c_size_t, c_uint32, c_uint64
from typing import NamedTuple, TypeVar, Union

from ._errors import NotOpen
from ._library import TOO_SHORT, Handle, library, must

_ROOM_BYTES = 4096

Key = Union[int, str]
"""The identifier of a key: the number of kifzaro.h, or the 16 digits that examples/make_keys and ``mtp`` write."""

Bytes = Union[bytes, bytearray, memoryview]
"""Bytes that go in. They are copied."""


class SessionName(NamedTuple):
    """What names a session: the identifier of its key, and its number."""

    key: int
    session: int


class State(enum.IntEnum):
    """What became of a call.

    ``QUEUED``: it waits to be sent. ``SENT``: it was sent, and isn't answered. ``HELD``: the client's clock is ahead of the server's, and it
    waits for another session: ``renew``, once none is sent. ``DONE``: it has a reply, which may be an error. ``REFUSED``: it never executes.
    ``UNKNOWN``: it isn't known whether it executed.
    """

    QUEUED = 0
    SENT = 1
    HELD = 2
    DONE = 3
    REFUSED = 4
    UNKNOWN = 5


def version() -> str:
    """The library's version."""
    return library.kf_version().decode()


def build() -> str:
    """Of what the library was built: ``"proved"``, or ``"checked, not proved"``."""
    return library.kf_build().decode()


def key_id(key: bytes) -> int:
    """The identifier of a key of 256 bytes."""
    return int.from_bytes(hashlib.sha1(key).digest()[12:20], "little")


def _fits(number: int, bits: int = 64) -> int:
    """A whole number that C takes in so many bits: ctypes would cut a longer one."""
    number = operator.index(number)
    if not 0 <= number < 1 << bits:
        raise ValueError(f"{number} isn't between 0 and 2^{bits} - 1")
    return number


def _number(key: Key) -> int:
    if not isinstance(key, str):
        return _fits(key)
    if len(key) != 16 or len(bytes.fromhex(key)) != 8:
        raise ValueError("a key's identifier has 16 digits")
    return int.from_bytes(bytes.fromhex(key), "little")


def _moment(now: int | None) -> int:
    return int(time.time()) if now is None else _fits(now)


def _taken(data: Bytes) -> tuple[bytes, int]:
    """The bytes, and how many they are."""
    taken = bytes(memoryview(data))
    return taken, len(taken)


def _text(keys: str | Bytes) -> tuple[bytes, int]:
    return _taken(keys.encode() if isinstance(keys, str) else keys)


def _seed(seed: Bytes | None) -> bytes:
    seed = os.urandom(32) if seed is None else bytes(memoryview(seed))
    if len(seed) != 32:
        raise ValueError("a seed has 32 bytes")
    return seed


_Its = TypeVar("_Its", bound="_End")


class _End:
    """A handle that is freed with its object. Threads that call with it wait for one another."""

    _free: Callable[..., None]

    def __init__(self) -> None:
        self._handle = Handle()
        self._room = ctypes.create_string_buffer(_ROOM_BYTES)
        self._lock = threading.Lock()

    def close(self) -> None:
        """Frees it now. Every later call raises :class:`Closed`."""
        with self._lock:
            self._free(byref(self._handle))

    def __enter__(self: _Its) -> _Its:
        return self

    def __exit__(self, *_found: object) -> None:
        self.close()

    def __del__(self) -> None:
        if hasattr(self, "_lock"):
            self.close()

    def _do(self, call: Callable[..., int], *words: object) -> None:
        """A call that gives nothing, or puts numbers where its words say."""
        with self._lock:
            must(call(byref(self._handle), *words))

    def _put(self, call: Callable[..., int], *words: object) -> bytes:
        """The bytes that a call puts into room, with more of it where it asks for more."""
        count = c_size_t()
        with self._lock:
            status = call(byref(self._handle), *words, self._room, len(self._room), byref(count))
            if status == TOO_SHORT:
                self._room = ctypes.create_string_buffer(count.value)
                status = call(byref(self._handle), *words, self._room, len(self._room), byref(count))
            must(status)
            return ctypes.string_at(self._room, count.value)


class Client(_End):
    """A client under the permanent key with the identifier ``key``, which the text ``keys`` of a key file has.

    ``seed``, 32 bytes, is drawn from the system where none is given. ``bind_to`` makes the key a temporary one: it is the permanent key
    and the moment up to which the server is to bind the temporary one to it.
    """

    _free = staticmethod(library.kf_client_free)

    def __init__(self, keys: str | Bytes, key: Key, *, seed: Bytes | None = None, bind_to: tuple[Key, int] | None = None) -> None:
        super().__init__()
        self._calls = self._decided = 0
        text, number, seed = _text(keys), _number(key), _seed(seed)
        if bind_to is None:
            self._do(library.kf_client_new, *text, number, seed)
        else:
            self._do(library.kf_client_new_temp, *text, number, _number(bind_to[0]), _fits(bind_to[1]), seed)

    def submit(self, body: Bytes, after: int | None = None) -> int:
        """Submits a call, whole words of 4 bytes, that is to execute after an earlier one if one is given. Its number, from 1 on."""
        call = c_uint64()
        self._do(library.kf_client_submit, *_taken(body), _fits(after or 0), byref(call))
        self._calls = max(self._calls, call.value)
        return call.value

    def attach(self) -> None:
        """A connection was opened after an earlier one: what was sent and isn't answered is sent again."""
        self._do(library.kf_client_attach)

    def handle_packet(self, packet: Bytes, now: int | None = None) -> None:
        """A packet came. It raises :class:`Refused` where the packet doesn't open; of that one, and of one that isn't of this session or
        isn't lawful, only the moment counts."""
        self._do(library.kf_client_handle_packet, _moment(now), *_taken(packet))

    def poll_transmit(self, now: int | None = None) -> bytes | None:
        """The packet that is to be sent next, if there is one. Each is handed out once. It raises :class:`Spent` where there may be too few
        numbers left."""
        return self._put(library.kf_client_poll_transmit, _moment(now)) or None

    def transmits(self, now: int | None = None) -> Iterator[bytes]:
        """All packets that are to be sent now."""
        while (packet := self.poll_transmit(now)) is not None:
            yield packet

    def renew(self) -> None:
        """Goes on in another session: of calls that are sent it isn't known what became, and those that are held are queued."""
        self._do(library.kf_client_renew)

    def renew_if_held(self) -> None:
        """Goes on in another session where the client's clock is ahead of the server's: where a call is held, and none is sent."""
        while self._decided < self._calls and self.state(self._decided + 1) >= State.DONE:
            self._decided += 1
        states = {self.state(call) for call in range(self._decided + 1, self._calls + 1)}
        if State.HELD in states and State.SENT not in states:
            with contextlib.suppress(NotOpen):
                self.renew()

    def end(self) -> None:
        """Ends: of calls that are sent it isn't known what became, and others that aren't decided are refused."""
        self._do(library.kf_client_end)

    def tick(self) -> None:
        """Has the server asked how the calls that are sent fared."""
        self._do(library.kf_client_tick)

    def ping(self, number: int) -> None:
        """Has the server answer a ping."""
        self._do(library.kf_client_ping, _fits(number))

    def ask_salts(self, count: int) -> None:
        """Has the server tell so many of its next salts."""
        self._do(library.kf_client_ask_salts, _fits(count, 32))

    def drop_answer(self, call: int) -> None:
        """Has the server drop the answer to a call."""
        self._do(library.kf_client_drop_answer, _fits(call))

    def state(self, call: int) -> State:
        """What became of a call."""
        return State(self.state_and_code(call)[0])

    def state_and_code(self, call: int) -> tuple[State, int]:
        """The same with its code or 0: the server's code of a refusal; of an unknown call 1 the server lost the session, 2 renewed, 3 ended,
        4 forgotten."""
        state, code = c_uint32(), c_uint32()
        self._do(library.kf_client_state, _fits(call), byref(state), byref(code))
        return State(state.value), code.value

    def take_reply(self, call: int) -> bytes:
        """The reply to a call, which the client keeps. It raises :class:`NoReply` where the call isn't done."""
        return self._put(library.kf_client_take_reply, _fits(call))

    def calls_decided(self) -> bool:
        """Whether each call is done, refused or unknown."""
        decided = c_int()
        self._do(library.kf_client_calls_decided, byref(decided))
        return bool(decided.value)

    @property
    def session(self) -> int:
        """The number of its session."""
        session = c_uint64()
        self._do(library.kf_client_session, byref(session))
        return session.value


class Server(_End):
    """A server with the keys of the text of a key file. Its calls are answered from outside."""

    _free = staticmethod(library.kf_server_free)

    def __init__(self, keys: str | Bytes, *, seed: Bytes | None = None) -> None:
        super().__init__()
        self._do(library.kf_server_new, *_text(keys), _seed(seed))

    def handle_packet(self, packet: Bytes, now: int | None = None) -> SessionName:
        """A packet came: the name of its session, whose packets go where this one came from. It raises :class:`Refused` where the packet
        doesn't open, and :class:`Busy` while a request waits for its answer, as ``tick``, ``attach`` and ``restart`` do."""
        key, session = c_uint64(), c_uint64()
        self._do(library.kf_server_handle_packet, _moment(now), *_taken(packet), byref(key), byref(session))
        return SessionName(key.value, session.value)

    def tick(self, now: int | None = None) -> None:
        """Time passed: calls that have waited too long for others are answered."""
        self._do(library.kf_server_tick, _moment(now))

    def attach(self, name: SessionName, now: int | None = None) -> None:
        """A packet came for a session, the first one over this connection: what the server keeps for it is said again."""
        self._do(library.kf_server_attach, _fits(name[0]), _fits(name[1]), _moment(now))

    def restart(self) -> None:
        """Starts again, with no session left."""
        self._do(library.kf_server_restart)

    def ready(self) -> int:
        """How many requests are ready."""
        ready = c_uint64()
        self._do(library.kf_server_ready, byref(ready))
        return ready.value

    def next_request(self) -> bytes | None:
        """The next ready request, if there is one. Until it is answered, be it by an error, the server takes nothing else, and this gives it
        again: a coroutine doesn't wait between the two."""
        there = c_int()
        request = self._put(library.kf_server_next_request, byref(there))
        return request if there.value else None

    def answer(self, reply: Bytes, now: int | None = None) -> None:
        """The request that was handed out has run, and this is its reply, whole words of 4 bytes."""
        self._do(library.kf_server_answer, _moment(now), *_taken(reply))

    def poll_transmit(self) -> tuple[SessionName, bytes] | None:
        """The packet that is to be sent next, if there is one, with the session that it is for. Each is handed out once."""
        key, session = c_uint64(), c_uint64()
        packet = self._put(library.kf_server_poll_transmit, byref(key), byref(session))
        return (SessionName(key.value, session.value), packet) if packet else None

    def transmits(self) -> Iterator[tuple[SessionName, bytes]]:
        """All packets that are to be sent now."""
        while (out := self.poll_transmit()) is not None:
            yield out
