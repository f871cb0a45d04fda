"""Packets in a stream of bytes, in the intermediate form alone. This is plain Python, and not proved."""

from __future__ import annotations

from collections.abc import Iterator

_START = b"\xee\xee\xee\xee"
_PACKET_BYTES_MAX = 1_048_576


class Wire:
    """One end of a connection, made by :meth:`client` or :meth:`server`.

    A client's first frame begins with the four bytes that name the form; a server's end takes them away. Each packet stands behind its
    length in 4 bytes, the lowest first.
    """

    def __init__(self, *, is_client: bool) -> None:
        self._held = bytearray()
        self._says_form = is_client
        self._hears_form = not is_client

    @classmethod
    def client(cls) -> Wire:
        """A client's end of a new connection."""
        return cls(is_client=True)

    @classmethod
    def server(cls) -> Wire:
        """A server's end of a new connection."""
        return cls(is_client=False)

    def frame(self, packet: bytes) -> bytes:
        """The bytes that are sent for a packet."""
        start, self._says_form = (_START if self._says_form else b""), False
        return start + len(packet).to_bytes(4, "little") + packet

    def feed(self, piece: bytes) -> Iterator[bytes]:
        """The packets that are whole with this piece of the stream, which is kept where the packets aren't asked for.

        Raises ``EOFError`` for an empty piece, which is what a read gives at a stream's end, and ``ValueError`` where the stream isn't of
        the form.
        """
        if not piece:
            raise EOFError("the connection has ended")
        self._held += piece
        return self._packets()

    def _packets(self) -> Iterator[bytes]:
        if self._hears_form and len(self._held) >= 4:
            if self._held[:4] != _START:
                raise ValueError("the connection isn't of the intermediate form")
            del self._held[:4]
            self._hears_form = False
        while not self._hears_form and len(self._held) >= 4:
            count = int.from_bytes(self._held[:4], "little")
            if count > _PACKET_BYTES_MAX:
                raise ValueError(f"no packet has {count} bytes")
            if len(self._held) < 4 + count:
                return
            packet = bytes(self._held[4 : 4 + count])
            del self._held[: 4 + count]
            yield packet
