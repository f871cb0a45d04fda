"""What a call raises, by its status."""

from __future__ import annotations


class KifzaroError(Exception):
    """A call gave nothing. ``status`` is its number in kifzaro.h."""

    status: int

    def __init__(self, status: int, text: str) -> None:
        super().__init__(text)
        self.status = status


class OutOfMemory(KifzaroError, MemoryError):
    """Memory ran out."""


class Closed(KifzaroError):
    """The client or server was closed."""


class Unfit(KifzaroError, ValueError):
    """What was given isn't taken: a key file, a key, a body, a call's number, a reply."""


class Ended(KifzaroError):
    """The client has ended."""


class NotOpen(KifzaroError):
    """The client has learnt nothing of its session, or has ended."""


class NotSent(KifzaroError):
    """The call isn't sent."""


class NoReply(KifzaroError):
    """The call has no reply, or not yet."""


class TooMany(KifzaroError):
    """The client has 65,536 calls."""


class Spent(KifzaroError):
    """There may be too few numbers left in this session: ``renew`` goes on in another one."""


class Busy(KifzaroError):
    """A request that was handed out waits for its answer."""


class NotAsked(KifzaroError):
    """No request was handed out."""


class Refused(KifzaroError):
    """The packet doesn't open. Only the moment has changed."""


_BY_STATUS = {
    1: OutOfMemory, 3: Closed, 5: Unfit, 6: Unfit, 7: Unfit, 8: Unfit, 9: Unfit, 10: TooMany, 11: Ended, 12: NotOpen, 13: NotSent,
    14: NoReply, 15: Spent, 16: Busy, 17: NotAsked, 18: Unfit, **{status: Refused for status in range(19, 24)},
}


def error_of(status: int, text: str) -> KifzaroError:
    """The error of a status that isn't 0."""
    return _BY_STATUS.get(status, KifzaroError)(status, text)
