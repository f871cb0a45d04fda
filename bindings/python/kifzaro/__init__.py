"""Both ends of MTProto 2.0 sessions: a client and a server without sockets and clocks.

Packets come in by ``handle_packet`` and go out by ``transmits``. A moment ``now`` is Unix time in seconds, and the present time where none
is given. Threads may share an object: its calls wait for one another. A process that forks goes on with it on one side alone, since both
would draw the same numbers. A method that gives nothing raises a :class:`KifzaroError`, and its object goes on as if it hadn't been called,
unless the method says otherwise.
"""

from ._ends import Bytes, Client, Key, Server, SessionName, State, build, key_id, version
from ._errors import Busy, Closed, Ended, KifzaroError, NoReply, NotAsked, NotOpen, NotSent, OutOfMemory, Refused, Spent, TooMany, Unfit
from .framing import Wire

__all__ = ["Busy", "Bytes", "Closed", "Client", "Ended", "Key", "KifzaroError", "NoReply", "NotAsked", "NotOpen", "NotSent", "OutOfMemory", "Refused",
           "Server", "SessionName", "Spent", "State", "TooMany", "Unfit", "Wire", "build", "key_id", "version"]

for _each in (Busy, Client, Closed, Ended, KifzaroError, NoReply, NotAsked, NotOpen, NotSent, OutOfMemory, Refused, Server, SessionName, Spent,
              State, TooMany, Unfit, Wire):
    _each.__module__ = __name__
