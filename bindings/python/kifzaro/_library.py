"""The shared object, and what it takes."""

from __future__ import annotations

import ctypes
import os
import pathlib
from ctypes import POINTER, c_char_p, c_int, c_size_t, c_uint32, c_uint64, c_void_p

from ._errors import error_of


class Handle(ctypes.Structure):
    """A kf_client or a kf_server, all zero at first."""

    _fields_ = [("at", c_void_p), ("kind", c_uint64)]


def _found() -> str:
    here = pathlib.Path(__file__).parent
    places = [os.environ.get("KIFZARO_LIBRARY"), here / "libkifzaro.so", here.parent.parent / "out" / "libkifzaro.so"]
    for place in places:
        if place and os.path.exists(place):
            return os.fspath(place)
    raise ImportError("libkifzaro.so isn't there: run bindings/build and install the package again, or name it by KIFZARO_LIBRARY")


_H, _N, _P, _Z, _NUMBER, _WORD, _LEN, _FLAG = (POINTER(Handle), c_uint64, c_char_p, c_size_t, POINTER(c_uint64), POINTER(c_uint32),
                                               POINTER(c_size_t), POINTER(c_int))
_TAKES = {
    "kf_client_new": [_H, _P, _Z, _N, _P], "kf_client_new_temp": [_H, _P, _Z, _N, _N, _N, _P], "kf_client_free": [_H],
    "kf_client_submit": [_H, _P, _Z, _N, _NUMBER], "kf_client_attach": [_H], "kf_client_handle_packet": [_H, _N, _P, _Z],
    "kf_client_poll_transmit": [_H, _N, _P, _Z, _LEN], "kf_client_renew": [_H], "kf_client_end": [_H], "kf_client_tick": [_H],
    "kf_client_ping": [_H, _N], "kf_client_ask_salts": [_H, c_uint32], "kf_client_drop_answer": [_H, _N],
    "kf_client_state": [_H, _N, _WORD, _WORD], "kf_client_take_reply": [_H, _N, _P, _Z, _LEN],
    "kf_client_calls_decided": [_H, _FLAG], "kf_client_session": [_H, _NUMBER],
    "kf_server_new": [_H, _P, _Z, _P], "kf_server_free": [_H], "kf_server_handle_packet": [_H, _N, _P, _Z, _NUMBER, _NUMBER],
    "kf_server_tick": [_H, _N], "kf_server_attach": [_H, _N, _N, _N], "kf_server_restart": [_H], "kf_server_ready": [_H, _NUMBER],
    "kf_server_next_request": [_H, _FLAG, _P, _Z, _LEN], "kf_server_answer": [_H, _N, _P, _Z],
    "kf_server_poll_transmit": [_H, _NUMBER, _NUMBER, _P, _Z, _LEN],
}

library = ctypes.CDLL(_found())
library.kf_version.restype = c_char_p
library.kf_build.restype = c_char_p
library.kf_status_text.restype = c_char_p
for _name, _words in _TAKES.items():
    getattr(library, _name).argtypes = _words
    getattr(library, _name).restype = None if _name.endswith("_free") else c_uint32

TOO_SHORT = 4


def must(status: int) -> None:
    """Raises what a status tells, unless it is 0."""
    if status:
        raise error_of(status, library.kf_status_text(status).decode())
