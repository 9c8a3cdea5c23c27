"""Calls of libaamediate: the bytes of a job or of a question in, the text of a command of aamediate or aapolicy out.

A call may be made in any thread, and lets other threads of Python run meanwhile.
"""

import ctypes
import os
from typing import NamedTuple

_REFUSED, _NO_QUESTION = 1, 2
# What is tried first, in bytes, and for each byte that is given: mostly enough. Where it is too little, all is done again.
_ROOM, _ROOM_A_BYTE = 4096, 8


class Fault(Exception):
    """Why there is no answer: what the command says on standard error, and its exit status."""

    def __init__(self, line, status):
        super().__init__(line)
        self.line, self.status = line, status


class Refused(Fault):
    """The job, the question or a policy is at fault."""


class Answer(NamedTuple):
    """What aapolicy prints, with its exit status: 4 where a request is denied or policies differ, 1 where a file is refused; and what it warns of."""

    text: bytes
    status: int
    said: str


class _Sizes(ctypes.Structure):
    _fields_ = [("text", ctypes.c_size_t), ("fault", ctypes.c_size_t)]


_library = ctypes.CDLL(os.path.join(os.path.dirname(__file__), "libaamediate.so"))
_BYTES = ctypes.POINTER(ctypes.c_char)


def _declared(name):
    call = getattr(_library, name)
    call.argtypes = [ctypes.c_char_p, ctypes.c_size_t, _BYTES, ctypes.c_size_t, _BYTES, ctypes.c_size_t, ctypes.POINTER(_Sizes)]
    call.restype = ctypes.c_uint32
    return call


def _answer(call, given):
    # (a `bytes` has a pointer that isn't null, also where it is empty)
    given = b"" if given is None else bytes(memoryview(given))
    text_room, fault_room = _ROOM + _ROOM_A_BYTE * len(given), _ROOM
    while True:
        text, fault, sizes = ctypes.create_string_buffer(text_room), ctypes.create_string_buffer(fault_room), _Sizes()
        status = call(given, len(given), text, text_room, fault, fault_room, ctypes.byref(sizes))
        if sizes.text <= text_room and sizes.fault <= fault_room:
            break
        text_room, fault_room = max(text_room, sizes.text), max(fault_room, sizes.fault)
    said = fault.raw[: sizes.fault].decode(errors="replace")
    # (what isn't answered has no text)
    if status and not sizes.text:
        raise (Refused if status in (_REFUSED, _NO_QUESTION) else Fault)(said, status)
    return Answer(text.raw[: sizes.text], status, said)


_check, _run, _replay = (_declared(f"aamediate_{it}") for it in ("check", "run", "replay"))
_policy_check, _policy_ask, _policy_diff = (_declared(f"aapolicy_{it}") for it in ("check", "ask", "diff"))


def check(job):
    """What `aamediate check` writes for the bytes of a job."""
    return _answer(_check, job).text


def run(job):
    """What `aamediate run` writes for the bytes of a job."""
    return _answer(_run, job).text


def replay(job):
    """What `aamediate replay` writes for the bytes of a job."""
    return _answer(_replay, job).text


def policy_check(question):
    """What `aapolicy check --json` prints of the files of a question."""
    return _answer(_policy_check, question)


def policy_ask(question):
    """What `aapolicy ask --json` prints to the words of a question."""
    return _answer(_policy_ask, question)


def policy_diff(question):
    """What `aapolicy diff --json` prints of the two sides of a question."""
    return _answer(_policy_diff, question)
