"""Why calls refuse, and how a call is made over a trace."""

from __future__ import annotations

import ctypes
from typing import TYPE_CHECKING, Any, Callable, Optional, Tuple, TypeVar

from . import _calls
from ._calls import LIBRARY as _LIBRARY
from ._calls import lent as _lent
from ._interface import TEXT_BOUND, Status

if TYPE_CHECKING:
    # Type checkers know this module, which need not be installed.
    from typing_extensions import Buffer as Bytes

    from . import Taken
else:
    Bytes = Any

Made = TypeVar("Made")


def sentence(call: Any, *words: Any) -> str:
    """The sentence that a call writes into a buffer, which is long enough for each."""
    text, needed = ctypes.create_string_buffer(TEXT_BOUND), ctypes.c_size_t()
    call(*words, text, len(text), needed)
    return text.raw[: needed.value].decode("ascii")


class Refused(Exception):
    """A call refused. `status` says why, and the text says what it means."""

    def __init__(self, status: int, text: str = "") -> None:
        super().__init__(text or _LIBRARY.precopy_strerror(status).decode())
        self.status = Status(status)

    def __reduce__(self) -> Tuple[Any, ...]:
        return type(self), (self.status,), self.__dict__


class TraceRefused(Refused):
    """The bytes are not a trace, or no guest has these sizes. `record` is the record that is named, if one is."""

    def __init__(self, status: int, record: Optional[int] = None) -> None:
        super().__init__(status, "" if record is None else sentence(_LIBRARY.precopy_refusal_text, status, record))
        self.record = record

    def __reduce__(self) -> Tuple[Any, ...]:
        return type(self), (self.status, self.record)


class SettingsRefused(Refused):
    """A setting is out of its range, or one that a question makes."""


class FrameRefused(Refused):
    """Bytes begin with no frame, or no frame has such a page or stamp. `taken` says what of a stream was taken before
    them."""

    taken: Optional[Taken] = None


class BufferRefused(Refused):
    """The number of bytes is not that of a page, or not that of the memory."""


class PlaceRefused(Refused):
    """The guest does not have the page, or the page no such version, or a step ends before it begins."""


class QuestionRefused(Refused):
    """A question is out of its range, or has too many starts, or the trace is not as it says."""


class NoMemory(Refused, MemoryError):
    """Memory ran out."""


class Overlap(ValueError):
    """What a call would write overlaps what it reads."""


_KINDS = [(range(1, 16), TraceRefused), (range(16, 17), NoMemory), (range(21, 32), SettingsRefused)]
_KINDS += [(range(41, 46), FrameRefused), (range(61, 66), BufferRefused), (range(67, 72), PlaceRefused)]
_KINDS += [(range(81, 91), QuestionRefused)]


def room(make: Callable[..., Made], *words: Any) -> Made:
    """Makes what takes memory, or raises `NoMemory`."""
    try:
        return make(*words)
    except (MemoryError, OSError) as fault:
        raise NoMemory(Status.NO_MEMORY) from fault


def apart(written: Tuple[int, int], read: Tuple[int, int]) -> None:
    """Raises `Overlap` if bytes that are lent to be written are lent to be read too."""
    if max(written[0], read[0]) < min(sum(written), sum(read)):
        raise Overlap("what the call would write overlaps what it reads")


def check(status: int) -> None:
    if status:
        raise next((kind for numbers, kind in _KINDS if status in numbers), Refused)(status)


def call_over(call: Any, trace: Bytes, *words: Any) -> int:
    """Makes a call whose first words are a trace, and whose last is the record for which it is refused. Returns a
    status of what is wrong in streams, or 0."""
    record = ctypes.c_uint32(_calls.NO_RECORD)
    with _lent(trace) as (start, length):
        status: int = call(start, length, *words, record)
    if status in _KINDS[0][0]:
        raise TraceRefused(status, record.value if record.value != _calls.NO_RECORD else None)
    return status


def check_over(call: Any, trace: Bytes, *words: Any) -> None:
    """Makes such a call, and raises what any other status than 0 means."""
    check(call_over(call, trace, *words))
