"""What a tool prints, if nobody reads it any more: the tool goes on, drops the rest, and says so in the end."""

import codecs
import contextlib
import errno
import json
import os
import sys
from collections.abc import Callable, Iterator

from precopy_tools import version


def spelled(fault: UnicodeEncodeError) -> tuple[str | bytes, int]:
    """What an encoding does not have: the bytes of a file's name as they are, and other letters by their numbers."""
    first = UnicodeEncodeError(fault.encoding, fault.object, fault.start, fault.start + 1, fault.reason)
    try:
        return codecs.lookup_error("surrogateescape")(first)
    except UnicodeError:
        return codecs.lookup_error("backslashreplace")(first)


codecs.register_error("precopy", spelled)


class Stream:
    """A standard stream that can fail, as one whose reader has gone, or one that is closed. What is written after that
    goes nowhere."""

    def __init__(self, stream):
        self.stream, self.fault = stream or open(os.devnull, "w", encoding="utf-8"), None
        if stream is None:
            self.fault = OSError(errno.EBADF, os.strerror(errno.EBADF))

    def _try(self, call: Callable, *words):
        if self.fault is None:
            try:
                return call(*words)
            except OSError as fault:
                self.fault = fault
                nowhere = os.open(os.devnull, os.O_WRONLY)
                os.dup2(nowhere, self.stream.fileno())
                os.close(nowhere)
        return 0

    def write(self, text: str) -> int:
        return self._try(self.stream.write, text)

    def flush(self) -> None:
        self._try(self.stream.flush)

    def __getattr__(self, name: str):
        return getattr(self.stream, name)


JSON_HELP = "print what is told as one line of JSON, in place of text"


def document(format: str, **fields) -> None:
    """Prints a document as one line of JSON, with what it is called first."""
    print(json.dumps({"format": format, **fields}), flush=True)


@contextlib.contextmanager
def silent(is_silent: bool) -> Iterator[Callable[..., None]]:
    """What is printed in the body goes nowhere, if that is asked for. Yields what prints documents all the same."""
    stream = sys.stdout
    if not is_silent:
        yield lambda *_, **__: None
        return

    def told(format: str, **fields) -> None:
        with contextlib.redirect_stdout(stream):
            document(format, **fields)

    with open(os.devnull, "w", encoding="utf-8", errors="precopy") as nowhere, contextlib.redirect_stdout(nowhere):
        yield told


def run(name: str, main: Callable[[list[str]], int], loses: bool) -> int:
    """The status of a tool. If `loses`, then what it prints is all that it makes, and losing it is a failure."""
    sys.stdout, sys.stderr = Stream(sys.stdout), Stream(sys.stderr)
    sys.stdout.reconfigure(errors="precopy")
    status = main(sys.argv[1:])
    sys.stdout.flush()
    if sys.stdout.fault is not None:
        version.complain(name, f"what it prints could not be written: {sys.stdout.fault.strerror}")
        status = status or int(loses)
    sys.stderr.flush()
    return status
