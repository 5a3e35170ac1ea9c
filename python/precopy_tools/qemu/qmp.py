"""A client of QEMU's machine protocol, over its Unix socket: one command at a time; events are ignored."""

import contextlib
import json
import socket
import struct
import time

SECONDS, REST = 20, 0.05
# An answer is one line, and no answer that is asked for here is nearly as long.
MOST_BYTES = 16 << 20


class Fault(Exception):
    """QEMU does not answer, or answers with an error."""


def is_object(message):
    return isinstance(message, dict)


def returned(path, command, answer):
    """What an answer returns, or the error that it tells."""
    if not is_object(answer) or "return" not in answer:
        error = answer.get("error") if is_object(answer) else None
        raise Fault(f"{path}: {command}: {error.get('desc') if is_object(error) else 'an answer without a return'}")
    return answer["return"]


def command_line(command, arguments):
    asked = {"execute": command}
    if arguments:
        asked["arguments"] = {name.replace("_", "-"): value for name, value in arguments.items()}
    return json.dumps(asked)


def is_taken(path):
    """Whether a server of a socket has accepted a connection there, as /proc/net/unix tells."""
    connected = "03"
    with contextlib.suppress(OSError), open("/proc/net/unix", encoding="utf-8", errors="replace") as lines:
        rows = [line.split(maxsplit=7) for line in lines]
        return any(row[7].rstrip("\n") == path and row[5] == connected for row in rows if len(row) == 8)
    return False


class Client:
    """One connection. QEMU serves one client at a time, so keep it no longer than it is needed."""

    def __init__(self, path, seconds=SECONDS):
        self.path, self.seconds, self.rest, self.maker, self.socket = path, seconds, bytearray(), None, None
        try:
            self.socket = socket.socket(socket.AF_UNIX)
            self._greet()
        except (OSError, ValueError, Fault) as fault:
            if self.socket:
                self.socket.close()
            raise self._no_monitor(fault) from fault

    def _no_monitor(self, fault):
        """Why there is no connection to a monitor."""
        if isinstance(fault, Fault):
            return fault
        told = getattr(fault, "strerror", None) or fault
        if isinstance(fault, TimeoutError):
            told = f"{fault}; {self._silence()}"
        elif isinstance(fault, ValueError):
            told = f"this is no monitor of QEMU's machine protocol, as -qmp makes one: {fault}"
        return Fault(f"{self.path}: {told}")

    def _silence(self):
        """Why QEMU may not answer."""
        if is_taken(self.path):
            return "QEMU serves one client at a time, and another one has this socket"
        maker = self.maker
        return (
            f"nobody else has this socket: QEMU{f', process {maker},' if maker else ''} does not answer; is it stopped?"
        )

    def _connect(self):
        """Has a place in the queue of the socket. The system does not wait for one, and so it is tried again."""
        end = time.monotonic() + self.seconds
        self.socket.settimeout(self.seconds)
        while True:
            try:
                return self.socket.connect(self.path)
            except BlockingIOError as fault:
                if time.monotonic() > end:
                    raise TimeoutError(f"no answer within {self.seconds:g} s") from fault
            time.sleep(REST)

    def _greet(self):
        self._connect()
        self.maker = self.process()
        self._next("QMP")
        self.ask("qmp_capabilities")

    def _line(self, end):
        """The next line, if it is there before the time."""
        looked = 0
        while (found := self.rest.find(b"\n", looked)) < 0:
            looked, left = len(self.rest), end - time.monotonic()
            if looked > MOST_BYTES:
                raise Fault(f"{self.path}: an answer of more than {MOST_BYTES >> 20} MiB")
            if left <= 0:
                raise TimeoutError(f"no answer within {self.seconds:g} s")
            data = self._received(left)
            if not data:
                raise Fault(f"{self.path}: the connection is closed")
            self.rest += data
        line = bytes(self.rest[:found])
        del self.rest[: found + 1]
        return line

    def _received(self, seconds):
        self.socket.settimeout(seconds)
        try:
            return self.socket.recv(1 << 16)
        except TimeoutError as fault:
            raise TimeoutError(f"no answer within {self.seconds:g} s") from fault

    def _next(self, *names):
        """The next message that has one of these names."""
        end = time.monotonic() + self.seconds
        while True:
            try:
                message = json.loads(self._line(end))
            except RecursionError as fault:
                raise ValueError("an answer of lists without end") from fault
            if is_object(message) and any(name in message for name in names):
                return message
            if time.monotonic() > end:
                raise TimeoutError(f"no answer within {self.seconds:g} s")

    def ask(self, command, **arguments):
        try:
            self.socket.sendall(command_line(command, arguments).encode() + b"\n")
            answer = self._next("return", "error")
        except (OSError, ValueError) as fault:
            raise Fault(f"{self.path}: {command}: {getattr(fault, 'strerror', None) or fault}") from fault
        return returned(self.path, command, answer)

    def object_of(self, command):
        """What a question is answered that QEMU answers with an object."""
        if not is_object(told := self.ask(command)):
            raise Fault(f"{self.path}: {command}: an answer that is no object")
        return told

    def process(self):
        """The process that made the socket: QEMU, if it was not handed to it. None if it is in another namespace."""
        size = struct.calcsize("3i")
        return struct.unpack("3i", self.socket.getsockopt(socket.SOL_SOCKET, socket.SO_PEERCRED, size))[0] or None

    def __enter__(self):
        return self

    def __exit__(self, *_):
        self.socket.close()


class Pause:
    """How long the guest was paused, in seconds; known when it is over."""

    seconds = 0.0


def stop(client):
    """Stops the guest. If that is not answered in time it may be stopped later, so it is told to go on."""
    try:
        client.ask("stop")
    except Fault:
        with contextlib.suppress(Fault):
            client.ask("cont")
        raise


@contextlib.contextmanager
def paused(path, seconds=SECONDS):
    """The guest is paused in the body. It goes on afterwards if it was running."""
    with Client(path, seconds) as client:
        pause = Pause()
        status = client.ask("query-status")
        running = status.get("running") if is_object(status) else None
        if not isinstance(running, bool):
            raise Fault(f"{path}: query-status: an answer without running")
        begun = time.monotonic()
        if running:
            stop(client)
        try:
            yield pause
        finally:
            if running:
                client.ask("cont")
                pause.seconds = time.monotonic() - begun
