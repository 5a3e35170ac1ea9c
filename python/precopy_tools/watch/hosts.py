"""Which guests a host has, and which of them run: those of libvirt, or those behind sockets of QEMU's monitors."""

import concurrent.futures
import glob
import os
import stat

from precopy_tools.qemu import qmp
from precopy_tools.record import domains, watching
from precopy_tools.watch.names import Names, Odd, is_name, name_of

# How many monitors are asked at once, so that some that hang do not hold up all.
AT_ONCE = 8
SECONDS = 1.0
# How long virsh may take. A service that is ended waits for it, and is killed if that takes too long.
LIST_SECONDS = 10.0


class Libvirt:
    """The guests of libvirt, by two calls of virsh for all of them."""

    def __init__(self):
        self.odd = Odd()

    def look(self) -> dict[str, bool | None]:
        """Each guest that is not shut off, and whether it runs; or a Fault."""
        active, running = (
            domains.virsh("list", "--name", *words, seconds=LIST_SECONDS).splitlines()
            for words in ([], ["--state-running"])
        )
        self.odd.tell([name for name in active if name and not is_name(name)])
        return {name: name in running for name in active if is_name(name)}

    def words(self, name: str) -> list[str]:
        """How tools/record is told of a guest."""
        return [f"--domain={name}"]


class Monitors:
    """The guests of QEMU whose monitors' sockets have names of this pattern. Each is called as its socket, and if there
    are several of that name, by folders of its path too."""

    def __init__(self, pattern: str):
        self.pattern, self.names, self.odd, self.sockets = pattern, Names(), Odd(), {}

    def look(self) -> dict[str, bool | None]:
        """Each guest whose monitor answers, and whether it runs; or a Fault. One that hangs is there, and nothing is
        known."""
        paths = self._paths()
        with concurrent.futures.ThreadPoolExecutor(AT_ONCE) as pool:
            found = zip(paths, pool.map(self._state, paths))
            there = {path: runs for path, (is_there, runs) in found if is_there}
        self.sockets = self.names.of([*there])
        return {name: there[path] for name, path in self.sockets.items()}

    def _paths(self) -> list[str]:
        """The sockets, each once, by whichever of its paths comes first; or a Fault."""
        expect_readable(self.pattern)
        sockets = [path for path in sorted(glob.glob(self.pattern)) if is_socket(path)]
        self.odd.tell([path for path in sockets if not is_name(name_of(path))])
        paths = [path for path in sockets if is_name(name_of(path))]
        return [*{(name_of(path), os.path.realpath(path)): path for path in reversed(paths)}.values()][::-1]

    @staticmethod
    def _state(path: str) -> tuple[bool, bool | None]:
        try:
            with qmp.Client(path, SECONDS) as client:
                return True, watching.runs_by(client)
        except qmp.Fault as fault:
            return not isinstance(fault.__cause__, (ConnectionRefusedError, FileNotFoundError)), None

    def words(self, name: str) -> list[str]:
        return [f"--qmp={self.sockets[name]}"]


def expect_readable(pattern: str) -> None:
    """The folder of a pattern can be read, or is not there. glob takes one that cannot be for an empty one, and so all
    guests would have gone."""
    folder = pattern
    while glob.escape(folder) != folder:
        folder = os.path.dirname(folder)
    try:
        if folder != pattern:
            os.scandir(folder or ".").close()
    except FileNotFoundError:
        pass
    except OSError as fault:
        raise qmp.Fault(f"{folder or '.'}: {fault.strerror}") from fault


def is_socket(path: str) -> bool:
    try:
        return stat.S_ISSOCK(os.stat(path).st_mode)
    except OSError:
        return False
