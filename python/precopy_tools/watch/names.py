"""Names of guests by the paths of their monitors' sockets: each has a name of its own as long as it is there."""

import collections
import os

from precopy_tools import version

# A longer name than that of a socket has at most so many bytes, so that names of records have room for what they add.
MOST_BYTES = 200


def is_name(name: str) -> bool:
    """Whether this can be in the name of a file, and in a line."""
    return name.isprintable() and "/" not in name and not name.startswith(".") and name != ""


def name_of(path: str) -> str:
    """How a guest is called whose socket is the only one of this name."""
    return os.path.splitext(os.path.basename(path))[0]


def names_of(path: str, depth: int) -> list[str]:
    """The names that a guest may have: with more and more folders in front, and then also with all of the last part."""
    *folders, last = os.path.abspath(path).strip("/").split("/")
    in_front = [folders[max(0, len(folders) - count) :] for count in range(depth + 1)]
    return ["-".join([*each, part]) for part in (name_of(path), last) for each in in_front]


class Odd:
    """Guests that are not watched, since they are called as no file can be. Each is told once while it is there."""

    def __init__(self):
        self.told: set[str] = set()

    def tell(self, there: list[str]) -> None:
        for each in there:
            if each not in self.told:
                version.complain("watch", f"{each!r}: not watched: a record cannot have this name")
        self.told = set(there)


class Names:
    """The names of guests that are there. One keeps its name until it has gone, whoever else comes."""

    def __init__(self):
        self.given: dict[str, str] = {}
        self.refused: set[str] = set()

    def of(self, paths: list[str]) -> dict[str, str]:
        """The paths by the names of their guests, but for those that can have none."""
        there, alike = set(paths), collections.defaultdict(list)
        self.given = {path: name for path, name in self.given.items() if path in there}
        self.refused &= there
        for path in paths:
            alike[name_of(path)].append(path)
        # Those whose names nobody else has are first, and keep them.
        for group in sorted(alike.values(), key=len):
            self._name(group)
        return {self.given[path]: path for path in paths if path in self.given}

    def _name(self, group: list[str]) -> None:
        """Gives names to those of some sockets with one name that have none yet."""
        if all(path in self.given for path in group):
            return
        depth = max(os.path.abspath(path).count("/") for path in group)
        choices = {path: names_of(path, depth) for path in group}
        counts = [collections.Counter(names) for names in zip(*choices.values())]
        taken = set(self.given.values())
        for path in group:
            if path in self.given:
                continue
            free = (name for name, count in zip(choices[path], counts) if count[name] == 1 and name not in taken)
            if name := next((each for each in free if self._fits(path, each)), None):
                self.given[path] = name
                taken.add(name)
                self._tell(path, name)
            elif path not in self.refused:
                self.refused.add(path)
                version.complain("watch", f"{path}: not watched: no part of its path is a name that no other guest has")

    @staticmethod
    def _fits(path: str, name: str) -> bool:
        return is_name(name) and (name == name_of(path) or len(os.fsencode(name)) <= MOST_BYTES)

    @staticmethod
    def _tell(path: str, name: str) -> None:
        if name != name_of(path):
            print(f"{name}: the guest of {path}, whose name {name_of(path)} is that of others too", flush=True)
