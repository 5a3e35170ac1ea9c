"""What checks count: cases that passed and that failed, those that were left out, and those that passed when they were
tried again. A case is what somebody would name: a trace, a page of documents, a way to call a program.
"""

import contextlib
import fcntl
import importlib
import importlib.util
import os
import shutil
import subprocess
import tempfile
import threading
import traceback

SECONDS_TO_INSTALL = 300
# Of the expectations of one case that failed, so many are told.
MOST_TOLD = 5
TOOLS = os.path.join(os.path.dirname(os.path.abspath(__file__)), "tools.txt")
# What is told of a case that fails only since something was late. The gate knows by it what may be tried again.
LATE = "late: other work on this machine may be why"
# Whether the first failure is the end. Checks that a check runs do not inherit it.
ENDS_EARLY = bool(os.environ.pop("CHECKS_END_EARLY", ""))
# What this process left out, each with its reason.
SKIPPED: list[tuple[str, str]] = []


class Failure(Exception):
    """What a check saw that it did not want, and what the case was drawn from, if that is known."""

    draw = None


class LeftOut(Failure):
    """Why a case cannot be tried here."""


class Late(Failure):
    """Something was not in time, which other work on this machine may cause: only that may be tried again."""


def expect(holds: object, told: object) -> None:
    if not holds:
        raise Failure(str(told))


def expect_in_time(holds: object, told: object) -> None:
    """The same of what hangs on a clock alone."""
    if not holds:
        raise Late(str(told))


def left_out(what: str, why: object) -> None:
    """Counts a case that cannot be tried here."""
    SKIPPED.append((what, str(why)))
    print(f"  SKIPPED {what}: {' '.join(str(why).split())}", flush=True)


# What the case that a thread tries was drawn from, as `draw`.
OF_THREAD = threading.local()


def draw_now():
    return getattr(OF_THREAD, "draw", None)


@contextlib.contextmanager
def drawn_from(draw):
    """What this thread tries meanwhile was drawn from this, or from nothing that is known."""
    before, OF_THREAD.draw = draw_now(), draw
    try:
        yield
    finally:
        OF_THREAD.draw = before


class Case:
    """What was expected of a case, and what of it does not hold; how many of these are only late, and what the first
    was drawn from, if that is known."""

    def __init__(self):
        self.tried, self.faults, self.late, self.draw = 0, [], 0, None

    def add(self, good, told) -> bool:
        self.tried += 1
        if not good:
            self.faults.append(str(told))
            self.draw = self.draw or draw_now()
        return bool(good)


class Tally:
    """How many cases passed and failed. A failure is reported at once; if the environment says so, it is the end."""

    def __init__(self):
        self.passed, self.failed, self.flaky = 0, 0, []
        self.failed_draws: list[str] = []
        self.lock = threading.Lock()

    def add(self, good, told, draw=None, is_late=False) -> bool:
        """A case of one expectation. If it is only late, that is told in a line of its own."""
        draw = draw or draw_now()
        with self.lock:
            self.passed, self.failed = self.passed + bool(good), self.failed + (not good)
        if not good:
            self.failed_draws += [draw.line] if draw else []
            more = [f"    drawn: {draw}"] * bool(draw) + [f"    {LATE}"] * is_late
            print("\n".join([f"  FAILED {told}", *more]), flush=True)
            if ENDS_EARLY:
                # Other threads may work on, and would be waited for.
                print(self, flush=True)
                os._exit(1)
        return bool(good)

    @contextlib.contextmanager
    def case(self, name: str):
        """A case of several expectations. It fails if one does not hold, if there is none, or by any exception."""
        case = Case()
        try:
            yield case
        except LeftOut as why:
            left_out(name, why)
            return
        except Late as wrong:
            case.add(False, wrong)
            case.late += 1
        except Failure as wrong:
            case.add(False, wrong)
        except Exception:
            case.add(False, traceback.format_exc())
        if not case.tried:
            case.add(False, "nothing was tried")
        more = len(case.faults) - MOST_TOLD
        told = [*case.faults[:MOST_TOLD], *([f"and {more} more"] if more > 0 else [])]
        self.add(not case.faults, f"{name}: " + "\n    ".join(told), case.draw, case.late == len(case.faults))

    def tries(self, name: str, act, *words) -> None:
        """A case that raises what it does not want."""
        with self.case(name) as case:
            act(*words)
            case.add(True, "")

    def add_all(self, other: "Tally") -> None:
        self.passed, self.failed = self.passed + other.passed, self.failed + other.failed
        self.flaky, self.failed_draws = self.flaky + other.flaky, self.failed_draws + other.failed_draws

    def __str__(self) -> str:
        return f"{self.passed} passed, {self.failed} failed" + (f", {len(SKIPPED)} skipped" if SKIPPED else "")


# ---- Tools that cases need.


def tools() -> dict[str, list[str]]:
    """The packages of Debian that have each tool, by the list of tools."""
    with open(TOOLS, encoding="utf-8") as file:
        lines = [line.split() for line in file if line.strip()]
    return {name: packages for name, *packages in lines}


def apt_get(*words: str) -> bool:
    """Whether apt-get does something. One check at a time asks it."""
    environment = {**os.environ, "DEBIAN_FRONTEND": "noninteractive"}
    command = ["apt-get", "-q", "-o", "DPkg::Lock::Timeout=120", *words]
    how = {"stdin": subprocess.DEVNULL, "stdout": subprocess.DEVNULL, "stderr": subprocess.DEVNULL}
    with open(os.path.join(tempfile.gettempdir(), "precopy-checks.lock"), "w", encoding="ascii") as lock:
        fcntl.flock(lock, fcntl.LOCK_EX)
        with contextlib.suppress(subprocess.TimeoutExpired):
            return subprocess.run(command, env=environment, timeout=SECONDS_TO_INSTALL, **how).returncode == 0
    return False


def is_installed(packages: list[str]) -> bool:
    """Whether packages could be installed. If those of Debian can be had and these cannot, that is a failure: the list
    of tools names what there is not."""
    if os.geteuid() != 0 or not shutil.which("apt-get"):
        return False
    words = ("install", "-y", "--no-install-recommends", *packages)
    if apt_get(*words):
        return True
    if not apt_get("update", "--error-on=any"):
        return False
    expect(apt_get(*words), f"apt-get works, and does not install {' '.join(packages)}")
    return True


def why_not(command: str) -> str:
    """Why a tool of the list is not here and could not be installed, or nothing."""
    packages = tools()[command]
    if shutil.which(command) or (is_installed(packages) and shutil.which(command)):
        return ""
    return f"there is no {command}, and {' '.join(packages)} could not be installed"


def has(command: str, _package: str, what: str) -> bool:
    """Whether a tool is here, or could be installed. If not, what needs it is left out."""
    if why := why_not(command):
        left_out(what, why)
    return not why


def need(*commands: str) -> None:
    """Leaves the case out if a tool is not here and cannot be installed."""
    for command in commands:
        if why := why_not(command):
            raise LeftOut(why)


def module(name: str):
    """A module of the list. It leaves the case out if the module is not here and cannot be installed."""
    packages = tools()[name]
    if not importlib.util.find_spec(name) and not is_installed(packages):
        raise LeftOut(f"there is no module {name}, and {' '.join(packages)} could not be installed")
    importlib.invalidate_caches()
    try:
        return importlib.import_module(name)
    except ImportError as fault:
        raise LeftOut(f"the module {name} cannot be loaded: {fault}") from fault
