"""Bugs to plant in examples/c/sender.c, and the signs by which each is found."""

from typing import Callable, NamedTuple

from checks.lib.stream_model import Wrong, WrongFrame, WrongPage


class Bug(NamedTuple):
    """Texts of the engine with what takes their places, and whether what is wrong first in some streams is a sign."""

    edits: list[tuple[str, str]]
    is_sign: Callable[[Wrong, list[bytes]], bool]


def planted(source: str, edits: list[tuple[str, str]]) -> str:
    """The engine with some edits. Each text to replace must stand there once."""
    for old, new in edits:
        if source.count(old) != 1:
            raise ValueError(f"this text stands {source.count(old)} times in the engine: {old}")
        source = source.replace(old, new)
    return source


def is_old_frame(wrong: Wrong, streams: list[bytes]) -> bool:
    """Whether the last frame of the first stream is an old one of page 0."""
    if not isinstance(wrong, WrongFrame) or (wrong.cause, wrong.stream, wrong.page) != ("older", 0, 0):
        return False
    return wrong.offset + 9 + 4096 == len(streams[0]) and wrong.stamp < wrong.wanted


def has_old_bytes(wrong: Wrong, _: list[bytes]) -> bool:
    return isinstance(wrong, WrongFrame) and (wrong.cause, wrong.stream, wrong.page) == ("bytes", 0, 0)


def is_stale_page(wrong: Wrong, _: list[bytes]) -> bool:
    return isinstance(wrong, WrongPage) and wrong.stamp is not None and wrong.stamp < wrong.missing


def is_page_behind(wrong: Wrong, streams: list[bytes]) -> bool:
    return isinstance(wrong, WrongPage) and (wrong.stamp is None or is_stale_page(wrong, streams))


COPY = """\
    memcpy(frame.bytes, memory + page * PAGE, PAGE);
"""
PROTECT = """\
    for (size_t at = 0; at < listed_count; at++) protect(listed[at], UFFDIO_WRITEPROTECT_MODE_WP);
"""
SEND = """\
    if (fwrite(&frame,"""
STOP, ROUND, END = "    stop_writers();\n", "    send_round();\n", "    return listed_count;\n"
# However little time the threads get, they write meanwhile.
WAIT = "    if (!stopping)\n        await_writes(200);\n"
FINISH = """\
    for (size_t i = 0; i < stream_count; i++) {
        char answer;
"""

BUGS = {
    # The first frame of page 0 comes once more, after the last frame of its stream.
    "late": Bug(
        [
            ("static void send_page(", "static struct frame late;\n\nstatic void send_page("),
            (SEND, "    if (page == 0 && late.kind == 0)\n        late = frame;\n" + SEND),
            (FINISH, "    fwrite(&late, offsetof(struct frame, bytes) + PAGE, 1, streams[0]);\n" + FINISH),
        ],
        is_old_frame,
    ),
    # Page 0 comes from a cache that keeps the bytes it was first sent with.
    "cached": Bug(
        [
            (
                COPY,
                "    static uint8_t cache[PAGE];\n"
                "    static bool is_cached;\n"
                "    memcpy(frame.bytes, page == 0 && is_cached ? cache : memory + page * PAGE, PAGE);\n"
                "    if (page == 0 && !is_cached)\n"
                "        is_cached = memcpy(cache, frame.bytes, PAGE) == cache;\n",
            )
        ],
        has_old_bytes,
    ),
    # Pages are protected after they were sent, and not before: what is written in between is not seen.
    "lost": Bug([(PROTECT, ""), (END, WAIT + PROTECT + END)], is_stale_page),
    # A loop ends one page too early.
    "left out": Bug(
        [("at < listed_count; at++) {\n        if (listed", "at + 1 < listed_count; at++) {\n        if (listed")],
        is_page_behind,
    ),
    # The last round is sent while threads still write.
    "early": Bug([(STOP + ROUND, ROUND + WAIT + STOP)], is_stale_page),
}

# Not a bug, but a kernel that offers nothing.
WITHOUT_USERFAULTFD = [("syscall(SYS_userfaultfd,", "syscall(-1,")]
