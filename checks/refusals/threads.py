"""The threads that the program starts, by the functions that they run, and which of them only save time."""

import re

# The work of one that only saves time is done by its caller, if it is not started: the threads of `thread::join`.
INDEX, WRITES, TABLES = "half of an index", "half of the writes", "the tables"
CALLS, PIECES = "half of the cases, or of the pieces of a trace", "half of the pieces of memory"
SAVERS = {
    INDEX: r"page_versions::index::.*",
    WRITES: r"page_versions::packed::.*",
    TABLES: r"migration_jobs::running::.*",
    CALLS: r"std::thread::fork::.*",
    PIECES: r"core::thread::lent::.*",
}
# All others are started by a scope, and are needed. How many kinds of them a live run has at least: it plans, receives,
# replays and copies. A warm start has one more, which makes the memory of its base. If many pages are left at the stop,
# which hangs on the schedule, others make frames of them.
NEEDED, OF_LIVE = re.compile(r"core::scope::entry\b.*"), 4


def saver_of(function):
    """Which thread that only saves time runs a function, or None."""
    return next((thread for thread, names in SAVERS.items() if re.fullmatch(names, function)), None)


def is_needed(function):
    return NEEDED.fullmatch(function) is not None
