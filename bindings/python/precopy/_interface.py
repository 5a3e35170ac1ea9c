"""The structs, statuses and functions of include/precopy.h, for ctypes. Made by dev/interface."""

from ctypes import POINTER, Structure, c_size_t, c_uint32, c_uint64, c_void_p
from enum import IntEnum

ABI, TEXT_BOUND = 6, 320
REPORT_BOUND = (72, 11, 128, 67)


class Status(IntEnum):
    """A status of the library: why a call refuses, or what is wrong in streams."""

    SHORT_HEADER = 1
    BAD_MAGIC = 2
    BAD_VERSION = 3
    BAD_SHIFT = 4
    BAD_RESERVED = 5
    BAD_PAGES = 6
    TOO_MANY_WRITES = 7
    SHORT_RECORD = 8
    TICK_ORDER = 9
    TICK_TOO_LARGE = 10
    PAGE_OUT_OF_RANGE = 11
    EMPTY_WRITE = 12
    OUT_OF_PAGE = 13
    TRAILING_BYTES = 14
    TOO_LONG = 15
    NO_MEMORY = 16
    BAD_MIN = 21
    BAD_MAX = 22
    BAD_INCREMENT = 23
    BAD_THRESHOLD = 24
    BAD_ROUNDS = 25
    BAD_WINDOW = 26
    BAD_HOT = 27
    BAD_START = 28
    BAD_BASE = 30
    BAD_SIZE = 31
    FRAME_SHORT = 41
    FRAME_PAGE = 42
    FRAME_STAMP = 43
    FRAME_KIND = 44
    FRAME_ZEROS = 45
    SHORT_BUFFER = 61
    PAGE_LENGTH = 62
    MEMORY_LENGTH = 63
    PAGE_COUNT = 64
    PAGE_MISSING = 65
    STREAM_SIZES = 66
    NO_PAGE = 67
    BACKWARDS = 68
    NO_VERSION = 71
    AFTER_STOP = 72
    OLDER = 73
    OTHER_BYTES = 74
    PAGE_BEHIND = 75
    BAD_TICK = 81
    BAD_PAGE = 82
    BAD_SAMPLE = 83
    BAD_LINK = 84
    BAD_FIRST = 85
    BAD_RESERVE = 86
    BAD_DOWNTIME = 87
    OTHER_PAGES = 88
    MORE_PAGES = 89
    TOO_MANY_STARTS = 90

    @classmethod
    def _missing_(cls, value):
        """A status of a later library, which this module does not know."""
        made = int.__new__(cls, value)
        made._name_, made._value_ = f"UNKNOWN_{value}", value
        return made


def _of(kind, *names):
    return [(name, kind) for name in names]


class Sizes(Structure):
    _fields_ = _of(c_uint32, "shift", "pages", "writes")


class Settings(Structure):
    _fields_ = [
        *_of(c_uint64, "size", "min", "max", "increment", "threshold", "rounds"),
        *_of(c_uint64, "start", "window", "hot", "base"),
        *_of(c_uint32, "has_base", "skip"),
    ]


class Sums(Structure):
    _fields_ = _of(c_uint64, "rounds", "reason", "stop", "down", "total")


class Round(Structure):
    _fields_ = _of(c_uint64, "from", "to", "rate", "pages", "sent", "dirtied")


class Frame(Structure):
    _fields_ = [*_of(c_uint32, "page", "stamp"), *_of(c_size_t, "size")]


class Page(Structure):
    _fields_ = _of(c_uint32, "came", "stamp")


class Taken(Structure):
    _fields_ = _of(c_size_t, "frames", "bytes")


class Finding(Structure):
    _fields_ = [
        *_of(c_size_t, "stream", "frame", "offset"),
        *_of(c_uint64, "tick"),
        *_of(c_uint32, "page", "stamp", "wanted", "missing"),
    ]


class Trace(Structure):
    _fields_ = [
        *_of(Sizes, "sizes"),
        *_of(c_uint32, "version"),
        *_of(c_void_p, "bytes"),
        *_of(c_size_t, "bytes_length"),
        *_of(POINTER(c_uint32), "words"),
        *_of(c_size_t, "words_length"),
    ]


class Write(Structure):
    _fields_ = [*_of(c_uint64, "tick"), *_of(c_size_t, "size"), *_of(c_uint32, "place", "offset")]


class Progress(Structure):
    _fields_ = [*_of(c_size_t, "stream", "frames", "bytes"), *_of(c_uint32, "stop")]


class Question(Structure):
    _fields_ = [
        *_of(c_uint64, "size", "link", "first", "downtime", "reserve", "tick"),
        *_of(c_uint64, "page", "sampled", "guest", "increment", "rounds", "start"),
        *_of(c_uint64, "base"),
        *_of(c_uint32, "has_first", "has_increment", "has_base", "skip", "clark"),
    ]


class Prediction(Structure):
    _fields_ = [
        *_of(c_uint64, "rounds", "reason", "stop", "down", "total", "left"),
        *_of(c_uint64, "time", "bytes", "downtime", "recorded"),
        *_of(c_uint32, "converges", "kept"),
    ]


class Errors(Structure):
    _fields_ = [*_of(c_uint64, "bytes", "time", "downtime"), *_of(c_uint32, "has_errors")]


class Agreement(Structure):
    _fields_ = [
        *_of(c_uint64, "draws", "draws_known", "draws_converging", "draws_kept", "starts", "starts_converging"),
        *_of(c_uint64, "starts_kept"),
        *_of(c_uint32, "converges", "kept"),
    ]


class Amounts(Structure):
    _fields_ = [
        *_of(c_uint64, "link", "downtime", "speed", "ending_link", "ending_start"),
        *_of(c_uint32, "has_link", "has_downtime", "has_speed", "has_ending_link", "has_ending_start", "is_kept"),
        *_of(c_uint32, "ends"),
    ]


class Forecast(Structure):
    _fields_ = [*_of(c_uint64, "looks", "time", "bytes", "left", "downtime"), *_of(c_uint32, "end", "kept")]


class LinkShares(Structure):
    _fields_ = [*_of(c_uint64, "percent"), *_of(c_uint32, "converges", "below")]


class Starts(Structure):
    _fields_ = [*_of(c_uint64, "size", "to", "every"), *_of(c_uint32, "has_to", "has_every")]


class BestStart(Structure):
    _fields_ = [*_of(c_uint64, "start", "rounds", "time", "bytes", "downtime"), *_of(c_uint32, "kept", "is_likely")]


class Recording(Structure):
    _fields_ = [*_of(c_size_t, "length"), *_of(c_uint64, "last_tick"), *_of(c_uint32, "writes", "pages", "shift")]


# The arguments of each function.
CALLS = {
    "refusal_text": [c_uint32, c_uint32, c_void_p, c_size_t, POINTER(c_size_t)],
    "finding_text": [c_uint32, POINTER(Finding), c_void_p, c_size_t, POINTER(c_size_t)],
    "abi": [],
    "check_trace": [c_void_p, c_size_t, POINTER(Sizes), POINTER(c_uint32)],
    "check_settings": [POINTER(Settings)],
    "plan": [c_void_p, c_size_t, POINTER(Settings), POINTER(Sums), POINTER(c_uint32)],
    "report": [c_void_p, c_size_t, POINTER(Settings), c_void_p, c_size_t, POINTER(c_size_t), POINTER(c_uint32)],
    "memory": [c_void_p, c_size_t, c_void_p, c_size_t, POINTER(c_size_t), POINTER(c_uint32)],
    "encode_frame": [POINTER(Sizes), c_uint32, c_uint32, c_void_p, c_size_t, c_void_p, c_size_t, POINTER(c_size_t)],
    "decode_frame": [POINTER(Sizes), c_void_p, c_size_t, POINTER(Frame), c_void_p, c_size_t],
    "accept": [POINTER(Sizes), c_void_p, c_size_t, c_void_p, c_size_t, POINTER(Page), c_size_t, POINTER(Taken)],
    "missing": [POINTER(Page), c_size_t, POINTER(c_size_t)],
    "check_streams": [
        c_void_p,
        c_size_t,
        c_uint32,
        c_void_p,
        c_size_t,
        POINTER(c_size_t),
        c_size_t,
        POINTER(Finding),
        POINTER(c_uint32),
    ],
    "trace_open": [
        c_void_p,
        c_size_t,
        POINTER(c_uint32),
        c_size_t,
        POINTER(Trace),
        POINTER(c_size_t),
        POINTER(c_uint32),
    ],
    "trace_writes_before": [POINTER(Trace), c_uint64, POINTER(c_uint32)],
    "trace_memory_before": [POINTER(Trace), c_uint64, c_void_p, c_size_t, POINTER(c_size_t)],
    "trace_memory_step": [POINTER(Trace), c_uint32, c_uint32, c_void_p, c_size_t],
    "trace_page_writes": [POINTER(Trace), c_uint32, POINTER(Write), c_size_t, POINTER(c_size_t)],
    "trace_version_after": [POINTER(Trace), c_uint32, c_uint32, POINTER(c_uint32)],
    "trace_versions_after": [POINTER(Trace), c_uint32, POINTER(c_uint32), c_size_t, POINTER(c_size_t)],
    "trace_versions_before": [POINTER(Trace), c_uint64, POINTER(c_uint32), c_size_t, POINTER(c_size_t)],
    "trace_page_at": [POINTER(Trace), c_uint32, c_uint32, c_void_p, c_size_t],
    "trace_check_piece": [
        POINTER(Trace),
        c_void_p,
        c_size_t,
        POINTER(Progress),
        POINTER(c_uint32),
        c_size_t,
        POINTER(c_uint32),
        c_size_t,
        c_void_p,
        c_size_t,
        POINTER(Finding),
    ],
    "end_stream": [POINTER(Progress), c_size_t, POINTER(Finding)],
    "trace_check_pages": [POINTER(Trace), POINTER(Progress), POINTER(c_uint32), c_size_t, POINTER(Finding)],
    "trace_check_base": [POINTER(Trace), c_uint64, POINTER(c_uint32), c_size_t, c_void_p, c_size_t],
    "trace_check_bytes": [
        POINTER(Trace),
        c_uint32,
        c_uint32,
        c_void_p,
        c_size_t,
        POINTER(c_uint32),
        c_size_t,
        c_void_p,
        c_size_t,
    ],
    "trace_differs": [POINTER(Trace), c_uint32, c_void_p, c_size_t, c_void_p, c_size_t, POINTER(Finding)],
    "trace_plan": [POINTER(Trace), POINTER(Settings), POINTER(Sums)],
    "trace_report": [POINTER(Trace), POINTER(Settings), c_void_p, c_size_t, POINTER(c_size_t)],
    "trace_rounds": [POINTER(Trace), POINTER(Settings), POINTER(Round), c_size_t, POINTER(c_size_t)],
    "trace_sweep": [POINTER(Trace), POINTER(Settings), c_size_t, POINTER(Sums), c_size_t, POINTER(c_size_t)],
    "trace_predict": [POINTER(Trace), POINTER(Question), POINTER(Prediction), POINTER(Errors)],
    "trace_agreement": [POINTER(Trace), POINTER(Question), POINTER(Agreement)],
    "trace_enough": [POINTER(Trace), POINTER(Question), POINTER(Amounts)],
    "trace_forecast": [POINTER(Trace), POINTER(Question), POINTER(Forecast)],
    "trace_link_shares": [POINTER(Trace), POINTER(Question), POINTER(LinkShares)],
    "trace_best_start": [POINTER(Trace), POINTER(Question), POINTER(Starts), POINTER(BestStart), POINTER(Errors)],
    "record_begin": [c_void_p, c_size_t, c_uint32, c_uint32, POINTER(Recording)],
    "record_write": [c_void_p, c_size_t, POINTER(Recording), c_uint64, c_uint32, c_uint32, c_void_p, c_size_t],
    "record_release": [c_void_p, c_size_t, POINTER(Recording), c_uint64, c_uint32],
    "is_zero": [c_void_p, c_size_t],
}
