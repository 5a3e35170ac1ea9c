"""Times and sizes as precopy-view, the tools and the page write them (docs/COMMANDS.md), in microseconds and bytes.
It shares no code with any of them."""

UNITS = (("Gbit", 125_000_000), ("Mbit", 125_000), ("Kbit", 125))


def seconds(micros: int) -> str:
    return f"{micros // 1_000_000}.{micros // 1_000 % 1_000:03} s"


def time_text(micros: int) -> str:
    """How long something takes."""
    if micros == 0:
        return "0 s"
    if micros < 1_000:
        return f"{micros} us"
    return seconds(micros) if micros >= 1_000_000 else f"{micros / 1_000:.3f}".rstrip("0").rstrip(".") + " ms"


def error_text(micros: int) -> str:
    """The standard error of a time: a time with few digits."""
    if not 1_000 <= micros < 1_000_000:
        return time_text(micros)
    return time_text(micros - micros % (100 if micros < 10_000 else 1_000))


def moment_text(micros: int) -> str:
    """When something is, since a begin: seconds with three digits after the point if these are exact, else with six."""
    return f"{micros // 1_000_000}.{f'{micros % 1_000_000:06}'.removesuffix('000')} s"


def size_text(size: int) -> str:
    """A size, in the greatest unit that it has one of."""
    if size < 1 << 10:
        return f"{size} byte{'' if size == 1 else 's'}"
    unit, name = next((1 << power, name) for power, name in ((30, "GiB"), (20, "MiB"), (10, "KiB")) if size >> power)
    hundredths = size * 100 // unit
    return f"{hundredths // 100}.{hundredths % 100:02} {name}"


def rate_word(size: int) -> str:
    """A rate as a refusal tells it: in the greatest unit of bits in which it is whole, or in KB."""
    return next(
        (f"{size // unit}{name}" for name, unit in UNITS if (size or unit == 125) and size % unit == 0),
        f"{size // 1_000}.{size % 1_000:03}KB",
    )


def time_word(micros: int) -> str:
    """A time as a refusal tells it."""
    units = (("s", 1_000_000), ("ms", 1_000))
    return next((f"{micros // unit}{name}" for name, unit in units if micros and micros % unit == 0), f"{micros}us")
