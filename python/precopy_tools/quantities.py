"""Times and sizes as `precopy-view` writes them (docs/COMMANDS.md): of whole microseconds and bytes."""


def micros_of(seconds: float) -> int:
    return round(1e6 * seconds)


def decimal(number: int, divisor: int, digits: int) -> str:
    """A quotient with so many digits after the point, rounded down."""
    whole, rest = divmod(number, divisor)
    return f"{whole}.{rest * 10**digits // divisor:0{digits}}"


def time_text(micros: int) -> str:
    """How long something takes."""
    if micros == 0:
        return "0 s"
    if micros < 1_000:
        return f"{micros} us"
    if micros < 1_000_000:
        return decimal(micros, 1_000, 3).rstrip("0").rstrip(".") + " ms"
    return decimal(micros, 1_000_000, 3) + " s"


def error_text(micros: int) -> str:
    """The standard error of a time, with few digits."""
    if micros < 1_000:
        return time_text(micros)
    step = 100 if micros < 10_000 else 1_000
    return time_text(micros // step * step)


def moment_text(micros: int) -> str:
    """When something is, since a begin."""
    return decimal(micros, 1_000_000, 6 if micros % 1_000 else 3) + " s"


def size_text(count: int) -> str:
    """Bytes, in the greatest unit that they have one of."""
    if count < 1 << 10:
        return f"{count} byte{'' if count == 1 else 's'}"
    power, unit = next((power, unit) for power, unit in ((30, "GiB"), (20, "MiB"), (10, "KiB")) if count >> power)
    return f"{decimal(count, 1 << power, 2)} {unit}"
