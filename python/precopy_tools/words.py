"""Times, rates, sizes and numbers on the command line, as docs/COMMANDS.md tells. Times and rates are those of
precopy-view."""

import argparse
import re

TIMES = {"us": 1, "ms": 1_000, "s": 1_000_000, "m": 60_000_000, "h": 3_600_000_000}
RATES = {
    "Kbit": 125,
    "Mbit": 125_000,
    "Gbit": 125_000_000,
    "KB": 1_000,
    "MB": 1_000_000,
    "GB": 1_000_000_000,
    "KiB": 1 << 10,
    "MiB": 1 << 20,
    "GiB": 1 << 30,
}
SIZES = {f"{letter}{rest}": 1 << power for letter, power in zip("KMGT", (10, 20, 30, 40)) for rest in ("", "iB")}
DIGITS_BELOW = 1 << 64


def amount(word: str, units: dict[str, int]) -> int | None:
    """What a decimal number followed by a unit comes to, rounded down, or None."""
    match = re.fullmatch(r"0*([0-9]{1,20})(?:\.([0-9]{1,6}))?([A-Za-z]+)", word)
    if not match or match[3] not in units:
        return None
    digits, places = int(match[1] + (match[2] or "")), len(match[2] or "")
    found = digits * units[match[3]] // 10**places
    return found if max(digits, found) < DIGITS_BELOW else None


def positive(word: str, units: dict[str, int], what: str, least: str) -> int:
    """The amount of a word, which is more than nothing; `what` are its units, and `least` is the least amount."""
    found = amount(word, units)
    if found is None:
        raise argparse.ArgumentTypeError(f"{word!r}: a number and its unit, {what}")
    if found == 0:
        raise argparse.ArgumentTypeError(f"{word!r} is too little: {least} is the least")
    return found


def seconds(word: str) -> float:
    """A length of time from 1us on, as 100ms, 1.5s or 24h."""
    return positive(word, TIMES, "us, ms, s, m or h, as in 300ms or 0.3s", "1us") / 1_000_000


def rate(word: str) -> int:
    """Bytes a second, from 1 on, as 10Gbit, 1.5GB or 128MiB."""
    units = "Kbit, Mbit, Gbit, KB, MB, GB, KiB, MiB or GiB, per second, as in 10Gbit or 1.5GB"
    return positive(word, RATES, units, "1 byte a second")


def link(word: str) -> float:
    """A rate that is shared."""
    return float(rate(word))


def shares(word: str) -> tuple[float, float]:
    """Two shares of a whole, the lower one first, as 0.85..1."""
    match = re.fullmatch(r"([0-9]{1,3}(?:\.[0-9]{1,6})?)\.\.([0-9]{1,3}(?:\.[0-9]{1,6})?)", word)
    if not match:
        raise argparse.ArgumentTypeError(f"{word!r}: two shares with two points between them, as in 0.85..1")
    low, high = float(match[1]), float(match[2])
    if not 0 < low <= high <= 1:
        raise argparse.ArgumentTypeError(f"{word!r}: shares are above 0 and at most 1, the lower one first")
    return low, high


def whole_rate(bandwidth: float) -> int:
    """So many bytes a second; if they are not whole, to the nearest Kbit."""
    return round(bandwidth / 125) * 125 if bandwidth % 1 else int(bandwidth)


def given_rate(bandwidth: float) -> str:
    """A word that `rate` takes for so many bytes a second; if they are not whole, to the nearest Kbit."""
    size = whole_rate(bandwidth)
    if bandwidth % 1:
        return f"{size // 125}Kbit"
    return f"{size >> 20}MiB" if size % (1 << 20) == 0 else f"{size // 1_000}.{size % 1_000:03}KB"


def given_time(length: float) -> str:
    """A word that `seconds` takes for a length of time."""
    micros = round(1_000_000 * length)
    return f"{micros // 1_000}ms" if micros % 1_000 == 0 else f"{micros}us"


def memory(word: str) -> int:
    """Bytes of memory in whole pages, as 64G, 1.5GiB or 130944K: units are powers of 1,024."""
    units = "K, M, G or T, in whole pages, as in 64G or 512M"
    found = positive(word, SIZES, units, "a page of 4K")
    if found % 4096:
        raise argparse.ArgumentTypeError(f"{word!r}: a number and its unit, {units}")
    return found


def process(word):
    """The number of one process."""
    if not re.fullmatch(r"\d{1,9}", word) or not int(word):
        raise argparse.ArgumentTypeError(f"{word!r} is not the number of one process")
    return int(word)


def count(word):
    """A whole number from 1."""
    if not re.fullmatch(r"\d{1,12}", word) or not int(word):
        raise argparse.ArgumentTypeError(f"{word!r} is no whole number from 1")
    return int(word)


def seed(word):
    """A whole number from 0 that a JSON file holds exactly."""
    if not re.fullmatch(r"\d{1,15}", word):
        raise argparse.ArgumentTypeError(f"{word!r} is no whole number from 0 of at most 15 digits")
    return int(word)
