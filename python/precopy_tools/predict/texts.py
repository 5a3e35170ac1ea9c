"""What tools/predict says beside the lines of `precopy-view predict`: of the sample, of other links, of one of several
traces."""

import datetime

from precopy_tools.formats import samples
from precopy_tools.predict import clark
from precopy_tools.predict.changing import Steps
from precopy_tools.predict.day_links import DayLink, clock_text
from precopy_tools.predict.forecast import Forecast
from precopy_tools.quantities import error_text, micros_of, size_text, time_text

SHORT = "unknown, the recording ends before the migration does"
CONVERGES = {"yes": "converges", "no": "does not converge", "uncertain": "uncertain whether it converges"}
# Why a plan of looks ends, in the words of `precopy-view predict`.
ENDS = {
    "few": "",
    "looks": "; 2,000 looks are done",
    "level": "; the trace ends first, and the lists did not get shorter",
}


def time(seconds: float) -> str:
    return time_text(micros_of(seconds))


def error(seconds: float) -> str:
    return error_text(micros_of(seconds))


def like_qemu(told: dict) -> list[str]:
    """Bytes, time and downtime if the hypervisor goes on as QEMU does, beside Clark's plan; nothing if it begins after
    the recording."""
    found = told.get("like_qemu")
    if not found or told["plan"] == clark.LOOKS:
        return []
    if "left_bytes" in found:
        return [SHORT]
    return [size_text(found["sent_bytes"]), time(found["time_seconds"]), time(found["down_seconds"])]


def at_link(where: str, told: dict) -> list[str]:
    """The lines of a migration over another link: by its plan, and like QEMU."""
    found = like_qemu(told)
    return [f"{where}: {', '.join(cost(told))}"] + [f"{where}, like QEMU: {', '.join(found)}"] * bool(found)


def cost(told: dict) -> list[str]:
    """Bytes, time and downtime of a migration, with the standard errors that there are, and whether it converges."""
    if not (migration := told.get("migration")):
        return [SHORT]
    errors, parts = migration.get("errors", {}), []
    for name, text, of_error in (
        ("sent_bytes", size_text, size_text),
        ("time_seconds", time, error),
        ("down_seconds", time, error),
    ):
        parts.append(text(migration[name]) + (f" +- {of_error(errors[name])}" if name in errors else ""))
    return [*parts, CONVERGES[told["converges"]]]


def less_sure(ends: list[dict], name: str) -> str:
    """The answer to a question that holds at both ends of a range, if there is one."""
    found = {told[name] for told in ends}
    return found.pop() if len(found) == 1 else "unknown" if "unknown" in found else "uncertain"


def of_shares(shares: tuple[float, float], ends: list[dict]) -> list[str]:
    """What comes of a migration at two shares of its link, and what holds at both."""
    lines = [line for share, told in zip(shares, ends) for line in at_link(f"at {100 * share:g} per cent", told)]
    answers = ", ".join(f"{name}: {less_sure(ends, name)}" for name in ("converges", "kept"))
    return [*lines, f"at all that may be reached: {answers}"]


def of_sample(sample: samples.Sample, page_size: int) -> list[str]:
    """What was recorded, and how."""
    whole, part = sample.guest_pages, sample.sampled_pages
    length = (sample.last_tick - sample.first_tick) * sample.tick_seconds
    return [
        f"guest: {size_text(whole * page_size)} in {whole:,} pages, about {sample.guest_nonzero:,} not zero",
        f"sample: {part:,} pages, {sample.sampled_nonzero:,} not zero; each stands for {sample.weight:.2f}",
        f"taken: of {sample.taken_of}, {sample.taken_at}, for {time(length)}, by {sample.method}",
    ]


def of_link(bandwidth: float) -> str:
    return f"link: {bandwidth * 8 / 1e9:.3g} Gbit/s, {bandwidth / (1 << 20):,.2f} MiB a second"


def gigabits(bandwidth: float) -> str:
    return f"{bandwidth * 8 / 1e9:.3g} Gbit/s"


def of_steps(forecast: Forecast, link: Steps) -> str:
    """What a link does that changes within a recording."""
    first, *later = link.steps
    moments = [(forecast.moment(step.micros / 1e6), gigabits(step.bandwidth)) for step in later]
    return ", ".join(
        [f"link: {gigabits(first.bandwidth)}", *(f"from {at:%H:%M:%S} UTC {rate}" for at, rate in moments)]
    )


def of_day(link: DayLink) -> str:
    """A link by the time of day."""
    first, *later = link.parts
    told = [f"from {clock_text(part.second)} UTC {part.bandwidth / (1 << 20):.2f}" for part in later]
    return ", ".join([f"{first.bandwidth / (1 << 20):.2f} MiB a second", *told])


def counts_of(told: dict, name: str) -> str:
    """In how many redraws and from how many known starts something is so, as precopy-view tells it."""
    parts = [
        f"{word} {told[what][name]} of {told[what][whole]} {what}"
        for word, what, whole in (("in", "redraws", "count"), ("from", "starts", "known"))
        if what in told
    ]
    return f", {' and '.join(parts)}" if parts else ""


def of_record_end(told: dict) -> list[str]:
    """The line of what is sent and left when the recording ends before the migration does."""
    found = told.get("like_qemu")
    if not found:
        return []
    sent, left = (size_text(found[name]) for name in ("sent_bytes", "left_bytes"))
    return [f"like QEMU: the trace ends first, looks {found['looks']}, sent {sent}, left {left}"]


def of_told(told: dict) -> list[str]:
    """The lines of a migration over a link that changes, like those of `precopy-view predict`."""
    migration = told.get("migration")
    if not migration:
        short = "converges: unknown, the trace ends before the migration does; record longer"
        return [short, f"total time: more than {time(told['recorded_seconds'])}", *of_record_end(told)]
    down, limit, why = time(migration["down_seconds"]), time(told["limits"]["down_seconds"]), migration["why"]
    lines = [
        f"converges: {told['converges']}{counts_of(told, 'converging')}{ENDS[why]}; looks: {migration['looks']}",
        f"total time: {time(migration['time_seconds'])}",
        f"sent: {size_text(migration['sent_bytes'])}",
        f"downtime: {down}, limit: {limit}, kept: {told['kept']}{counts_of(told, 'kept')}",
    ]
    if errors := migration.get("errors"):
        times = f"time {error(errors['time_seconds'])}, downtime {error(errors['down_seconds'])}"
        lines.append(f"standard errors: sent {size_text(errors['sent_bytes'])}, {times}")
    lines += ["warning: fewer than 100 pages decided the stop; chance moves it"] * (migration["left_pages"] < 100)
    more = f"warning: the plan ends with `{why}`; a hypervisor goes on, and takes longer; give more of the link"
    return [*lines, *[more] * (why != "few"), *of_record_end(told)]


def uncertain(sample: samples.Sample) -> list[str]:
    """What is said first of a guest that stood still."""
    told = f"uncertain: the guest stood still for {sample.still_text()} of the recording, and wrote nothing then"
    return [told] * sample.stood_still


def warnings(sample: samples.Sample) -> list[str]:
    """What speaks against a sample."""
    late = f"warning: {sample.late} of {sample.samples} looks at the guest were late: the plan is too low"
    values = "warning: taken by values: it misses writes of the value that stood there, so the plan is too low"
    return [late] * (sample.late * 10 > sample.samples) + [values] * (sample.method == "values")


def of_several(told: dict, begun: datetime.datetime, starts: dict, sample: samples.Sample) -> str:
    """The line of one of several traces: when the migration begins, what it costs, the best and the worst start."""
    parts = [f"{begun:%Y-%m-%d %H:%M:%S}", *cost(told)]
    parts += [f"like QEMU {', '.join(found)}" for found in [like_qemu(told)] if found]
    parts += [f"{name} {moment:%H:%M:%S} {size_text(start['sent_bytes'])}" for name, (moment, start) in starts.items()]
    parts += [f"{sample.late} of {sample.samples} looks late"] * (sample.late > 0)
    return "  ".join(parts + [f"uncertain: stood still for {sample.still_text()}"] * sample.stood_still)
