"""What tools/record tells of a trace as JSON."""

from precopy_tools.formats import traces

FORMAT = "precopy recording 1"


def of_recording(path: str, recorder, ended_by) -> dict:
    """A trace that is whole, what it cost in seconds of a look, and why it ended early. `cause` says why values were
    compared, and `ran_share` is that of NAME.json; both are null if there is nothing to say."""
    times = recorder.times[1:] or recorder.times
    cause = getattr(recorder, "cause", None)
    return {
        "format": FORMAT,
        "trace": path,
        "pages": recorder.pages(),
        "guest_pages": recorder.guest_pages(),
        "writes": recorder.writer.writes,
        "bytes": recorder.writer.size,
        "last_tick": recorder.last,
        "samples": recorder.samples,
        "late": recorder.late,
        "mean_seconds": sum(times) / len(times),
        "longest_seconds": max(times),
        "method": getattr(recorder, "method", "values"),
        "cause": None if cause is None else str(cause),
        "ran_share": getattr(recorder, "ran", None),
        "ended_by": None if ended_by is None else traces.told(ended_by),
    }
