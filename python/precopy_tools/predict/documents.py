"""What tools/predict tells of a trace as JSON."""

import dataclasses

from precopy_tools.formats.samples import Sample
from precopy_tools.predict.changing import Steps
from precopy_tools.predict.forecast import Forecast

FORMAT = "precopy prediction 1"


def of_sample(sample: Sample) -> dict:
    """What NAME.json says, as docs/record.schema.json has it."""
    return {name: value for name, value in dataclasses.asdict(sample).items() if value is not None}


def of_steps(forecast: Forecast, link: Steps) -> dict:
    """A link that changes within a recording."""
    first, *later = link.steps
    changes = [
        {"at": forecast.moment(seconds).isoformat(), "after_seconds": seconds, "link_bytes_per_second": step.bandwidth}
        for step, seconds in ((step, step.micros / 1e6) for step in later)
    ]
    return {"link_bytes_per_second": first.bandwidth, "changes": changes}


def of_trace(path: str, forecast: Forecast, told: dict, when: dict | None = None, link: Steps | None = None) -> dict:
    """The record, and what `precopy-view json predict` and `json when` tell of it, or the link if that changes.
    `certain` is false if the guest stood still for so long that they say nothing of it."""
    return {
        "format": FORMAT,
        "trace": path,
        "record": of_sample(forecast.sample),
        "certain": not forecast.sample.stood_still,
        **({"link": of_steps(forecast, link)} if link else {}),
        "prediction": told,
        **({"when": when} if when else {}),
    }
