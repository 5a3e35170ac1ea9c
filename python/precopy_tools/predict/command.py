"""Predicts the migration of a guest, from a sample of its pages that tools/record or tools/thin has made.

    tools/predict NAME.light.pcwt --link 10Gbit --downtime 300ms [--clark]
    tools/predict NAME.light.pcwt .. --link 10Gbit --downtime 300ms [--picture NAME.svg]
    tools/predict NAME.light.pcwt --link 10Gbit --link 02:00=2Gbit --downtime 300ms

It reads NAME.json beside the trace, or the file of --record, asks `precopy-view predict`, and prints what that answers
of the whole guest. --when prints what `precopy-view when` answers of many starts.
--link is the rate at which pages of this guest are sent. It is less than what the card says, and depends on the guest
and the machine. The lines at half and twice the link show how much all answers depend on it. With --reached 0.85..1 the
answers are those at both of these shares of it: one that is not the same at both is uncertain. docs/REAL-GUESTS.md says
where hypervisors differ from a plan.

With --link HH:MM=RATE the link changes then, in UTC, each day again; the plain RATE holds from midnight on. Over a link
that changes within a recording plans go by looks, without --clark, --when, --reached and --picture. The stop leaves no
more than the lowest rate sends within the limit.

A migration goes by the plan of a hypervisor that looks at its dirty bitmap as QEMU does, or with --clark by Clark's
rounds. --first, --inc, --rounds and --skip are of these rounds, as those of precopy-view.

Several traces have a line each, and so have the segments of a series, named as tools/record was told: its best and its
worst start are those of `precopy-view when`. --picture writes what a migration costs by the time of day at which it
begins, as SVG, from at most --starts of each trace. Times are in UTC.

The status is 0 if each plan keeps the downtime limit, 3 if one does not, 4 if that is not known, since a recording ends
before its migration does or its guest stood still, 5 if it is not sure, 1 if a file is refused, and 2 if the words are.
"""

import argparse
import json
import os
import sys

from precopy_tools import places, printed, version, words
from precopy_tools.formats import traces
from precopy_tools.predict import changing, clark, day_chart, day_links, documents, plans, texts
from precopy_tools.predict.changing import Question, Steps
from precopy_tools.predict.forecast import Forecast, Link, forecast_of
from precopy_tools.record import series
from precopy_tools.refusals import Refused

PROGRAM = places.program("precopy-view")
UNKNOWN = 4
STATUSES = {"yes": 0, "no": 3, "unknown": UNKNOWN, "uncertain": 5}
# Of several plans the first of these counts.
IN_ORDER = (1, 3, UNKNOWN, 5, 0)


def options_of(given: list[str]) -> argparse.Namespace:
    parser = version.parser("predict", __doc__)
    add = parser.add_argument
    add("traces", metavar="TRACE", nargs="+", help="a trace of drawn pages, or the name of a series")
    add(
        "--link",
        metavar="RATE",
        type=day_links.part,
        action="append",
        required=True,
        help="a second: 10Gbit, 1250MB, 128MiB; and from a time of day on, as 02:00=2Gbit",
    )
    add("--downtime", metavar="TIME", type=words.seconds, default=0.3, help="limit (300ms)")
    add(
        "--reached",
        metavar="A..B",
        type=words.shares,
        help="tell the less sure of the answers at these shares of --link",
    )
    add("--start", metavar="TIME", type=words.seconds, default=0.0, help="begin so long after the first look")
    add("--record", metavar="NAME.json", help="of one trace, if it is not beside it")
    add("--when", action="store_true", help="of one trace, print what it costs from many starts")
    add("--json", action="store_true", help="print one line of JSON for each trace")
    add("--picture", metavar="PATH", help="write what a migration costs by time of day, as SVG")
    add("--starts", metavar="N", type=words.count, default=60, help="of each trace, at most 4,096 (60)")
    add("--program", metavar="PATH", default=PROGRAM, help="the built precopy-view")
    clark.add_to(parser)
    options = parser.parse_args(given)
    options.link = day_links.link_of(parser, options.link)
    options.pace = clark.pace_of(parser, options)
    if (options.record or options.when) and len(options.traces) > 1:
        parser.error("--record and --when are of one trace")
    if options.when and (options.json or options.picture):
        parser.error("--when goes without --json and --picture")
    if options.reached and (options.when or options.json or options.picture or len(options.traces) > 1):
        parser.error("--reached is of one trace, and goes without --when, --json and --picture")
    if options.starts > 4096:
        parser.error("--starts: at most 4,096")
    if not os.access(options.program, os.X_OK):
        parser.error(f"there is no program {options.program}; {version.whence('precopy-view')}")
    return options


# What goes without a link that changes.
OF_ONE_RATE = ("clark", "when", "reached", "picture")


def asked(options: argparse.Namespace, path: str) -> tuple[Forecast, Link | Steps]:
    """The question about one recording, and the link, which may change within it."""
    forecast = forecast_of(options.program, path, options.record, options.pace)
    if options.start > forecast.seconds():
        after, whole = (texts.time(each) for each in (options.start, forecast.seconds()))
        raise Refused(f"{path}: --start {after} is after the end of the recording, which has {whole}")
    forecast.begin_after(options.start)
    moments = (forecast.moment(seconds) for seconds in (0.0, options.start, forecast.seconds()))
    link = changing.link_of(options.link.steps(*moments), options.downtime)
    given = [name for name in OF_ONE_RATE if isinstance(link, Steps) and getattr(options, name)]
    if given:
        at = forecast.moment(link.steps[1].micros / 1e6)
        raise Refused(
            f"{path}: the link changes within this record, at {at:%H:%M:%S} UTC: --{given[0]} needs a link that stays"
        )
    return forecast, link


def status_of(forecast: Forecast, status: int) -> int:
    """The status of a plan; of a guest that stood still nothing is known."""
    return UNKNOWN if forecast.sample.stood_still else status


def show_each(options: argparse.Namespace, path: str) -> tuple[int, list[day_chart.Start]]:
    """Prints the line of one of several traces. Returns its status, and the starts whose migration ends within it."""
    forecast, link = asked(options, path)
    if isinstance(link, Steps):
        return show_changing(options, path, forecast, link), []
    told, when = forecast.told(link), forecast.starts(link, options.starts)
    if options.json:
        print(json.dumps(documents.of_trace(path, forecast, told, when=when)), flush=True)
    else:
        moments = {
            name: (forecast.moment(when[name]["start_seconds"]), when[name])
            for name in ("best", "worst")
            if name in when
        }
        print(texts.of_several(told, forecast.moment(options.start), moments, forecast.sample), flush=True)
    return status_of(forecast, STATUSES[told["kept"]]), [
        day_chart.Start(
            forecast.moment(it["start_seconds"]),
            it["sent_bytes"],
            it["time_seconds"],
            it["down_seconds"],
            it["kept"] == "yes",
        )
        for it in when["starts"]
        if it["kept"] != "unknown"
    ]


def show_changing(options: argparse.Namespace, path: str, forecast: Forecast, link: Steps) -> int:
    """Prints the line of one of several traces over a link that changes within it. Returns its status."""
    told = Question(forecast, link).told()
    if options.json:
        print(json.dumps(documents.of_trace(path, forecast, told, link=link)), flush=True)
    else:
        print(texts.of_several(told, forecast.moment(options.start), {}, forecast.sample), flush=True)
    return status_of(forecast, STATUSES[told["kept"]])


def predict_changing(forecast: Forecast, link: Steps) -> int:
    """The lines of one trace over a link that changes within it. Returns the status."""
    told = Question(forecast, link).told()
    about = [*texts.of_sample(forecast.sample, forecast.page_size), texts.of_steps(forecast, link)]
    print("\n".join([*about, *texts.uncertain(forecast.sample), *texts.of_told(told)]))
    for name, times in (("half", 0.5), ("twice", 2.0)):
        try:
            print("\n".join(texts.at_link(f"at {name} the link", Question(forecast, link.times(times)).told())))
        except plans.NoRate as fault:
            print(f"at {name} the link: no plan, since {fault}")
    print("".join(f"{line}\n" for line in texts.warnings(forecast.sample)), end="")
    return status_of(forecast, STATUSES[told["kept"]])


def predict_each(options: argparse.Namespace, paths: list[str]) -> int:
    """A line for each trace, and a picture of all. A trace that is refused has its line on standard error."""
    found, statuses = [], {0}
    for path in paths:
        try:
            status, starts = show_each(options, path)
        except (OSError, Refused, plans.Failed) as fault:
            version.complain("predict", traces.told(fault))
            statuses.add(1)
            continue
        found += starts
        statuses.add(status)
    if options.picture:
        write_picture(options, found)
    return next(status for status in IN_ORDER if status in statuses)


def write_picture(options: argparse.Namespace, starts: list[day_chart.Start]) -> None:
    if not starts:
        raise plans.Failed("no picture: no migration ends within its trace")
    link = f"{texts.of_day(options.link)}, downtime limit {texts.time(options.downtime)}"
    with traces.Pending(options.picture) as file:
        file.write(day_chart.drawn(starts, f"What a migration costs at {link}").encode())
        file.finish()


def predict(options: argparse.Namespace) -> int:
    paths = series.named(options.traces)
    if (options.record or options.reached or options.when) and len(paths) > 1:
        raise Refused("--record, --reached and --when are of one trace, and this is a series")
    if len(paths) > 1 or options.picture or options.json:
        return predict_each(options, paths)
    forecast, link = asked(options, paths[0])
    if isinstance(link, Steps):
        return predict_changing(forecast, link)
    if options.when:
        status, text = forecast.when_text(link, options.starts)
        print("\n".join([*texts.uncertain(forecast.sample), *texts.warnings(forecast.sample), text]), end="")
        return status_of(forecast, status)
    status, lines = forecast.lines(link)
    about = [*texts.of_sample(forecast.sample, forecast.page_size), texts.of_link(link.bandwidth)]
    print("\n".join([*about, *texts.uncertain(forecast.sample), *lines]))
    for name, times in (("half", 0.5), ("twice", 2.0)):
        try:
            told = forecast.told(link._replace(bandwidth=link.bandwidth * times))
            print("\n".join(texts.at_link(f"at {name} the link", told)))
        except plans.NoRate as fault:
            print(f"at {name} the link: no plan, since {fault}")
    if options.reached:
        ends = [forecast.told(link._replace(bandwidth=link.bandwidth * share)) for share in options.reached]
        print("\n".join(texts.of_shares(options.reached, ends)))
        status = STATUSES[texts.less_sure(ends, "kept")]
    for line in texts.warnings(forecast.sample):
        print(line)
    return status_of(forecast, status)


def main(given: list[str]) -> int:
    options = options_of(given)
    try:
        return predict(options)
    except (OSError, Refused, plans.Failed) as fault:
        version.complain("predict", traces.told(fault))
        return 1


if __name__ == "__main__":
    sys.exit(printed.run("predict", main, loses=True))
