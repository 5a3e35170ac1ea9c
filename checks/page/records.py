"""What the planner's page makes of records beside traces: they say what ticks, pages and the start stand for."""

import hashlib
import json

from checks.lib.tally import expect
from checks.page import shapes
from checks.page.acts import example_named, guest_with_record, typed
from checks.page.first import MOST_WORDS, WORDS
from checks.page.limits import ALSO
from checks.page.shown import tried

VALUES = (
    "[String(ticksOf('start')), "
    "...['sample', 'tick'].map((name) => document.getElementById(`control-${name}`).value)]"
)


def record_of(trace, **fields):
    """A record of a trace all of whose pages were sampled, as a file."""
    pages, writes = (int.from_bytes(trace[at : at + 4], "little") for at in (8, 12))
    plain = {
        "format": "precopy sample 1",
        "trace_sha256": hashlib.sha256(trace).hexdigest(),
        "trace_pages": pages,
        "trace_writes": writes,
        "first_tick": 0,
        "last_tick": 1 << 39,
        "tick_seconds": 0.001,
        "guest_pages": pages,
        "guest_nonzero": pages,
        "counted_pages": pages,
        "sampled_pages": pages,
        "sampled_nonzero": pages,
        "method": "writes",
    }
    return json.dumps({**plain, **fields}).encode()


def check_records(page):
    """A record comes with its trace, after it, or before it; one that is not the trace's is refused by its field."""
    trace, record = (text for _, text in guest_with_record("a"))
    wanted = [str(json.loads(record)["first_tick"]), "31.25156", "1"]
    for files in ([("a.pcwt", trace), ("a.json", record)], [("a.json", record), ("a.pcwt", trace)]):
        page.open_planned()
        page.drop(*files)
        expect(page.browser.value(VALUES) == wanted, f"{page.browser.value(VALUES)} in place of {wanted}")
    page.open_planned()
    page.drop(("a.pcwt", trace))
    expect(page.browser.value(VALUES) == ["0", "1", "1"], f"{page.browser.value(VALUES)} without a record")
    said = page.drop(("a.json", record))
    expect(page.browser.value(VALUES) == wanted and "as a.json says" in said, said)
    expect(not page.shown()["refused"], said)
    for name, value in (("trace_writes", 3), ("tick_seconds", 7), ("sampled_pages", 1), ("trace_sha256", "0" * 64)):
        said = page.drop(("b.json", json.dumps({**json.loads(record), name: value}).encode()))
        expect("b.json is not used: " in said and name in said, said)
        expect(page.browser.value(VALUES) == wanted, f"{name} has changed {page.browser.value(VALUES)}")


def check_dropped_again(page):
    """A trace that is dropped again keeps the record that was read before, also if it is left and gone back to, unless
    another record comes with it. One that is refused is told once."""
    (_, trace), (_, record) = guest_with_record("a")
    wanted = [str(json.loads(record)["first_tick"]), "31.25156", "1"]
    page.browser.forget_pages()
    page.open_planned("#trace=gzip")
    for files in ([("a.pcwt", trace), ("a.json", record)], [("a.pcwt", trace)], [("b.pcwt", trace)]):
        said = page.drop(*files)
        expect(page.browser.value(VALUES) == wanted and "as a.json says" in said, f"{files[0][0]}: {said}")
    page.browser.wait("location.hash.includes('of=')", 5)
    page.drop(example_named("gzip.pcwt", "gzip.pcwt"))
    page.clicked("undo")
    page.becomes("textOf('trace-state').startsWith('b.pcwt: ')", True, "after Undo")
    page.becomes("textOf('trace-state').includes('as a.json says')", True, "after Undo")
    other = json.dumps({**json.loads(record), "tick_seconds": 0.002}).encode()
    said = page.drop(("a.pcwt", trace), ("c.json", other))
    expect(page.browser.value(VALUES)[2] == "2" and "as c.json says" in said, f"another record: {said}")
    said = page.drop(("a.pcwt", trace), ("d.json", b"{}"))
    expect("d.json is not used: " in said and "says" not in said.partition(" | ")[2], f"one that is refused: {said}")
    said = page.drop(("a.pcwt", trace))
    expect("json" not in said, f"after one that was refused: {said}")


def check_beside_refused(page):
    """A record beside a file that is refused is that of the trace that is open, or of one that is still to come, or is
    refused by its field."""
    (_, trace), (_, record) = guest_with_record("a")
    page.open_planned("#trace=gzip")
    said = page.drop(("bad.pcwt", trace[:-1]), ("a.json", record))
    expect("bad.pcwt is refused: E8 " in said and "a.json is not used: trace_pages is " in said, said)
    page.drop(("a.pcwt", trace))
    said = page.drop(("notes.txt", b"no trace"), ("a.json", record), ("b.json", record))
    expect("notes.txt is refused: " in said and "a.pcwt is still open.Not opened: b.json" in said, said)
    expect(", as a.json says" in said, said)
    page.open("#link=1Gbit&downtime=100ms")
    page.let_fall(("bad.pcwt", trace[:-1]), ("a.json", record))
    page.browser.wait("textOf('trace-notes').includes('a.json is read once its trace is here.')", 5)
    said = page.drop(("a.pcwt", trace))
    expect(", as a.json says" in said, said)


def check_several(page):
    """Of several records that of the trace's name is read, in whatever order they come; the others are named."""
    (_, trace), (_, record) = guest_with_record("a")
    other = record_of(trace, tick_seconds=1)
    for files in (
        [("a.pcwt", trace), ("a.json", record), ("b.json", other)],
        [("b.json", other), ("a.json", record), ("a.pcwt", trace)],
    ):
        page.open_planned("#trace=gzip")
        said = page.drop(*files)
        expect(", as a.json says" in said and "Not opened: b.json." in said, f"{files[0][0]} first: {said}")
    said = page.drop(("c.json", other), ("a.json", record))
    expect(", as a.json says" in said and "Not opened: c.json." in said, f"without a trace: {said}")


def check_unreadable(page):
    """A record that cannot be read is refused in a sentence, and leaves the trace beside it to be opened."""
    trace, record = guest_with_record("a")
    for files in ([trace, record], [record]):
        page.open_planned("#trace=gzip")
        page.browser.value("File.prototype.text = async () => { throw new Error('gone'); }; 0")
        said = page.drop(*files)
        expect("a.json is not used: It could not be read." in said, f"{len(files)} files: {said}")
        name = "a.pcwt" if len(files) == 2 else "gzip.light.pcwt"
        expect(f"| {name}: " in said, f"of {len(files)} files: {said}")


def suggestion(page, name):
    return page.browser.value(f"document.querySelector('[data-control={name}] .suggestion')?.textContent ?? ''")


def limits(page):
    return page.browser.value(
        "['link', 'downtime'].map((name) => [document.getElementById(`control-${name}`).value, "
        "document.querySelector(`[data-control=${name}] select`).value])"
    )


def check_addressed(page):
    """An address without a trace leaves to the record what ticks, pages and the start stand for; its limits stay."""
    for at_once in (True, False):
        page.open("#link=1Gbit&downtime=100ms")
        files = guest_with_record("a")
        said = page.drop(*files) if at_once else [page.drop(files[0]), page.drop(files[1])][-1]
        expect(page.browser.value(VALUES) == ["1000", "31.25156", "1"], f"{page.browser.value(VALUES)}: {said}")
        expect(limits(page) == [["1", "Gbit"], ["100", "ms"]], f"the limits of the address are {limits(page)}")
        expect("as a.json says" in said and "507.10\u00a0MiB" in said, said)
    page.ask("link=10Gbit&downtime=50ms")
    expect(page.browser.value(VALUES) == ["1000", "31.25156", "1"], f"{page.browser.value(VALUES)} by an address")
    expect(limits(page) == [["10", "Gbit"], ["50", "ms"]], f"the limits of another address are {limits(page)}")
    expect("as a.json says" in page.browser.value("textOf('trace-state')"), "the record is left by an address")
    trace = shapes.trace(12, 100, [(tick, tick % 50, 1) for tick in range(10_000)])
    page.open("#link=1Mbit&downtime=60s")
    said = page.drop(("b.pcwt", trace), ("b.json", record_of(trace, tick_seconds=1)))
    expect("2\u00a0h\u00a046\u00a0min" in said and "as b.json says" in said, said)


def check_own_address(page):
    """An address that was made of the very trace has all settings; what the record says otherwise is told, and its
    control offers it."""
    trace, record = (text for _, text in guest_with_record("a"))
    address = f"#link=1Gbit&downtime=100ms&tick=2ms&sample=all&of={hashlib.sha256(trace).hexdigest()[:12]}"
    page.open(address)
    said = page.drop(("a.pcwt", trace), ("a.json", record))
    expect(page.browser.value(VALUES) == ["0", "1", "2"], f"{page.browser.value(VALUES)} in place of the address's")
    expect(", not as a.json says" in said, said)
    for name, value in (("tick", "1"), ("sample", "31.25156"), ("start", "1")):
        expect(suggestion(page, name).startswith("a.json says otherwise. "), f"{name}: {suggestion(page, name)!r}")
        page.after(f"document.querySelector('[data-suggested={name}]').click()")
        taken = page.browser.value(f"document.getElementById('control-{name}').value")
        expect(taken == value and not suggestion(page, name), f"{name}: {taken}, {suggestion(page, name)!r}")
    expect(", as a.json says" in page.browser.value("textOf('trace-state')"), "what was taken is not told")


OFFERED = "[...document.querySelectorAll('[data-suggested=link]')].map((each) => each.innerText)"


def check_fitted(page):
    """Limits that were fitted to a trace are told as such, with links of today's networks, until one is chosen."""
    page.open_planned()
    page.drop(example_named("own.pcwt", "gzip.pcwt"))
    offered = page.browser.value(OFFERED)
    expect(offered == ["1 Gbit/s", "10 Gbit/s", "25 Gbit/s"], f"links that are offered: {offered}")
    page.drop(*guest_with_record("a"))
    for name, words in (("link", "Fitted to this trace."), ("downtime", "Fitted, too.")):
        expect(suggestion(page, name).startswith(words), f"{name}: {suggestion(page, name)!r}")
    offered = page.browser.value(OFFERED)
    expect(offered[-2:] == ["10 Gbit/s", "25 Gbit/s"], f"links that are offered: {offered}")
    found = page.after("[...document.querySelectorAll('[data-suggested=link]')].at(-2).click()")
    expect(limits(page)[0] == ["10", "Gbit"] and not found["refused"], f"{limits(page)}, {found['fault']}")
    expect(not suggestion(page, "link"), f"a link that was chosen: {suggestion(page, 'link')!r}")
    page.open("#link=1Gbit&downtime=100ms")
    page.drop(*guest_with_record("a"))
    expect(not suggestion(page, "link"), f"a link of the address: {suggestion(page, 'link')!r}")


def check_fitted_again(page):
    """Limits that were fitted to a trace are told as such where Undo leads back to them, too. Then nobody has chosen
    them: they are fitted to the next trace."""
    page.browser.forget_pages()
    page.open_planned("#trace=gzip")
    page.drop(example_named("own.pcwt", "gzip.pcwt"))
    page.browser.wait("location.hash.includes('of=')", 5)
    before = limits(page)
    typed(page, "link", "64")
    page.browser.wait("location.hash.includes('link=64')", 5)
    page.clicked("undo")
    expect(limits(page) == before and suggestion(page, "link").startswith("Fitted"), f"after Undo: {limits(page)}")
    page.drop(example_named("other.pcwt", "guests/mid.light.pcwt"))
    page.rest()
    said = [suggestion(page, name) for name in ("link", "downtime")]
    expect(said[0].startswith("Fitted to this trace.") and limits(page) != before, f"over another trace: {said}")
    page.clicked("undo")
    page.becomes("textOf('trace-state').split(':')[0]", "own.pcwt", "after Undo of another trace")
    page.rest()
    said = [suggestion(page, name) for name in ("link", "downtime")]
    expect(said[0].startswith("Fitted to this trace.") and said[1] == "Fitted, too.", f"over the trace before: {said}")


def check_chosen_again(page):
    """A link that was chosen, and that Undo or an exchange brings back, is not told as fitted, and stays over the next
    trace."""
    for way in ("undo", "exchange"):
        page.browser.forget_pages()
        page.open_planned("#trace=gzip")
        page.drop(example_named("own.pcwt", "gzip.pcwt"))
        page.with_unit("link", "Mbit")
        typed(page, "link", "64")
        page.browser.wait("location.hash.includes('link=64Mbit')", 5)
        if way == "exchange":
            page.clicked("keep")
        typed(page, "downtime", "9000000")
        page.browser.wait("location.hash.includes('downtime=9000')", 5)
        page.clicked("fit")
        expect(suggestion(page, "link").startswith("Fitted") and limits(page)[0] != ["64", "Mbit"], f"{limits(page)}")
        if way == "exchange":
            page.after("document.querySelector('[data-exchanges]').click()")
            page.after("document.querySelector('[data-drops]').click()")
        else:
            page.browser.wait("!location.hash.includes('downtime=9000')", 5)
            for _ in range(2):
                page.clicked("undo")
        page.becomes("document.getElementById('control-link').value", "64", way)
        page.rest()
        expect(not suggestion(page, "link"), f"after {way}: {suggestion(page, 'link')!r}")
        page.drop(example_named("other.pcwt", "guests/mid.light.pcwt"))
        expect(limits(page)[0] == ["64", "Mbit"], f"over another trace after {way}: {limits(page)}")


def check_doubts(page):
    """Counts of a record that go badly together are told, and make no guest that is larger than it is; a record that is
    too long is refused as such."""
    trace = shapes.trace(12, 1_000, [(tick, tick % 1_000, 1) for tick in range(5_000)])
    counts = {
        "guest_pages": 1 << 22,
        "counted_pages": 1 << 22,
        "sampled_pages": 1 << 14,
        "guest_nonzero": 1 << 22,
        "sampled_nonzero": 1,
    }
    page.open_planned()
    said = page.drop(("a.pcwt", trace), ("a.json", record_of(trace, **counts)))
    expect("a.json: 1 page of 16,384 in the sample" in said and "which is unlikely." in said, said)
    expect("1,000 pages sampled of 256,000 " in said, said)
    said = page.drop(("a.pcwt", trace), ("a.json", record_of(trace, **{**counts, "sampled_nonzero": 1 << 14})))
    expect("a.json is not used: sampled_nonzero is 16384" in said, said)
    said = page.drop(("a.json", record_of(trace, taken_of="x" * (1 << 16))))
    expect("a.json is not used: It is too long" in said, said)
    page.drop(*guest_with_record("a"))
    expect("unlikely" not in page.browser.value("textOf('trace-notes')"), "the example's record is doubted")
    trace = shapes.trace(12, 10, [(tick, tick % 10, 1) for tick in (0, 86_399_000)])
    said = page.drop(("day.pcwt", trace))
    expect("2 writes in 23\u00a0h\u00a059\u00a0min" in said, said)


MARK = "(({ className, textContent }) => [className, textContent])(document.querySelector('#headline .mark'))"
TAKES = "document.querySelectorAll('[data-takes]').length"
STILL = "Enough for the limit: uncertain, since the guest stood still while it was recorded."


def check_still(page):
    """Of a guest that stood still while it was recorded the line of the trace says for how long, the verdict is
    uncertain, and nothing is offered as enough, in few words; one that ran for 99 per cent of the time has a
    verdict."""
    trace, record = (text for _, text in guest_with_record("a"))
    page.open("#link=1Gbit&downtime=300ms&clark=1")
    page.drop(("a.pcwt", trace), ("a.json", record))
    for share, told in ((0.5, "50.0 %"), (0.99, ""), (0, "100.0 %"), (1, "")):
        said = page.drop(("a.json", json.dumps({**json.loads(record), "ran_share": share}).encode()))
        expect(("a.json: The guest stood still for " in said) == bool(told) and told in said, f"{share}: {said}")
        enough, found = page.enough(), page.shown()
        page.rest()
        mark = ["mark", "Uncertain"] if told else ["mark good", "Keeps the limit"]
        expect(page.browser.value(MARK) == mark, f"{share}: {page.browser.value(MARK)}")
        expect(("It is uncertain whether it converges" in found["verdict"]) == bool(told), found["verdict"])
        expect(("uncertain" in found["comparison"]["downtime"][1]) == bool(told), f"{share}: {found['comparison']}")
        expect(enough == [STILL] if told else enough[0] == ALSO, f"{share}: {enough}")
        expect((page.browser.value(TAKES) == 0) == bool(told), f"{share}: {enough}")
        like = page.browser.value("textOf('like-qemu')")
        expect(like.endswith("uncertain") == bool(told) and like.startswith("Like"), f"{share}: {like!r}")
        bar = page.browser.value("document.querySelector('#limit-bar .unsure') !== null")
        expect(bar == bool(told), f"{share}: the bar of the limit is {'' if bar else 'not '}unsure")
        page.browser.dress(1280, 900)
        page.rest()
        words = page.browser.value(WORDS)
        page.browser.dress(1400, 900)
        expect(len(words) <= MOST_WORDS, f"{share}: {len(words)} words above the fold: {' '.join(words)}")
    said = page.drop(("b.json", json.dumps({**json.loads(record), "ran_share": 1.5}).encode()))
    expect("b.json is not used: " in said and "\u201cran_share\u201d" in said, said)


RECORDS = {
    "records": check_records,
    "a record and an address": check_addressed,
    "a record and an address of its trace": check_own_address,
    "limits that were fitted": check_fitted,
    "limits that were fitted, and Undo": check_fitted_again,
    "a trace that is dropped again": check_dropped_again,
    "a record beside a file that is refused": check_beside_refused,
    "a limit that was chosen, and comes back": check_chosen_again,
    "doubts of a record": check_doubts,
    "several records": check_several,
    "a record that cannot be read": check_unreadable,
    "a guest that stood still": check_still,
}


def check_all(tally, page):
    for words, check in RECORDS.items():
        tried(tally, words, check, page)
