"""What the planner's page says of kept plans beside another, and what it gives hypervisors."""

from checks.lib.amount_texts import time_text
from checks.lib.host_words import LONGEST_MILLIS, host_lines, sentence_of
from checks.lib.tally import expect
from checks.page.acts import asked, example_named, typed


def check_comparison(page):
    """Of two kept plans each is compared; better and worse are marked, and one can be exchanged and dropped."""
    asked(page, link="5Gbit", downtime="20ms")
    page.browser.value("unfold()")
    page.clicked("keep")
    page.rest()
    typed(page, "rounds", "2")
    page.rest()
    first = page.shown()
    page.clicked("keep")
    page.rest()
    typed(page, "rounds", "1")
    page.rest()
    heads = "[...document.querySelectorAll('#comparison thead th')].map((cell) => cell.firstChild.textContent.trim())"
    expect(page.browser.value(heads) == ["This plan", "Kept plan 1", "Kept plan 2"], page.browser.value(heads))
    marks = page.browser.value(
        "['better', 'worse'].map((name) => document.querySelectorAll(`#comparison .${name}`).length)"
    )
    expect(min(marks) > 0, f"better and worse: {marks}")
    page.after("document.querySelector('[data-exchanges=\"1\"]').click()")
    page.rest()
    found = page.shown()
    expect(found["comparison"] == first["comparison"], f"{found['comparison']} in place of {first['comparison']}")
    page.after("const drop = document.querySelector('[data-drops=\"0\"]'); drop.focus(); drop.click()")
    focused = page.browser.value("document.activeElement.getAttribute('aria-label')")
    expect(focused == "Kept plan 1: drop", f"after a drop the focus is on {focused!r}")
    page.after("document.activeElement.click()")
    expect(page.browser.value(heads) == ["This plan"], page.browser.value(heads))


HEADS = "[...document.querySelectorAll('#comparison thead th')].map((cell) => cell.textContent.replace(/\\s+/g, ' '))"


# What of a kept plan is compared with this one.
DIFFERENCES = """[...document.querySelectorAll("#comparison .difference")].map((words) =>
  words.closest("tr").querySelector("[data-name]").dataset.name)"""
# Up to how many pages the pictures of rounds go.
TOPS = """["this", "kept-1"].map((name) => document.querySelector(`#rounds-plot-${name} text.end`).textContent)"""


# Draws over the picture of a kept plan, and tells whether its moments are marked in the working set.
SHARED = """(() => {
  const plot = document.getElementById("rounds-plot-kept-1");
  const { left, top, width } = plot.getBoundingClientRect();
  const send = (to, kind, share) => to.dispatchEvent(new PointerEvent(kind, { pointerType: "mouse", bubbles: true,
    clientX: left + 68 + (width - 80) * share, clientY: top + 60 }));
  send(plot, "pointermove", 0.1);
  const isMarked = document.querySelector("#windows-plot .moment") !== null;
  send(plot, "pointerdown", 0.1);
  send(window, "pointermove", 0.4);
  send(window, "pointerup", 0.4);
  return isMarked;
})()"""


def check_second_trace(page):
    """A kept plan stays when another trace is opened, with the name of its own, beside a plan with the same limits. Its
    sample of 4,154 pages stands for 129,819: its pages and its moments are no numbers of another trace's."""
    page.open_planned("#trace=sqlite&link=64MiB&first=50&downtime=300ms&start=1000")
    page.clicked("keep")
    before = page.shown()["comparison"]
    page.drop(example_named("mid.pcwt", "guests/mid.light.pcwt"))
    page.rest()
    heads = page.browser.value(HEADS)
    expect(heads == ["This plan", "Kept plan 1 Drop sqlite.light.pcwt"], f"heads: {heads}")
    limits = page.browser.value("['link', 'downtime'].map((name) => document.getElementById(`control-${name}`).value)")
    expect(limits == ["64", "300"], f"the limits are {limits}, and were 64 MiB/s and 300 ms")
    numbers = page.browser.value(
        "[...document.querySelectorAll('#comparison tbody tr')].map((row) =>"
        "row.children[2].querySelector('b').textContent)"
    )
    expect(numbers == [words for words, _ in before.values()], f"{numbers} in place of {before}")
    expect(page.shown()["comparison"] != before, "the plan over another trace is the same")
    typed(page, "link", "100")
    differing = page.browser.value(DIFFERENCES)
    expect(differing == ["downtime", "time", "sent", "rounds"], f"compared over two traces: {differing}")
    typed(page, "link", "64")
    shared = page.browser.value(SHARED)
    page.rest()
    is_whole = page.browser.value("document.getElementById('zoom-out').disabled")
    expect(not shared and is_whole, f"time of another trace is marked: {shared}; it takes nothing nearer: {is_whole}")
    tops = page.browser.value(TOPS)
    expect(tops == ["129,819", "4,154"], f"as much memory is not as high: {tops} pages are at the top")
    page.clicked("keep")
    expect(len(page.browser.value(HEADS)) == 3, f"{page.browser.value(HEADS)}")
    page.after("document.querySelector('[data-drops=\"0\"]').click()")
    heads = page.browser.value(HEADS)
    expect(heads == ["This plan", "Kept plan 1 Exchange Drop"], f"heads after a drop: {heads}")
    page.after("document.querySelector('[data-drops]').click()")


def check_undone_trace(page):
    """A plan that was kept before another trace was opened is shown once if that is undone, and once if it is done
    again. Over the trace that is opened anew it is there too."""
    page.open_planned("#trace=sqlite&link=64MiB&first=50&downtime=300ms&start=1000")
    page.clicked("keep")
    page.browser.wait("location.hash.includes('kept=')", 5)
    page.drop(example_named("mid.pcwt", "guests/mid.light.pcwt"))
    page.rest()
    over_its_own, over_another = "Kept plan 1 Exchange Drop", "Kept plan 1 Drop sqlite.light.pcwt"
    for button, wanted in (("undo", over_its_own), ("redo", over_another), ("undo", over_its_own)):
        page.clicked(button)
        page.becomes(HEADS, ["This plan", wanted], f"heads after {button}")
        page.rest()
    page.drop(example_named("mid.pcwt", "guests/mid.light.pcwt"))
    page.rest()
    page.drop(example_named("sqlite.pcwt", "guests/sqlite.light.pcwt"))
    page.rest()
    page.becomes(HEADS, ["This plan", over_its_own], "heads over the trace that is opened anew")
    page.after("document.querySelector('[data-drops]').click()")
    page.becomes(HEADS, ["This plan"], "heads after a drop")


# The words of the axes of the pictures of rounds, where each has its stop, in pixels, and when its last round ends, in
# seconds.
ROUNDS = """["this", "kept-1"].map((name) => {
  const plot = document.getElementById(`rounds-plot-${name}`);
  return [[...plot.querySelectorAll("text:not(.begin)")].map((text) => text.textContent),
    Number(plot.querySelector("rect.stop").getAttribute("x")) + 1,
    Number(rowsOf(`rounds-table-${name}`).at(-1)[2].replaceAll(",", ""))];
})"""
LEFT_OF_PLOT = 68


def check_axes(page):
    """Plans beside each other have the same axes, also if their ticks are not equally long and their units differ: what
    takes twice as long is twice as far from the start."""
    asked(page, link="100Mbit", first="100", downtime="300ms")
    page.clicked("keep")
    page.with_unit("link", "MiB")
    typed(page, "link", "70")
    typed(page, "tick", "2")
    page.rest()
    (words, stop, seconds), (others, far, long) = page.browser.value(ROUNDS)
    expect(words == others and any("MiB/s" in text for text in words), f"{words} beside {others}")
    expect(
        seconds > 0 and abs((far - LEFT_OF_PLOT) / (stop - LEFT_OF_PLOT) * seconds / long - 1) < 0.02,
        f"{seconds} s at {stop}, and {long} s at {far}",
    )


def check_same(page):
    """A kept plan has the same settings as one with its link in another unit, and of pages that are no sample."""
    page.open_planned("#trace=gzip&link=8MiB&downtime=4ms&start=400&clark=0")
    page.clicked("keep")
    for text in ("2", "1"):
        typed(page, "sample", text)
    page.with_unit("link", "KiB")
    said = page.browser.value("textOf('comparison')")
    page.after("document.querySelector('[data-drops]').click()")
    expect("Kept plan 1 has the same settings." in said, said)


# What is said of a link or a downtime that a hypervisor does not take.
NO_LINK = sentence_of(host_lines(0, 1)[2])
NO_LIBVIRT_DOWNTIME = sentence_of(host_lines(1 << 20, 0)[3])
NO_QEMU_DOWNTIME = sentence_of(host_lines(1 << 20, LONGEST_MILLIS + 1)[1])

# Settings, what libvirt and QEMU are told of them, and words of what they are not told.
HOSTS = [
    ("link=600KB&downtime=4ms", {"libvirt": "virsh migrate-setmaxdowntime DOMAIN 4"}, {"libvirt": NO_LINK}),
    (
        "link=1.5MiB&downtime=2500us",
        {"libvirt": "virsh migrate-setspeed DOMAIN 1\nvirsh migrate-setmaxdowntime DOMAIN 2"},
        {"libvirt": "1.5 MiB/s", "qemu": "2.5 ms"},
    ),
    (
        "link=8MiB&downtime=2ms&reserve=1.5ms",
        {"libvirt": "virsh migrate-setspeed DOMAIN 8"},
        {"libvirt": NO_LIBVIRT_DOWNTIME, "qemu": time_text(500)},
    ),
    (
        "link=600KB&downtime=2500us&reserve=2ms",
        {"libvirt": ""},
        {"libvirt": f"{NO_LINK} {NO_LIBVIRT_DOWNTIME}", "qemu": time_text(500)},
    ),
    (
        "link=8MiB&downtime=4ms",
        {"libvirt": "virsh migrate-setspeed DOMAIN 8\nvirsh migrate-setmaxdowntime DOMAIN 4"},
        {},
    ),
    (
        "link=8KB&downtime=2001s",
        {"libvirt": "", "qemu": "migrate_set_parameter max-bandwidth 8000B"},
        {"libvirt": f"{NO_LINK} {NO_LIBVIRT_DOWNTIME}", "qemu": NO_QEMU_DOWNTIME},
    ),
    (
        "link=10Gbit&downtime=4us&tick=1us",
        {"libvirt": "virsh migrate-setspeed DOMAIN 1192"},
        {"libvirt": NO_LIBVIRT_DOWNTIME, "qemu": time_text(4)},
    ),
]


def check_hosts(page):
    """A hypervisor is told no limit that it does not take: a sentence says why."""
    for fragment, commands, notes in HOSTS:
        found = page.ask(f"trace=gzip&first=100&start=400&{fragment}")
        expect(not found["refused"], f"{fragment}: {found['fault']}")
        for name, words in commands.items():
            expect(found["commands"][name] == words, f"{fragment}: {found['commands'][name]!r} in place of {words!r}")
            can = page.browser.value(f"!document.querySelector('[data-copies=command-{name}]').disabled")
            expect(can == bool(words), f"{fragment}: {name} can be copied: {can}")
        for name in ("qemu", "libvirt"):
            said = found["notes"][name]
            expect(notes.get(name, "") in said and bool(said) == (name in notes), f"{fragment}: {name}: {said!r}")


def check_copied(page):
    """A button that copies says for a while that it did, also by its name and to a screen reader, and then again what
    it does. If it is pressed twice it says so twice."""
    page.ask("trace=gzip&first=100&start=400")
    page.rest()
    said = page.browser.value(
        """(async () => {
      const button = document.querySelector("[data-copies=command-predict]");
      const told = [];
      const observer = new MutationObserver(() => textOf("told") && told.push(textOf("told")));
      observer.observe(document.getElementById("told"), { childList: true, characterData: true, subtree: true });
      const after = async (millis) => {
        await new Promise((resume) => setTimeout(resume, millis));
        return [button.textContent, button.getAttribute("aria-label"), ...told.splice(0)];
      };
      button.click();
      const first = await after(300);
      button.click();
      return [first, await after(300), await after(2_000)];
    })()"""
    )
    expect(said[0][0] in ("Copied", "Selected") and said[2][0] == "Copy", f"pressed twice, the button says {said}")
    names = [f"{words[0]} this prediction" for words in said]
    told = [[word, name, *[name] * (word != "Copy")] for (word, *_), name in zip(said, names)]
    expect(said == told, f"a screen reader is told {said} in place of {told}")
