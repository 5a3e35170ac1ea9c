"""What the planner's page does with answers of its worker that come late: when something else is asked meanwhile, or
another trace is open."""

import tempfile

from checks.lib.tally import expect
from checks.page.acts import example_named, guest_with_record, typed
from checks.page.cases import example
from precopy_dev.files import read_bytes, write_file

# How long a message to a worker is on its way here, in milliseconds.
DELAY = 300
OVER_SQLITE = "#trace=sqlite&link=64MiB&first=50&downtime=300ms&start=1000"
STATE = """[location.hash, textOf("trace-state"), textOf("rounds-table-this"), textOf("headline"), textOf("comparison"),
  ...["undo", "redo"].map((id) => document.getElementById(id).getAttribute("aria-disabled"))]"""
IS_OPEN = "document.getElementById('trace').getAttribute('aria-busy') === 'false'"


def pressed(page, button, address):
    """Presses a button that leads to another address, and waits for that alone."""
    page.browser.value(f"document.getElementById('{button}').click()")
    page.browser.wait(f"location.hash.includes('trace=sqlite') === {address}", 5)


def open_two(page):
    """Opens a trace after another, so that the first can be gone back to."""
    page.browser.forget_pages()
    page.open_planned(OVER_SQLITE)
    page.browser.wait("location.hash.includes('window=')", 5)
    page.drop(example_named("mid.pcwt", "guests/mid.light.pcwt"))
    page.rest()


def check_left_address(page):
    """An address that is left while its trace is still being read changes nothing any more."""
    open_two(page)
    before = page.browser.value(STATE)
    page.browser.value(f"window.delay = {DELAY}; 0")
    pressed(page, "undo", "true")
    pressed(page, "redo", "false")
    page.browser.value("window.delay = 0")
    page.browser.wait(f"{IS_OPEN} && isDrawn()", 20)
    page.rest()
    page.becomes(STATE, before, "after an address that was left")


def check_two_presses(page):
    """Undo that is pressed twice, before the browser has gone back once, does not leave the page."""
    open_two(page)
    page.after("document.getElementById('undo').click(); document.getElementById('undo').click()")
    page.becomes("textOf('trace-state').split(':')[0]", "sqlite.light.pcwt", "after Undo that was pressed twice")
    page.rest()
    page.clicked("redo")
    page.becomes("textOf('trace-state').split(':')[0]", "mid.pcwt", "after Redo")


def check_other_map(page):
    """The map of one trace has never the writes of another, though these are counted while it is shown."""
    open_two(page)
    over_mid = page.browser.value("textOf('map-most')")
    page.browser.value(
        f"""(() => {{
      window.said = new Set();
      new MutationObserver(() => said.add(textOf("map-most"))).observe(document.getElementById("map-most"),
        {{ childList: true, characterData: true, subtree: true }});
      window.delay = {DELAY};
      document.querySelector("[data-example=gzip]").click();
    }})()"""
    )
    page.browser.wait("textOf('trace-state').includes('gzip')", 5)
    page.click("zoom-plan")
    page.browser.wait(f"textOf('trace-state').startsWith('gzip') && {IS_OPEN} && isDrawn()", 20)
    page.browser.value("window.delay = 0")
    page.rest()
    over_gzip = page.browser.value("textOf('map-most')")
    said = set(page.browser.value("[...said]"))
    expect(over_gzip in said and said <= {over_mid, over_gzip}, f"the map said {said - {over_mid, over_gzip}}")


def check_record_meanwhile(page):
    """A record that comes while its trace is still being read is that of this trace, and not of the one before."""
    page.open_planned("#trace=gzip")
    page.browser.value(f"window.delay = {DELAY}; 0")
    for file in guest_with_record("a"):
        page.let_fall(file)
    page.browser.wait(f"textOf('trace-state').startsWith('a.pcwt: ') && {IS_OPEN} && isDrawn()", 20)
    page.browser.value("window.delay = 0")
    page.becomes("textOf('trace-state').includes(', as a.json says')", True, "after a record that came meanwhile")
    notes = page.browser.value("textOf('trace-notes')")
    expect(not notes, f"of a record that came while its trace was read is said {notes!r}")
    page.rest()


OVER_ADDRESS = """[textOf("trace-state").split(":")[0], document.getElementById("control-link").value,
  document.getElementById("trace-other").hidden, location.hash.includes("link=64MiB"),
  document.getElementById("redo").getAttribute("aria-disabled")]"""


def check_left_file(page):
    """A file that is still being read when the user goes to another address changes nothing there: that came later."""
    open_two(page)
    page.browser.value(f"window.delay = {DELAY}; 0")
    page.let_fall(example_named("gzip.pcwt", "gzip.pcwt"))
    pressed(page, "undo", "true")
    page.browser.wait(f"textOf('trace-state').startsWith('sqlite.light.pcwt: ') && {IS_OPEN} && isDrawn()", 20)
    page.browser.value("window.delay = 0")
    page.rest()
    wanted = ["sqlite.light.pcwt", "64", True, True, "false"]
    page.becomes(OVER_ADDRESS, wanted, "after a file that was still being read")
    page.browser.forget_pages()
    page.open_planned("#trace=gzip&link=2MB&downtime=4ms")
    page.browser.wait("location.hash.includes('window=')", 5)
    typed(page, "link", "4")
    page.browser.wait("location.hash.includes('link=4MB')", 5)
    page.browser.value(f"window.delay = {DELAY}; document.querySelector('[data-example=gzip]').click()")
    page.click("undo")
    page.browser.wait(f"location.hash.includes('link=2MB') && opened > 1 && {IS_OPEN} && isDrawn()", 20)
    page.browser.value("window.delay = 0")
    page.rest()
    page.becomes("document.getElementById('control-link').value", "2", "after an example that was still being read")


OVER_ANOTHER = """[textOf("trace-state").split(":")[0], document.getElementById("control-link").value,
  textOf("command-predict").includes("--link 48MiB "),
  textOf("trace-other").startsWith("This address has the settings of another trace")]"""


def check_gone_file(page):
    """An address of a trace whose file is gone since shows its settings over the trace that is open, and says so."""
    page.browser.forget_pages()
    page.open_planned(OVER_SQLITE)
    with tempfile.TemporaryDirectory() as folder:
        page.load(write_file(read_bytes(example("gzip.pcwt")), folder, "gone.pcwt"))
        page.with_unit("link", "MiB")
        typed(page, "link", "48")
        page.browser.wait("location.hash.includes('link=48MiB')", 5)
    page.drop(example_named("other.pcwt", "guests/mid.light.pcwt"))
    typed(page, "link", "96")
    page.browser.wait("location.hash.includes('link=96MiB')", 5)
    page.browser.value("history.go(-2)")
    page.browser.wait("textOf('trace-notes').startsWith('gone.pcwt is refused: E17 ')", 20)
    page.rest()
    page.becomes(OVER_ANOTHER, ["other.pcwt", "48", True, True], "after an address whose file is gone")


LATE = {
    "an address that was left": check_left_address,
    "undo pressed twice": check_two_presses,
    "the map of another trace": check_other_map,
    "a record of a trace that is being read": check_record_meanwhile,
    "a file that was left": check_left_file,
    "a file that is gone": check_gone_file,
}
