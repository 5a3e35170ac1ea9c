"""What the planner's page announces: a plan once it is drawn, and never that of another trace or of other settings."""

from checks.lib.tally import expect
from checks.page.acts import example_named, typed

# What is announced, and what the verdict says.
TOLD = "textOf('told')"
VERDICT = "verdictText().replaceAll('\\u00a0', ' ')"


def require_told(page, what):
    """Waits until the page announces what its verdict says."""
    try:
        page.browser.wait(f"textOf('told') !== '' && {VERDICT}.includes({TOLD}.replaceAll('\\u00a0', ' '))", 3)
    except Exception as error:
        told, verdict = page.browser.value(TOLD), page.browser.value(VERDICT)
        expect(False, f"after {what} {told!r} is announced, and the verdict is {verdict!r}: {error}")


def check_told(page):
    """What is announced is the plan of the trace that is open, of the settings of now, and the answer of starts."""
    page.browser.forget_pages()
    page.open_planned("#trace=sqlite&link=1Gbit&downtime=300ms&start=1000&rounds=30")
    require_told(page, "a first plan")
    page.drop(example_named("mid.pcwt", "guests/mid.light.pcwt"))
    page.browser.value("new Promise((resume) => setTimeout(resume, 800))")
    require_told(page, "another trace")
    page.ask("trace=sqlite&link=1Gbit&downtime=300ms&start=1000&rounds=30")
    require_told(page, "another address")
    page.browser.wait("location.hash.includes('rounds=30')", 5)
    typed(page, "link", "0.064")
    page.browser.wait("location.hash.includes('link=64Mbit') || location.hash.includes('link=0.064Gbit')", 5)
    require_told(page, "another link")
    slow = page.browser.value(TOLD)
    for act in ("back", "forward", "back"):
        page.after(f"history.{act}()")
        require_told(page, act)
        expect((page.browser.value(TOLD) == slow) == (act == "forward"), f"{act}: {page.browser.value(TOLD)!r}")
    page.click("ask")
    page.browser.wait("textOf('told').startsWith('Best start: ')", 20)
