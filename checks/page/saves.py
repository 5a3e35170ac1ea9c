"""What the planner's page saves: pictures with their names and legends, and tables with the numbers that it shows."""

import base64
import math
import struct
import xml.etree.ElementTree
from fractions import Fraction

from checks.lib.tally import expect
from checks.page.acts import PLAIN, asked
from checks.page.tables import moment_texts, rate_texts
from checks.view.limit_cases import RATES


def saved_files(page, count):
    """Presses all buttons that save something, and returns the files by their names: so many, or as there are."""
    page.browser.value(
        """(() => {
      window.saved = [];
      unfold();
      const made = URL.createObjectURL;
      URL.createObjectURL = (blob) => { window.savedLast = blob; return made.call(URL, blob); };
      HTMLAnchorElement.prototype.click = function click() { saved.push([this.download, savedLast]); };
      const buttons = [...document.querySelectorAll(".saves button")].filter((button) => button.checkVisibility());
      buttons.forEach((button) => button.click());
      window.pressed = buttons.length;
    })()"""
    )
    page.browser.wait(f"saved.length === {'pressed' if count is None else count}", 20)
    files = page.browser.value(
        """Promise.all(saved.map(([name, blob]) => new Promise((resume) => {
      const reader = new FileReader();
      reader.onload = () => resume([name, reader.result.split(",")[1]]);
      reader.readAsDataURL(blob);
    })))"""
    )
    return {name: base64.b64decode(text) for name, text in files}


# The heads of the tables that are saved: each number has a unit.
HEADS = {
    "prediction": "plan,downtime_us,time_us,sent_bytes,rounds,left_pages,stop_us,start_us,reason,kept,converges,"
    "redraws,redraws_kept,redraws_converging,starts,starts_kept,starts_converging,plan_by",
    "rounds-this": "round,from_us,to_us,rate_bytes_per_second,pages,sent_pages,dirtied_pages,from_tick,to_tick,"
    "rate_pages_per_1000_ticks",
    "working-set": "window,from_us,to_us,writes,pages,again_pages,fresh_pages",
    "starts": "tick,start_us,time_us,sent_bytes,downtime_us,kept",
    "links": "link_bytes_per_second,time_us,sent_bytes,downtime_us,kept",
    "map": "round,first_page,last_page,pages,sent_pages,sent_and_dirtied_pages,skipped_pages,dirtied_pages,"
    "first_turn_us,last_turn_us",
}
LEGENDS = {
    "rounds-this": ["Rounds", "sent", "downtime"],
    "working-set": ["Working set", "never before", "stop"],
    "starts": ["When to move", "by start", "worst"],
    "links": ["Slower and faster links", "by link", "this plan"],
    "map": ["Pages over time", "sent, but dirtied", "a round begins", "stop"],
}


def check_rounds(rows, shown):
    """The file of rounds has the numbers of the table, whose ticks are milliseconds, and the same in ticks."""
    start, weight = int(PLAIN["start"]), 4096 * Fraction(129_819, 4_154)
    for _, begin, end, size, *_, first, last, rate in rows:
        expect((begin, end) == ((first - start) * 1_000, (last - start) * 1_000), f"{begin}, {end}: {first}, {last}")
        expect(size == math.floor(rate * weight), f"{size} bytes a second for a rate of {rate}")
    columns = [list(column) for column in zip(*rows)]
    rates = rate_texts([rate * weight / RATES["Gbit"] for rate in columns[-1]])
    texts = [columns[0], moment_texts(columns[1]), moment_texts(columns[2]), rates, *columns[4:7]]
    found = [[text if isinstance(text, str) else f"{text:,}" for text in row] for row in zip(*texts)]
    expect(found == shown["rounds"], f"{found} in place of {shown['rounds']}")


def check_table(name, text, shown):
    """A table has the heads and the rows that it should."""
    head, *lines = text.splitlines()
    expect(head == HEADS[name], f"{name}: {head}")
    expect({line.count(",") for line in lines} == {head.count(",")}, f"{name}: {lines[:3]}")
    rows = [line.split(",") for line in lines]
    if name == "rounds-this":
        check_rounds([[int(cell) for cell in row] for row in rows], shown)
    elif name == "working-set":
        tick, length = 1_000, int(PLAIN["window"])
        times = [[int(row[0]) * length * tick, (int(row[0]) + 1) * length * tick] for row in rows]
        expect([list(map(int, row[1:3])) for row in rows] == times, f"{name}: {rows[:3]}")
    elif name == "prediction":
        expect([row[0] for row in rows] == ["This plan"], f"{name}: {rows}")


def check_files_saved(page):
    """Each picture is saved as PNG and SVG, with its name and its legend, and each table as CSV."""
    asked(page)
    page.click("ask")
    page.browser.wait("document.querySelector('#starts-plot svg') !== null")
    page.rest()
    wanted = 5 * 3 + 1
    files = saved_files(page, wanted)
    expect(len(files) == wanted, f"files: {sorted(files)}")
    shown = page.shown()
    for file, data in files.items():
        name, _, kind = file.rpartition(".")
        if kind == "svg":
            root = xml.etree.ElementTree.fromstring(data)
            parts = list(root.iter())
            texts = [part.text for part in parts if part.tag.endswith("text")]
            expect(root.tag.endswith("svg") and len(parts) > 20, f"{file} has {len(parts)} parts")
            expect(texts[0] == LEGENDS[name][0] and set(LEGENDS[name]) <= set(texts), f"{file} says {texts}")
        elif kind == "png":
            pixels = struct.unpack(">II", data[16:24])
            expect(data.startswith(b"\x89PNG") and min(pixels) > 300, f"{file}: {pixels} pixels")
        else:
            check_table(name, data.decode(), shown)
