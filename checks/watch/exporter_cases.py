"""Cases of checks/watch: Prometheus and its node exporter read what is told; alerts, and the dashboard's questions."""

import contextlib
import json
import os
import re
import socket
import subprocess
import time
import urllib.parse
import urllib.request

from checks.lib.harness import cases_of, expect
from checks.lib.tally import expect_in_time, need
from checks.watch.guest_cases import ODD, Writing
from checks.watch.watch_runs import LIMITS, SECONDS, Watching, known, metrics_in, of_guest
from precopy_dev.files import read_json, read_text, write_file
from precopy_dev.tree import TOP
from precopy_tools.watch.metrics import METRICS

MONITORING = os.path.join(TOP, "packaging", "monitoring")
RULES = os.path.join(MONITORING, "precopy.rules.yml")
DASHBOARD = os.path.join(MONITORING, "precopy.dashboard.json")
CONFIGURATION = """\
global: {{scrape_interval: 500ms, evaluation_interval: 500ms}}
rule_files: [{rules}]
scrape_configs:
  - job_name: node
    static_configs: [{{targets: ["127.0.0.1:{port}"]}}]
"""
# Series over time, and which alerts there are then.
OF_RULES = """\
rule_files: [{rules}]
evaluation_interval: 1m
tests:
  - interval: 1m
    input_series:
      - series: 'precopy_guest_verdict{{instance="h", guest="fell", verdict="kept"}}'
        values: "1x60 0x120"
      - series: 'precopy_guest_verdict{{instance="h", guest="fell", verdict="missed"}}'
        values: "0x60 1x120"
      - series: 'precopy_guest_verdict{{instance="h", guest="never", verdict="kept"}}'
        values: "0x180"
      - series: 'precopy_guest_verdict{{instance="h", guest="never", verdict="missed"}}'
        values: "1x180"
      - series: 'precopy_guest_verdict{{instance="h", guest="stood", verdict="kept"}}'
        values: "1x60 0x120"
      - series: 'precopy_guest_verdict{{instance="h", guest="stood", verdict="missed"}}'
        values: "0x180"
      - series: 'precopy_guest_recording{{instance="h", guest="lost"}}'
        values: "1x60 0x120"
      - series: 'precopy_guest_recording{{instance="h", guest="fell"}}'
        values: "1x180"
      - series: 'precopy_watch_last_write_timestamp_seconds{{instance="h"}}'
        values: "0+60x60 3600x120"
    alert_rule_test:
      - {{eval_time: 59m, alertname: PrecopyGuestNotMovable, exp_alerts: []}}
      - {{eval_time: 80m, alertname: PrecopyGuestNotMovable, exp_alerts: []}}
      - eval_time: 100m
        alertname: PrecopyGuestNotMovable
        exp_alerts:
          - exp_labels: {{severity: warning, instance: h, guest: fell, verdict: missed}}
            exp_annotations:
              summary: The guest fell stopped being movable
              description: "Its predicted migration misses its limits; within the last day it kept them."
      - eval_time: 100m
        alertname: PrecopyGuestNotRecorded
        exp_alerts:
          - exp_labels: {{severity: warning, instance: h, guest: lost}}
            exp_annotations:
              summary: The guest lost is not recorded
              description: "What is told of its migration is old; the journal of precopy-watch says why."
      - {{eval_time: 60m, alertname: PrecopyWatchSilent, exp_alerts: []}}
      - eval_time: 100m
        alertname: PrecopyWatchSilent
        exp_alerts:
          - exp_labels: {{severity: warning, instance: h}}
            exp_annotations:
              summary: precopy-watch on h writes no more
              description: "What is told of its guests is as it was then."
"""


def free_ports() -> tuple[int, int]:
    with socket.socket() as first, socket.socket() as second:
        first.bind(("127.0.0.1", 0))
        second.bind(("127.0.0.1", 0))
        return first.getsockname()[1], second.getsockname()[1]


def fetched(port: int, path: str) -> str:
    """What a server answers, as soon as it does."""
    end = time.monotonic() + SECONDS
    while True:
        try:
            with urllib.request.urlopen(f"http://127.0.0.1:{port}{path}", timeout=SECONDS) as answer:
                return answer.read().decode()
        except OSError as fault:
            expect_in_time(time.monotonic() < end, f"{path}: {fault}")
            time.sleep(0.05)


@contextlib.contextmanager
def server(folder: str, *command: str):
    """A server in the block."""
    with open(os.path.join(folder, f"{command[0]}.log"), "wb") as log:
        process = subprocess.Popen(command, stdout=log, stderr=log)
        try:
            yield
        finally:
            process.kill()
            process.wait()


def node_exporter(folder: str, port: int):
    words = ["--collector.disable-defaults", "--collector.textfile", f"--collector.textfile.directory={folder}"]
    return server(folder, "prometheus-node-exporter", *words, f"--web.listen-address=127.0.0.1:{port}")


def prometheus(folder: str, port: int, of_exporter: int):
    path = write_file(CONFIGURATION.format(rules=RULES, port=of_exporter), folder, "prometheus.yml")
    words = [f"--config.file={path}", f"--storage.tsdb.path={folder}/tsdb", f"--web.listen-address=127.0.0.1:{port}"]
    return server(folder, "prometheus", *words, "--log.level=warn")


def asked(port: int, expression: str) -> list[dict]:
    """The series that Prometheus answers."""
    told = json.loads(fetched(port, f"/api/v1/query?{urllib.parse.urlencode({'query': expression})}"))
    expect(told["status"] == "success", f"{expression}: {told}")
    return told["data"]["result"]


def expressions() -> dict[str, str]:
    """The questions of the dashboard by the titles of their panels, for all hosts and guests."""
    panels = read_json(DASHBOARD)["panels"]
    found = {}
    for panel in panels:
        for target in panel["targets"]:
            text = re.sub(r"\$(instance|guest)\b", ".*", target["expr"]).replace("[5m]", "[5s]")
            found[f"{panel['title']} {target['refId']}"] = text
    return found


def expect_questions(port: int, guests: int) -> None:
    """Each question of the dashboard has a series for each guest, or for the host. Prometheus may not have read often
    enough yet to know a rate."""
    for title, expression in expressions().items():
        wanted = guests if "precopy_guest" in expression and "sum by (instance)" not in expression else 1
        end = time.monotonic() + SECONDS
        while len(found := asked(port, expression)) != wanted:
            told = f"{title}: {expression}: {len(found)} series in place of {wanted}"
            expect_in_time(time.monotonic() < end, told)
            time.sleep(0.2)


def read_by_prometheus(program, folder):
    """The node exporter reads the text without a fault, Prometheus has its values, and the dashboard has answers."""
    need("prometheus-node-exporter", "prometheus")
    of_exporter, port = free_ports()
    with contextlib.ExitStack() as stack:
        for name in ("a.qmp", f"{ODD}.qmp"):
            guest = stack.enter_context(known(folder, name))
        stack.enter_context(Writing(guest, 0.2))
        run = stack.enter_context(Watching(program, folder, limits=f'{LIMITS}time = "5m"\n'))
        stack.enter_context(node_exporter(folder, of_exporter))
        stack.enter_context(prometheus(folder, port, of_exporter))
        run.wait_for_value("precopy_guest_verdict", "a", 1, verdict="kept")
        told = fetched(of_exporter, "/metrics")
        expect(re.search(r"^node_textfile_scrape_error 0$", told, re.M), told[-500:])
        lines = [line for line in told.splitlines() if re.match(r"(?:# (?:HELP|TYPE) )?precopy_", line)]
        read = metrics_in("\n".join([*lines, ""]))
        expect(read[of_guest("precopy_guest_verdict", "a", verdict="kept")] == 1, f"{read}")
        expect_questions(port, 2)
        names = {each["metric"]["guest"] for each in asked(port, "precopy_guest_recording")}
        expect(names == {"a", ODD}, f"{names}")
        alerts = json.loads(fetched(port, "/api/v1/rules"))["data"]["groups"][0]["rules"]
        expect([each["health"] for each in alerts] == ["ok"] * 3, f"{alerts}")
        run.end_well()


def lines_as_prometheus_wants_them(program, folder):
    """promtool finds nothing to say of the names, the units and the forms of all metrics that there are."""
    need("promtool")
    with known(folder, "a.qmp"), known(folder, f"{ODD}.qmp"):
        limits = '[default]\nlink = "64MiB"\ntime = "5m"\n'
        # Of pages that are all recorded there are no redraws.
        with Watching(program, folder, "--pages", "16", limits=limits) as run:
            run.wait_for_value("precopy_guest_verdict", "a", 1, verdict="kept")
            run.end_well()
    text = read_text(run.textfile)
    expect({key[0] for key in metrics_in(text)} == set(METRICS), "there are metrics that are not told")
    done = subprocess.run(["promtool", "check", "metrics"], input=text, capture_output=True, text=True)
    expect(done.returncode == 0 and not done.stdout + done.stderr, f"{done.returncode}, {done.stdout}{done.stderr}")
    expect(os.stat(run.textfile).st_mode & 0o777 == 0o644, "others cannot read the text")


def alerts_when_due(_, folder):
    """A guest that falls is told once, and not one that never kept its limits, nor one of which nothing is known."""
    need("promtool")
    path = write_file(OF_RULES.format(rules=RULES), folder, "rules.yml")
    for words in (["check", "rules", RULES], ["test", "rules", path]):
        done = subprocess.run(["promtool", *words], capture_output=True, text=True)
        expect(done.returncode == 0, f"{words}: {done.stdout}{done.stderr}")


def dashboard_of_known_metrics(_, __):
    """The dashboard and the alerts ask for metrics that there are, and the dashboard for each limit; each panel has a
    place, a title and a unit."""
    dashboard = read_json(DASHBOARD)
    named = set(re.findall(r"\bprecopy_\w+", read_text(RULES)))
    places = set()
    for panel in dashboard["panels"]:
        place = panel["gridPos"]
        cells = {
            (x, y)
            for x in range(place["x"], place["x"] + place["w"])
            for y in range(place["y"], place["y"] + place["h"])
        }
        expect(not cells & places and place["x"] + place["w"] <= 24, f"{panel['title']} is over another panel")
        places |= cells
        expect(panel["title"] and panel["fieldConfig"]["defaults"]["unit"], f"{panel}")
        named |= {name for target in panel["targets"] for name in re.findall(r"\bprecopy_\w+", target["expr"])}
    named |= set(re.findall(r"\bprecopy_\w+", json.dumps(dashboard["templating"])))
    expect(named <= set(METRICS), f"there are no {named - set(METRICS)}")
    limits = {name for name in METRICS if name.endswith("_limit_seconds")}
    expect(len(limits) == 2 and limits <= named, f"limits that nobody sees: {limits - named}")
    expect(len(named) > 10, f"{named}")


CASES = cases_of(__name__)
