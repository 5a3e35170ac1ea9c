"""Cases of checks/recording: guests that do not run, names of records, what is told as JSON, and refusals in words."""

import datetime
import json
import os
import re
import shutil
import signal
import socket
import subprocess
import tempfile
import time

from checks.lib.harness import cases_of
from checks.lib.tally import LeftOut, expect_in_time, module, need
from checks.recording import forecast_cases
from checks.recording.memory_cases import Known
from checks.recording.recorder_runs import RECORD, SECONDS, TOP, Started, Writing, expect, recorder
from checks.recording.sample_runs import Drawn, Pages
from precopy_dev.files import read_json, read_text, write_file
from precopy_tools.evacuate import settings
from precopy_tools.formats import samples
from precopy_tools.qemu import qmp
from precopy_tools.record import command as record_command
from precopy_tools.record import guests, mappings, sampled, series, sources
from precopy_tools.record.pagemap import Unavailable
from precopy_tools.refusals import Refused
from precopy_tools.watch import limits

LAYOUT = {"nodes": [["a", "private", 600], ["b", "memfd", 500]], "code": 5000}
# A record of drawn pages, with its NAME.json.
RECORDED = os.path.join(TOP, "examples", "guests", "sqlite.light.pcwt")
# Values of all kinds, with which each field of such a file is tried; also by checks/page.
VALUES = os.path.join(TOP, "checks", "recording", "field_values.json")
UNIT, UNIT_OF_ALL = "precopy-record@.service", "precopy-watch.service"
SYSTEMD = "/lib/systemd/systemd"
# What both units protect. No setting is among them that filters system calls.
PROTECTED = "CapabilityBoundingSet NoNewPrivileges ProtectSystem ProtectHome PrivateTmp PrivateNetwork IPAddressDeny"
PROTECTED += " ProtectControlGroups DevicePolicy ReadOnlyPaths InaccessiblePaths UMask"


def sample_in(path):
    return read_json(samples.path_beside(path))


def expect_share(drawn, least, most):
    """The share of the time for which the guest ran, in NAME.json and in what the recorder says."""
    drawn.expect_whole()
    share = sample_in(drawn.trace_path)["ran_share"]
    expect_in_time(least <= share <= most, f"{share} is not from {least} to {most}; {drawn.output!r}")
    expect(("stood still: the guest did not run for" in drawn.output) == (share < 1), drawn.output)


def paused_while_recorded(_, folder):
    """A guest that its monitor calls paused does not run; predictions of its record are uncertain."""
    with Known(folder, LAYOUT) as known:
        drawn = Drawn(folder, ["--qmp", known.socket], ["--for", "2500ms"])
        drawn.end()
        expect_share(drawn, 1, 1)
        drawn = Drawn(folder, ["--qmp", known.socket], ["--for", "6s"])
        time.sleep(1.5)
        known.ask("stop")
        drawn.end()
    expect_share(drawn, 0.05, 0.95)
    words = [drawn.trace_path, "--link", "64MiB"]
    told, _ = forecast_cases.run_predict(*words, status=4)
    expect(re.search(r"^uncertain: the guest stood still for \d+\.\d per cent of the recording", told, re.M), told)
    told, _ = forecast_cases.run_predict(*words, "--json", status=4)
    expect(json.loads(told)["certain"] is False, told)


def stopped_while_recorded(_, folder):
    """A process that a signal has stopped does not run; one that goes on does."""
    with Pages("private") as pages:
        drawn = Drawn(folder, pages.source, ["--for", "6s"])
        time.sleep(1.5)
        pages.process.send_signal(signal.SIGSTOP)
        drawn.end()
        pages.process.send_signal(signal.SIGCONT)
    expect_share(drawn, 0.05, 0.95)


def segments_that_stood_still(_, folder):
    """Each segment has the share of its own time."""
    path = os.path.join(folder, "guest.light.pcwt")
    with Known(folder, LAYOUT) as known:
        words = [RECORD, "--qmp", known.socket, "--every", "50ms", "--segment", "3s", "--for", "9s"]
        run = Started(folder, words, path)
        known.ask("stop")
        time.sleep(3.2)
        known.ask("cont")
        run.end(seconds=4 * SECONDS)
    shares = [sample_in(each)["ran_share"] for each in series.Series(path).paths()]
    expect(run.status == 0, f"{run.status}, {run.faults}, {shares}")
    expect_in_time(len(shares) >= 3 and shares[0] < 0.8 and shares[2] == 1, f"{shares}, {run.output}")
    expect(run.output.count("stood still") >= 1, f"{shares}, {run.output}")


def light_names_draw(_, folder):
    """A guest that fits a trace is recorded by drawn pages, if the name is that of a light trace."""
    with Known(folder, LAYOUT) as known:
        drawn = Drawn(folder, ["--qmp", known.socket], ["--for", "300ms"])
        drawn.end()
    _, _, sample = drawn.expect_whole()
    expect(sample.guest_pages == sample.sampled_pages == 1100, f"{sample}")


def one_recorder_a_name(program, folder):
    """Of two recorders with one OUTPUT the second is refused, and the first goes on."""
    path = os.path.join(folder, "guest.pcwt")
    with Writing(folder, False) as writing:
        words = [RECORD, *writing.source, "--every", "50ms"]
        first = Started(folder, words, path)
        second = subprocess.run([*words, "--for", "1s", path], capture_output=True, text=True, timeout=8 * SECONDS)
        expect(second.returncode == 1 and f"another process writes {path}" in second.stderr, f"{second}")
        first.end(signal.SIGINT, 8 * SECONDS)
    expect(first.status == 0 and not first.faults and os.listdir(folder).count("guest.pcwt") == 1, first.faults)


def named_by_their_begin(_, folder):
    """A segment has the name of when it began, and not of when the recorder did."""
    with Pages("private") as pages:
        words = ["--segment", "60s", "--for", "1s"]
        Drawn(folder, pages.source, words[2:], cause="slow_count").end()
        path = os.path.join(folder, "slow.light.pcwt")
        command = [*recorder("slow_count"), *pages.source, *words, path]
        done = subprocess.run(command, capture_output=True, text=True, timeout=60)
    expect(done.returncode == 0, f"{done}")
    (found,) = series.Series(path).paths()
    taken = re.sub(r"[-:]|\+00:00", "", sample_in(found)["taken_at"])
    expect(os.path.basename(found) == f"slow.{taken}Z.light.pcwt", f"{found} began at {taken}")


def unit_in(folder):
    shutil.copy(os.path.join(TOP, "packaging", UNIT), folder)
    os.chmod(folder, 0o755)


def expanded(folder, instance):
    """The command of the service and its file of options, as systemd's own test shows them for an instance."""
    name = UNIT.replace("@", f"@{instance}")
    environment = {**os.environ, "SYSTEMD_UNIT_PATH": f"{folder}:/lib/systemd/system", "XDG_RUNTIME_DIR": folder}
    command = [SYSTEMD, "--test", "--system", "--no-pager", f"--unit={name}"]
    user = {"user": 65534, "group": 65534, "extra_groups": []} if os.geteuid() == 0 else {}
    done = subprocess.run(command, env=environment, capture_output=True, text=True, timeout=60, **user)
    found = re.search(r"Command Line: (\S*precopy-record .*)$", done.stdout, re.M)
    return found[1] if found else f"status {done.returncode}, {done.stderr[-300:]}"


def services_with_dashes(_, folder):
    """The service of a guest with a dash, or with other letters, records this guest, into a file of its name."""
    need("systemd-escape")
    if not os.access(SYSTEMD, os.X_OK):
        raise LeftOut("there is no systemd, which expands the unit")
    with tempfile.TemporaryDirectory() as units:
        unit_in(units)
        for name in ("db-a", "web", "a b", "x--y-", "db\\x2da", "ä.1"):
            escaped = subprocess.run(["systemd-escape", name], capture_output=True, text=True, check=True)
            told = expanded(units, escaped.stdout.strip())
            plain = re.sub(r"\\(.)", r"\1", told.replace('"', ""))
            wanted = f"--domain={name} --segment 10m --keep 144 $OPTIONS /var/lib/precopy/{name}.light.pcwt"
            expect(plain.endswith(wanted), f"{name}: {told}")


def services_with_protections(_, __):
    """Both services have the same protections, so that one guest is recorded with no more rights than all."""
    found = []
    for name in (UNIT, UNIT_OF_ALL):
        found.append(dict(line.split("=", 1) for line in read_text(TOP, "packaging", name).splitlines() if "=" in line))
    for name in PROTECTED.split():
        rights = [unit.get(name) for unit in found]
        expect(rights[0] and rights[0] == rights[1], f"{name}: {rights}")


def words_too_little(_, folder):
    """Nothing is told as nothing, and a start after the end says how long the recording is."""
    for words, said in (
        (["--link", "64MiB", "--downtime", "0s"], "'0s' is too little: 1us is the least"),
        (["--link", "0Gbit"], "'0Gbit' is too little: 1 byte a second is the least"),
        (["--link", "5"], "'5': a number and its unit"),
    ):
        _, faults = forecast_cases.run_predict(RECORDED, *words, status=2)
        expect(said in faults, f"{words}: {faults!r}")
    _, faults = forecast_cases.run_predict(RECORDED, "--link", "64MiB", "--start", "1h", status=1)
    length = sample_in(RECORDED)
    seconds = (length["last_tick"] - length["first_tick"]) / 1000
    expect(f"--start 3600.000 s is after the end of the recording, which has {seconds:.3f} s" in faults, faults)


def records_elsewhere(_, folder):
    """NAME.json may have another place: the answers are those of one that is beside the trace."""
    trace, beside = os.path.join(folder, "other.light.pcwt"), os.path.join(folder, "x.json")
    shutil.copy(RECORDED, trace)
    shutil.copy(samples.path_beside(RECORDED), beside)
    link = ["--link", "64MiB", "--downtime", "300ms"]
    for words in ([], ["--when"]):
        wanted, _ = forecast_cases.run_predict(RECORDED, *link, *words)
        found, _ = forecast_cases.run_predict(trace, *link, *words, "--record", beside)
        expect(found == wanted, f"{words}: {found!r} in place of {wanted!r}")
    forecast_cases.run_predict(trace, *link, status=1)
    _, faults = forecast_cases.run_predict(trace, trace, *link, "--record", beside, status=2)
    expect("--record and --when are of one trace" in faults, faults)


def words_of_one_trace(_, folder):
    """What is told of one trace is refused of a series with several, and told of a series with a single one."""
    begin = datetime.datetime(2026, 11, 26, 22, 0, tzinfo=datetime.timezone.utc)
    paths = forecast_cases.made_series(folder, [begin, begin + datetime.timedelta(hours=1)])
    name, link = os.path.join(folder, "guest.light.pcwt"), ["--link", "20MiB", "--downtime", "2ms"]
    for more in (["--when"], ["--reached", "0.5..1"], ["--record", samples.path_beside(paths[0])]):
        found = forecast_cases.run_predict(name, *link, *more, status=1)
        said = "predict: --record, --reached and --when are of one trace, and this is a series\n"
        expect(found == ("", said), f"{more}: {found}")
    os.unlink(paths[1])
    found = forecast_cases.run_predict(name, *link, "--when", status=None)
    expect(found == forecast_cases.run_predict(paths[0], *link, "--when", status=None), f"{found}")
    expect("best" in found[0], f"{found}")


def silent_monitors(_, folder):
    """A QEMU that does not answer is told apart from one whose monitor somebody else has."""
    with Known(folder, LAYOUT) as known:
        client = qmp.Client(known.socket)
        told = fault_of(known.socket)
        expect("another one has this socket" in told, told)
        client.socket.close()
    path = os.path.join(folder, "silent")
    with socket.socket(socket.AF_UNIX) as server:
        server.bind(path)
        server.listen()
        told = fault_of(path)
    expect(f"process {os.getpid()}, does not answer; is it stopped?" in told, told)


def fault_of(path):
    try:
        qmp.Client(path, 0.5)
    except qmp.Fault as fault:
        return str(fault)
    raise AssertionError(f"{path} answers")


def schema_of_records(_, folder):
    """The published schema of NAME.json takes what the reader takes, and refuses what it refuses field by field."""
    schema = read_json(TOP, "docs", "record.schema.json")
    values = read_json(VALUES)
    fields = {**sample_in(RECORDED), "ran_share": 0.5}
    expect(list(schema["properties"]) == list(samples.FIELDS), f"{list(schema['properties'])}")
    expect(set(schema["required"]) == set(samples.FIELDS) - samples.OPTIONAL, f"{schema['required']}")
    check = module("jsonschema").Draft202012Validator(schema)
    expect(check.is_valid(fields), "a record is refused")
    for name in fields:
        for value in values:
            holds = samples.FIELDS[name][1](value)
            found = check.is_valid({**fields, name: value})
            # The schema knows texts, and not which of them is a moment; and for it 1.0 is a whole number.
            is_other = name == "taken_at" and isinstance(value, str) and value or value == 1e9
            expect(found == holds or is_other, f"{name}: {value!r} is {found} by the schema, {holds} by the reader")


def told_as_json(_, folder):
    """Each tool with --json prints documents, a line for each, and nothing else."""
    text, trace, again = (os.path.join(folder, name) for name in ("a.text", "a.pcwt", "b.pcwt"))
    write_file("pages 4 size 16\n0 0 0 01\n5 1 15 02\n9000 1 0 03\n", text)
    thin = os.path.join(folder, "thin.light.pcwt")
    with Pages("private") as pages:
        drawn = os.path.join(folder, "guest.light.pcwt")
        recorded = ["record", *pages.source, "--for", "500ms", "--json", drawn]
        rows = [
            (recorded, "precopy recording 1", {"trace": drawn, "guest_pages": pages.pages, "ran_share": 1.0}),
            (["import", "--json", text, trace], "precopy imported 1", {"pages": 4, "page_bytes": 16, "writes": 3}),
            (["export", "--json", trace, text], "precopy exported 1", {"pages": 4, "version": 1, "writes": 3}),
            (["release", "--after", "50", "--json", trace, again], "precopy releases 1", {"releases": 2, "pages": 2}),
            (["thin", "--one-in", "2", "--json", drawn, thin], "precopy thinned 1", {"trace": thin, "of": drawn}),
        ]
        for (tool, *words), name, wanted in rows:
            command = [os.path.join(TOP, "tools", tool), *words]
            done = subprocess.run(command, capture_output=True, text=True, timeout=12 * SECONDS)
            expect(done.returncode == 0 and done.stdout.count("\n") == 1 and not done.stderr, f"{tool}: {done}")
            told = json.loads(done.stdout)
            expect(told["format"] == name and wanted.items() <= told.items(), f"{tool}: {told}")
    told, _ = forecast_cases.run_predict(thin, "--link", "64MiB", "--json", status=None)
    expect(json.loads(told)["record"]["trace_pages"] > 0, told)


def statuses_of_several(_, folder):
    """Of several records the status is 3 if one does not keep its limit, also if nothing is known of another one."""
    paths = [os.path.join(folder, f"{name}.light.pcwt") for name in ("runs", "still")]
    for path, more in zip(paths, ({}, {"ran_share": 0.5})):
        shutil.copy(RECORDED, path)
        write_file(json.dumps({**sample_in(RECORDED), **more}), samples.path_beside(path))
    words = ["--link", "32MiB", "--downtime", "10ms", "--clark"]
    for given, status in ((paths[:1] * 2, 3), (paths[1:] * 2, 4), (paths, 3), (paths[::-1], 3)):
        forecast_cases.run_predict(*given, *words, status=status)


def files_without_end(_, __):
    """A file of settings, and what stands beside a record, is read no further than the most that it may have."""
    told = "/dev/zero has more than 16 MiB\n"
    _, fault = forecast_cases.run_predict(RECORDED, "--link", "64MiB", "--record", "/dev/zero", status=1)
    expect(fault == f"predict: {told}", fault)
    for read in (limits.File, settings.read):
        try:
            read("/dev/zero")
        except Refused as refused:
            expect(f"{refused}\n" == told, f"{refused}")
        else:
            raise AssertionError(f"{read}: it ends")


def odd_names_and_streams(_, folder):
    """A name that an encoding does not have is printed all the same, and a tool whose standard output is closed says
    so."""
    odd = os.path.join(os.fsencode(folder), b"a\xff\xc3\xa9.light.pcwt")
    closed = ["sh", "-c", 'exec "$@" >&-', "sh"]
    with Pages("private") as pages:
        for encoding, how, more, said, fault in (
            ("utf-8", [], [], odd, b""),
            ("ascii", [], [], b"a\xff\\xe9.light.pcwt", b""),
            ("utf-8", [], ["--json"], b"a\\udcff\\u00e9.light.pcwt", b""),
            ("utf-8", closed, [], b"", b"record: what it prints could not be written: Bad file descriptor\n"),
        ):
            environment = {**os.environ, "PYTHONIOENCODING": f"{encoding}:strict", "PYTHONUTF8": "1"}
            command = [*how, RECORD, *pages.source, "--for", "300ms", *more, odd]
            done = subprocess.run(command, env=environment, capture_output=True, timeout=12 * SECONDS)
            expect(done.returncode == 0 and said in done.stdout and done.stderr == fault, f"{encoding}, {more}: {done}")
            expect(os.path.exists(odd), f"{os.listdir(folder)}")
            os.unlink(odd)


class Untracked(sampled.SampledGuest):
    """A guest whose writes cannot be followed."""

    def tracker(self):
        raise Unavailable("it is tried")


def nothing_left_open(_, folder):
    """A recorder that cannot begin leaves nothing open, however often it is tried."""
    with Pages("private") as pages:
        for words, kind, fault in (
            (["--by", "writes"], Untracked, Unavailable),
            (["--one-in", "1"], sampled.SampledGuest, ValueError),
        ):
            options = record_command.options_of([*pages.source, *words, os.path.join(folder, "a.light.pcwt")])
            source = sources.source_of(options)
            source = source._replace(ranges=[(0, 1 << 48)] if fault is ValueError else source.ranges)
            for _ in range(3):
                try:
                    sampled.SampleRecorder(kind(options, source), None, options)
                except fault:
                    continue
                raise AssertionError(f"{words}: it begins")
        left = [path for path in map(path_of, os.listdir("/proc/self/fd")) if f"/{pages.process.pid}/" in path]
    expect(not left, f"{left}")


def path_of(descriptor):
    """The file of a descriptor; of one that another case has closed meanwhile there is none."""
    try:
        return os.readlink(f"/proc/self/fd/{descriptor}")
    except OSError:
        return ""


def words_of_guests(_, __):
    """How a guest is said follows from the words of QEMU: by its monitor, and not by another socket that it has, such
    as a console. A comma in a name is written twice there."""
    console, monitor = "-chardev socket,id=c,path=/run/c", "-chardev socket,id=m,path=/run/a,,b.qmp,server=on"
    for words, told in (
        ("-name guest=web,debug-threads=on", "--domain web"),
        ("-name guest=a,,b,debug-threads=on -qmp unix:/run/m", "--domain a,b"),
        ("-name web -qmp unix:/run/a,,b.qmp,server=on,wait=off", "--qmp /run/a,b.qmp"),
        (f"{console} {monitor} -mon chardev=c,mode=readline -mon chardev=m,mode=control", "--qmp /run/a,b.qmp"),
        (f"{monitor} {console} -mon m,mode=control,pretty=on", "--qmp /run/a,b.qmp"),
        (f"{console} -qmp tcp:localhost:4444,server=on", "--pid 7 --mapping 1000-3000"),
        (f"{console} -chardev socket,id=m,fd=9 -mon chardev=m,mode=control", "--pid 7 --mapping 1000-3000"),
    ):
        memory = [mappings.Mapping(0x1000, 0x3000, "rw-p", 0, "00:00", 0, "")]
        found = guests.Guest(7, "qemu", ["qemu-system-x86_64", *words.split(), ""], memory).how()
        expect(found == told, f"{words}: {found}")


CASES = cases_of(__name__)
