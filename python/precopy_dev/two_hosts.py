"""Makes two hosts on this machine, runs a command that may log in to them as `one` and `two`, and removes them.

    dev/two-hosts parallel --sshlogin 2/one,2/two --transferfile {} --cleanup --keep-order --tag \\
        "precopy report --start 1000 --threshold 305 --min 1015 --max 1015 --inc 0 < {} 2>&1 | tail -n 1" \\
        ::: guests/*.pcwt

A host is a process with a network and a name of its own, an empty home directory in memory, and sshd. It sees the other
files of this machine. Keys are made for one run. The command also runs in a network of its own, so this machine's
network is neither touched nor reached. All of it ends with the command, or after --for. GNU parallel and rsync find the
hosts through the variables PARALLEL_SSH and RSYNC_RSH. --lose one=20s takes a host off the network after that time, as
if its power were cut: ssh notices it after at most 6 seconds.

It needs root, and the packages openssh-server, openssh-client, iproute2 and util-linux; GNU parallel needs rsync too.
The status is that of the command, 124 if --for ended it, 1 if the hosts cannot be made, 2 for refused words.
"""

import argparse
import os
import shutil
import subprocess
import sys
import tempfile
import threading
import time

from precopy_dev.files import write_file
from precopy_dev.tree import TOP
from precopy_tools import version, words

HOSTS = ("one", "two")
PROGRAMS = {
    "sshd": "openssh-server",
    "ssh": "openssh-client",
    "ssh-keygen": "openssh-client",
    "ip": "iproute2",
    "unshare": "util-linux",
    "nsenter": "util-linux",
    "mount": "mount",
}
INSIDE = "PRECOPY_TWO_HOSTS"
SECONDS_TO_START = 10
# What a host does once its end of the link is there.
START = """\
set -eu
mount --make-rprivate /
mount -t tmpfs run /run
mount -t tmpfs home "$HOME"
mkdir /run/sshd
hostname "$1"
until ip link show host > /dev/null 2>&1; do sleep 0.02; done
ip link set lo up
ip address add "$2/24" dev host
ip link set host up
exec "$3" -D -e -f "$4"
"""


class Failed(Exception):
    """The hosts cannot be made; the text says why."""


def found(name: str) -> str:
    path = shutil.which(name, path=f"{os.environ.get('PATH', '')}:/usr/sbin:/sbin")
    if not path:
        raise Failed(f"there is no {name}: the package {PROGRAMS[name]} has it")
    return path


def run(*command: str) -> None:
    done = subprocess.run(command, capture_output=True, text=True)
    if done.returncode:
        raise Failed(f"{' '.join(command)}: {done.stderr.strip()}")


def server_settings(folder: str, address: str) -> str:
    path = os.environ.get("PATH", "/usr/bin:/bin")
    return (
        f"ListenAddress {address}\nHostKey {folder}/host\nAuthorizedKeysFile {folder}/user.pub\nPidFile none\n"
        f"StrictModes no\nUsePAM no\nPasswordAuthentication no\nPermitRootLogin yes\nMaxStartups 100\n"
        f"SetEnv PATH={path}\n"
    )


def client_settings(folder: str, addresses: dict[str, str]) -> str:
    hosts = "".join(f"Host {name}\n    HostName {address}\n" for name, address in addresses.items())
    return (
        f"{hosts}Host *\n    User root\n    IdentityFile {folder}/user\n    IdentitiesOnly yes\n    LogLevel ERROR\n"
        f"    UserKnownHostsFile {folder}/known\n    StrictHostKeyChecking accept-new\n"
        f"    ConnectTimeout 5\n    ServerAliveInterval 2\n    ServerAliveCountMax 2\n"
    )


class Host:
    """One host: its process, and the link to it."""

    def __init__(self, number: int, name: str, folder: str):
        self.name, self.address, gateway = name, f"10.0.{number}.2", f"10.0.{number}.1"
        settings = write_file(server_settings(folder, self.address), f"{folder}/{name}.sshd")
        command = [found("unshare"), "--net", "--uts", "--mount", "sh", "-c", START, "sh", name, self.address]
        self.log = open(f"{folder}/{name}.log", "w+b")
        self.process = subprocess.Popen([*command, found("sshd"), settings], stdout=self.log, stderr=self.log)
        self._wait_for_network()
        link = f"to-{name}"
        run(found("ip"), "link", "add", link, "type", "veth", "peer", "name", "host", "netns", str(self.process.pid))
        run(found("ip"), "address", "add", f"{gateway}/24", "dev", link)
        run(found("ip"), "link", "set", link, "up")

    def _wait_for_network(self) -> None:
        """Until the process has left the network of this one."""
        end = time.monotonic() + SECONDS_TO_START
        while os.readlink(f"/proc/{self.process.pid}/ns/net") == os.readlink("/proc/self/ns/net"):
            self.expect_running(end)
            time.sleep(0.01)

    def expect_running(self, end: float) -> None:
        if self.process.poll() is not None or time.monotonic() > end:
            self.log.seek(0)
            raise Failed(f"host {self.name} does not start: {self.log.read().decode(errors='replace').strip()}")

    def wait_until_ready(self, settings: str) -> None:
        end = time.monotonic() + SECONDS_TO_START
        command = [found("ssh"), "-F", settings, "-o", "ConnectTimeout=1", self.name, "true"]
        while subprocess.run(command, capture_output=True).returncode:
            self.expect_running(end)
            time.sleep(0.05)

    def lose(self) -> None:
        """Takes its end of the link down. What is sent to it gets no answer from then on."""
        run(found("nsenter"), f"--net=/proc/{self.process.pid}/ns/net", found("ip"), "link", "set", "host", "down")

    def end(self) -> None:
        self.process.kill()
        self.process.wait()
        self.log.close()


def losses_of(hosts: list[Host], lose: list[tuple[str, float]]) -> list[threading.Timer]:
    """What loses hosts while the command runs."""
    by_name = {host.name: host for host in hosts}
    timers = [threading.Timer(seconds, by_name[name].lose) for name, seconds in lose]
    for timer in timers:
        timer.daemon = True
        timer.start()
    return timers


def with_hosts(command: list[str], seconds: float, lose: list[tuple[str, float]], folder: str) -> int:
    """Makes the hosts, runs the command, and takes the hosts away."""
    hosts: list[Host] = []
    timers: list[threading.Timer] = []
    for key in ("host", "user"):
        run(found("ssh-keygen"), "-q", "-t", "ed25519", "-N", "", "-f", f"{folder}/{key}")
    run(found("ip"), "link", "set", "lo", "up")
    try:
        for number, name in enumerate(HOSTS, 1):
            hosts.append(Host(number, name, folder))
        settings = write_file(client_settings(folder, {host.name: host.address for host in hosts}), f"{folder}/ssh")
        for host in hosts:
            host.wait_until_ready(settings)
        login = f"ssh -F {settings}"
        timers = losses_of(hosts, lose)
        return subprocess.run(
            command, env={**os.environ, "PARALLEL_SSH": login, "RSYNC_RSH": login}, timeout=seconds
        ).returncode
    except subprocess.TimeoutExpired:
        version.complain("two-hosts", f"{command[0]} did not end within {seconds:g} s")
        return 124
    finally:
        for timer in timers:
            timer.cancel()
        for host in hosts:
            host.end()


def go_inside(given: list[str]) -> None:
    """Runs this program again, in namespaces that end with it, and with it all that it has started."""
    spaces = ["--net", "--mount", "--pid", "--fork", "--kill-child", "--mount-proc"]
    command = [found("unshare"), *spaces, os.path.join(TOP, "dev", "two-hosts"), *given]
    os.execve(command[0], command, {**os.environ, INSIDE: "1"})


def loss(word: str) -> tuple[str, float]:
    """A host and after how long it is lost, as one=20s."""
    name, _, time_of_loss = word.partition("=")
    if name not in HOSTS:
        raise argparse.ArgumentTypeError(f"{word!r}: there are the hosts {' and '.join(HOSTS)}, as in one=20s")
    return name, words.seconds(time_of_loss)


def options_of(given: list[str]) -> argparse.Namespace:
    parser = version.parser("two-hosts", __doc__)
    parser.add_argument("--for", dest="seconds", type=words.seconds, default=600.0, metavar="TIME", help="most (600s)")
    parser.add_argument("--lose", type=loss, action="append", default=[], metavar="LOSS", help="lose a host: one=20s")
    parser.add_argument("command", metavar="COMMAND", nargs=argparse.REMAINDER)
    options = parser.parse_args(given)
    if not options.command:
        parser.error("there is no COMMAND")
    return options


def main(given: list[str]) -> int:
    options = options_of(given)
    try:
        for name in PROGRAMS:
            found(name)
        if os.geteuid():
            raise Failed("it makes networks, and needs root for it")
        if os.environ.get(INSIDE) != "1":
            go_inside(given)
        with tempfile.TemporaryDirectory() as folder:
            return with_hosts(options.command, options.seconds, options.lose, folder)
    except (Failed, OSError) as fault:
        version.complain("two-hosts", fault)
        return 1


if __name__ == "__main__":
    sys.exit(main(sys.argv[1:]))
