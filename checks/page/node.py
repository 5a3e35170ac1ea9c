"""Node, in which checks ask the page's module, and the package that has it."""

import json
import os
import re
import shutil
import subprocess
from typing import Optional

from checks.lib.tally import Failure, why_not
from precopy_dev.files import write_file
from precopy_dev.tree import TOP

# What asks the package, by its name.
SCRIPT = "package.mjs"
SECONDS = 600


def node_command() -> Optional[list[str]]:
    """Node with memory of 64-bit addresses, or None."""
    node = None if why_not("node") else shutil.which("node")
    tests = "process.exit(WebAssembly.validate(new Uint8Array([0,97,115,109,1,0,0,0,5,3,1,4,1])) ? 0 : 1)"
    for words in ([], ["--experimental-wasm-memory64"]):
        if node and subprocess.run([node, *words, "-e", tests], capture_output=True, check=False).returncode == 0:
            return [node, *words]
    return None


def put_web(folder: str, *scripts: str) -> str:
    """The page's files as modules of Node, with scripts of this folder beside them. Returns their folder."""
    web = os.path.join(folder, "web")
    shutil.copytree(os.path.join(TOP, "web"), web)
    write_file('{"type": "module"}', web, "package.json")
    for script in scripts:
        shutil.copy(os.path.join(TOP, "checks", "page", script), web)
    return web


def put_package(folder: str, module: str) -> str:
    """The package for Node with this module, where programs of a folder find it, and the script that asks it. Returns
    the folder."""
    place = os.path.join(folder, "package")
    made = os.path.join(place, "node_modules", "precopy-planner")
    subprocess.run([os.path.join(TOP, "dev", "js-package"), module, made], check=True)
    shutil.copy(os.path.join(TOP, "checks", "page", SCRIPT), place)
    return place


def asked_of_package(command: list[str], place: str, jobs: list[dict]) -> dict:
    """What the package in a folder answers: for each trace its sizes, and then to each call, or a refusal. A bigint is
    a word that ends in n, also in what a call is given."""
    words, given = [*command, "--no-warnings", os.path.join(place, SCRIPT)], json.dumps(jobs).encode()
    done = subprocess.run(words, input=given, capture_output=True, timeout=SECONDS, check=False)
    if done.returncode:
        raise Failure(f"the package in Node: {done.stderr.decode()[-600:]}")
    return json.loads(done.stdout)


def run_tests(tally, command: list[str], path: str, what: str) -> None:
    """Runs tests in Node: each of them counts."""
    words = [*command, "--no-warnings", "--test", "--test-reporter=tap", path]
    ran = subprocess.run(words, capture_output=True, text=True, timeout=SECONDS, check=False)
    results = re.findall(r"^(not ok|ok) \d+ - (.*)$", ran.stdout, re.M)
    tally.add(
        results and (ran.returncode == 0) == all(result == "ok" for result, _ in results),
        f"{len(results)} tests of {what}: {ran.stdout[-300:]}{ran.stderr[-300:]}",
    )
    for result, name in results:
        tally.add(result == "ok", f"{what}: {name}")
