"""The commands by name. pip gives each of them a script that calls `run`; the launchers in tools/ name the modules."""

import os
import runpy
import sys

MODULES = {
    "check": "precopy_tools.check",
    "compare-qemu": "precopy_tools.qemu.compare",
    "evacuate": "precopy_tools.evacuate.command",
    "export": "precopy_tools.convert.export",
    "import": "precopy_tools.convert.import_writes",
    "page": "precopy_tools.page",
    "predict": "precopy_tools.predict.command",
    "record": "precopy_tools.record.command",
    "release": "precopy_tools.convert.release",
    "thin": "precopy_tools.convert.thin",
    "watch": "precopy_tools.watch.command",
}


def run() -> None:
    """Runs the command that the script is named after."""
    name = os.path.basename(sys.argv[0]).removeprefix("precopy-")
    runpy.run_module(MODULES[name], run_name="__main__", alter_sys=True)
