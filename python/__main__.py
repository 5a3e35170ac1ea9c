"""Runs a module of this folder as a command: python3 python MODULE [WORD ..]. Launchers call it."""

import runpy
import sys

if __name__ == "__main__":
    module = sys.argv.pop(1)
    runpy.run_module(module, run_name="__main__", alter_sys=True)
