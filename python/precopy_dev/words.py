"""How the commands of builders take their words."""

import argparse


def parser_of(name: str, about: str | None) -> argparse.ArgumentParser:
    """A parser whose help tells about a command as it is written, and which takes no beginnings of options."""
    layout = argparse.RawDescriptionHelpFormatter
    return argparse.ArgumentParser(prog=name, description=about, formatter_class=layout, allow_abbrev=False)
