"""What the command lines of the package share."""

from __future__ import annotations

import argparse
import contextlib
import importlib
import os


def complete(parser: argparse.ArgumentParser) -> None:
    """Answers a shell that asks how to complete a command line, if argcomplete is installed.

    Then the process ends.
    """
    if "_ARGCOMPLETE" in os.environ:
        with contextlib.suppress(ModuleNotFoundError):
            importlib.import_module("argcomplete").autocomplete(parser)
