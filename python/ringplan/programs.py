"""Where the package finds the program that it runs, and how it asks it.

It is the path that the environment gives under the program's name, else what the tree has built
that this file is in, else what the search path has.
"""

from __future__ import annotations

import os
import pathlib
import shutil
import subprocess
from typing import NamedTuple

TOP = pathlib.Path(__file__).parents[2]
NAME = "ringplan"


class Answer(NamedTuple):
    """What the program printed on standard output and on standard error, and the status with which
    it ended.
    """

    text: str
    errors: str
    status: int

    def first(self) -> str:
        """The first line."""
        return self.text.split("\n")[0]


class NoProgram(Exception):
    """A program that is not there, or that could not answer."""


def find() -> str:
    """The path of the program."""
    built = TOP / "crates" / NAME / "out" / NAME
    path = os.environ.get(NAME) or (str(built) if built.exists() else shutil.which(NAME))
    if path is None:
        raise NoProgram(
            f"there is no program {NAME}: put it on the search path, or its path into the variable"
            f" {NAME}"
        )
    return path


def run(command: str, data: bytes, *options: str) -> subprocess.CompletedProcess[bytes]:
    """Runs a command on bytes.

    A program that is not there, or that was killed, is `NoProgram`. A signal from the terminal does
    not reach it.
    """
    path = find()
    try:
        ran = subprocess.run(
            [path, command, *options], input=data, capture_output=True, start_new_session=True
        )
    except OSError as error:
        raise NoProgram(f"{path} cannot be run: {error.strerror}") from error
    if ran.returncode < 0:
        raise NoProgram(f"{path} {command} was ended by signal {-ran.returncode}")
    return ran


def ask(command: str, text: str, *options: str) -> Answer:
    """Runs a command on a text."""
    ran = run(command, text.encode(), *options)
    return Answer(ran.stdout.decode(), ran.stderr.decode(), ran.returncode)
