#!/usr/bin/env python3
"""Writes the page of the manual of a command of the Python package, by its parser: packaging/man.py
VERSION NAME.
"""
import argparse
import importlib
import pathlib
import sys
import tomllib
from collections.abc import Iterator

TOP = pathlib.Path(__file__).resolve().parent.parent


def roff(text: str) -> str:
    """A text as it stands in a page, in one line."""
    return " ".join(text.split()).replace("\\", "\\e").replace("-", "\\-")


def rows(parser: argparse.ArgumentParser) -> Iterator[str]:
    """A paragraph for each option and argument."""
    form = parser._get_formatter()
    for action in parser._actions:
        if not isinstance(action, (argparse._SubParsersAction, argparse._HelpAction)):
            form._root_section.items.clear()
            yield f".TP\n.B {roff(form._format_action_invocation(action))}"
            yield roff(form._expand_help(action))


def page(parser: argparse.ArgumentParser, version: str) -> Iterator[str]:
    name = parser.prog
    description = parser.description or ""
    yield (
        f'.TH {name.upper()} 1 "" "ringplan {version}"\n.SH NAME\n{name} \\-'
        f' {roff(description[:1].lower() + description[1:].rstrip("."))}'
    )
    usage = parser.format_usage().removeprefix("usage: ")
    yield f".SH SYNOPSIS\n.B {roff(usage)}\n.SH DESCRIPTION\n{roff(description)}\n.SH OPTIONS"
    yield from rows(parser)
    for commands in (
        action for action in parser._actions if isinstance(action, argparse._SubParsersAction)
    ):
        yield ".SH COMMANDS"
        for word, command in commands.choices.items():
            yield f".SS {word}\n{roff(command.description or '')}"
            yield from rows(command)
    if parser.epilog:
        yield f".SH EXIT STATUS\n{roff(parser.epilog)}"
    yield ".SH SEE ALSO\n.BR ringplan (1), and the pages in share/doc/ringplan/docs"


def main(version: str, name: str) -> None:
    sys.path.insert(0, str(TOP / "python"))
    call: str = tomllib.loads((TOP / "python/pyproject.toml").read_text())["project"]["scripts"][
        name
    ]
    parser = importlib.import_module(call.partition(":")[0]).command_line()
    print(*page(parser, version), sep="\n")


if __name__ == "__main__":
    main(*sys.argv[1:])
