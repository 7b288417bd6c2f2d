"""A bar at a terminal that shows how far a plan is, where the package `rich` is installed."""

from __future__ import annotations

import contextlib
import sys
import threading
import time
from collections.abc import Callable, Iterator

from ringplan.run.runner import Runner


@contextlib.contextmanager
def shown(runner: Runner) -> Iterator[None]:
    """Shows the bar while the block runs. Lines that are printed meanwhile come above it."""
    try:
        from rich import console, progress
    except ModuleNotFoundError:
        yield
        return
    if not sys.stderr.isatty():
        yield
        return
    columns = (
        progress.BarColumn(),
        progress.MofNCompleteColumn(),
        progress.TextColumn("steps{task.fields[pace]}"),
        progress.TimeElapsedColumn(),
    )
    with progress.Progress(
        *columns, console=console.Console(stderr=True), redirect_stdout=sys.stdout.isatty()
    ) as bar:
        task = bar.add_task("", total=len(runner.steps), completed=len(runner.done), pace="")

        def show() -> None:
            words = runner.pace.words(time.time())
            bar.update(
                task,
                total=len(runner.steps),
                completed=len(runner.done),
                pace=words and f"; {words}",
            )

        with repeated(show):
            yield


@contextlib.contextmanager
def repeated(show: Callable[[], None]) -> Iterator[None]:
    """Calls `show` five times a second while the block runs, and once at its end."""
    over = threading.Event()

    def follow() -> None:
        while not over.wait(0.2):
            show()

    watcher = threading.Thread(target=follow)
    watcher.start()
    try:
        yield
    finally:
        over.set()
        watcher.join()
        show()
