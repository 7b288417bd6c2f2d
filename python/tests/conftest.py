"""What all tests share: with `--skip-none` a test that would be skipped fails, so that what is not
installed is seen.
"""

from __future__ import annotations

from collections.abc import Generator
from typing import Any

import pytest


def pytest_addoption(parser: pytest.Parser) -> None:
    parser.addoption("--skip-none", action="store_true", help="a test that would be skipped fails")


@pytest.hookimpl(hookwrapper=True)  # type: ignore[misc]
def pytest_runtest_makereport(item: pytest.Item) -> Generator[None, Any, None]:
    report: pytest.TestReport = (yield).get_result()
    if report.skipped and item.config.getoption("--skip-none"):
        report.outcome, report.longrepr = "failed", f"it was skipped: {report.longrepr}"
