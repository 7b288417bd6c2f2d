"""The commands as functions: by the C library and by the program, byte for byte beside the program
itself.
"""

from __future__ import annotations

import concurrent.futures
import pathlib
import re
import subprocess
from collections.abc import Callable

import pytest

from ringplan import library, programs, texts
from ringplan.library import Answer, NoLibrary, Refused, Status

TOP = pathlib.Path(__file__).parents[2]
EXAMPLES = sorted((TOP / "examples").glob("*.bundle"))
CALLS = {
    "check": library.check,
    "plan": library.plan,
    "play": library.play,
    "replay": library.replay,
    "migrate": library.migrate,
}
# Every command of the header, and options that are tried beside none.
OTHERS = re.findall(r"^RINGPLAN_COMMAND\((\w+)\)$", (TOP / "c/ringplan.h").read_text(), re.M)
OPTIONS: dict[str, list[list[str]]] = {
    "goal": [["--dead", "b"], ["--racks-behind", "none"], ["--exit-code"], ["--none"]],
    "around": [["--dead", "b"], ["--dead", "c", "--back"]],
    "why": [["--color", "always"], ["--format", "json"]],
    "show": [["--all"], ["--racks-behind", "."], ["--format", "json"], ["--help"]],
    "draw": [["--map"]],
    "steps": [["--moves"]],
    "windows": [["--rounds", "1"]],
}


@pytest.fixture(params=["library", "program"], autouse=True)
def way(request: pytest.FixtureRequest, monkeypatch: pytest.MonkeyPatch) -> str:
    """Whether the calls go through the C library, or all through the program."""
    try:
        programs.find()
    except programs.NoProgram as error:
        pytest.skip(str(error))
    if request.param == "program":
        monkeypatch.setenv("RINGPLAN_LIBRARY", "")
    elif library.load(None) is None:
        pytest.skip("the C library is not built: `make` builds it")
    return str(request.param)


def wanted(command: str, bundle: bytes, *options: str) -> tuple[int, bytes, str]:
    ran = subprocess.run([programs.find(), command, *options], input=bundle, capture_output=True)
    return ran.returncode, ran.stdout, ran.stderr.decode()


@pytest.mark.parametrize("command", CALLS)
def test_calls_answer_as_the_program_does(command: str, way: str) -> None:
    hostile = [b"", b"\0\xff\n" * 9, b"ring 1\n" * 1000]
    examples = EXAMPLES if way == "library" else EXAMPLES[::6]
    for bundle in [path.read_bytes() for path in examples] + hostile:
        status, text, errors = wanted(command, bundle)
        assert CALLS[command](bundle) == Answer(
            Status(status), text, errors if way == "program" else ""
        ), (command, bundle)


@pytest.mark.parametrize("command", OTHERS)
def test_commands_with_options_answer_as_the_program_does(command: str, way: str) -> None:
    call = getattr(library, command)
    choices: list[list[str]] = [[], *OPTIONS.get(command, [])]
    for path in EXAMPLES if way == "library" else EXAMPLES[::8]:
        for options in choices:
            status, text, errors = wanted(command, path.read_bytes(), *options)
            assert call(path.read_bytes(), *options) == Answer(Status(status), text, errors), (
                path,
                options,
            )


def test_options_may_name_files(tmp_path: pathlib.Path) -> None:
    bundle, target = (TOP / "examples/plan_replace.bundle").read_bytes(), tmp_path / "planned"
    assert library.goal(bundle, "--racks-behind", "none", "-o", str(target)) == Answer(
        Status.DONE, b""
    )
    assert target.read_bytes() == library.goal(bundle, "--racks-behind", "none").demand()
    assert library.cert(b"", str(target)) == library.cert(target.read_bytes())
    with pytest.raises(ValueError, match="an option has a NUL"):
        library.goal(bundle, "--dead", "a\0b")


def test_a_refusal_is_an_exception_where_that_is_asked_for() -> None:
    refused = (TOP / "examples/copy_out_of_order.bundle").read_bytes()
    answer = library.check(refused)
    assert (answer.status, answer.text) == (Status.PLAN_REFUSED, b"no 22 2\n")
    with pytest.raises(Refused, match="^no 22 2$") as fault:
        answer.demand()
    assert fault.value.answer == answer
    with pytest.raises(Refused, match="^no 22 2\n"):
        library.steps(refused).demand()
    planned = library.goal((TOP / "examples/plan_replace.bundle").read_bytes(), "--exit-code")
    assert (
        planned.status is Status.HAS_STEPS and library.check(planned.demand()).demand() == b"yes\n"
    )
    assert len(texts.read_steps(library.steps(planned.text).demand().decode())) == 18


def test_threads_may_call_at_once() -> None:
    bundles = [path.read_bytes() for path in EXAMPLES[::4]] * 3
    with concurrent.futures.ThreadPoolExecutor(8) as pool:
        assert list(pool.map(library.check, bundles)) == [
            library.check(bundle) for bundle in bundles
        ]


def test_what_is_no_bundle_or_no_library_is_told(
    monkeypatch: pytest.MonkeyPatch, tmp_path: pathlib.Path
) -> None:
    with pytest.raises(TypeError, match="a bundle is bytes, and not str"):
        library.check("ring 1\n")  # type: ignore[arg-type]
    monkeypatch.setenv("RINGPLAN_LIBRARY", str(tmp_path / "none"))
    with pytest.raises(NoLibrary, match="none is no library of ringplan"):
        library.check(b"")
    monkeypatch.setenv("RINGPLAN_LIBRARY", "libc.so.6")
    with pytest.raises(NoLibrary, match="libc.so.6 is no library of ringplan"):
        library.check(b"")


def watched(bundle: bytes, history: bytes, piece: int) -> Answer:
    """What a watch answers to a history that comes in pieces."""
    with library.Watch(bundle) as watch:
        try:
            for at in range(0, len(history), piece):
                watch.take(history[at : at + piece])
            return watch.end()
        except Refused as error:
            # It stays refused.
            with pytest.raises(Refused) as again:
                watch.take(b"end\n")
            assert again.value.answer == error.answer == watch.end()
            return error.answer


def test_a_watch_answers_as_the_program_does(way: str, tmp_path: pathlib.Path) -> None:
    histories = [path.read_bytes() for path in EXAMPLES if b"\nhistory 1\n" in path.read_bytes()]
    front = tmp_path / "front"
    for whole in histories:
        at = whole.index(b"\nhistory 1\n") + 1
        front.write_bytes(whole[:at])
        if way == "program":
            with pytest.raises(NoLibrary):
                library.Watch(whole[:at])
            continue
        for history in (whole[at:], whole[at:-9], whole[at:] + b"more"):
            ran = subprocess.run(
                [programs.find(), "watch", front], input=history, capture_output=True
            )
            for piece in (1, 7, 1 << 16):
                assert watched(whole[:at], history, piece) == Answer(
                    Status(ran.returncode), ran.stdout
                )


def test_a_watch_is_closed_once(way: str) -> None:
    if way == "program":
        return
    bundle = next(path for path in EXAMPLES if library.check(path.read_bytes()).status == 0)
    watch = library.Watch(bundle.read_bytes())
    watch.take(b"history 1\n")
    assert watch.count == 0
    with pytest.raises(TypeError):
        watch.take(bytearray(b"end\n"))
    watch.close()
    watch.close()
    calls: list[Callable[[], object]] = [watch.end, lambda: watch.take(b""), lambda: watch.count]
    for call in calls:
        with pytest.raises(ValueError):
            call()
    with pytest.raises(Refused) as refused:
        library.Watch(b"")
    assert refused.value.answer == Answer(Status.TEXT_REFUSED, b"no 1 1\n")
