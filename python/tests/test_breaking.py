"""What refused plans break: kinds of harm, scripts that the program reads, plans that keep their
promises, input that is not a plan, and the judge of scripts.
"""

from __future__ import annotations

import os
import pathlib
import subprocess
import sys

import pytest

from ringplan import programs
from ringplan.breaks.__main__ import answer
from ringplan.breaks.harms import Harm, Lost, OutOfTurn, Shared, Stranger, TooMany, harm_words
from ringplan.breaks.machine import Frame, shows
from ringplan.texts import Script, read_plan, read_texts

TOP = pathlib.Path(__file__).parents[2]
CASES = TOP / "crates/tests_program/data"
LOST = (
    "broken: an acknowledged put of k0 is not at slots 1 and 2 of partition 0, and a get may read"
    " only these"
)
BROKEN = {
    "too_few_sources": ("no 23 2", LOST),
    "switch_without_copy": ("no 21 2", LOST),
    "copy_out_of_order": ("no 22 2", LOST),
    "node_enters_before_it_left": (
        "no 25 8",
        "broken: d serves slots 1 and 2 of partition 0 at once",
    ),
    "more_chains_than_allowance": ("no 34 1", "broken: b has 2 transfers open, and it bears 1"),
    "more_give_chains_than_allowance": (
        "no 34 1",
        "broken: b has 2 transfers from it open, and it bears 1",
    ),
    "more_take_chains_than_allowance": (
        "no 34 3",
        "broken: d has 2 transfers to it open, and it bears 1",
    ),
    "retired_in_use": ("no 27 0", "broken: b serves slot 1 of partition 0, and is not a member"),
}


def ask(name: str) -> tuple[str, str, int]:
    try:
        return answer((CASES / f"{name}.bundle").read_bytes())
    except programs.NoProgram as error:
        pytest.skip(str(error))


def script_of(bundle: str) -> list[tuple[str, ...]]:
    script = read_texts(bundle)[3]
    assert isinstance(script, Script)
    return list(script.events)


@pytest.mark.parametrize("name", BROKEN)
def test_a_refused_plan_that_does_harm(name: str) -> None:
    words, bundle, status = ask(name)
    assert (*words.split("\n")[:2], status) == (*BROKEN[name], 1)
    # The program reads the bundle, and refuses the plan.
    assert bundle.startswith((CASES / f"{name}.bundle").read_text())
    played = programs.ask("play", bundle)
    assert (played.text, played.status) == (f"{BROKEN[name][0]}\n", 1)


def test_a_lost_put_is_told_line_by_line() -> None:
    lines = ask("too_few_sources")[0].split("\n")[3:-1]
    assert lines == [
        "   1  a client puts k0; slots 0 and 1 take it, and it is acknowledged",
        "   5  step 0: d joins",
        "   6  step 1: writes to slot 1 of partition 0 go to d too",
        "   7  step 2: d is given what slot 2 has",
        "  25  step 3: d owns slot 1 of partition 0",
        "  26  a get of k0 reads slots 1 and 2, and replies nothing",
    ]


def test_the_script_ends_with_a_get_of_the_slots() -> None:
    assert script_of(ask("too_few_sources")[1])[-4:] == [
        ("get", "k0"),
        ("read", "0", "1"),
        ("read", "0", "2"),
        ("endget", "0"),
    ]


@pytest.mark.parametrize("name", ["moving_source", "node_that_has_not_joined"])
def test_a_refused_plan_without_harm(name: str) -> None:
    words, bundle, status = ask(name)
    assert words.split("\n")[1] == "unbroken: no run was found in which a promise breaks"
    assert words.split("\n")[2].startswith("searched: ") and not bundle and status == 1


@pytest.mark.parametrize("name", ["copy_in_no_chain", "fact_that_skips_a_step", "chain_backwards"])
def test_a_plan_that_lacks_only_a_certificate(name: str) -> None:
    words, bundle, status = ask(name)
    assert (
        words.split("\n")[1].startswith("unbroken: the plan keeps its promises; `ringplan cert` ")
        and not bundle
        and status == 1
    )
    certified = programs.ask("cert", (CASES / f"{name}.bundle").read_text()).text
    assert programs.ask("check", certified).text == "yes\n"


def test_an_accepted_plan_has_no_script() -> None:
    assert ask("move_one_slot") == ("yes\nunbroken: the plan keeps its promises\n", "", 0)


# A move of a slot, with one dependency that is left out: the move's steps, and what breaks.
RING = (
    "ring {form}\nspace 1\nquorum {quorum}\nnode a 4 in\nnode b 4 in\nnode c 4 in\nnode d 4"
    " out\nslots 0 a b c\nend\n"
)
MOVE = (
    "plan 1\njoin d\nmirror 0 1 d after 0\ncopy 0 1 {sources} after 1\nswitch 0"
    " 1{switch}\nend\ncert {form}\nend\n"
)


def moved(
    quorum: str = "3 2 2", sources: str = "owner", switch: str = " after 2", form: int = 1
) -> str:
    return RING.format(form=form, quorum=quorum) + MOVE.format(
        sources=sources, switch=switch, form=min(form, 2)
    )


@pytest.mark.parametrize(
    ("bundle", "words"),
    [
        # The switch does not wait for the copy: it is done first, and the put is lost. By the count
        # the slot's owner stays, so only the order is broken.
        (moved(switch=" after 1"), "broken: step 3 is done before step 2"),
        # A copy of one slot whose node lost its store.
        (
            moved("3 2 3 1", "slots 0", form=3),
            "broken: an acknowledged put of k0 is not at slots 0 and 1 of partition 0",
        ),
        # Quorums that bear one bad move.
        (moved("3 2 3", "slots 0"), "unbroken: no run was found"),
    ],
)
def test_moves_of_one_slot(bundle: str, words: str) -> None:
    try:
        found = answer(bundle.encode())
    except programs.NoProgram as error:
        pytest.skip(str(error))
    assert words in found[0]
    if "broken: an acknowledged" in words:
        assert ("lose", "a") in script_of(found[1])


def command(*words: str, given: bytes = b"") -> tuple[str, str, int]:
    environment = {**os.environ, "PYTHONPATH": str(TOP / "python")}
    ran = subprocess.run(
        [sys.executable, "-m", "ringplan.breaks", *words],
        input=given,
        capture_output=True,
        env=environment,
        cwd=TOP,
    )
    return ran.stdout.decode(), ran.stderr.decode(), ran.returncode


def test_the_command_prints_words_or_the_script() -> None:
    path, (words, bundle, _) = str(CASES / "too_few_sources.bundle"), ask("too_few_sources")
    assert command(path) == (words, "", 1)
    assert command("--script", path) == (bundle, "", 1)
    assert command("-", given=pathlib.Path(path).read_bytes()) == (words, "", 1)


def test_without_a_run_a_reader_of_the_script_gets_nothing() -> None:
    words, _, _ = ask("moving_source")
    assert command("--script", str(CASES / "moving_source.bundle")) == ("", words, 1)


@pytest.mark.parametrize(
    "given", [b"", b"ring 1\n", b"\xff\xfe\n", (CASES / "move_one_slot.bundle").read_bytes()[:-5]]
)
def test_input_that_is_no_plan(given: bytes) -> None:
    try:
        wanted = programs.run("check", given)
    except programs.NoProgram as error:
        pytest.skip(str(error))
    said = "ringplan-break: there is no plan to run; `ringplan why` says what is wrong\n"
    assert command("-", given=given) == (wanted.stdout.decode(), said, 2)


def test_a_file_that_is_not_there() -> None:
    assert command("nowhere") == (
        "",
        "ringplan-break: [Errno 2] No such file or directory: 'nowhere'\n",
        3,
    )


HARMS: list[tuple[str, Harm]] = [
    ("too_few_sources", Lost("k0", 0, (1, 2))),
    ("node_enters_before_it_left", Shared("d", 0, (1, 2))),
    ("more_chains_than_allowance", TooMany("b", "both", 2, 1)),
    ("retired_in_use", Stranger("b", (0, 1))),
]


@pytest.mark.parametrize(("name", "harm"), HARMS)
def test_the_judge_needs_each_event(name: str, harm: Harm) -> None:
    words, bundle, _ = ask(name)
    frame = Frame(*read_plan(bundle))
    script = [event for event in script_of(bundle) if event[0] not in ("get", "read", "endget")]
    assert harm_words(harm) in words and shows(frame, script, harm)
    assert not [
        place
        for place in range(len(script))
        if shows(frame, script[:place] + script[place + 1 :], harm)
    ]


def test_the_judge_refuses_what_is_not_so() -> None:
    bundle = ask("too_few_sources")[1]
    frame, script = Frame(*read_plan(bundle)), script_of(bundle)[:-4]
    others: list[Harm] = [
        Lost("k0", 0, (0, 1)),
        Lost("k0", 0, (1,)),
        Lost("k0", 1, (1, 2)),
        Shared("d", 0, (1, 1)),
        Stranger("d", (0, 1)),
    ]
    others += [OutOfTurn(2, 3), TooMany("a", "both", 0, 4)]
    assert not [harm for harm in others if shows(frame, script, harm)]
    wrong = [
        ("close", "2"),
        ("do", "2"),
        ("open", "3"),
        ("ack", "0"),
        ("lose", "a"),
        ("put", "w1", "k0", "x31"),
        ("chunk", "2", "3"),
        ("up", "a"),
    ]
    assert not [event for event in wrong if shows(frame, [*script, event], Lost("k0", 0, (1, 2)))]


def test_a_plan_of_a_hundred_thousand_steps() -> None:
    """Each of 4,096 partitions of 7 slots goes from 64 nodes to 64 others.

    One copy in the middle does not wait for its mirror.
    """
    old, new = [f"a{k}" for k in range(64)], [f"b{k}" for k in range(64)]
    lines = [
        "ring 1",
        "space 4096",
        "quorum 7 3 5",
        *(f"node {it} 4 in" for it in old),
        *(f"node {it} 4 out" for it in new),
    ]
    lines += [
        f"slots {p} " + " ".join(old[(p + 9 * i) % 64] for i in range(7)) for p in range(4096)
    ]
    lines += [
        "end",
        "change 1",
        *(f"join {it}" for it in new),
        *(f"leave {it}" for it in old),
        "end",
        "",
    ]
    try:
        rows = programs.ask("goal", "\n".join(lines)).text.split("\n")
    except programs.NoProgram as error:
        pytest.skip(str(error))
    copies = [place for place, row in enumerate(rows) if row.startswith("copy ")]
    rows[copies[len(copies) // 2]] = rows[copies[len(copies) // 2]].split(" after")[0]
    words, bundle, status = answer("\n".join(rows).encode())
    assert len(copies) == 28672 and status == 1
    assert words.split("\n")[0].startswith("no 22 ") and words.split("\n")[1].startswith(
        "broken: an acknowledged put of "
    )
    # The mirror waits for thousands of steps: the words are cut short, and the script is not.
    assert len(words.split("\n")) < 50 and " lines more; --script prints all events" in words
    assert len(script_of(bundle)) > 10_000
