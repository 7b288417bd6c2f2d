"""Each example bundle is read and written again, byte for byte; texts with a second spelling are
refused.
"""

from __future__ import annotations

import pathlib

import pytest

from ringplan import texts

TOP = pathlib.Path(__file__).parents[2]
BUNDLES = sorted(TOP.glob("examples/*.bundle"))


@pytest.mark.parametrize("path", BUNDLES, ids=[path.stem for path in BUNDLES])
def test_a_bundle_is_written_as_it_was_read(path: pathlib.Path) -> None:
    bundle = path.read_text()
    assert texts.write_texts(texts.read_texts(bundle)) == bundle


def test_the_examples_are_there() -> None:
    assert len(BUNDLES) > 30


@pytest.mark.parametrize(
    ("bundle", "line"),
    [
        ("plan 1\njoin d\nend", 3),
        ("plan 1\njoin d\n", 3),
        ("plan 1\njoin  d\nend\n", 2),
        ("plan 1\nmirror 0 01 d\nend\n", 2),
        ("plan 1\nmirror 0 1 d after\nend\n", 2),
        ("plan 1\njoin D\nend\n", 2),
        ("plan 2\nend\n", 2),
        ("plan 01\nend\n", 1),
        ("cert 1\nfact 1\nend\n", 2),
        ("ring 1\nspace 2\nquorum 1 1 1\nnode a 1 in\nslots 0 a\nend\n", 7),
        ("history 1\ndo 0\nend\n", 2),
        ("change 1\nleave a\njoin b\nend\n", 3),
        ("\n", 1),
    ],
)
def test_a_fault_is_named_by_its_line(bundle: str, line: int) -> None:
    with pytest.raises(texts.BadText) as fault:
        texts.read_texts(bundle)
    assert fault.value.line == line


def test_lines_of_steps_are_written_as_they_were_read() -> None:
    lines = [
        '{"after":[],"do":"join","node":"d","step":0}',
        '{"after":[0],"do":"mirror","partition":0,"slot":1,"step":1,"to":"d"}',
        '{"after":[1],"do":"copy","from":["a","c"],"partition":0,"slot":1,"slots":[0,2],"step":2,'
        '"to":"d"}',
        '{"after":[2],"do":"switch","partition":0,"slot":1,"step":3}',
        '{"after":[3],"do":"drop","node":"b","partition":0,"slot":1,"step":4}',
    ]
    steps = texts.read_steps("".join(f"{line}\n" for line in lines))
    assert [step.line() for step in steps] == lines
    assert [step.who() for step in steps] == ["d", "d", "d", "", "b"]
    with pytest.raises(texts.BadText):
        texts.read_steps(lines[1])
