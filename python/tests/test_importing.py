"""What stores print of their rings, made a ring text that `ringplan` reads.

The samples are written by hand from the public documentation of these stores.
"""

from __future__ import annotations

import os
import pathlib
import subprocess
import sys

import pytest

from ringplan import programs
from ringplan.importing import (
    BadSource,
    Rows,
    describering,
    from_csv,
    layout_lines,
    main,
    name_of,
    riak,
    ring_of,
    tablets,
    token_ring,
)

HOSTS = [
    "3b1f9e0a-2c4d-4e5f-8a6b-7c8d9e0f1a2b",
    "4b1f9e0a-2c4d-4e5f-8a6b-7c8d9e0f1a2b",
    "5b1f9e0a-2c4d-4e5f-8a6b-7c8d9e0f1a2b",
]


def details(host: str, rack: str) -> str:
    return f"EndpointDetails(host:{host}, datacenter:dc1, rack:{rack})"


def token_range(start: int, end: int, *hosts: str) -> str:
    endpoints, racks = ", ".join(hosts), ", ".join(details(host, f"r{host[-1]}") for host in hosts)
    return (
        f"TokenRange(start_token:{start}, end_token:{end}, endpoints:[{endpoints}],"
        f" rpc_endpoints:[{endpoints}], endpoint_details:[{racks}])"
    )


def test_ranges_between_tokens() -> None:
    lines = [
        "Schema Version:2b1f",
        "TokenRange: ",
        token_range(10, -5, "10.0.0.3", "10.0.0.1"),
        token_range(-5, 4, "10.0.0.1", "10.0.0.2"),
        token_range(4, 10, "10.0.0.2", "10.0.0.3"),
    ]
    ring = ring_of(describering((f"\t{line}\n" for line in lines), 0), (1, 2), 2, ["10.0.0.4.r4"])
    assert [node.name for node in ring.nodes] == [
        "10.0.0.1.r1",
        "10.0.0.2.r2",
        "10.0.0.3.r3",
        "10.0.0.4.r4",
    ]
    # Four partitions of three ranges: the first one once more.
    assert ring.rows == (
        ("10.0.0.3.r3", "10.0.0.1.r1"),
        ("10.0.0.1.r1", "10.0.0.2.r2"),
        ("10.0.0.2.r2", "10.0.0.3.r3"),
        ("10.0.0.3.r3", "10.0.0.1.r1"),
    )


def test_tablets_with_hosts_that_are_uuids() -> None:
    rows = [
        f'{{"last_token": "{token}", "replicas": [["{HOSTS[k]}", 0], ["{HOSTS[(k + 1) % 3]}", 3]]}}'
        for k, token in enumerate(("9", "-3"))
    ]
    for text in ("\n".join(rows) + "\n", f"[{','.join(rows)}]"):
        ring = ring_of(tablets([text], 0), (1, 2), 2, [])
        assert ring.rows[0] == tuple(host.replace("-", "") for host in HOSTS[1:])
        assert ring.quorum == (2, 1, 2)


def test_a_table_of_partitions() -> None:
    ring = ring_of(
        from_csv(["partition,node,rack\n", "1,B,r2\n", "0,a,r1\n", "0,B,r2\n", "1,a,r1\n"], 0),
        (1, 2),
        3,
        [],
    )
    assert ring.rows == (("a.r1", "b.r2"), ("b.r2", "a.r1"))
    assert ring.nodes[0].allowances == (3,)


@pytest.mark.parametrize(
    ("call", "lines", "words"),
    [
        (describering, ["TokenRange(start_token:1)\n"], "line 1"),
        (describering, ["nothing\n"], "no ranges"),
        (tablets, ["x\n"], "no ranges"),
        (tablets, ['{"last_token": 1, "replicas": ["ab", "cd"]}\n'], "pairs of a host"),
        (
            tablets,
            [
                '{"table_id": 1, "last_token": 1, "replicas": []}\n{"table_id": 2, "last_token": 1,'
                ' "replicas": []}\n'
            ],
            "rows of 2 tables",
        ),
        (
            describering,
            2 * ["TokenRange(start_token:1, end_token:2, endpoints:[a, b])\n"],
            "two ranges end with the token 2",
        ),
        (from_csv, ["0,a\n", "1,a\n", "3,a\n"], "partition 2 is missing"),
        (from_csv, ["0,a\n", "0,A\n"], "a node twice"),
        (from_csv, ["0,a\n", "1,A\n"], "have the same name"),
        (from_csv, ["0,a\n", "x,b\n"], "line 2"),
        (from_csv, ["0,a\n", "0,b\n", "1,a\n"], "as many nodes"),
        (from_csv, ["0,a b\n"], "no name"),
        (from_csv, ["0," + 256 * "a" + "\n"], "255 bytes"),
        (token_ring, ["a r1 Up Joining 1 KiB ? 5\n"], "line 1: a is Joining"),
        (
            token_ring,
            [
                "Datacenter: a\n",
                "n1 r1 Up Normal 1 KiB ? 5\n",
                "Datacenter: b\n",
                "n2 r1 Up Normal 1 KiB ? 6\n",
            ],
            "--datacenter a or b",
        ),
    ],
)
def test_a_source_that_does_not_read(call: object, lines: list[str], words: str) -> None:
    assert callable(call)
    with pytest.raises(BadSource, match=words):
        ring_of(call(lines, 0), (1, 1), 2, [])


RING = """
Datacenter: dc1
==========
Address     Rack   Status State   Load        Owns    Token
                                                      30
10.0.0.1    r1     Up     Normal  1.5 KiB     50.0%   -20
10.0.0.2    r1     Up     Normal  1.5 KiB     50.0%   -10
10.0.0.3    r2     Down   Normal  ?           ?       10
10.0.0.4    r3     Up     Normal  1.5 KiB     50.0%   20
10.0.0.1    r1     Up     Normal  1.5 KiB     50.0%   30

Datacenter: dc2
10.1.0.1    r1     Up     Normal  1.5 KiB     50.0%   -15
"""


def test_tokens_of_one_datacentre() -> None:
    rows = token_ring(RING.splitlines(), 3, "dc1")
    # The range that ends with -20 has 10.0.0.1, passes over 10.0.0.2 of the same rack, and goes on.
    assert ["".join(node[-1] for node, _ in row) for row in rows] == [
        "134",
        "234",
        "341",
        "413",
        "134",
    ]
    # Of two racks for three replicas one may come twice, and at once.
    two = token_ring(RING.replace("r3", "r2").splitlines(), 3, "dc1")
    assert ["".join(node[-1] for node, _ in row) for row in two] == [
        "123",
        "234",
        "341",
        "412",
        "123",
    ]
    assert [row for row in token_ring(RING.splitlines(), 3, "dc2")] == [[("10.1.0.1", "r1")]]


def test_only_one_datacentre_of_ranges() -> None:
    places = (
        "EndpointDetails(host:a, datacenter:dc1, rack:r1), EndpointDetails(host:b, datacenter:dc2,"
        " rack:r1)"
    )
    line = f"TokenRange(start_token:1, end_token:2, endpoints:[a, b], endpoint_details:[{places}])"
    assert describering([line]) == [[("a", "r1"), ("b", "r1")]]
    assert describering([line], 0, "dc2") == [[("b", "r1")]]


def test_names_that_do_not_fit_are_cut(
    tmp_path: pathlib.Path, monkeypatch: pytest.MonkeyPatch, capsys: pytest.CaptureFixture[str]
) -> None:
    hosts = [f"ip-10-0-0-{number}.eu-central-1.compute.internal" for number in (1, 2)] + ["Kv03"]
    names = [name_of(host, "") for host in hosts]
    assert (
        len({*names}) == 3
        and all(len(name) <= 32 for name in names)
        and names[0].startswith("ip-10-0-0-1.eu-central-")
    )
    table, layout = tmp_path / "table.csv", tmp_path / "layout"
    table.write_text("".join(f"{partition},{host}\n" for partition in range(2) for host in hosts))
    monkeypatch.setattr(
        sys, "argv", ["ringplan-import", "csv", str(table), "--layout", str(layout)]
    )
    assert main() == 0
    out, err = capsys.readouterr()
    assert err.splitlines() == [
        (
            "ringplan-import: any 2 of 3 slots answer a read, any 2 take a write: --read and"
            " --write say otherwise"
        ),
        "ringplan-import: 2 names are cut",
    ]
    # `ringplan` shows the nodes by the names that people know.
    shown = programs.ask("show", out, f"--layout={layout}")
    assert shown.status == 0 and all(host in shown.text for host in hosts)


def layout_of(rows: Rows, *joining: str) -> list[str]:
    return list(layout_lines(rows, ring_of(rows, (1, 2), 2, list(joining)), list(joining)))


def test_a_layout_has_the_racks_of_ranges() -> None:
    rows = describering(
        [
            token_range(10, -5, "10.0.0.3", "10.0.0.1"),
            token_range(-5, 4, "10.0.0.1", "10.0.0.2"),
            token_range(4, 10, "10.0.0.2", "10.0.0.3"),
        ],
        0,
    )
    racks = [f"rack 10.0.0.{number}.r{number} r{number}" for number in (1, 2, 3)]
    # The fourth partition repeats the first range.
    assert layout_of(rows) == ["layout 1", *racks, "size 3 0", "end"]
    assert layout_of(rows, "10.0.0.4.r2") == [
        "layout 1",
        *racks,
        "rack 10.0.0.4.r2 r2",
        "size 3 0",
        "end",
    ]


def test_a_layout_of_tablets_has_no_racks() -> None:
    rows = tablets(
        [f'{{"last_token": {token}, "replicas": [["a", 0], ["b", 1]]}}\n' for token in range(5)], 0
    )
    assert layout_of(rows, "c") == ["layout 1", "size 5 0", "size 6 0", "size 7 0", "end"]
    assert layout_of(rows[:4]) == ["layout 1", "end"]


def test_a_layout_of_a_table_has_its_racks() -> None:
    assert layout_of(from_csv(["0,B,R2\n", "0,a,r1\n"], 0)) == [
        "layout 1",
        "rack a.r1 r1",
        "rack b.r2 r2",
        "alias b.r2 B",
        "end",
    ]
    assert layout_of(from_csv(["0,b\n", "0,a\n"], 0)) == ["layout 1", "end"]


def test_a_layout_has_no_rack_that_ringplan_does_not_read() -> None:
    with pytest.raises(BadSource, match="the rack 'r/1' has no name"):
        layout_of(from_csv(["0,a,r1\n", "0,b,r/1\n"], 0))


@pytest.mark.parametrize(
    ("lines", "joining", "name"),
    [(["0,a,r1\n", "0,b\n"], [], "b"), (["0,a,r1\n", "0,b,r2\n"], ["c"], "c")],
)
def test_a_layout_names_all_racks_or_none(lines: list[str], joining: list[str], name: str) -> None:
    with pytest.raises(BadSource, match=f"the rack of {name} is not known"):
        layout_of(from_csv(lines, 0), *joining)


def test_ranges_that_only_fill_up_are_counted(
    tmp_path: pathlib.Path, monkeypatch: pytest.MonkeyPatch, capsys: pytest.CaptureFixture[str]
) -> None:
    table, layout = tmp_path / "table.csv", tmp_path / "layout"
    table.write_text("".join(f"{partition},{node}\n" for partition in range(5) for node in "ab"))
    counted = "ringplan-import: 5 ranges are filled up to 8 partitions by 3 without keys"
    options: dict[str, list[str]] = {
        "; --layout FILE writes their sizes": [],
        "": ["--layout", str(layout)],
    }
    for advice, words in options.items():
        monkeypatch.setattr(
            sys,
            "argv",
            ["ringplan-import", "csv", str(table), "--read", "2", "--write", "2", *words],
        )
        assert main() == 0
        assert capsys.readouterr().err == f"{counted}{advice}\n"
    assert layout.read_text() == "layout 1\nsize 5 0\nsize 6 0\nsize 7 0\nend\n"
    monkeypatch.setattr(
        sys, "argv", ["ringplan-import", "csv", str(table), "--layout", str(tmp_path)]
    )
    assert main() == 2
    printed = capsys.readouterr()
    assert printed.out == "" and printed.err.startswith("ringplan-import: [Errno 21]")


@pytest.mark.parametrize(
    ("source", "data", "words"),
    [
        ("csv", b"0,\xff\n", []),
        ("describering", b"TokenRange(\xff\n", []),
        ("tablets", b'{"last_token": 1, "replicas": "\xff"}', []),
        ("tablets", b"[{" * 100000, []),
        ("tablets", b'{"last_token": 1e400, "replicas": []}', []),
        ("tablets", b"{}", []),
        ("csv", b"9" * 5000 + b",a\n", []),
        (
            "describering",
            b"TokenRange(start_token:1, end_token:" + b"9" * 5000 + b", endpoints:[a])\n",
            [],
        ),
        ("csv", b"0," + b"a" * 131073 + b"\n", []),
        ("csv", b"0,a\n0,b\n", ["--read", "-3"]),
        ("csv", b"0,a\n0,b\n", ["--allowance", "1000"]),
        ("csv", b"0,a\n0,b\n", ["--join", "A b"]),
        ("csv", b"0,a\n", []),
        ("csv", b"".join(b"%d,a\n%d,b\n" % (p, p) for p in range(8192)), []),
        ("describering", b"TokenRange(start_token:1, end_token:2, endpoints:[])\n", []),
        ("riak", b'{"index": 0, "node": "riak@10.0.0.1"}', ["--slots", "2"]),
    ],
    ids=lambda _: "",
)
def test_what_is_malformed_is_refused_in_one_line(
    source: str, data: bytes, words: list[str], tmp_path: pathlib.Path
) -> None:
    file = tmp_path / "file"
    file.write_bytes(data)
    command = [sys.executable, "-m", "ringplan.importing", source, str(file), *words]
    ran = subprocess.run(
        command,
        capture_output=True,
        text=True,
        env={**os.environ, "PYTHONPATH": str(pathlib.Path(__file__).parents[1])},
    )
    assert (
        (ran.returncode, ran.stdout) == (2, "")
        and ran.stderr.startswith("ringplan-import: ")
        and ran.stderr.count("\n") == 1
    ), ran


def test_what_cqlsh_prints() -> None:
    rows = [
        f' {{"table_id": "t", "last_token": {token}, "replicas": [["a", 0], ["b", 1]]}}\n'
        for token in (-5, 5)
    ]
    assert tablets([" [json]\n", "------\n", *rows, "\n", "(2 rows)\n"], 0) == 2 * [
        [("a", ""), ("b", "")]
    ]


def test_virtual_nodes() -> None:
    owners = [
        f'{{"index": {number << 150}, "node": "riak@10.0.0.{number % 2}"}}' for number in range(4)
    ]
    ring = ring_of(riak([f"[{','.join(owners)}]"], 2), (1, 2), 2, [])
    assert ring.rows == 2 * (("riak:10.0.0.0", "riak:10.0.0.1"), ("riak:10.0.0.1", "riak:10.0.0.0"))


def test_a_file_may_come_after_options(
    tmp_path: pathlib.Path, monkeypatch: pytest.MonkeyPatch, capsys: pytest.CaptureFixture[str]
) -> None:
    table = tmp_path / "table.csv"
    table.write_text("0,a\n0,b\n")
    for words in (["csv", str(table), "--read", "1"], ["csv", "--read", "1", str(table)]):
        monkeypatch.setattr(sys, "argv", ["ringplan-import", *words])
        assert main() == 0
        assert capsys.readouterr().out.splitlines()[2] == "quorum 2 1 2"


def test_the_program_plans_a_change_of_an_imported_ring(tmp_path: pathlib.Path) -> None:
    try:
        programs.find()
    except programs.NoProgram as error:
        pytest.skip(str(error))
    rows = from_csv([f"{p},n{(p + i) % 5},r{(p + i) % 5}\n" for p in range(6) for i in range(3)], 0)
    ring = ring_of(rows, (2, 2), 2, ["n5.r5"])
    layout = tmp_path / "layout"
    layout.write_text("\n".join([*layout_lines(rows, ring, ["n5.r5"]), ""]))
    answer = programs.ask(
        "goal",
        "\n".join([*ring.lines(), "change 1", "join n5.r5", "end", ""]),
        "--layout",
        str(layout),
    )
    assert answer.status == 0
    assert "racks: those of the layout (r0, r1, r2, r3, r4, r5)" in answer.errors
    assert programs.ask("check", answer.text).first() == "yes"
    assert "mirror 6 " not in answer.text and "mirror 7 " not in answer.text
