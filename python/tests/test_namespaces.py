"""Runners in network namespaces of their own, which share an etcd in a third one and nothing else
of the network. It takes root.
"""

from __future__ import annotations

import os
import pathlib
import random
import shutil
import subprocess
import sys
import time
from collections.abc import Iterator

import pytest
from bench import LONG, TOP, Bench

from ringplan import programs
from ringplan.run.board import Status

MACHINES = ("one", "two")
PORT = 2379
READY = (
    f"from ringplan.run import gateway; it = gateway.Etcd(gateway.Access(('127.0.0.1:{PORT}',)));"
    f" it.patience = {LONG}; it.read_each('ready')"
)


class Network:
    """A namespace with an etcd, and one for each machine, joined to it by a link of its own."""

    etcd: "subprocess.Popen[bytes] | None" = None

    def __init__(self) -> None:
        self.spaces = {name: f"ringplan-{os.getpid()}-{name}" for name in ("etcd", *MACHINES)}

    def join(self, number: int, machine: str) -> None:
        """Joins a machine to the one of etcd by a pair of devices with an address each."""
        hub, other = self.spaces["etcd"], self.spaces[machine]
        link = f"link add {machine} type veth peer name eth0 netns {other}"
        self.ip("-n", hub, *link.split())
        for space, device, host in ((hub, machine, 1), (other, "eth0", 2)):
            self.ip("-n", space, "address", "add", f"10.98.{number}.{host}/24", "dev", device)
            self.ip("-n", space, "link", "set", device, "up")

    def start(self, folder: pathlib.Path) -> None:
        for space in self.spaces.values():
            self.ip("netns", "add", space)
        for number, machine in enumerate(MACHINES):
            self.join(number, machine)
        self.ip("-n", self.spaces["etcd"], "link", "set", "lo", "up")
        client, peer = f"http://0.0.0.0:{PORT}", "http://127.0.0.1:2380"
        words = [
            "etcd",
            "--data-dir",
            str(folder / "data"),
            "--listen-client-urls",
            client,
            "--advertise-client-urls",
            client,
            "--listen-peer-urls",
            peer,
        ]
        with open(folder / "etcd.log", "wb") as log:
            self.etcd = subprocess.Popen(self.inside("etcd") + words, stdout=log, stderr=log)
        subprocess.run(
            [*self.inside("etcd"), sys.executable, "-c", READY],
            check=True,
            env={**os.environ, "PYTHONPATH": str(TOP / "python")},
        )

    def ip(self, *words: str) -> None:
        subprocess.run(["ip", *words], check=True, capture_output=True)

    def inside(self, name: str) -> list[str]:
        return ["ip", "netns", "exec", self.spaces[name]]

    def link(self, machine: str, state: str) -> None:
        self.ip("-n", self.spaces[machine], "link", "set", "eth0", state)

    def end(self) -> None:
        if self.etcd is not None:
            self.etcd.kill()
            self.etcd.wait()
        for space in self.spaces.values():
            subprocess.run(["ip", "netns", "delete", space], capture_output=True)


@pytest.fixture(scope="module")
def network(tmp_path_factory: pytest.TempPathFactory) -> Iterator[Network]:
    if os.geteuid() != 0:
        pytest.skip("network namespaces take root")
    for program in ("ip", "etcd"):
        if shutil.which(program) is None:
            pytest.skip(f"{program} is not installed")
    try:
        programs.find()
    except programs.NoProgram as error:
        pytest.skip(str(error))
    it = Network()
    try:
        it.start(tmp_path_factory.mktemp("network"))
        yield it
    finally:
        it.end()


@pytest.fixture
def benches(network: Network, tmp_path: pathlib.Path) -> dict[str, Bench]:
    """The same folder and board, as each machine sees them."""
    found = {
        machine: Bench(
            tmp_path, f"etcd://10.98.{number}.1:{PORT}/{tmp_path.name}", network.inside(machine)
        )
        for number, machine in enumerate(MACHINES)
    }
    found["one"].hooks(0.2)
    return found


def see_the_end(bench: Bench) -> None:
    assert bench.steps("twice") == []
    assert set(bench.steps("end")) == set(range(18))
    assert bench.run("judge")[1].startswith("yes\n")
    assert bench.run("status")[1].startswith("18 of 18 steps are done")


@pytest.mark.parametrize("seed", range(10))
def test_a_plan_ends_where_one_of_two_machines_dies(benches: dict[str, Bench], seed: int) -> None:
    draw = random.Random(seed)
    both = {
        machine: bench.start("apply", "--workers", "2", machine=machine)
        for machine, bench in benches.items()
    }
    dying = draw.choice(MACHINES)
    benches[dying].wait_for("begin", draw.randrange(18))
    time.sleep(0.2 * draw.random())
    both[dying].kill()
    outs = {machine: process.communicate(timeout=LONG) for machine, process in both.items()}
    (left,) = set(MACHINES) - {dying}
    assert both[left].returncode == Status.DONE, outs
    assert outs[left][0].splitlines()[-1] == "18 of 18 steps are done, and the judge says yes"
    see_the_end(benches[left])


def test_a_machine_that_is_cut_off_ends_its_hooks_and_comes_back(
    benches: dict[str, Bench], network: Network
) -> None:
    bench = benches["one"]
    bench.hooks(1000.0, "join")
    for each in benches.values():
        each.lease = "20"
    cut = bench.start("apply", machine="one")
    bench.wait_for("begin", 0)
    network.link("one", "down")
    bench.hooks(0.2, "join")
    # The other machine may do the step once the lease has ended, and the hook of the one that is
    # cut off was killed before.
    other = benches["two"].start("apply", machine="two")
    bench.wait_for("end", 0)
    network.link("one", "up")
    outs = [process.communicate(timeout=LONG) for process in (cut, other)]
    assert [cut.returncode, other.returncode] == [Status.DONE, Status.DONE], outs
    see_the_end(benches["two"])
