"""What tests of the runner share: hooks that write down what they do, a board, and an etcd."""

from __future__ import annotations

import contextlib
import dataclasses
import json
import os
import pathlib
import random
import shutil
import socket
import subprocess
import sys
import time
from collections.abc import Sequence

import pytest

from ringplan.run import gateway

TOP = pathlib.Path(__file__).parents[2]
REPLACE = (TOP / "examples/planned_replace.bundle").read_text()
KINDS = ("join", "mirror", "copy", "switch", "drop", "retire")
GROW = (TOP / "examples/planned_grow.bundle").read_text()
# How long a test waits for what must come, in seconds: long enough for a slow machine that does
# much else.
LONG = 240.0
# A hook: one line for each begin and end of a step in the file `log`; `twice` where another hook of
# the step runs; `fail` names steps that fail. It goes on once there is no file `hold` with its
# number.
HOOK = """#!{python}
import fcntl, json, os, sys, time
line = json.load(sys.stdin)
step, pause = line["step"], {pause}
def log(word):
    with open("{folder}/log", "a") as file:
        file.write(word + " " + json.dumps(line) + "\\n")
names = ("do", "partition", "slot", "node", "to")
running = open("{folder}/running-" + "-".join(str(line.get(name)) for name in names), "w")
try:
    fcntl.flock(running, fcntl.LOCK_EX | fcntl.LOCK_NB)
except BlockingIOError:
    log("twice")
log("begin")
time.sleep(pause)
while os.path.exists(f"{folder}/hold-{{step}}"):
    time.sleep(0.02)
try:
    with open(f"{folder}/answer-{{step}}") as file:
        status = int(file.read())
except FileNotFoundError:
    status = 0
log("end" if status == 0 else "fail")
if status:
    print(line["do"], step, "is not done")
sys.exit(status)
"""


def free_port() -> int:
    """A port of loopback that nobody has, below those that the system gives to connections: while
    an etcd is down, one of these might take its place.
    """
    while True:
        with socket.socket() as one, contextlib.suppress(OSError):
            one.bind(("127.0.0.1", random.randrange(10000, 32000)))
            return int(one.getsockname()[1])


def certify(folder: pathlib.Path) -> None:
    """An authority, and a certificate of it for 127.0.0.1, which servers and clients may use.

    It has no common name: etcd takes none by its gateway if it has users.
    """
    (folder / "extra").write_text(
        "subjectAltName=IP:127.0.0.1\nextendedKeyUsage=serverAuth,clientAuth\n"
    )
    new = ["openssl", "req", "-newkey", "rsa:2048", "-nodes", "-days", "2"]
    for words in (
        [*new, "-x509", "-keyout", "authority.pem", "-out", "ca.pem", "-subj", "/CN=authority"],
        [*new, "-keyout", "key.pem", "-out", "request.pem", "-subj", "/O=ringplan"],
        "openssl x509 -req -in request.pem -CA ca.pem -CAkey authority.pem -CAcreateserial -out"
        " cert.pem -days 2 -extfile extra".split(),
    ):
        subprocess.run(words, cwd=folder, check=True, capture_output=True)


class Server:
    """An etcd on loopback, of one member or more, over a folder of its own, with options of its
    own.
    """

    def __init__(
        self, folder: pathlib.Path, *options: str, members: int = 1, is_tls: bool = False
    ) -> None:
        if shutil.which("etcd") is None:
            pytest.skip("etcd is not installed")
        self.folder, self.ports = folder, [free_port() for _ in range(members)]
        self.access = gateway.Access(tuple(f"127.0.0.1:{port}" for port in self.ports))
        if is_tls:
            certify(folder)
            files = {name: str(folder / f"{name}.pem") for name in ("ca", "cert", "key")}
            self.access = dataclasses.replace(self.access, is_tls=True, **files)
            options += (
                "--cert-file",
                files["cert"],
                "--key-file",
                files["key"],
                "--trusted-ca-file",
                files["ca"],
                "--client-cert-auth",
            )
        peers = [f"http://127.0.0.1:{free_port()}" for _ in range(members)]
        cluster = ",".join(f"m{number}={peer}" for number, peer in enumerate(peers))
        self.words, self.processes = list[list[str]](), dict[int, subprocess.Popen[bytes]]()
        for number, (port, peer) in enumerate(zip(self.ports, peers)):
            client = f"http{'s' * is_tls}://127.0.0.1:{port}"
            named = {
                "name": f"m{number}",
                "data-dir": folder / (f"data{number}" if number else "data"),
                "listen-client-urls": client,
                "advertise-client-urls": client,
                "listen-peer-urls": peer,
                "initial-advertise-peer-urls": peer,
                "initial-cluster": cluster,
            }
            words = (f"--{name}={value}" for name, value in named.items())
            self.words.append(["etcd", *words, *options])
        self.start()

    def start(self, is_awaited: bool = True) -> None:
        """Starts the members that do not run, and waits for an answer."""
        for number, words in enumerate(self.words):
            if number not in self.processes:
                with open(self.folder / "etcd.log", "ab") as log:
                    self.processes[number] = subprocess.Popen(words, stdout=log, stderr=log)
        if is_awaited:
            client = gateway.Etcd(self.access)
            client.patience = LONG
            client.read_each("ready")

    def kill(self, *members: int) -> None:
        """Kills these members by signal 9; all of them if none is named."""
        for number in members or [*self.processes]:
            process = self.processes.pop(number)
            process.kill()
            process.wait()

    def address(self, name: str) -> str:
        return f"etcd{'s' * self.access.is_tls}://{self.access}/{name}"


class Bench:
    """A folder with a bundle, hooks and their log; a board; the lease of runners, where the board
    has leases; and the words before each command.
    """

    def __init__(self, folder: pathlib.Path, board: str, prefix: Sequence[str] = ()) -> None:
        self.folder, self.board, self.lease, self.prefix, self.options = (
            folder,
            board,
            "10",
            prefix,
            list[str](),
        )
        self.bundle = folder / "bundle"
        self.bundle.write_text(REPLACE)
        self.hooks(0.0)

    def hooks(self, pause: float, *kinds: str) -> None:
        (self.folder / "hooks").mkdir(exist_ok=True)
        for kind in kinds or KINDS:
            path = self.folder / "hooks" / kind
            path.write_text(HOOK.format(python=sys.executable, folder=self.folder, pause=pause))
            path.chmod(0o755)

    def answer(self, step: int, status: int) -> None:
        (self.folder / f"answer-{step}").write_text(str(status))

    def hold(self, *steps: int) -> None:
        """Lets the hooks of these steps run until `let_go`."""
        for step in steps:
            (self.folder / f"hold-{step}").touch()

    def let_go(self, step: int) -> None:
        (self.folder / f"hold-{step}").unlink()

    def command(self, *words: str) -> list[str]:
        if words[0] == "apply":
            words = (
                "apply",
                str(self.bundle),
                "--do",
                str(self.folder / "hooks"),
                "--new",
                "--pause",
                "0.05",
                "--lease",
                self.lease,
                *words[1:],
            )
        words = (
            (*words, "--lease", self.lease) if words[0] in ("around", "rest", "leave") else words
        )
        return [
            *self.prefix,
            sys.executable,
            "-m",
            "ringplan.run",
            *words,
            "--board",
            self.board,
            *self.options,
        ]

    def start(self, *words: str, machine: str = "machine") -> subprocess.Popen[str]:
        """Starts a command. Runners of two machines do not see the locks of each other's hooks."""
        place, folder = {**os.environ, "PYTHONPATH": str(TOP / "python")}, self.folder / machine
        folder.mkdir(exist_ok=True)
        return subprocess.Popen(
            self.command(*words),
            stdout=subprocess.PIPE,
            stderr=subprocess.PIPE,
            text=True,
            errors="replace",
            env=place,
            cwd=folder,
        )

    def run(self, *words: str) -> tuple[int, str, str]:
        process = self.start(*words)
        out, err = process.communicate(timeout=LONG)
        return process.returncode, out, err

    def children(self, process: int) -> list[int]:
        """The processes that a process has started, by any of its threads."""
        with contextlib.suppress(OSError):
            return [
                int(word)
                for path in pathlib.Path(f"/proc/{process}/task").glob("*/children")
                for word in path.read_text().split()
            ]
        return []

    def supervisors(self, process: subprocess.Popen[str]) -> list[int]:
        """The supervisors of a runner."""
        return [
            child
            for child in self.children(process.pid)
            if b"supervisor.py" in pathlib.Path(f"/proc/{child}/cmdline").read_bytes()
        ]

    def hooks_of(self, process: subprocess.Popen[str]) -> list[int]:
        """The hooks of a runner that run."""
        return [hook for one in self.supervisors(process) for hook in self.children(one)]

    def log(self) -> list[tuple[str, dict[str, object]]]:
        path = self.folder / "log"
        lines = path.read_text().splitlines() if path.exists() else []
        return [(line.split(" ", 1)[0], json.loads(line.split(" ", 1)[1])) for line in lines]

    def steps(self, word: str) -> list[object]:
        return [line["step"] for found, line in self.log() if found == word]

    def wait_for(self, word: str, step: int, count: int = 1) -> None:
        until = time.monotonic() + LONG
        while self.steps(word).count(step) < count:
            assert time.monotonic() < until, self.log()
            time.sleep(0.02)
