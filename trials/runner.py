#!/usr/bin/env python3
"""Lets `ringplan-run` go through plans while what it works with breaks: trials/runner.py [--all |
--minutes M] [--seed S]. It needs the built program and `etcd`.

A round is a plan, a board (a file, or an etcd of three members) and runners on one or two machines,
whose hooks ask this process for each effect. Meanwhile runners are killed, stopped longer than
their leases or sent storms of signals; hooks close their descriptors, work in sessions of their
own, fail and are killed; the board is opened by links, its disk is full, members of etcd are
killed, and clocks are wrong. Owed: no step is done twice at once, none before what it waits for,
none again without being told so or once a step that waits for it has begun; each hook that comes
too late is refused by its token; all steps end, and the judge says yes. The hooks themselves see
this. It takes 5 minutes, with --all 60: then also a plan of 12,290 steps with partitions of 1 to
100 sizes, and a copy of ten that fails at first. What `status` and the page say at a quarter, a
half and three quarters of it is at most a quarter off the time that it then takes.
"""
import argparse
import concurrent.futures
import contextlib
import json
import os
import pathlib
import random
import shutil
import signal
import socketserver
import subprocess
import sys
import tempfile
import threading
import time
import urllib.request
from collections import Counter, defaultdict
from collections.abc import Iterator
from typing import Any

TOP = pathlib.Path(__file__).resolve().parent.parent
ENVIRONMENT = {**os.environ, "PYTHONPATH": str(TOP / "python")}
RUNNER = [sys.executable, "-m", "ringplan.run"]
sys.path[:0] = [str(TOP / "python"), str(TOP / "python/tests")]
from bench import GROW, REPLACE, Server
from rates import bundle_of

from ringplan import programs, texts
from ringplan.store.members import Tokens

LATE = 76
# How long a lease is, and how long a round may take, in seconds.
LEASE, LIMIT = 6, 400.0
# Asks this process before each effect, and ends with what it answers.
HOOK = """#!/usr/bin/python3 -ISE
import json, select, socket, sys
line = json.load(sys.stdin)
link = socket.socket(socket.AF_UNIX)
link.connect({path!r})
answers = link.makefile()
for word in ("begin", "effect", "effect", "end"):
    link.sendall((json.dumps({{"word": word, "line": line}}) + "\\n").encode())
    status = int(answers.readline() or 1)
    if status:
        sys.exit(status)
    select.select([], [], [], {pause})
"""
# What stands before a hook: nothing; a program that closes what it inherits, as `ssh` does; one
# that has another process do it, in a session of its own.
FORMS = {
    "plain": "",
    "closer": (
        "#!/bin/sh\nexec /usr/bin/python3 -ISE -c 'import os, sys; os.closerange(3, 1024);"
        " os.execv(sys.argv[1], sys.argv[1:])' {hook}\n"
    ),
    "leaver": (
        "#!/usr/bin/python3 -ISE\nimport subprocess, sys\nsys.exit(subprocess.run(['{hook}'],"
        " start_new_session=True).returncode)\n"
    ),
}
# A copy that takes as long as its partition is large. One of ten fails half way, but not a second
# time.
SIZES = [1, 2, 3, 5, 8, 13, 20, 32, 50, 79, 100]
SIZED = f"""#!/bin/sh
read -r line
place=${{line#*\\"partition\\":}}
place=${{place%%[!0-9]*}}
set -- {' '.join(map(str, SIZES))}
shift $((place * 7919 % 11))
case $line in
    *again*) ;;
    *) [ $((place % 10)) != 0 ] || {{ sleep "$(printf 0.%03d "$1")"; exit 1; }} ;;
esac
sleep "$(printf 0.%03d $(($1 * 2)))"
"""
FILE_FAULTS = ["kill", "kill both", "stop", "storm", "link", "supervisor", "disk"]
ETCD_FAULTS = ["kill", "kill both", "stop", "freeze", "storm", "member", "supervisor"]


class Desk(socketserver.ThreadingMixIn, socketserver.UnixStreamServer):
    """The store of a round, as its hooks see it: which of them run, what they asked, and what was
    wrong with that.
    """

    daemon_threads = True
    request_queue_size = 64

    def __init__(self, path: str, steps: list[texts.StepLine], draw: random.Random) -> None:
        self.steps, self.draw, self.lock, self.tokens = steps, draw, threading.Lock(), Tokens()
        self.running, self.begun, self.ended = (
            defaultdict[int, set[object]](set),
            set[int](),
            set[int](),
        )
        # The token with which each chunk was asked for last, or each step that has none; and which
        # are done. Then each step's greatest one.
        self.parts, self.given = dict[tuple[int, object], int](), defaultdict[int, set[int]](set)
        self.greatest, self.frozen, self.faults, self.counts = (
            dict[int, int](),
            set[int](),
            list[str](),
            Counter[str](),
        )
        desk = self

        class Request(socketserver.StreamRequestHandler):
            def handle(self) -> None:
                step = -1
                try:
                    for row in self.rfile:
                        asked = json.loads(row)
                        step = asked["line"]["step"]
                        self.wfile.write(b"%d\n" % desk.answer(self, asked["word"], asked["line"]))
                        if asked["word"] == "end":
                            return
                except OSError:
                    pass  # The hook was killed.
                finally:
                    with desk.lock:
                        desk.running[step].discard(self)

        super().__init__(path, Request)
        threading.Thread(target=self.serve_forever, daemon=True).start()

    def answer(self, who: object, word: str, line: dict[str, Any]) -> int:
        number, token = int(line["step"]), int(line["token"])
        part = number, line.get("chunk")
        if word != "begin":
            # The hook of a machine that stands still comes late: once another one has begun.
            until = time.monotonic() + 20 * LEASE
            while (
                number in self.frozen
                and token == self.greatest[number]
                and time.monotonic() < until
            ):
                time.sleep(0.02)
        with self.lock:
            if not self.tokens.admit(self.steps[number], token):
                self.counts["late hooks refused"] += 1
                if word == "begin":
                    self.faults.append(
                        f"step {number} is given out with token {token}, and the store has seen a"
                        " greater one"
                    )
                self.running[number].discard(who)
                return LATE
            if word == "begin":
                self.begin(who, part, token, "again" in line)
            elif word == "end":
                self.running[number].discard(who)
                if self.draw.random() < 0.05:
                    self.counts["hooks that failed"] += 1
                    return self.draw.choice([1, 75])
                self.given[number].add(line.get("chunk", -1))
                if len(self.given[number]) == (16 if "chunk" in line else 1):
                    self.ended.add(number)
        return 0

    def begin(self, who: object, part: tuple[int, object], token: int, is_told: bool) -> None:
        number, _ = part
        self.counts["hooks"] += 1
        early = [other for other in self.steps[number].after if other not in self.ended]
        later = [
            step.step for step in self.steps if number in step.after and step.step in self.begun
        ]
        wrong = {
            f"step {number} is done twice at once": bool(self.running[number])
            and number not in self.frozen,
            f"step {number} begins before {early}": bool(early),
            f"step {number} is done again after {later} began": bool(later),
            f"step {number} is done again without being told": part in self.parts and not is_told,
            f"step {number} has token {token} again": self.parts.get(part, 0) >= token,
        }
        self.faults += [fault for fault, is_so in wrong.items() if is_so]
        self.begun.add(number)
        self.parts[part] = token
        self.running[number].add(who)
        self.greatest[number] = token


def children(process: int) -> list[int]:
    with contextlib.suppress(OSError):
        return [
            int(word)
            for path in pathlib.Path(f"/proc/{process}/task").glob("*/children")
            for word in path.read_text().split()
        ]
    return []


def send(process: int, number: signal.Signals) -> None:
    with contextlib.suppress(ProcessLookupError):
        os.kill(process, number)


class Machine:
    """A folder in which runners start, one after the other, until one of them ends the plan."""

    def __init__(self, folder: pathlib.Path, words: list[str], environment: dict[str, str]) -> None:
        self.folder, self.words, self.environment, self.process = folder, words, environment, None
        folder.mkdir()
        self.start()

    process: "subprocess.Popen[bytes] | None"

    def start(self) -> None:
        with open(self.folder / "said", "ab") as said:
            self.process = subprocess.Popen(
                self.words, stdout=said, stderr=said, cwd=self.folder, env=self.environment
            )

    def pid(self) -> int:
        assert self.process is not None
        return self.process.pid

    def supervisors(self) -> list[int]:
        return [
            child
            for child in children(self.pid())
            if b"supervisor.py" in pathlib.Path(f"/proc/{child}/cmdline").read_bytes()
        ]

    def said(self) -> str:
        return (self.folder / "said").read_text(errors="replace")


class Round:
    """One plan from its begin to its end, and what breaks meanwhile."""

    def __init__(self, seed: int, folder: pathlib.Path, etcd: Server | None) -> None:
        self.draw, self.folder, self.etcd = random.Random(seed), folder, etcd
        self.form, self.workers = self.draw.choice([*FORMS]), self.draw.choice([1, 2, 4])
        self.bundle, self.count = self.draw.choice([REPLACE, GROW]), 1 if etcd is None else 2
        self.fault = (FILE_FAULTS if etcd is None else ETCD_FAULTS)[seed // 2 % 7]
        self.board = str(folder / "disk/board") if etcd is None else etcd.address(f"round{seed}")
        steps = texts.read_steps(programs.ask("steps", self.bundle).text)
        self.desk = Desk(str(folder / "desk"), steps, random.Random(seed + 1))
        self.prepare(self.draw.uniform(0.02, 0.3))

    def prepare(self, pause: float) -> None:
        for name in ("hooks", "real", "disk"):
            (self.folder / name).mkdir()
        (self.folder / "bundle").write_text(self.bundle)
        for kind in (
            "join",
            "mirror",
            self.draw.choice(["copy", "copy", "chunk"]),
            "switch",
            "drop",
            "retire",
        ):
            real, hook = self.folder / "real" / kind, self.folder / "hooks" / kind
            real.write_text(
                HOOK.format(
                    path=str(self.folder / "desk"), pause=pause / 4 if kind == "chunk" else pause
                )
            )
            hook.write_text(FORMS[self.form].format(hook=real) or real.read_text())
            for path in (real, hook):
                path.chmod(0o755)

    def command(self, *words: str, board: str = "") -> list[str]:
        return [*RUNNER, *words, "--board", board or self.board]

    def words(self, board: str = "") -> list[str]:
        options = [
            "--workers",
            str(self.workers),
            "--pause",
            "0.05",
            "--longest-pause",
            "0.5",
            "--lease",
            str(LEASE),
        ]
        return self.command(
            "apply",
            str(self.folder / "bundle"),
            "--do",
            str(self.folder / "hooks"),
            "--new",
            *options,
            board=board,
        )

    def environment(self) -> dict[str, str]:
        """Some machines' clocks are wrong, and after a restart wrong by another time."""
        found = dict(ENVIRONMENT)
        library = next(iter(pathlib.Path("/usr/lib").glob("*/faketime/libfaketime.so.1")), None)
        if library is not None and self.draw.random() < 0.5:
            hours = self.draw.choice(["-30m", "+30m", "-2d", "+2d", "-1s"])
            found |= {
                "LD_PRELOAD": str(library),
                "FAKETIME": hours,
                "DONT_FAKE_MONOTONIC": "1",
                "FAKETIME_DONT_RESET": "1",
            }
            self.desk.counts["wrong clocks"] += 1
        return found

    # What breaks.
    def busy(self, machine: Machine) -> bool:
        return machine.process is not None and machine.process.poll() is None

    def strike(self, machine: Machine) -> None:
        """Does the round's fault to a machine, or to what all work with."""
        if not self.busy(machine):
            return
        self.desk.counts[self.fault] += 1
        match self.fault:
            case "kill":
                send(machine.pid(), signal.SIGKILL)
            case "kill both":
                hooks = [hook for one in machine.supervisors() for hook in children(one)]
                send(machine.pid(), signal.SIGKILL)
                for hook in hooks:
                    send(hook, signal.SIGKILL)
            case "stop":
                self.stand_still(machine, [machine.pid()], LEASE * self.draw.uniform(0.3, 1.6))
            case "freeze":
                self.freeze(machine)
            case "storm" if machine.supervisors():
                for _ in range(1000):
                    send(machine.pid(), self.draw.choice([signal.SIGINT, signal.SIGTERM]))
            case "link":
                self.open_by_links(machine)
            case "supervisor" if self.form == "plain":
                for one in machine.supervisors()[:1]:
                    send(one, signal.SIGKILL)
            case "disk":
                self.fill()
            case "member" if self.etcd is not None:
                number = self.draw.randrange(3)
                self.etcd.kill(number)
                time.sleep(self.draw.uniform(0.2, 3.0))
                self.etcd.start()

    def stand_still(self, machine: Machine, processes: list[int], seconds: float) -> None:
        for process in processes:
            send(process, signal.SIGSTOP)
        time.sleep(seconds)
        for process in processes:
            send(process, signal.SIGCONT)

    def freeze(self, machine: Machine) -> None:
        """A machine stands still but for its hooks, as work that it began elsewhere does, until
        another machine has begun their steps.
        """
        with self.desk.lock:
            mine = {number for number, who in self.desk.running.items() if who}
        processes = [machine.pid(), *machine.supervisors()]
        for process in processes:
            send(process, signal.SIGSTOP)
        self.desk.frozen |= mine
        known = {number: self.desk.greatest[number] for number in mine}
        until = time.monotonic() + 4 * LEASE
        while time.monotonic() < until and any(
            self.desk.greatest[number] == token and number not in self.desk.ended
            for number, token in known.items()
        ):
            time.sleep(0.1)
        self.desk.frozen -= mine
        time.sleep(1.0)
        for process in processes:
            send(process, signal.SIGCONT)

    def open_by_links(self, machine: Machine) -> None:
        soft, hard, plain = (
            self.folder / "soft",
            self.folder / "disk/hard",
            ENVIRONMENT,
        )
        soft.symlink_to(self.board)
        with contextlib.suppress(FileNotFoundError):
            ran = subprocess.run(
                self.words(str(soft)), capture_output=True, text=True, cwd=self.folder, env=plain
            )
            if ran.returncode != 5 and self.busy(machine):
                self.desk.faults.append(
                    f"by a link to the board the runner ends with {ran.returncode}:"
                    f" {ran.stderr[-300:]}"
                )
            hard.hardlink_to(self.board)
            ran = subprocess.run(
                self.words(str(hard)), capture_output=True, text=True, cwd=self.folder, env=plain
            )
            hard.unlink()
            if ran.returncode != 2:
                self.desk.faults.append(
                    f"by a hard link to the board the runner ends with {ran.returncode}:"
                    f" {ran.stderr[-300:]}"
                )
        soft.unlink()

    def fill(self) -> None:
        """No room on the disk of the board for a while."""
        other = self.folder / "disk/other"
        room = os.statvfs(self.folder / "disk")
        with contextlib.suppress(OSError), open(other, "wb", buffering=0) as file:
            os.posix_fallocate(
                file.fileno(),
                0,
                max(4096, room.f_bavail * room.f_bsize - self.draw.choice([0, 4096, 16384])),
            )
        time.sleep(self.draw.uniform(0.2, 2.0))
        other.unlink(missing_ok=True)

    @contextlib.contextmanager
    def disk(self) -> Iterator[None]:
        """A small file system for the board, if the round fills it and the caller is root."""
        is_own = self.fault == "disk" and os.geteuid() == 0
        if is_own:
            subprocess.run(
                ["mount", "-t", "tmpfs", "-o", "size=2m", "tmpfs", self.folder / "disk"], check=True
            )
        elif self.fault == "disk":
            self.fault = "kill"
        try:
            yield
        finally:
            if is_own:
                subprocess.run(["umount", "-l", self.folder / "disk"], check=True)

    # The round.
    def run(self) -> None:
        with self.disk():
            machines = [
                Machine(self.folder / f"machine{number}", self.words(), self.environment())
                for number in range(self.count)
            ]
            left, until = self.draw.randrange(2, 6), time.monotonic() + LIMIT
            try:
                while not self.is_over(machines):
                    if time.monotonic() > until:
                        self.desk.faults.append(
                            f"the round does not end: {len(self.desk.ended)} of"
                            f" {len(self.desk.steps)} steps are done"
                        )
                        return
                    time.sleep(self.draw.uniform(0.1, 1.0))
                    if left and self.desk.begun:
                        left -= 1
                        self.strike(self.draw.choice(machines))
                self.see_the_end()
            finally:
                for machine in machines:
                    if self.busy(machine):
                        send(machine.pid(), signal.SIGKILL)
                    if any(
                        "Traceback" in line and " | " not in line
                        for line in machine.said().splitlines()
                    ):
                        self.desk.faults.append("a traceback")
                    if self.desk.faults:
                        self.desk.faults[5:] = [f"{machine.folder} said: {machine.said()[-3000:]}"]
                self.desk.shutdown()

    def is_over(self, machines: list[Machine]) -> bool:
        """Starts again the runners that ended before the plan. Whether all have ended the plan."""
        is_over = True
        for machine in machines:
            status = None if machine.process is None else machine.process.poll()
            if status not in (None, 0):
                if status not in (-9, 2, 7):
                    self.desk.faults.append(f"a runner ended with {status}")
                machine.environment = self.environment()
                machine.start()
            is_over = is_over and status == 0
        return is_over

    def see_the_end(self) -> None:
        ran = subprocess.run(
            self.command("judge"),
            capture_output=True,
            text=True,
            env=self.environment(),
            cwd=self.folder,
        )
        if not ran.stdout.startswith("yes\n"):
            self.desk.faults.append(f"the judge says {ran.stdout}{ran.stderr}")
        if skipped := [step.step for step in self.desk.steps if step.step not in self.desk.ended]:
            self.desk.faults.append(f"steps {skipped} were skipped")

    def what(self) -> str:
        return (
            f"{self.fault}, {self.form} hooks, {self.workers} workers,"
            f" {'a file' if self.etcd is None else 'etcd, two machines'}"
        )


# What a round was, what there is to count of it, and its faults.
Result = tuple[str, Counter[str], list[str]]


def run_round(seed: int) -> Result:
    folder = pathlib.Path(tempfile.mkdtemp(prefix="ringplan-night-"))
    etcd = Server(folder, members=3) if seed % 2 else None
    try:
        one = Round(seed, folder, etcd)
        one.run()
        return one.what(), one.desk.counts, one.desk.faults
    finally:
        if etcd is not None:
            etcd.kill()
        shutil.rmtree(folder, ignore_errors=True)


def lay_sized(folder: pathlib.Path) -> None:
    """A plan by which two of eight nodes join, a layout and hooks."""
    (folder / "bundle").write_text(bundle_of(6, 2, 4096))
    rows = [f"size {place} {SIZES[place * 7919 % 11]}" for place in range(4096)]
    (folder / "layout").write_text("\n".join(["layout 1", *rows, "end", ""]))
    (folder / "hooks").mkdir()
    for kind in ("join", "mirror", "copy", "switch", "drop", "retire"):
        (folder / "hooks" / kind).write_text(SIZED if kind == "copy" else "#!/bin/sh\n")
        (folder / "hooks" / kind).chmod(0o755)


def page_of(folder: pathlib.Path, process: subprocess.Popen[bytes]) -> str:
    """The address of the page, once the runner has said it."""
    while "the page is at " not in (text := (folder / "said").read_text()):
        if process.poll() is not None:
            break
        time.sleep(0.1)
    return text.split("the page is at ")[1].split()[0]


def times_left(
    folder: pathlib.Path, process: subprocess.Popen[bytes], part: float
) -> list[tuple[str, float, float]]:
    """What the page and `status` say is left once that part is copied, each with its moment."""
    address = page_of(folder, process)
    while process.poll() is None:
        with urllib.request.urlopen(f"{address}status.json") as answer:
            found = json.load(answer)
        if found["copied"] >= part * found["to_copy"]:
            break
        time.sleep(0.5)
    by_page = (f"the page at {part:.0%}", time.monotonic(), found["left"])
    ran = subprocess.run(
        [*RUNNER, "status", "--format", "json", "--board", "board"],
        cwd=folder,
        env=ENVIRONMENT,
        capture_output=True,
    )
    return [by_page, (f"`status` at {part:.0%}", time.monotonic(), json.loads(ran.stdout)["left"])]


def see_time_left(folder: pathlib.Path) -> list[str]:
    """Compares the time left that the page and `status` say with what it then took."""
    lay_sized(folder)
    words = [
        *(*RUNNER, "apply", "bundle", "--do", "hooks", "--new", "--board", "board"),
        *("--workers", "6", "--layout", "layout", "--serve", "0"),
    ]
    with open(folder / "said", "w+") as errors, subprocess.Popen(
        words, cwd=folder, env=ENVIRONMENT, stdout=subprocess.DEVNULL, stderr=errors
    ) as process:
        said = [it for part in (0.25, 0.5, 0.75) for it in times_left(folder, process, part)]
        status, end = process.wait(), time.monotonic()
    print(
        *(
            f"{what} says {left:.1f} s, and it took {end - moment:.1f}"
            for what, moment, left in said
        ),
        sep="\n",
        flush=True,
    )
    wrong = [
        f"{what} is off by more than a quarter"
        for what, moment, left in said
        if not 0.75 <= left / (end - moment) <= 1.25
    ]
    return wrong + [f"the runner ended with {status}"] * (status != 0)


def results_of(first: int, until: float) -> Iterator[tuple[int, Result]]:
    """Goes through rounds up to a moment. Each fault comes at least once.

    So many are under way at once as there are processors.
    """
    seed, count = first, os.cpu_count() or 1
    left = dict[concurrent.futures.Future[Result], int]()
    with concurrent.futures.ProcessPoolExecutor(count) as pool:
        while left or time.monotonic() < until or seed < first + 2 * len(FILE_FAULTS):
            while len(left) < count and (
                time.monotonic() < until or seed < first + 2 * len(FILE_FAULTS)
            ):
                left[pool.submit(run_round, seed)] = seed
                seed += 1
            first_done = concurrent.futures.FIRST_COMPLETED
            for one in concurrent.futures.wait(left, return_when=first_done).done:
                yield left.pop(one), one.result()


def main() -> int:
    parser = argparse.ArgumentParser(prog="trials/runner.py")
    parser.add_argument("--all", action="store_true", help="60 minutes")
    parser.add_argument(
        "--minutes", type=float, default=5.0, help="how long (default: %(default)s)"
    )
    parser.add_argument(
        "--seed", type=int, default=0, help="the first round (default: %(default)s)"
    )
    words = parser.parse_args()
    lost = list[str]()
    if words.all:
        with tempfile.TemporaryDirectory(prefix="ringplan-night-") as folder:
            lost = see_time_left(pathlib.Path(folder))
        print(*lost, sep="\n", end="\n" * bool(lost), flush=True)
    until = time.monotonic() + 60 * (60.0 if words.all else words.minutes)
    counts, faults, rounds = Counter[str](), 0, 0
    for number, (what, found, wrong) in results_of(words.seed, until):
        rounds, counts, faults = rounds + 1, counts + found, faults + bool(wrong)
        for fault in wrong:
            print(f"round {number} ({what}): {fault}", flush=True)
    print(", ".join(f"{count} {what}" for what, count in sorted(counts.items())))
    if not counts["late hooks refused"]:
        print("no hook came late")
    print(f"{rounds} rounds, {faults} with a fault")
    return int(bool(faults or lost) or not counts["late hooks refused"])


if __name__ == "__main__":
    sys.exit(main())
