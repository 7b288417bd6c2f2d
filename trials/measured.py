"""Runs of the program, with what they take.

A process is counted the memory of the one that it comes from, so a small one of its own starts
each.
"""
import os
import subprocess
import sys
import tempfile
from collections.abc import Sequence

TOP = os.path.dirname(os.path.dirname(os.path.abspath(__file__)))
RUN = os.path.join(TOP, "crates", "ringplan", "out", "ringplan")


class Measured:
    """The first bytes of the output and of standard error, the output's size, the exit status, the
    seconds by the clock and of processor time, and the most memory in bytes (that of the process
    that starts it, some nine megabytes, at least).
    """

    def __init__(
        self, words: Sequence[str], bundle: bytes, limit: int = 120, program: str = RUN
    ) -> None:
        file = tempfile.NamedTemporaryFile
        with file() as given, file() as out, file() as errors:
            given.write(bundle)
            given.flush()
            starter = [
                sys.executable,
                "-S",
                os.path.abspath(__file__),
                given.name,
                out.name,
                errors.name,
                str(limit),
                program,
                *words,
            ]
            made = subprocess.run(starter, stdout=subprocess.PIPE, check=True).stdout.split()
            self.status, self.memory = int(made[0]), int(made[3])
            self.wall, self.seconds = float(made[1]), float(made[2])
            self.size = out.seek(0, 2)
            out.seek(0)
            self.front, self.errors = out.read(4096), errors.read(4096)


def main(given: str, written: str, told: str, limit: str, *words: str) -> None:
    import signal
    import time

    with open(given, "rb") as bundle, open(written, "wb") as out, open(told, "wb") as errors:
        began = time.monotonic()
        process = os.fork()
        if not process:
            os.dup2(bundle.fileno(), 0)
            os.dup2(out.fileno(), 1)
            os.dup2(errors.fileno(), 2)
            os.execv(words[0], words)
        signal.signal(signal.SIGALRM, lambda *_: os.kill(process, signal.SIGKILL))
        signal.alarm(int(limit))
        _, status, used = os.wait4(process, 0)
        print(
            os.waitstatus_to_exitcode(status),
            time.monotonic() - began,
            used.ru_utime + used.ru_stime,
            used.ru_maxrss * 1024,
        )


if __name__ == "__main__":
    main(*sys.argv[1:])
