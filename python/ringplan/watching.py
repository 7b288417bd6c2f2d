"""A history that the judge reads while it happens: one `ringplan watch`."""

from __future__ import annotations

import contextlib
import os
import select
import signal
import subprocess
import tempfile
import threading
from collections.abc import Callable, Iterable
from typing import Any, NoReturn

from ringplan import programs


# How long the judge may be silent while it owes an answer, or read nothing, in seconds.
SILENCE = 60.0
# In how many parts that time is waited for.
PARTS = 10


class Watch:
    """Gives entries to the judge, which answers each one.

    After the first wrong entry the judge reads no more. A judge hangs if it owes an answer and says
    nothing for `silence` seconds, or if it reads nothing for so long. It is killed then, and the
    call that waits for it raises `NoProgram`.
    """

    def __init__(self, bundle: str, silence: float = SILENCE) -> None:
        self.path, self.silence, self.changed = programs.find(), silence, threading.Condition()
        # How many entries were given, and to how many the judge said yes; what it printed besides,
        # and whether it has ended.
        self.given, self.count, self.text, self.is_over = 0, 0, "", False
        streams: dict[str, Any] = {
            "stdin": subprocess.PIPE,
            "stdout": subprocess.PIPE,
            "stderr": subprocess.DEVNULL,
            "start_new_session": True,
            "bufsize": 0,
        }
        try:
            with tempfile.TemporaryFile() as file:
                file.write(bundle.encode())
                file.flush()
                words = [self.path, "watch", f"/proc/self/fd/{file.fileno()}", "--every", "1"]
                self.process = subprocess.Popen(words, pass_fds=[file.fileno()], **streams)
        except OSError as error:
            raise programs.NoProgram(f"{self.path} cannot be run: {error.strerror}") from error
        assert self.process.stdin is not None
        os.set_blocking(self.process.stdin.fileno(), False)
        self.reader = threading.Thread(target=self.read, daemon=True)
        self.reader.start()
        self.write("history 1\n")

    def read(self) -> None:
        """Keeps what the judge prints, up to its end."""
        kept, stream = b"", self.process.stdout
        assert stream is not None
        while piece := os.read(stream.fileno(), 1 << 16):
            *lines, kept = (kept + piece).split(b"\n")
            with self.changed:
                for line in lines:
                    if line.startswith(b"so far "):
                        self.count = int(line.split(b" ")[2])
                    else:
                        self.text += line.decode() + "\n"
                self.changed.notify_all()
        with self.changed:
            self.is_over = True
            self.changed.notify_all()

    def write(self, text: str) -> None:
        """A judge that has answered reads no more."""
        assert self.process.stdin is not None
        left, pipe, room = memoryview(text.encode()), self.process.stdin.fileno(), select.poll()
        room.register(pipe, select.POLLOUT)
        with contextlib.suppress(BrokenPipeError):
            while left:
                if not room.poll(self.silence * 1000):
                    self.give_up("read")
                left = left[os.write(pipe, left) :]

    def give(self, entries: Iterable[str]) -> None:
        """Gives the lines of entries, and does not wait for the answer."""
        text = "".join(f"{entry}\n" for entry in entries)
        self.given += text.count("\n")
        self.write(text)

    def no(self) -> str:
        """The first line of the answer, if it is not yes so far. Otherwise the empty text."""
        return "" if self.text.startswith("yes\n") else self.text.split("\n")[0]

    def wait(self) -> str:
        """Waits for the answer to all that was given: the empty text for yes."""
        self.wait_until(lambda: self.text or self.is_over or self.count >= self.given)
        if self.is_over and not self.text:
            self.end()
        return self.no()

    def wait_until(self, is_so: Callable[[], object]) -> None:
        """Waits until that is so. Each word of the judge begins its time again."""
        left = PARTS
        with self.changed:
            while not is_so():
                # If this process is stopped for a while, that counts as one part.
                left = PARTS if self.changed.wait(self.silence / PARTS) else left - 1
                if not left and not is_so():
                    self.give_up("said")

    def kill(self) -> None:
        """Kills the judge, and what it has started."""
        with contextlib.suppress(ProcessLookupError):
            os.killpg(self.process.pid, signal.SIGKILL)

    def give_up(self, what: str) -> NoReturn:
        self.kill()
        raise programs.NoProgram(
            f"{self.path} watch has {what} nothing for {self.silence:g} seconds"
        )

    def end(self) -> programs.Answer:
        """Ends the history, and returns the whole answer. A judge that gave none is `NoProgram`."""
        assert self.process.stdin is not None
        self.write("end\n")
        self.process.stdin.close()
        self.wait_until(lambda: self.is_over)
        self.close()
        if not self.text:
            raise programs.NoProgram(
                f"{self.path} watch ended with {self.process.returncode}, without an answer"
            )
        return programs.Answer(self.text, "", self.process.returncode)

    def close(self) -> None:
        """Ends the judge, and waits for that. One that does not end is killed."""
        assert self.process.stdin is not None and self.process.stdout is not None
        self.process.stdin.close()
        self.reader.join(self.silence)
        if self.reader.is_alive():
            self.kill()
            self.reader.join()
        self.process.stdout.close()
        self.process.wait()
