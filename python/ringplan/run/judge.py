"""The judge beside a runner: one `ringplan watch` reads the board's history while it grows."""

from __future__ import annotations

import time

from ringplan.programs import Answer
from ringplan.run.board import Board, Status, Stop
from ringplan.run.report import Watched
from ringplan.watching import Watch


def demand_answer(first: str) -> None:
    """A `Stop` if the judge could not judge."""
    if first != "yes" and not first.startswith("no 70 "):
        raise Stop(
            Status.FAULT,
            f"the judge cannot answer: {first}{' (out of memory)' if first == 'no 60' else ''}",
        )


def judge(board: Board) -> Answer:
    """What the judge says of the board's whole history. A judge that cannot answer is a `Stop`."""
    record = board.record()
    watch = Watch(record.bundle)
    watch.give(record.entries)
    answer = watch.end()
    demand_answer(answer.first())
    return answer


class Judge:
    """Has the history of a board judged while it grows."""

    def __init__(self, board: Board) -> None:
        self.board, self.edition, self.mark = board, "", 0
        self.watch: Watch | None = None
        # When the history grew last.
        self.grew = time.time()

    def begin(self, edition: str, bundle: str) -> None:
        """Judges the history by a plan, from its start: each plan has its own step numbers."""
        self.close()
        self.edition, self.mark, self.watch = edition, 0, Watch(bundle)

    def see(self, is_end: bool = False) -> str:
        """Gives the judge the entries that it has not seen, and waits for the answer: `yes`, or `no
        70` with its place. Another answer is a `Stop`.
        """
        assert self.watch is not None
        found = self.board.later(self.edition, self.mark)
        # None if the board has another plan by now: the runner will find that itself.
        if found is not None and found[0] > self.mark:
            self.mark, entries = found
            self.watch.give(entries)
            self.grew = time.time()
        answer = self.watch.wait() or (self.watch.end().first() if is_end else "yes")
        demand_answer(answer)
        return answer

    def watched(self) -> Watched:
        """What there is to say of the history on the runner's page."""
        return Watched(
            not (self.watch and self.watch.no()), self.watch.count if self.watch else 0, self.grew
        )

    def close(self) -> None:
        if self.watch is not None:
            self.watch.close()
