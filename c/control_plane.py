"""A control plane that starts no change of a ring without a yes: control_plane.py RING CHANGE

It plans the change, asks the checker about the very bytes that it is going to hand out, and only
then writes them to standard output, for whoever runs the steps. Anything else than a yes ends it
with a line on standard error, and nothing is written.
"""

import pathlib
import sys

from ringplan import library


def approved_plan(ring: bytes, change: bytes) -> bytes:
    """Returns the ring with a plan and a certificate, to which the checker said yes.

    Raises RuntimeError if there is none.
    """
    planned = library.plan(ring + change)
    if planned.status is not library.Status.DONE:
        raise RuntimeError(f"no plan: {planned.text.decode().strip()}")
    bundle = ring + planned.text
    verdict = library.check(bundle)
    if verdict != library.Answer(library.Status.DONE, b"yes\n"):
        raise RuntimeError(f"no yes: {verdict.text.decode().strip()}")
    return bundle


def main(paths: list[str]) -> int:
    """Writes the approved plan of the ring and the change in two files, and returns the exit
    status.
    """
    ring, change = (pathlib.Path(path).read_bytes() for path in paths)
    try:
        bundle = approved_plan(ring, change)
    except RuntimeError as refused:
        print(f"the change is not started: {refused}", file=sys.stderr)
        return 1
    sys.stdout.buffer.write(bundle)
    return 0


if __name__ == "__main__":
    sys.exit(main(sys.argv[1:]))
