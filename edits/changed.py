#!/usr/bin/env python3
"""The edits that the prover must refuse, of the crates that changed since their edits were last
refused.

    edits/changed.py            names these crates and their edits
    edits/changed.py lay        puts their edits where `rt ci` and `rt must-fail` look for them:
                                crates/CRATE/must-fail
    edits/changed.py clear      takes them away
    edits/changed.py record     notes in edits/refused.txt that the edits that are laid were
                                refused: after a gate that passed

A crate has changed if the sum of its sources, definitions, proofs and edits, without comments, is
not the one in edits/refused.txt. At most EDITS are laid at once, since an edit costs some 50
processor seconds with the check of its crate, but for a crate that has more. The crates that are
left out are named, and stay due.
"""
import hashlib
import shutil
import sys
from pathlib import Path

TOP = Path(__file__).resolve().parent.parent
NOTED = TOP / "edits" / "refused.txt"
EDITS = 8


def plain(path: Path) -> bytes:
    """A file without the lines that are comments."""
    lines = path.read_bytes().splitlines(keepends=True)
    return b"".join(it for it in lines if not it.lstrip().startswith((b"//", b"--")))


def sum_of(crate: str) -> str:
    """The sum of all that the crate's edits are about, and of the edits."""
    files = [
        path
        for part in ("src", "specs", "proofs")
        for path in (TOP / "crates" / crate / part).rglob("*")
        if path.is_file()
    ]
    total = hashlib.sha256()
    for path in sorted([*files, *(TOP / "edits" / crate).glob("*.edit")]):
        total.update(f"{path.relative_to(TOP)}\n".encode() + hashlib.sha256(plain(path)).digest())
    return total.hexdigest()[:16]


def noted() -> dict[str, str]:
    """The sum of each crate at which its edits were last refused."""
    lines = NOTED.read_text().splitlines() if NOTED.exists() else []
    return {crate: total for crate, total in (line.split() for line in lines)}


def edits(crate: str) -> list[Path]:
    return sorted((TOP / "edits" / crate).glob("*.edit"))


def crates() -> list[str]:
    return sorted(path.name for path in (TOP / "edits").iterdir() if path.is_dir())


def due() -> list[str]:
    """The crates whose edits are to be tried."""
    known = noted()
    return [crate for crate in crates() if known.get(crate) != sum_of(crate)]


def laid(crate: str) -> Path:
    return TOP / "crates" / crate / "must-fail"


def lay() -> None:
    """Lays the edits of the crates that are due, the least first, so that most crates fit."""
    count = 0
    for crate in sorted(due(), key=lambda crate: (len(edits(crate)), crate)):
        if count and count + len(edits(crate)) > EDITS:
            print(f"edits: {crate} is left for a later run")
            continue
        count += len(edits(crate))
        laid(crate).mkdir(exist_ok=True)
        for path in edits(crate):
            shutil.copy(path, laid(crate))
    print(f"edits: {count} are laid")


def clear() -> None:
    for crate in crates():
        shutil.rmtree(laid(crate), ignore_errors=True)


def record() -> None:
    known = noted()
    known |= {crate: sum_of(crate) for crate in crates() if laid(crate).exists()}
    NOTED.write_text("".join(f"{crate} {known[crate]}\n" for crate in crates() if crate in known))


def show() -> None:
    for crate in due():
        print(f"{crate}: {', '.join(path.stem for path in edits(crate))}")


if __name__ == "__main__":
    words = {"lay": lay, "clear": clear, "record": record, "": show}
    word = sys.argv[1] if len(sys.argv) == 2 else ""
    if len(sys.argv) > 2 or word not in words:
        sys.exit(__doc__)
    words[word]()
