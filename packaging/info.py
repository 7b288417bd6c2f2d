#!/usr/bin/env python3
"""Writes the metadata of the installed Python package (dist-info, as PEP 376 and PEP 566 say):
packaging/info.py VERSION FOLDER. The folder has the package already, and no other file is read but
python/pyproject.toml.
"""
import base64
import hashlib
import pathlib
import sys
import tomllib

TOP = pathlib.Path(__file__).resolve().parent.parent


def record(folder: pathlib.Path, path: pathlib.Path) -> str:
    """A line of RECORD: a file, the digest of its content, and its size."""
    data = path.read_bytes()
    digest = base64.urlsafe_b64encode(hashlib.sha256(data).digest()).rstrip(b"=").decode()
    return f"{path.relative_to(folder)},sha256={digest},{len(data)}\n"


def main() -> None:
    version, folder = sys.argv[1], pathlib.Path(sys.argv[2])
    project = tomllib.loads((TOP / "python/pyproject.toml").read_text())["project"]
    scripts = "".join(f"{name} = {call}\n" for name, call in project["scripts"].items())
    texts = {
        "METADATA": (
            f"Metadata-Version: 2.1\nName: {project['name']}\nVersion: {version}\nSummary:"
            f" {project['description']}\nRequires-Python: {project['requires-python']}\n"
        ),
        "INSTALLER": "make\n",
        "entry_points.txt": f"[console_scripts]\n{scripts}",
    }
    info = folder / f"ringplan-{version}.dist-info"
    info.mkdir(mode=0o755, exist_ok=True)
    for name, text in texts.items():
        (info / name).write_text(text)
    files = [
        path
        for path in sorted((folder / "ringplan").rglob("*"))
        if path.is_file() and "__pycache__" not in path.parts
    ] + [info / name for name in texts]
    (info / "RECORD").write_text(
        "".join(record(folder, path) for path in files) + f"{info.name}/RECORD,,\n"
    )
    for path in info.iterdir():
        path.chmod(0o644)
    info.chmod(0o755)


if __name__ == "__main__":
    main()
