#!/usr/bin/env python3
"""Makes the packages, installs the deb into a root of its own by dpkg, and uses what was installed:
the program, the completions, the pages of the manual, the C library and the Python package. Then
`make install` and `make uninstall`. It wants the program as it is built, and `LIBRARY` in the
environment or crates/ringplan_c/out/libringplan_c.a; without these the packages are made without
the C library. With --skip-none a part that cannot be tried is a fault.
"""
import hashlib
import os
import pathlib
import re
import shutil
import subprocess
import sys
import tempfile
from collections.abc import Mapping

TOP = pathlib.Path(__file__).resolve().parent.parent
PROGRAM = TOP / "crates/ringplan/out/ringplan"
BUILT = TOP / "crates/ringplan_c/out/libringplan_c.a"
LIBRARY = os.environ.get("LIBRARY", str(BUILT) if BUILT.exists() else "")
PACKAGES = "usr/lib/python3/dist-packages"
# Nothing of the caller's environment says where a program or a module is.
PLAIN = {"PATH": "/usr/sbin:/usr/bin:/sbin:/bin", "LC_ALL": "C.UTF-8", "HOME": "/nonexistent"}
faults: list[str] = []
tried = 0


def skip(what: str) -> None:
    """A part that cannot be tried."""
    print(f"packages: {what}")
    if "--skip-none" in sys.argv:
        faults.append(what)


def owes(what: str, is_met: bool, found: object = "") -> None:
    global tried
    tried += 1
    if not is_met:
        faults.append(f"{what}: {str(found)[-600:]}")


def run(
    *words: object, given: str = "", into: pathlib.Path = TOP, env: Mapping[str, object] = {}
) -> subprocess.CompletedProcess[str]:
    """Runs a command in a folder, with `env` added to a plain environment."""
    environment = PLAIN | {name: str(value) for name, value in env.items()}
    return subprocess.run(
        [str(word) for word in words],
        input=given,
        capture_output=True,
        text=True,
        timeout=300,
        cwd=into,
        env=environment,
    )


def does(
    what: str,
    *words: object,
    status: int = 0,
    given: str = "",
    into: pathlib.Path = TOP,
    env: Mapping[str, object] = {},
) -> str:
    """Runs a command that owes a status, and returns what it prints."""
    ran = run(*words, given=given, into=into, env=env)
    owes(what, ran.returncode == status, (ran.returncode, ran.stdout, ran.stderr))
    return ran.stdout


def make(*words: str, umask: str = "022", env: Mapping[str, object] = {}) -> None:
    # The path has `rt`, whose folder has the C side of the library's memory.
    does(
        f"make {words[0]}",
        "sh",
        "-c",
        'umask "$0"; exec make "$@"',
        umask,
        *words,
        f"LIBRARY={LIBRARY}",
        env={"PATH": os.environ["PATH"], **env},
    )


def files_of(folder: pathlib.Path) -> list[str]:
    return sorted(
        str(path.relative_to(folder))
        for path in folder.rglob("*")
        if not path.is_dir() or path.is_symlink()
    )


def make_packages(scratch: pathlib.Path) -> pathlib.Path:
    """Makes the packages twice, with another umask and other variables, compares them, and returns
    the deb.
    """
    version = does("the version", PROGRAM, "--version").split()[1]
    owes(
        "the Python package's version",
        f'version = "{version}"' in (TOP / "python/pyproject.toml").read_text(),
        version,
    )
    names = [f"ringplan-{version}.tar.gz", f"ringplan_{version}_amd64.deb"]
    make("dist", f"DIST={scratch}/first")
    make("dist", f"DIST={scratch}/second", "PREFIX=/opt", "DESTDIR=/nonexistent", umask="077")
    owes(
        "the files of dist",
        files_of(scratch / "first") == ["SHA256SUMS", *names],
        files_of(scratch / "first"),
    )
    for name in names:
        first, second = (
            hashlib.sha256((scratch / it / name).read_bytes()).hexdigest()
            for it in ("first", "second")
        )
        owes(f"{name} a second time", first == second, (first, second))
    checked = does("SHA256SUMS", "sha256sum", "-c", "SHA256SUMS", into=scratch / "first")
    owes("what SHA256SUMS names", checked == "".join(f"{name}: OK\n" for name in names), checked)
    inside = does("the tarball", "tar", "-tzf", scratch / "first" / names[0]).splitlines()
    wanted = does("the commit's files", "git", "ls-tree", "-r", "--name-only", "HEAD").splitlines()
    owes(
        "the tarball's files",
        sorted(it for it in inside if not it.endswith("/"))
        == sorted(f"ringplan-{version}/{it}" for it in wanted),
        inside,
    )
    make("deb", f"DIST={scratch}/third", env={"SOURCE_DATE_EPOCH": "4102444800"})
    listed = does(
        "the deb's files", "dpkg-deb", "-c", scratch / "third" / names[1], env={"TZ": "UTC"}
    ).splitlines()
    owes("the times", all(" 2100-01-01 00:00 " in it for it in listed), listed)
    return scratch / "first" / names[1]


def dpkg(root: pathlib.Path, *words: object) -> str:
    force = ["--force-script-chrootless"] + (["--force-not-root"] if os.geteuid() else [])
    return does(f"dpkg {words[0]}", "dpkg", f"--root={root}", "--log=/dev/null", *force, *words)


def make_root(root: pathlib.Path) -> None:
    """Makes a root in which dpkg knows only the packages on which the deb depends."""
    there = does(
        "the packages that it needs", "dpkg-query", "-s", "libc6", "python3-minimal", "python3"
    )
    kept = [
        re.sub(
            r"^(Pre-Depends|Depends|Conffiles|Recommends|Breaks|Replaces|Conflicts):.*\n(?: .*\n)*",
            "",
            it,
            flags=re.M,
        )
        for it in there.split("\n\n")
    ]
    (root / "var/lib/dpkg/info").mkdir(parents=True)
    (root / "var/lib/dpkg/updates").mkdir()
    (root / "var/lib/dpkg/available").touch()
    (root / "var/lib/dpkg/status").write_text("\n\n".join(it.strip() for it in kept) + "\n")


def install(deb: pathlib.Path, root: pathlib.Path) -> None:
    """Installs the deb into a root that has nothing but this machine's word for what the deb
    depends on.
    """
    field = does("the deb's needs", "dpkg-deb", "-f", deb, "Depends")
    owes(
        "the deb's needs",
        re.fullmatch(r"libc6 \(>= 2\.\d+\), python3 \(>= 3\.11\)", field.strip()) is not None,
        field,
    )
    make_root(root)
    dpkg(root, "-i", deb)
    owes("dpkg --verify", dpkg(root, "--verify", "ringplan") == "", "changed")
    owes(
        "dpkg's word",
        "\nStatus: install ok installed\n" in dpkg(root, "-s", "ringplan"),
        "not installed",
    )
    listed = does("the deb's files", "dpkg-deb", "-c", deb).splitlines()
    owes(
        "the owners and modes",
        all(
            re.match(r"(drwxr-xr-x|-rw-r--r--|-rwxr-xr-x|lrwxrwxrwx) root/root ", it)
            for it in listed
        ),
        listed,
    )


def try_program(usr: pathlib.Path) -> None:
    for words in (["--version"], ["help"]):
        owes(
            f"{words}",
            run(usr / "bin/ringplan", *words).stdout == run(PROGRAM, *words).stdout,
            "not the tree's",
        )
    examples = sorted((TOP / "examples").glob("*.bundle"))
    installed = usr / "share/doc/ringplan"
    owes(
        "the examples",
        sorted(it.name for it in (installed / "examples").iterdir())
        == [it.name for it in examples],
        "others",
    )
    for example in examples:
        found, wanted = run(
            usr / "bin/ringplan", "check", installed / "examples" / example.name
        ), run(PROGRAM, "check", example)
        owes(
            f"check {example.name}",
            (found.returncode, found.stdout) == (wanted.returncode, wanted.stdout),
            (found, wanted),
        )
    for page in ("README.md", "docs/EMBEDDING.md"):
        text = (installed / page).read_text()
        for link in re.findall(r"\]\(([^)#:]+)\)", text):
            owes(
                f"the link {link} of {page}",
                (installed / page).parent.joinpath(link).exists(),
                "nothing there",
            )


def try_shells(usr: pathlib.Path) -> None:
    script = usr / "share/bash-completion/completions/ringplan"
    for words, wanted in {
        ("ringplan", "go"): "goal\n",
        ("ringplan", "goal", "--de"): "--dead\n",
    }.items():
        line = (
            '. "$0"; COMP_WORDS=("$@"); COMP_CWORD=$(($# - 1)); _ringplan; printf "%s\\n"'
            ' "${COMPREPLY[@]}"'
        )
        found = does(f"bash on {words}", "bash", "--norc", "-c", line, script, *words)
        owes(f"bash on {words}", found == wanted, found)
    by_zsh = (
        'print -l $fpath; fpath=("$1" $fpath); autoload -U compinit; compinit -u -D; print'
        " $_comps[ringplan]"
    )
    by_fish = (
        "string join \\n $fish_complete_path; source $argv[1]/ringplan.fish; complete -C 'ringplan"
        " go' | cut -f 1"
    )
    asked = {
        "zsh": ("zsh/vendor-completions", "_ringplan", ["-fc", by_zsh, "zsh"], "_ringplan"),
        "fish": ("fish/vendor_completions.d", "ringplan.fish", ["-c", by_fish], "goal"),
    }
    for shell, (folder, name, call, wanted) in asked.items():
        if not shutil.which(shell):
            skip(f"{shell} is not tried, as it is not installed")
            continue
        does(shell, shell, "-n", usr / "share" / folder / name)
        shown = does(
            shell, shell, *call, usr / "share" / folder, env={"HOME": usr.parent}
        ).splitlines()
        owes(f"where {shell} looks", f"/usr/share/{folder}" in shown, shown)
        owes(f"what {shell} completes", shown[-1:] == [wanted], shown)


# What bash completes of a line, and what completes the commands in zsh.
BY_BASH = (
    '. "$0"; COMP_LINE=$1; COMP_POINT=${#1}; COMP_TYPE=9; _python_argcomplete "${1%% *}"; echo'
    ' "${COMPREPLY[@]}"'
)
BY_ZSH = (
    'fpath=("$1" $fpath); autoload -U compinit; compinit -u -D; print $_comps[ringplan-run]'
    " $_comps[ringplan-import] $_comps[ringplan-merge] $_comps[ringplan-break]"
)


def try_python_completions(usr: pathlib.Path) -> None:
    """What shells complete of the commands in Python, by argcomplete."""
    if not shutil.which("register-python-argcomplete"):
        skip(
            "the completions of ringplan-run are not tried, as python3-argcomplete is not installed"
        )
        return
    env = {"PATH": f"{usr}/bin:{PLAIN['PATH']}", "HOME": usr.parent}
    for line, wanted in {
        "ringplan-run st": "status",
        "ringplan-run apply --gi": "--give-up",
        "ringplan-import descr": "describering",
        "ringplan-merge --ou": "--output",
        "ringplan-break --sc": "--script",
    }.items():
        script = usr / "share/bash-completion/completions" / line.split()[0]
        found = does(f"bash on {line}", "bash", "--norc", "-c", BY_BASH, script, line, env=env)
        owes(f"bash on {line}", found.strip() == wanted, found)
    calls: dict[str, tuple[tuple[object, ...], str]] = {
        "zsh": (
            ("-fc", BY_ZSH, "zsh", usr / "share/zsh/vendor-completions"),
            "_ringplan-run _ringplan-run _ringplan-run _ringplan-run",
        ),
        "fish": (
            (
                "-c",
                "source $argv[1]; complete -C 'ringplan-run st' | cut -f 1",
                usr / "share/fish/vendor_completions.d/ringplan-run.fish",
            ),
            "status",
        ),
    }
    for shell, (words, wanted) in calls.items():
        if shutil.which(shell):
            found = does(f"{shell} of ringplan-run", shell, *words, env=env)
            owes(f"{shell} of ringplan-run", found.strip() == wanted, found)


def try_manual(page: pathlib.Path, *headings: str) -> None:
    ran = run(
        "man", "--warnings", "-P", "cat", "-l", page, env={"MANWIDTH": 100, "HOME": page.parent}
    )
    owes("man -l", ran.returncode == 0 and not ran.stderr, ran.stderr)
    shown = re.sub(".\b", "", ran.stdout)
    for heading in ("NAME", "SYNOPSIS", "EXIT STATUS", *headings):
        owes(f"the page's {heading}", f"\n{heading}\n" in shown, shown)


def try_library(usr: pathlib.Path, scratch: pathlib.Path) -> None:
    """Compiles the installed `run.c` by what pkg-config says, and compares it with the program."""
    env = {"PKG_CONFIG_PATH": usr / "lib/pkgconfig"}
    what = "the version of pkg-config"
    version = does(what, "pkg-config", "--modversion", "ringplan", env=env)
    owes(what, version.strip() == run(PROGRAM, "--version").stdout.split()[1], version)
    asked = ("--define-prefix", "--cflags", "--libs", "ringplan")
    words = does("pkg-config", "pkg-config", *asked, env=env).split()
    source = usr / "share/doc/ringplan/c/run.c"
    does("cc", "cc", "-Wall", "-Werror", "-o", scratch / "run", source, *words)
    try_linking(usr, scratch, words)
    for job, name in (
        ("check", "planned_replace"),
        ("check", "copy_out_of_order"),
        ("plan", "plan_replace"),
        ("play", "play_a_lost_store"),
        ("replay", "replay_a_move"),
        ("goal", "plan_replace"),
    ):
        compare(usr, scratch, job, name)


def try_linking(usr: pathlib.Path, scratch: pathlib.Path, words: list[str]) -> None:
    """The calls' version, and the name by which a program finds the library."""
    (scratch / "version.c").write_text(
        "#include <ringplan.h>\nint main(void) { return ringplan_version(); }\n"
    )
    does("cc", "cc", "-Wall", "-Werror", "-o", scratch / "version", scratch / "version.c", *words)
    does(
        "the version of the calls",
        scratch / "version",
        status=2,
        env={"LD_LIBRARY_PATH": usr / "lib"},
    )
    owes(
        "the library's name",
        "libringplan.so.2 => "
        in run("ldd", scratch / "run", env={"LD_LIBRARY_PATH": usr / "lib"}).stdout,
        "another",
    )


def compare(usr: pathlib.Path, scratch: pathlib.Path, job: str, name: str) -> None:
    """The program's answer on an example, beside those from C and from Python."""
    given = (TOP / f"examples/{name}.bundle").read_text()
    wanted = run(PROGRAM, job, given=given)
    from_c = run(scratch / "run", job, given=given, env={"LD_LIBRARY_PATH": usr / "lib"})
    owes(
        f"{job} of {name} from C",
        (from_c.returncode, from_c.stdout) == (wanted.returncode, wanted.stdout),
        from_c,
    )
    from_python = run(
        "python3",
        usr / "share/doc/ringplan/c/run.py",
        job,
        given=given,
        env={"PYTHONPATH": usr.parent / PACKAGES},
    )
    owes(
        f"{job} of {name} from Python",
        (from_python.returncode, from_python.stdout) == (wanted.returncode, wanted.stdout),
        from_python,
    )


METADATA = """
import base64, hashlib, importlib.metadata
it = importlib.metadata.distribution("ringplan")
print(it.version, *sorted(f"{one.name}={one.value}" for one in it.entry_points))
for one in it.files:
    data = one.locate().read_bytes()
    digest = base64.urlsafe_b64encode(hashlib.sha256(data).digest()).rstrip(b"=").decode()
    if one.hash and (one.hash.value, one.size) != (digest, len(data)):
        print(one)
print(len(it.files))
from ringplan import library
print(library.load(None) is not None)
"""


def try_metadata(usr: pathlib.Path, scratch: pathlib.Path) -> None:
    """What Python's tools know of the package: its version, its commands and its files.

    It finds the C library beside it.
    """
    version = run(PROGRAM, "--version").stdout.split()[1]
    found = does(
        "the metadata",
        "/usr/bin/python3",
        "-c",
        METADATA,
        into=scratch,
        env={"PYTHONPATH": usr.parent / PACKAGES},
    ).splitlines()
    files = [it for it in files_of(usr.parent / PACKAGES) if "__pycache__" not in it]
    commands = (
        "ringplan-break=ringplan.breaks.__main__:main ringplan-import=ringplan.importing:main"
        " ringplan-merge=ringplan.merging:main ringplan-run=ringplan.run.__main__:main"
    )
    owes(
        "the metadata",
        found == [f"{version} {commands}", str(len(files)), str(bool(LIBRARY))],
        found,
    )
    owes(
        "the copyright",
        "\nLicense: " in (usr / "share/doc/ringplan/copyright").read_text(),
        "no licence",
    )


def try_python(usr: pathlib.Path, scratch: pathlib.Path) -> None:
    """The package finds the program by the search path; its commands find it beside them."""
    code = (
        "import ringplan, ringplan.run, ringplan.store; from ringplan import programs;"
        " print(ringplan.__file__, programs.find())"
    )
    found = does(
        "the import",
        "/usr/bin/python3",
        "-c",
        code,
        into=scratch,
        env={"PATH": f"{usr}/bin:{PLAIN['PATH']}", "PYTHONPATH": usr.parent / PACKAGES},
    )
    owes(
        "what is imported",
        found.split() == [f"{usr.parent}/{PACKAGES}/ringplan/__init__.py", f"{usr}/bin/ringplan"],
        found,
    )
    try_metadata(usr, scratch)
    for name in ("ringplan-break", "ringplan-import", "ringplan-merge", "ringplan-run"):
        found = does(f"{name} --help", usr / "bin" / name, "--help", into=scratch)
        owes(f"{name} --help", found.startswith(f"usage: {name} "), found)
    try_commands(usr, scratch)
    try_runner(usr, scratch)


def try_commands(usr: pathlib.Path, scratch: pathlib.Path) -> None:
    """A ring, a history and a broken promise by the commands."""
    ring = does(
        "ringplan-import",
        usr / "bin/ringplan-import",
        "csv",
        "--read",
        1,
        given="0,a,r1\n0,b,r2\n1,b,r2\n1,c,r3\n",
        into=scratch,
    )
    owes("the ring", ring.startswith("ring 1\nspace 2\n"), ring)
    merged = does(
        "ringplan-merge",
        usr / "bin/ringplan-merge",
        "-",
        given="1 put w k x = put a.1\n1 write a.1 0 = ticket 0 0 0\n",
        into=scratch,
    )
    owes(
        "the history",
        merged == "history 1\nput w k x = put 0\nwrite 0 0 = ticket 0 0 0\nend\n",
        merged,
    )
    broken = does(
        "ringplan-break",
        usr / "bin/ringplan-break",
        usr / "share/doc/ringplan/examples/too_few_sources.bundle",
        status=1,
        into=scratch,
    )
    owes("what breaks", broken.startswith("no 23 2\nbroken: an acknowledged put "), broken)


def try_runner(usr: pathlib.Path, scratch: pathlib.Path) -> None:
    """A plan by hooks that print their line."""
    hooks = scratch / "hooks"
    hooks.mkdir()
    for kind in ("join", "mirror", "copy", "switch", "drop", "retire"):
        (hooks / kind).write_text("#!/bin/sh\ncat\n")
        (hooks / kind).chmod(0o755)
    ran = run(
        usr / "bin/ringplan-run",
        "apply",
        usr / "share/doc/ringplan/examples/planned_replace.bundle",
        "--do",
        hooks,
        "--new",
        into=scratch,
    )
    owes(
        "ringplan-run apply",
        ran.returncode == 0
        and "18 of 18 steps are done, and the judge says yes" in ran.stdout + ran.stderr,
        ran,
    )


def remove(root: pathlib.Path) -> None:
    """What Python wrote beside the modules goes too."""
    owes("what Python wrote", (root / PACKAGES / "ringplan/__pycache__").exists(), "nothing")
    dpkg(root, "-r", "ringplan")
    owes("after dpkg -r", not (root / "usr").exists(), files_of(root))


def try_uninstall(scratch: pathlib.Path) -> None:
    """Another prefix, and a file of somebody else."""
    staged = scratch / "staged"
    make("install", f"DESTDIR={staged}", "PREFIX=/opt/ringplan", umask="077")
    owes(
        "the modes",
        all(path.stat().st_mode & 0o044 == 0o044 for path in staged.rglob("*")),
        "closed to others",
    )
    does(
        "ringplan-import --help",
        staged / "opt/ringplan/bin/ringplan-import",
        "--help",
        into=scratch,
    )
    if LIBRARY:
        prefix = does(
            "the prefix",
            "pkg-config",
            "--variable=prefix",
            "ringplan",
            env={"PKG_CONFIG_PATH": staged / "opt/ringplan/lib/pkgconfig"},
        )
        owes("the prefix", prefix == "/opt/ringplan\n", prefix)
    (staged / "opt/ringplan/bin/other").touch()
    make("uninstall", f"DESTDIR={staged}", "PREFIX=/opt/ringplan")
    owes("after make uninstall", files_of(staged) == ["opt/ringplan/bin/other"], files_of(staged))


def try_all(scratch: pathlib.Path) -> None:
    root = scratch / "root"
    install(make_packages(scratch), root)
    try_program(root / "usr")
    try_shells(root / "usr")
    try_python_completions(root / "usr")
    for name, headings in {
        "ringplan": ("COMMANDS",),
        "ringplan-run": ("COMMANDS", "SEE ALSO"),
        "ringplan-import": ("OPTIONS",),
        "ringplan-merge": ("OPTIONS",),
        "ringplan-break": ("OPTIONS",),
    }.items():
        try_manual(root / f"usr/share/man/man1/{name}.1.gz", *headings)
    if LIBRARY:
        try_library(root / "usr", scratch)
    try_python(root / "usr", scratch)
    remove(root)
    try_uninstall(scratch)


def main() -> int:
    if not PROGRAM.exists():
        print("packages: the program is not built; `make` builds it")
        return 1
    if not LIBRARY:
        skip("the C library is not tried, as crates/ringplan_c/out/libringplan_c.a is not built")
    with tempfile.TemporaryDirectory() as folder:
        try:
            try_all(pathlib.Path(folder).resolve())
        except OSError as error:
            owes("a file or a command that is missing", False, error)
    print(*faults, f"packages: {tried} facts, {len(faults)} faults", sep="\n")
    return int(bool(faults))


if __name__ == "__main__":
    sys.exit(main())
