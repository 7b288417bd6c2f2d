#!/usr/bin/env python3
"""Tries the scripts by which shells complete command lines, and the page of the manual: the script
for bash in a bash, the page by groff. The other scripts are read by their shells, where these are
installed. It wants the program as it is built.
"""
import re
import shutil
import subprocess
import sys
import tempfile

from measured import RUN

faults: list[str] = []
tried = 0


def text_of(*words: str) -> str:
    return subprocess.run(
        [RUN, *words], stdin=subprocess.DEVNULL, stdout=subprocess.PIPE, timeout=60, check=True
    ).stdout.decode()


def owes(what: str, is_met: bool, found: object) -> None:
    global tried
    tried += 1
    if not is_met:
        faults.append(f"{what}: {str(found)[:300]}")


def completed(script: str, folder: str, *words: str) -> list[str]:
    """What bash offers for the last word."""
    line = (
        f". {script}; COMP_WORDS=(\"$@\"); COMP_CWORD=$(($# - 1)); _ringplan; printf '%s\\n'"
        ' "${COMPREPLY[@]}"'
    )
    ran = subprocess.run(
        ["bash", "--norc", "-c", line, "bash", *words],
        stdout=subprocess.PIPE,
        stderr=subprocess.PIPE,
        timeout=60,
        cwd=folder,
    )
    owes(f"bash on {words}", not ran.stderr, ran.stderr)
    return ran.stdout.decode().split("\n")[:-1]


def commands() -> dict[str, list[str]]:
    """Each command with its options, by the help that the program prints."""
    names = re.findall(
        r"^  (\w+)  ", text_of("--help").split("Commands:\n")[1].split("\n\n")[0], re.M
    )
    return {
        name: re.findall(r"^ +(?:-\w, )?(--[a-z-]+)", text_of(name, "-h"), re.M)
        for name in names
        if name != "help"
    }


def bash(known: dict[str, list[str]], folder: str) -> None:
    script = f"{folder}/ringplan.bash"
    text_of("completions", "bash", "-o", script)
    for name in ("a file", "a.bundle"):
        open(f"{folder}/{name}", "w").close()
    cases = {
        ("go",): ["goal"],
        ("goal", "--de"): ["--dead"],
        ("goal", "a"): ["a file", "a.bundle"],
        ("goal", "--dead", ""): [""],
        ("plan", "-o", "a."): ["a.bundle"],
        ("completions", "z"): ["zsh"],
        ("man", "a"): [""],
        ("help", "wi"): ["windows"],
        ("check", "--workers", "4", "a."): ["a.bundle"],
    }
    for words, wanted in cases.items():
        found = completed(script, folder, "ringplan", *words)
        owes(f"bash on {words}", sorted(found) == wanted, found)
    for name, options in known.items():
        owes(f"bash offers {name}", name in completed(script, folder, "ringplan", name[:1]), "not")
        found = completed(script, folder, "ringplan", name, "--")
        owes(f"bash on the options of {name}", sorted(found) == sorted(options), found)


def others(known: dict[str, list[str]], folder: str) -> None:
    for shell in ("zsh", "fish"):
        script = f"{folder}/{shell}"
        text_of("completions", shell, "-o", script)
        with open(script) as it:
            text = it.read()
        for name, options in known.items():
            there = [
                option
                for option in options
                if (option if shell == "zsh" else f"-l {option[2:]} ") in text
            ]
            owes(f"{shell} on {name}", name in text and there == options, there)
        if shutil.which(shell):
            ran = subprocess.run(
                [shell, "-n", script], stdout=subprocess.PIPE, stderr=subprocess.STDOUT, timeout=60
            )
            owes(shell, ran.returncode == 0 and not ran.stdout, ran.stdout)
        else:
            print(f"shells: {shell} is not tried, as it is not installed")


def manual(known: dict[str, list[str]], folder: str) -> None:
    page = f"{folder}/ringplan.1"
    text_of("man", "-o", page)
    ran = subprocess.run(
        ["groff", "-man", "-Tascii", "-P-cbou", "-rLL=20000n", "-ww", page],
        stdout=subprocess.PIPE,
        stderr=subprocess.PIPE,
        timeout=60,
    )
    owes("groff", ran.returncode == 0 and not ran.stderr, ran.stderr)
    shown = ran.stdout.decode()
    owes(
        "the headings",
        re.findall(r"^[A-Z]+[A-Z ]+$", shown, re.M)
        == ["NAME", "SYNOPSIS", "DESCRIPTION", "COMMANDS", "EXIT STATUS"],
        shown,
    )
    parts = re.split(r"^   (\w+)$", shown, flags=re.M)
    owes("the commands", parts[1::2] == list(known), parts[1::2])
    for name, part in zip(parts[1::2], parts[2::2]):
        words = " ".join(part.split())
        for line in text_of(name, "--help").split("\n"):
            owes(f"the page on {name}", " ".join(line.split()) in words, line)


def refusals() -> None:
    for words in (["completions"], ["completions", "tcsh"], ["man", "page"]):
        ran = subprocess.run(
            [RUN, *words],
            stdin=subprocess.DEVNULL,
            stdout=subprocess.PIPE,
            stderr=subprocess.PIPE,
            timeout=60,
        )
        owes(
            f"{words}",
            ran.returncode == 2 and not ran.stdout and ran.stderr.startswith(b"error: "),
            ran,
        )


known = commands()
with tempfile.TemporaryDirectory() as scratch:
    bash(known, scratch)
    others(known, scratch)
    manual(known, scratch)
refusals()
for fault in faults:
    print(fault)
print(f"shells: {tried} facts, {len(faults)} faults")
sys.exit(bool(faults))
