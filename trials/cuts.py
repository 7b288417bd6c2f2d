#!/usr/bin/env python3
"""Cuts an accepted bundle of each subcommand at every length: trials/cuts.py, once `rt ci` or `rt
run` has built crates/ringplan. No first part may be answered as the whole is, nor with status 0; of
a drive by several clients the parts that end behind a client's script are bundles of their own, and
may. Ends with 0 only where that holds.
"""
import os
import subprocess
import sys
from concurrent.futures import ThreadPoolExecutor

sys.dont_write_bytecode = True
from measured import RUN, TOP

CASES = [
    (["plan"], "plan_grow"),
    (["check"], "move_one_slot"),
    (["check", "--workers", "3"], "move_one_slot"),
    (["play"], "play_a_move_under_traffic"),
    (["replay"], "replay_a_move"),
    (["drive"], "drive_a_put_and_a_get"),
    (["drive", "--workers", "3"], "drive_a_move_by_three"),
    (["drive", "--format", "json"], "drive_one_step"),
    (["migrate"], "move_one_slot"),
]


def answer(words: list[str], bundle: bytes) -> tuple[int, bytes]:
    made = subprocess.run([RUN, *words], input=bundle, stdout=subprocess.PIPE)
    return made.returncode, made.stdout


def main() -> int:
    failed = 0
    with ThreadPoolExecutor(len(os.sched_getaffinity(0))) as pool:
        for words, name in CASES:
            with open(
                os.path.join(TOP, "crates", "tests_program", "data", name + ".bundle"), "rb"
            ) as file:
                bundle = file.read()
            whole = answer(words, bundle)
            script = bundle.find(b"\nscript 1\n")
            ends = (
                {at + 5 for at in range(script, len(bundle)) if bundle[at : at + 5] == b"\nend\n"}
                if words[0] == "drive"
                else ()
            )
            found = pool.map(lambda end: answer(words, bundle[:end]), range(len(bundle)))
            wrong = [
                end
                for end, it in enumerate(found)
                if end not in ends and (it[0] == 0 or it == whole)
            ]
            well = whole[0] == 0 and not wrong
            print(
                "%s of %s: %d first parts, %s"
                % (
                    " ".join(words),
                    name,
                    len(bundle),
                    "none accepted" if well else "FAILED at %s" % wrong[:9],
                ),
                flush=True,
            )
            failed += not well
    print("cuts: %d passed, %d failed" % (len(CASES) - failed, failed))
    return 1 if failed else 0


if __name__ == "__main__":
    sys.exit(main())
