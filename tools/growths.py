#!/usr/bin/env python3
"""Refuses each growth of memory of a built program in turn, and checks the answer.

    tools/growths.py program PROGRAM INPUT [WORD..]
        a run of the program with these words and this standard input
    tools/growths.py tests TESTS BEGINNING
        each test of a built test program whose name begins so

Each growth is refused once alone and once with all later ones. Two answers are right: the refusal,
or that of the run in which no growth is refused. The refusal of a program is the status 4 and
`out of memory` on standard error, after a beginning of the whole output; that of a test is the
failure that `?` makes of the library's error. At the first other answer the status is 1.
"""
import os
import re
import shutil
import subprocess
import sys
import tempfile
from typing import NamedTuple

HERE = os.path.dirname(os.path.realpath(__file__))


class Answer(NamedTuple):
    status: int
    output: bytes
    messages: bytes


class Runner:
    """Runs a command on an input under tools/refuse.c."""

    def __init__(self, room):
        self.library, self.count = f"{room}/refuse.so", f"{room}/count"
        kit = os.path.dirname(os.path.dirname(os.path.realpath(shutil.which("rt"))))
        flags = "-O2 -fPIC -shared -nostdlib -fno-builtin -fuse-ld=lld -Wno-everything".split()
        words = [f"{kit}/toolchain/bin/clang", *flags, "-o", self.library, f"{HERE}/refuse.c"]
        subprocess.run(words, check=True)

    def run(self, command, source, refused=""):
        """The answer, and how many growths were asked for."""
        if os.path.exists(self.count):
            os.remove(self.count)
        setting = {
            "LD_PRELOAD": self.library,
            "GROWTH_COUNT": self.count,
            "GROWTH_REFUSE": refused,
        }
        with open(source, "rb") as stream:
            ran = subprocess.run(
                command, stdin=stream, capture_output=True, env=setting, timeout=60
            )
        if not os.path.exists(self.count):
            sys.exit(
                f"growths: {command} with growth {refused or 'none'} refused did not end by itself:"
                f" {ran.stderr[-300:]}"
            )
        with open(self.count) as file:
            return Answer(ran.returncode, ran.stdout, ran.stderr), int(file.read())


def refuses_program(answer, whole):
    is_error = answer.status == 4 and answer.messages == b"out of memory\n"
    return is_error and whole.output.startswith(answer.output)


def refuses_test(answer, _whole):
    error = rb"error: (\w*\()?(AllocError|OutOfMemory)\b"
    return answer.status == 101 and re.match(error, answer.messages)


def refuse_each(runner, name, command, source, is_refusal):
    whole, growths = runner.run(command, source)
    again = runner.run(command, source)
    if is_refusal(whole, whole) or again != (whole, growths):
        sys.exit(
            f"growths: {name}: with no growth refused the answers are {whole} and {again}"
        )
    refusals = 0
    for refused in [f"{number}{later}" for number in range(1, growths + 1) for later in ("", "+")]:
        answer, _ = runner.run(command, source, refused)
        if is_refusal(answer, whole):
            refusals += 1
        elif answer != whole:
            sys.exit(
                f"growths: {name}: with growth {refused} refused the answer is {answer},"
                f" neither a refusal nor {whole}"
            )
    print(
        f"growths: {name}: {growths} growths, each refused alone and with all later ones:"
        f" {refusals} refusals of {2 * growths} runs"
    )


def main(kind, program, *words):
    with tempfile.TemporaryDirectory(prefix="growths-") as room:
        runner = Runner(room)
        if kind == "program":
            source, *arguments = words
            name = f"{os.path.basename(program)} {' '.join(arguments)} < {os.path.basename(source)}"
            return refuse_each(runner, name, [program, *arguments], source, refuses_program)
        listed = subprocess.run([program, "--list"], capture_output=True, text=True, check=True)
        tests = re.findall(r"^(\S+): test$", listed.stdout, re.M)
        names = [name for name in tests if name.rpartition("::")[2].startswith(words[0])]
        if not names:
            sys.exit(f"growths: no test of {program} has a name that begins with {words[0]}")
        for name in names:
            refuse_each(runner, name, [program, name], os.devnull, refuses_test)


if __name__ == "__main__":
    if len(sys.argv) < 4 or sys.argv[1] not in ("program", "tests"):
        sys.exit(__doc__)
    main(*sys.argv[1:])
