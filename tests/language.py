#!/usr/bin/env python3
"""language.py PROGRAM

Tries what the program takes: each line of `tests/lines/` alone as a script, in the mode of its file, in both, or in none; scripts with a bad
line behind others; scripts and reports at their limits; and words that are no command. Prints each that goes otherwise, and ends with
status 1 where there was one.
"""
import os
import subprocess
import sys

MODES = ("replay", "filter")
USAGE, BAD_SCRIPT, TOO_LONG = 2, 3, 8
MOST_EVENTS, MOST_BYTES = 100_000, 16_777_216

# Scripts of `replay`, and the line at which each is bad, none where it is read.
SCRIPTS = {
    b"": None,
    b"sync": None,
    b"\n\n#\xff\x00\r\nsync\n": None,
    b"sync\r\n": 1,
    b"\n#\n\nsync \n": 4,
    b"sync\nflush\nflsh\n": 3,
    b"sync\nflsh\nflush": 2,
    b"get /a/b 0 1\nget / 0 1": None,
    b"open /\xff": 1,
    b"open /a\x7f": 1,
    b"flush\r": 1,
    b"open /a\tb": 1,
    b"#\nsync\n" * MOST_EVENTS: None,
    b"#\nsync\n" * MOST_EVENTS + b"sync": 2 * MOST_EVENTS + 1,
    b"peer put /a " + b"6" * 4_000_000 + b"\npeer put /b 61*16000000\n" + b"get /b 12345 67890\n" * 20: None,
    b"#" * MOST_BYTES: None,
}

# Two reads of the largest file make a report that is too long. All texts but that of the second are written.
LONG_REPORT = b"create /n\nopen /n\nsize 1.1 16777216\nget /n 0 16777216\nget /n 0 16777216\n"
ONE_READ = b"- change 1.1 make 2 1 n file 0 -\n= ok 2\n= ok 1.1\n- change 1.2 size 2 16777216\n= ok\n= data " + b"0" * 33_554_432 + b"\n"

NO_COMMANDS = [
    [],
    ["play"],
    ["replay", "filter"],
    ["filter", "now"],
    ["--help"],
    ["help"],
    ["--version"],
    ["filter", "-h"],
    ["Filter"],
    ["gen"],
    ["gen", "01"],
    ["gen", "4294967296"],
    ["gen", "1", "2"],
    ["scrub", "1"],
]


def run(program, words, text=b""):
    return subprocess.run([program, *words], input=text, capture_output=True, check=False)


def is_read(program, mode, text, line):
    """Whether the script is read, or bad at that line."""
    done = run(program, [mode], text)
    if line is None:
        return done.returncode == 0
    return done.returncode == BAD_SCRIPT and done.stdout == b"bad line %d\n" % line


def lines_of(name):
    here = os.path.dirname(os.path.abspath(__file__))
    with open(os.path.join(here, "lines", f"{name}.lines"), "rb") as file:
        return file.read().splitlines()


def wrong_lines(program):
    for name in ("both", "none", *MODES):
        for line in lines_of(name):
            for mode in MODES:
                if not is_read(program, mode, line, None if name in ("both", mode) else 1):
                    yield f"{mode}: {line.decode()}"


def wrong_scripts(program):
    for text, line in SCRIPTS.items():
        if not is_read(program, "replay", text, line):
            yield f"a script that begins with {text[:40]}, of {len(text)} bytes"
    if run(program, ["replay"], b"#" * (MOST_BYTES + 1)).returncode != TOO_LONG:
        yield "a script of too many bytes"
    done = run(program, ["filter"], LONG_REPORT)
    if done.returncode != TOO_LONG or done.stdout != ONE_READ:
        yield "a report of too many bytes"


def wrong_words(program):
    for words in NO_COMMANDS:
        done = run(program, words)
        if done.returncode != USAGE or done.stdout or done.stderr.count(b"\n") != 1:
            yield f"words {words}"


def main(program):
    wrong = [*wrong_lines(program), *wrong_scripts(program), *wrong_words(program)]
    for it in wrong:
        print(it)
    return 1 if wrong else 0


if __name__ == "__main__":
    if len(sys.argv) != 2:
        sys.exit(__doc__)
    sys.exit(main(sys.argv[1]))
