#!/usr/bin/env python3
"""Times a program on large scripts, at half size and whole, and prints a table.

A time is the processor seconds that the program and the system spent for it, the least of some runs, with output to a
file; so what else the machine does counts little. The system counts their sum exactly, and tells the program's own part
by samples alone, which is nothing to measure a few milliseconds by. Half and whole run in turn, so what slows the machine
for a while meets both. A run of over five seconds is not repeated. Memory is the most that the program held on the whole,
in MiB. Another program with the same command line may stand beside, and runs in turn too: then the ratios of the two on
the whole are printed, and the first line in which their reports differ.

`--commits` times a write and a flush on volumes of 10, 1,000 and 9,000 files instead: a script with 1,000 rounds of
both, less the same script without them.
"""
import argparse
import os
import pathlib
import subprocess
import sys
import tempfile
import typing

import chances
import scripts

TOP = pathlib.Path(__file__).resolve().parent.parent
ITEMS = [10, 1000, 9000]
ROUNDS = 1000
# A run that takes so many seconds is long enough to be told by one.
LONG = 5
# The bytes of two reports that are compared at once.
BLOCK = 65_536


class Cost(typing.NamedTuple):
    """What a run took."""

    seconds: float
    mebibytes: float


def run(program, mode, script, report):
    """What one run took, which has to end as Done, or None."""
    with open(script, "rb") as source, open(report, "wb") as sink:
        child = subprocess.Popen([program, mode], stdin=source, stdout=sink)
        _, status, used = os.wait4(child.pid, 0)
        child.returncode = os.waitstatus_to_exitcode(status)
    return Cost(used.ru_utime + used.ru_stime, used.ru_maxrss / 1024) if child.returncode == 0 else None


def least(costs):
    """The cost of the run that took the least time, or None where one did not end as Done."""
    return None if None in costs else min(costs)


def is_long(costs):
    """Whether one of these runs did not end as Done, or took so long that it need not be repeated."""
    return any(cost is None or cost.seconds > LONG for cost in costs)


def difference(first, second):
    """The number of the first line in which two reports differ, from 1, or None. It reads them in blocks, since the system
    counts the memory that this process holds as that of each program which it starts."""
    number = 1
    with open(first, "rb") as one, open(second, "rb") as other:
        while True:
            block, beside = one.read(BLOCK), other.read(BLOCK)
            if block != beside:
                return number + os.path.commonprefix([block, beside]).count(b"\n")
            if not block:
                return None
            number += block.count(b"\n")


def written(folder, name, events):
    """The script of these events, as a file, and how many they are."""
    path, count = folder / f"{name}.script", 0
    with open(path, "w", encoding="ascii") as script:
        for count, line in enumerate(events, 1):
            script.write(line + "\n")
    return path, count


def measured(folder, mode, made, chosen):
    """For each script, by its name, how many events it has and what each program took; and what is to say of the reports.

    Each round runs each script once by each program, but for those that take long."""
    files = {name: written(folder, name, events) for name, events in made.items()}
    reports = {name: [folder / f"{name}.report-{n}" for n in range(len(chosen.programs))] for name in made}
    costs = {name: [[] for _ in chosen.programs] for name in made}
    for _ in range(chosen.runs):
        for number, program in enumerate(chosen.programs):
            for name, (script, _) in files.items():
                if not is_long(costs[name][number]):
                    costs[name][number].append(run(program, mode, script, reports[name][number]))
    lines = {name: difference(*pair) for name, pair in reports.items() if len(pair) == 2}
    if not chosen.keep:
        for path in [script for script, _ in files.values()] + sum(reports.values(), []):
            path.unlink()
    found = [(count, [least(runs) for runs in costs[name]]) for name, (_, count) in files.items()]
    return found, [f"{name}: the reports differ in line {line}" for name, line in lines.items() if line]


def shown(half, whole):
    """The columns of one program: its seconds on the half and on the whole, one over the other, and its memory."""
    times = "".join(f"{'no end' if cost is None else f'{cost.seconds:.3f}':>9}" for cost in (half, whole))
    return times + quotient(whole, half, "seconds") + f"{'-' if whole is None else f'{whole.mebibytes:.0f}':>6}"


def quotient(first, second, what):
    """One cost over another, or a dash where there is none, or it is too small to say anything."""
    known = first is not None and second is not None and getattr(second, what) >= 0.005
    return f"{getattr(first, what) / getattr(second, what):>7.2f}" if known else f"{'-':>7}"


def speeds(folder, chosen):
    """The table of the scripts, at half size and whole."""
    for number, program in enumerate(chosen.programs):
        print(f"{'program' if number == 0 else 'other':<8} {program}")
    columns = f"{'half':>9}{'whole':>9}{'growth':>7}{'MiB':>6}"
    heads = [columns] + [columns + f"{'time':>7}{'memory':>7}"] * (len(chosen.programs) - 1)
    print(f"{'script':<10}{'mode':<7}{'events':>8} |" + " |".join(heads))
    for mode, make, size in scripts.CASES + chances.CASES:
        if chosen.only and make.__name__ not in chosen.only:
            continue
        size //= chosen.divide
        parts = {f"{make.__name__}-half": make(size // 2), make.__name__: make(size)}
        [(_, half), (count, whole)], said = measured(folder, mode, parts, chosen)
        cells = [shown(h, w) for h, w in zip(half, whole)]
        if len(cells) == 2:
            cells[1] += quotient(*whole, "seconds") + quotient(*whole, "mebibytes")
        print(f"{make.__name__:<10}{mode:<7}{count:>8} |" + " |".join(cells), *said, sep="\n", flush=True)


def rounds(folder, chosen):
    """The table of a write and a flush."""
    print("milliseconds of a write of 8 bytes and a flush")
    print(f"{'files':>6}" + "".join(f"{name:>10}" for name in ("program", "other")[: len(chosen.programs)]))
    for items in ITEMS:
        parts = {f"bare-{items}": scripts.commits(items, 0), f"commits-{items}": scripts.commits(items, ROUNDS)}
        [(_, bare), (_, full)], said = measured(folder, "filter", parts, chosen)
        costs = [f"{'no end':>10}" if None in pair else f"{(pair[0].seconds - pair[1].seconds) * 1000 / ROUNDS:>10.3f}" for pair in zip(full, bare)]
        print(f"{items:>6}" + "".join(costs), *said, sep="\n", flush=True)


def words():
    parser = argparse.ArgumentParser(description=__doc__, formatter_class=argparse.RawDescriptionHelpFormatter)
    parser.add_argument("--program", type=pathlib.Path, help="the program; else the proved one, where it is here")
    parser.add_argument("--keep", metavar="FOLDER", type=pathlib.Path, help="keep the scripts and last reports there")
    parser.add_argument("--runs", type=int, default=5, help="runs of each script, from 1 (5)")
    parser.add_argument("--divide", type=int, default=1, help="divide the sizes of the scripts by this number (1)")
    parser.add_argument("--only", action="append", metavar="SCRIPT", help="this script only; may be given several times")
    parser.add_argument("--commits", action="store_true", help="time a write and a flush instead")
    parser.add_argument("other", metavar="OTHER", nargs="?", type=pathlib.Path, help="another program")
    return parser.parse_args()


def main():
    chosen = words()
    if not chosen.program:
        found = subprocess.run([sys.executable, TOP / "tools/proved.py", "find"], stdout=subprocess.PIPE, text=True, check=False)
        if found.returncode != 0:
            sys.exit("no proved program is here: ./cloudfiles --prove makes it")
        chosen.program = pathlib.Path(found.stdout.strip())
    chosen.programs = [chosen.program] + ([chosen.other] if chosen.other else [])
    with tempfile.TemporaryDirectory() as made:
        folder = chosen.keep or pathlib.Path(made)
        folder.mkdir(parents=True, exist_ok=True)
        (rounds if chosen.commits else speeds)(folder, chosen)


if __name__ == "__main__":
    main()
