#!/usr/bin/env python3
"""room.py PROGRAM [OTHER]     each step of the engine that a full table refuses, in scripts of `replay`.

The table is filled up to a number of bytes by files with long names, in a directory that is excluded from uploads. Then comes a sync,
or a listing, that needs more: with no room at all first, then with one byte more each time, until nothing is left out. So each change
and each record of it is refused for room in its turn. Once the remote is full, too. At the end one of those files is deleted, and
another sync has to bring all about. Where other lines came than before, the bytes that a power cut leaves have to be judged clean. With
another program that has the same command line the two reports have to be the same. `--every N` takes each Nth number of bytes. Prints
which lines came with how much room, and what does not hold, and ends with status 1 where there was something.
"""
import argparse
import itertools
import subprocess
import sys

# The most bytes of a volume's image, and those of its header, of a row and of an auxiliary record besides texts.
IMAGE, HEADER, ROW, RECORD = 1_306_624, 41, 74, 3
NAME = 255
# The most items of the remote, the root counted.
REMOTE = 10_000

# What stands before the table is full, what is done with little room, and the bytes of the image by then: those of the rows with their
# texts, of runs and of records.
CASES = {
    "new file of another device": ([], ["peer put /a 6161", "sync"], 0),
    "new directory of another device": ([], ["peer mkdir /d", "sync"], 0),
    "new file to upload": (["create /n"], ["sync"], ROW + 1),
    "new directory to upload": (["mkdir /d"], ["sync"], ROW + 1),
    "both sides made a directory": (["mkdir /d"], ["peer mkdir /d", "sync"], ROW + 1),
    "a name is taken here": (["create /a"], ["peer put /a 61", "sync"], ROW + 1),
    "both sides wrote": (
        ["peer put /a 6161", "sync", "open /a", "write 1.1 0 62", "close 1.1"],
        ["peer put /a 6363", "sync"],
        ROW + 1 + 24 + 3 * 8 + 8 + (RECORD + 9 + 8 + 1) + (RECORD + 1 + 8),
    ),
    "a removal to upload": (
        ["peer put /a 61", "sync"],
        ["delete /a", "sync"],
        ROW + 1 + 24 + (RECORD + 9 + 8 + 1) + (RECORD + 1 + 8),
    ),
    "another path to upload": (
        ["peer put /a 61", "sync"],
        ["rename /a /b", "sync"],
        ROW + 1 + 24 + (RECORD + 9 + 8 + 1) + (RECORD + 1 + 8),
    ),
    "entries of a directory": (
        ["policy partial full", "peer mkdir /d", "sync", "peer put /d/f 61", "peer put /d/g 62"],
        ["list /d"],
        ROW + 1 + 24 + (RECORD + 9 + 8 + 1) + (RECORD + 1 + 8),
    ),
}


def filler(room, used):
    """Events that leave this room, where this much is used beside the root, and the path of a file that may go then."""
    left = IMAGE - HEADER - ROW - used - (ROW + len("full")) - room
    count = left // (ROW + NAME) - 1
    last = left - count * (ROW + NAME)
    first = min(NAME, last - ROW - ROW - 1)
    names = [f"{n:0{NAME}}" for n in range(count)] + ["a" * first, "b" * (last - ROW - ROW - first)]
    return ["mkdir /full", "pin /full excluded"] + [f"create /full/{name}" for name in names], f"/full/{names[0]}"


def run(program, word, source):
    return subprocess.run([program, word], input=source, capture_output=True)


def answers(report):
    """The lines of each event of a report."""
    events = [[]]
    for line in report.decode().split("\n")[:-1]:
        events[-1].append(line)
        if line.startswith("= "):
            events.append([])
    return events[:-1]


def told(events):
    """The kinds of the lines of some events, without requests and replies, and whether a step was left out for room. A listing that finds
    no room stays pending."""
    lines = [line for event in events for line in event]
    words = [" ".join(line.split(" ")[1:4:2]) if " change " in line else line[2:] for line in lines if not line.startswith("- sent ")]
    return ", ".join(words), "- skipped TableFull" in lines or "= pending 1.1" in lines


class Tries:
    def __init__(self, program, other):
        self.program, self.other, self.runs, self.wrong = program, other, 0, 0

    def complain(self, text):
        self.wrong += 1
        print(text)

    def one(self, name, room):
        """The script with this room, what was told then, and whether something was left out."""
        before, event, used = CASES[name]
        full, spare = filler(room, used)
        script = before + full + event + [f"delete {spare}", "sync", "sync"]
        source = "\n".join(script).encode() + b"\n"
        ran = run(self.program, "replay", source)
        self.runs += 1
        events = answers(ran.stdout)
        if ran.returncode != 0 or len(events) != len(script):
            self.complain(f"{name}, {room} bytes: status {ran.returncode} after {len(events)} of {len(script)} events")
            return source, "", False
        if events[-1][-1] != "= ok 0" or "skipped" in " ".join(events[-1]):
            self.complain(f"{name}, {room} bytes: {events[-1]} in the end")
        if self.other and run(self.other, "replay", source).stdout != ran.stdout:
            self.complain(f"{name}, {room} bytes: the other program's report differs")
        return source, *told(events[len(before) + len(full):-3])

    def judge(self, name, room, source):
        judged = run(self.program, "scrub", run(self.program, "image", source).stdout).stdout.split()
        if judged[:1] != [b"clean"]:
            self.complain(f"{name}, {room} bytes: the bytes are judged {judged}")

    def case(self, name, every):
        """With more and more room, until nothing was left out."""
        last, begin = None, 0
        for room in itertools.count(0, every):
            source, lines, short = self.one(name, room)
            if lines != last:
                self.judge(name, room, source)
                if last is not None:
                    print(f"{name}, {begin} to {room - 1} bytes: {last}")
                last, begin = lines, room
            if not short:
                print(f"{name}, from {begin} bytes on: {last}")
                return

    def remote(self):
        """A file that finds no room in the remote, which has as many items as it may, until one of them is removed."""
        items = [f"peer put /d/{n} -" for n in range(REMOTE - 2)]
        script = ["policy partial full", "peer mkdir /d", *items, "create /n", "sync", "peer remove /d/0", "sync"]
        source = "\n".join(script).encode() + b"\n"
        ran = run(self.program, "replay", source)
        self.runs += 1
        events = answers(ran.stdout)
        if len(events) != len(script) or "- skipped Quota" not in events[-3] or events[-1][-1] != "= ok 0":
            self.complain(f"a full remote: {events[-3:]}")
        if self.other and run(self.other, "replay", source).stdout != ran.stdout:
            self.complain("a full remote: the other program's report differs")


def main():
    parser = argparse.ArgumentParser(description=__doc__, formatter_class=argparse.RawDescriptionHelpFormatter)
    parser.add_argument("--every", type=int, default=1)
    parser.add_argument("--only", choices=list(CASES))
    parser.add_argument("program")
    parser.add_argument("other", nargs="?")
    chosen = parser.parse_args()
    tries = Tries(chosen.program, chosen.other)
    for name in [chosen.only] if chosen.only else CASES:
        tries.case(name, chosen.every)
    if not chosen.only:
        tries.remote()
    print(f"{tries.runs} runs, {tries.wrong} wrong")
    sys.exit(1 if tries.wrong else 0)


main()
