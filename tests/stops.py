#!/usr/bin/env python3
"""stops.py PROGRAM SCRIPT ..     a stop at each device call of each event of some scripts of `replay`.

Each event of a script is done again and again: behind `stop 0`, `stop 1` and so on, until it meets no failed call any more. Each
time the power is cut in each way, and the volume opened again. The restart has to keep at least what was made sure (by a flush, by an
earlier restart, or directly before an upload was sent), and at most the changes that were accepted. The bytes that a power cut which
keeps all leaves have to be judged clean, with such a count. `--every N` takes each Nth event only. Prints what does not hold, and ends
with status 1 where there was something.
"""
import argparse
import subprocess
import sys

CRASHES = ["drop", "keep", "mix 7"]
UPLOADS = {"put", "mkdir", "move", "remove"}
# An event that is still stopped after so many calls is taken to go on for ever.
MOST_CALLS = 400


def run(program, word, source):
    return subprocess.run([program, word], input=source, capture_output=True).stdout


def counted(report):
    """The answers of a report, how many changes stand at its end, and how many of them were made sure."""
    answers, count, sure = [], 0, 0
    for line in report.decode().split("\n"):
        words = line.split(" ")
        if line.startswith("- change "):
            count += 1
        elif words[:1] == ["-"] and words[1] in ("sent", "lost") and words[3] in UPLOADS:
            sure = count
        elif line.startswith("= "):
            answers.append(line)
            if words[1] == "resumed":
                count = sure = int(words[2])
    return answers, count, sure


class Tries:
    def __init__(self, program):
        self.program, self.runs, self.stops, self.wrong = program, 0, 0, 0

    def complain(self, script, text):
        self.wrong += 1
        print(f"{script}: {text}")

    def events(self, script, every):
        with open(script, "rb") as source:
            lines = [line for line in source.read().split(b"\n") if line and not line.startswith(b"#")]
        for place in range(0, len(lines), every):
            word = lines[place].split(b" ")[0]
            if word not in (b"stop", b"crash"):
                self.event(script, lines, place)

    def event(self, script, lines, place):
        for calls in range(MOST_CALLS):
            stopped = lines[:place] + [b"stop %d" % calls, lines[place]]
            answers, count, sure = counted(run(self.program, "replay", b"\n".join(stopped) + b"\n"))
            self.runs += 1
            # A flush that is answered makes all sure; so it is of each one before.
            sure = max([sure] + flushed(lines[:place + 1], answers[:place] + answers[place + 1:]))
            for crash in CRASHES:
                self.crash(script, stopped, crash, count, sure)
            if answers[-1] != "= refused Device":
                return
            self.stops += 1
            self.image(script, stopped, count, sure)

    def crash(self, script, stopped, crash, count, sure):
        report = run(self.program, "replay", b"\n".join(stopped + [b"crash " + crash.encode(), b"restart"]) + b"\n")
        self.runs += 1
        words = report.decode().rstrip("\n").split("\n")[-1].split(" ")
        if words[1] != "resumed" or not sure <= int(words[2]) <= count:
            self.complain(script, f"{stopped[-2:]} crash {crash}: {words}, and not {sure} to {count}")

    def image(self, script, stopped, count, sure):
        judged = run(self.program, "scrub", run(self.program, "image", b"\n".join(stopped) + b"\n")).decode().split()
        if judged[:1] != ["clean"] or not sure <= int(judged[1]) <= count:
            self.complain(script, f"{stopped[-2:]}: {judged}, and not {sure} to {count}")


def flushed(lines, answers):
    """The counts that flushes were answered with since the last restart."""
    counts = []
    for line, answer in zip(lines, answers):
        if answer.startswith("= resumed"):
            counts = []
        elif line == b"flush" and answer.startswith("= ok"):
            counts.append(int(answer.split(" ")[2]))
    return counts


def main():
    take = argparse.ArgumentParser(description=__doc__)
    take.add_argument("--every", type=int, default=1)
    take.add_argument("program")
    take.add_argument("scripts", nargs="+")
    words = take.parse_args()
    tries = Tries(words.program)
    for script in words.scripts:
        tries.events(script, words.every)
    print(f"{tries.runs} runs, {tries.stops} events stopped, {tries.wrong} wrong")
    sys.exit(tries.wrong > 0)


if __name__ == "__main__":
    main()
