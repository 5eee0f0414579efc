#!/usr/bin/env python3
"""flushes.py PROGRAM

Stops the device at each call of a flush, and of a restart, in turn, and cuts the power in each way. The restart behind it has to open
what was flushed, or what the flush that failed would have flushed. Prints each report that is another, and ends with status 1 where there
was one.
"""
import subprocess
import sys

CRASHES = ["keep", "drop", "mix 1", "mix 2", "mix 3", "mix 4"]
# More than a flush or a restart makes here.
MOST_CALLS = 40

FIRST = "create /n\nopen /n\nwrite 1.1 0 61\nflush\nwrite 1.1 0 62\n"
FIRST_LINES = (
    "- change 1.1 make 2 1 n file 0 -\n= ok 2\n= ok 1.1\n- change 1.2 write 2 0 1\n= ok\n= ok 2\n- change 1.3 write 2 0 1\n= ok\n"
)
OLD, NEW = "= ok\n= resumed 2\n= data 61\n", "= ok\n= resumed 3\n= data 62\n"

# What is done before a stop and its lines; what is stopped; and the lines of that, of a power cut, of a restart and of a read, where the
# first event was done and where it was refused.
FLUSH = (
    FIRST,
    FIRST_LINES + "= ok\n",
    "flush\nflush\n",
    ["= ok 3\n= ok 3\n" + NEW, "= ok 3\n= refused Device\n" + NEW],
    ["= refused Device\n= refused Broken\n" + OLD, "= refused Device\n= refused Broken\n" + NEW],
)
RESTART = (
    FIRST + "crash drop\n",
    FIRST_LINES + "= ok\n= ok\n",
    "restart\n",
    ["= resumed 2\n" + OLD],
    ["= refused Device\n" + OLD],
)


def wrong(program, before, lines, events, done, refused):
    for crash in CRASHES:
        is_done = False
        for calls in range(MOST_CALLS):
            script = f"{before}stop {calls}\n{events}crash {crash}\nrestart\nget /n 0 5\n"
            report = subprocess.run([program, "filter"], input=script.encode(), capture_output=True, check=False).stdout.decode()
            if report not in [lines + it for it in done + refused]:
                yield f"{events.split()[0]} after {calls} calls, {crash}"
            is_done = report in [lines + it for it in done]
        if not is_done:
            yield f"{events.split()[0]} is never done, {crash}"


def main(program):
    found = [*wrong(program, *FLUSH), *wrong(program, *RESTART)]
    for it in found:
        print(it)
    return 1 if found else 0


if __name__ == "__main__":
    if len(sys.argv) != 2:
        sys.exit(__doc__)
    sys.exit(main(sys.argv[1]))
