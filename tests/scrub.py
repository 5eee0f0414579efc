#!/usr/bin/env python3
"""scrub.py PROGRAM REFERENCE [COUNT [SEED]]

Compares what two programs say of damaged devices. Each is run with the word `scrub` and the bytes of a device on standard
input. Makes a small device of each format and some that are damaged by hand, and then COUNT devices (1,000 where it is not
given) with one byte of a made device changed, at a place that is read. Prints each device on which output or status differ,
and ends with status 1 where there was one.
"""
import collections
import random
import subprocess
import sys

SIZE = 3_178_496
HALF = 1_572_864
JOURNAL = {1: 1_048_576, 2: 1_310_720}
NOW = (1, 9)


def number(size, value):
    return value.to_bytes(size, "big")


def runs(spans):
    return number(4, len(spans)) + b"".join(number(4, start) + number(4, length) for start, length in spans)


def row(form, item, parent, flags, name=b"", size=0, base=0, identity=b"", here=(), valid=(), modified=(), since=(), extents=()):
    """The bytes of a row. Places are runs of a start and a length, extents pairs of a block and a cluster."""
    head = number(8, item) + number(8, parent) + number(2, flags) + b"\0" + number(4, size) + number(4, base)
    pairs = (number(4, 1) + number(4, 2)) * 2
    access = number(8, 0) if form == 2 else b""
    texts = number(1, len(name)) + name + number(2, len(identity)) + identity
    return head + pairs + access + texts + b"".join(map(runs, (here, valid, modified, since))) + runs(extents)


def header(form, count, following):
    return number(4, NOW[0]) + number(4, NOW[1]) + number(8, count) + number(8, following) + (number(8, 3) if form == 2 else b"")


def records(pairs):
    return number(4, len(pairs)) + b"".join(number(1, len(key)) + key + number(2, len(value)) + value for key, value in pairs)


def image(form, rows, following=9, pairs=()):
    return number(1, form) + header(form, 7, following) + number(4, len(rows)) + b"".join(rows) + records(pairs)


def payload(form, removed, rows, keys, pairs):
    gone = number(4, len(removed)) + b"".join(number(8, item) for item in removed)
    names = number(4, len(keys)) + b"".join(number(1, len(key)) + key for key in keys)
    return header(form, 8, 9) + gone + number(4, len(rows)) + b"".join(rows) + names + records(pairs)


def device(form, whole, payloads=(), side=0):
    """The bytes of a device, and the places of it that are read."""
    out = bytearray(SIZE)
    start = side * HALF
    slot = b"\1CFVOL0" + b"%d" % form + number(8, 5) + number(4, len(whole)) + number(8, SIZE)
    out[start : start + 28] = slot
    out[start + 4096 : start + 4096 + len(whole)] = whole
    at = start + JOURNAL[form]
    for text in payloads:
        record = b"\1" + number(4, len(text)) + text
        out[at : at + len(record)] = record
        at += len(record)
    other = (1 - side) * HALF
    read = [*range(start, start + 28), *range(other, other + 8), *range(start + 4096, start + 4096 + len(whole)), *range(start + JOURNAL[form], at + 1)]
    return bytes(out), read


def small(form, side):
    """A device with files, directories and records, and two payloads."""
    all_bytes = [(0, 5000)]
    rows = [
        row(form, 1, 0, 5),
        row(form, 2, 1, 7, b"docs"),
        row(form, 3, 2, 48, b"a", 5000, 0, b"", all_bytes, all_bytes, all_bytes, all_bytes, [(0, 6), (1, 2)]),
        row(form, 4, 2, 74, b"b.txt", 9000, 9000, b"identity", [(4096, 4096)], [(4096, 100)], (), (), [(1, 0)]),
        row(form, 5, 2, 3, b"later"),
        row(form, 7, 1, 0, b"empty"),
    ]
    first = payload(form, [7], [row(form, 4, 1, 74, b"c.txt", 9000, 9000, b"identity", [(0, 1), (8999, 1)], (), (), (), [(0, 0), (2, 7)])], [b"k"], [(b"m", b"value")])
    second = payload(form, [], [row(form, 8, 2, 5, b"open")], [], [])
    return device(form, image(form, rows, 9, [(b"k", b"v"), (b"l", b"")]), [first, second], side)


def by_hand():
    """Devices that one changed byte does not make."""
    many = [row(1, 1, 0, 5)] + [row(1, item, 1, 0, b"%d" % item) for item in range(2, 10_003)]
    deep = [row(2, 1, 0, 5)] + [row(2, item, item - 1, 5, b"d") for item in range(2, 36)]
    twice = [(0, 1)]
    held = [row(2, item, 1, 16, b"f%d" % item, 1, 0, b"", twice, (), twice, (), [(0, item % 2)]) for item in range(2, 6)]
    return {
        "empty": b"",
        "one block short": small(2, 0)[0][:-4096],
        "one byte long": small(2, 0)[0] + b"\0",
        "zeros": bytes(SIZE),
        "too many rows": device(1, image(1, many, 10_003))[0],
        "too deep": device(2, image(2, deep, 40))[0],
        "no root": device(2, image(2, deep[1:], 40))[0],
        "two names": device(2, image(2, [deep[0], row(2, 2, 1, 0, b"n"), row(2, 3, 1, 0, b"n")]))[0],
        "clusters twice": device(2, image(2, [deep[0], *held]))[0],
        "an unlisted parent": device(2, image(2, [deep[0], row(2, 2, 1, 3, b"u"), row(2, 3, 2, 0, b"n")]))[0],
    }


def judge(program, data):
    done = subprocess.run([program, "scrub"], input=data, capture_output=True, check=False)
    return done.returncode, done.stdout


def main(program, reference, count=1000, seed=1):
    random.seed(int(seed))
    made = [small(form, side) for form in (1, 2) for side in (0, 1)]
    devices = {**by_hand(), **{f"made {i}": data for i, (data, _) in enumerate(made)}}
    for i in range(int(count)):
        which = random.randrange(len(made))
        data, read = made[which]
        at, mask = random.choice(read), random.choice([1, 128, random.randrange(1, 256)])
        devices[f"{i}: made {which}, byte {at} xor {mask}"] = data[:at] + bytes([data[at] ^ mask]) + data[at + 1 :]
    seen, wrong = collections.Counter(), 0
    for name, data in devices.items():
        said, wanted = judge(program, data), judge(reference, data)
        seen.update(b" ".join(line.split()[: 2 - line.startswith(b"clean")]).decode() for line in wanted[1].splitlines())
        if said != wanted:
            wrong += 1
            print(f"{name}\n  says {said}\n  not {wanted}")
    print(", ".join(f"{kind} {n}" for kind, n in sorted(seen.items())))
    print(f"{len(devices)} devices, {wrong} judged otherwise")
    return 1 if wrong else 0


if __name__ == "__main__":
    if len(sys.argv) < 3:
        sys.exit(__doc__)
    sys.exit(main(*sys.argv[1:5]))
