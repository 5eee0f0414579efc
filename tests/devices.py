#!/usr/bin/env python3
"""devices.py PROGRAM

Makes devices, most of them damaged at one place, and compares what `PROGRAM scrub` says of each with `tests/devices.txt`, which has a
line for each: its name, and then the lines of the judgement, parted by semicolons. At the program's own size the clean ones have
to be migrated, and some of the others refused. Prints each device that is judged otherwise, and ends with status 1 where there was one.
"""
import os
import subprocess
import sys
import tempfile

sys.dont_write_bytecode = True
import scrub

# The size of the devices that are migrated.
OWN = 67_108_864
# How many clusters the devices have that are judged.
CLUSTERS = 8
BAD_IMAGE = 10
IMAGE, OTHER_SLOT, OTHER_IMAGE = 4096, 1_572_864, 1_576_960
ALL = [(0, 5000)]

# The slot that a migration writes: an open gate, CFVOL02, the next generation, an image of 115 bytes, the size of the device; and the front
# of its image: the format, and the next epoch.
MIGRATED = b"\1CFVOL02" + scrub.number(8, 6) + scrub.number(4, 115) + scrub.number(8, OWN)
FRONT = b"\2" + scrub.number(4, 2)


def rows_of_a_file(form):
    """The root, a directory 2 named d, and in it a file 3 named f of 5,000 local bytes in clusters 0 and 1."""
    file = scrub.row(form, 3, 2, 48, b"f", 5000, 0, b"", ALL, (), ALL, ALL, [(0, 0), (1, 1)])
    return [scrub.row(form, 1, 0, 5), scrub.row(form, 2, 1, 5, b"d"), file]


def changed(whole, place, byte):
    return whole[:place] + bytes([byte]) + whole[place + 1 :]


def slot(at, text):
    """A new volume of format 1 with other bytes in its slot."""
    made = bytearray(new(1))
    made[at : at + len(text)] = text
    return bytes(made)


def new(form, rows=None, following=2, payloads=()):
    return scrub.device(form, scrub.image(form, rows or [scrub.row(form, 1, 0, 5)], following), payloads)[0]


# Places in the image of the file in format 2, whose rows begin at 37, 111 and 186, and the bytes that make it unsound.
UNSOUND = {
    "the next item is the file": (24, 3),
    "the root is in a directory": (52, 1),
    "the root is none": (54, 4),
    "a parent that is not there": (126, 9),
    "a parent whose entries have not come": (128, 3),
    "a parent that is a file": (201, 3),
    "writes above the anchor in a file that is not dirty": (203, 32),
    "a byte past the size": (208, 135),
    "a number above the last": (216, 9),
    "a name with a mark": (238, 47),
    "a byte that neither base nor write gives": (268, 135),
    "a cluster of a block without bytes": (296, 2),
    "a cluster of two blocks": (300, 0),
}

# The same in format 1, whose rows begin at 29, 95 and 162.
NOT_SPELLED = {
    "a directory that is kept full": (46, 128),
    "a pin that is none": (47, 4),
    "a base without its flag": (52, 1),
    "an id that does not rise": (102, 0),
    "the next item is none": (24, 0),
}

# Lengths after which the image of the file is cut, in each format. The first field that lacks bytes is named.
CUTS = (0, 1, 5, 17, 25, 33, 37, 45, 56, 110, 130, 186, 236, 300, 304)
FIRST_CUTS = (0, 25, 29, 95, 272)

# Records that are no payload: the key of a record, in a payload that changes nothing else, does not come after the one before.
FALLING = [(b"q", b""), (b"c", b"")]

# Devices that a migration has to refuse.
REFUSED = {*UNSOUND, "an item 0", "no row", "a payload at fault", "a closed gate", "letters of no format"}


def devices():
    file = scrub.image(2, rows_of_a_file(2), 4)
    first = scrub.image(1, rows_of_a_file(1), 4)
    root = scrub.row(2, 1, 0, 5)
    said = {"a new volume": new(2), "a new volume of format 1": new(1)}
    said |= {"a file": scrub.device(2, file)[0], "a file in format 1": scrub.device(1, first)[0]}
    said |= {name: scrub.device(2, changed(file, *change))[0] for name, change in UNSOUND.items()}
    said |= {name + ", in format 1": scrub.device(1, changed(first, *change))[0] for name, change in NOT_SPELLED.items()}
    said |= {f"an image cut after {cut} bytes": scrub.device(2, file[:cut])[0] for cut in CUTS}
    said |= {f"an image in format 1 cut after {cut} bytes": scrub.device(1, first[:cut])[0] for cut in FIRST_CUTS}
    said |= {
        "two names": new(2, [root, scrub.row(2, 2, 1, 5, b"d"), scrub.row(2, 3, 1, 5, b"e")], 4),
        "one name twice": new(2, [root, scrub.row(2, 2, 1, 5, b"d"), scrub.row(2, 3, 1, 5, b"d")], 4),
        "an item 0": new(2, [scrub.row(2, 0, 1, 5, b"d"), root]),
        "two roots": new(2, [root, root]),
        "a file kept full": new(2, [root, scrub.row(2, 2, 1, 132, b"f")], 3),
        "a file kept full in format 1": new(1, [scrub.row(1, 1, 0, 5), scrub.row(1, 2, 1, 132, b"f")], 3),
        "more behind the rows": scrub.device(2, scrub.image(2, [root], 2) + b" ")[0],
        "a payload": new(2, payloads=[scrub.payload(2, [], [], [], [])]),
        "a payload in format 1": new(1, payloads=[scrub.payload(1, [], [], [], [])]),
        "a payload at fault": new(2, payloads=[scrub.payload(2, [], [], [], []), scrub.payload(2, [], [], [], FALLING)]),
        "a closed gate": slot(0, b"\0"),
        "letters of no format": slot(7, b"3"),
        "generation 0": slot(8, bytes(8)),
        "a length that is too small": slot(19, b"\x62"),
        "a length past the slot": slot(16, b"\0\x0f\xf0\1"),
        "another size": slot(27, b"\1"),
        "a format that is none": scrub.device(1, changed(scrub.image(1, [scrub.row(1, 1, 0, 5)], 2), 0, 3))[0],
        "no row": scrub.device(1, scrub.image(1, [], 2))[0],
        "a record that is none": new(1, payloads=[b""]),
        "a record past the journal": new(1)[: scrub.JOURNAL[1]] + b"\1\xff" + new(1)[scrub.JOURNAL[1] + 2 :],
        "a byte of the root": new(1, [scrub.row(1, 1, 0, 5, here=[(0, 1)])]),
        "a cluster of the root": new(1, [scrub.row(1, 1, 0, 5, extents=[(0, CLUSTERS)])]),
    }
    return said


def run(program, word, file, out):
    with open(file, "rb") as source:
        return subprocess.run([program, word], stdin=source, stdout=out, stderr=subprocess.DEVNULL, check=False).returncode


def judged(program, file):
    with tempfile.TemporaryFile() as out:
        run(program, "scrub", file, out)
        out.seek(0)
        return ";".join(out.read().decode().splitlines())


def is_migrated(program, file, clean):
    """Whether it is written in the format of today, where it is clean, and else refused."""
    with tempfile.TemporaryFile() as out:
        status = run(program, "migrate", file, out)
        length = os.fstat(out.fileno()).st_size
        return (status, length) == ((0, OWN) if clean else (BAD_IMAGE, 0))


def put(file, data, size):
    """Writes a device of that size, without its zeros at the end, so that the file takes little room."""
    with open(file, "wb") as out:
        out.write(data.rstrip(b"\0"))
        out.truncate(size)


def at_own_size(data):
    """The front of a device whose slot in the first half tells the program's own size."""
    return data[:20] + scrub.number(8, OWN) + data[28:]


def wrong_judgements(program, file, wanted):
    for name, data in devices().items():
        put(file, data, len(data))
        said = judged(program, file)
        if said != wanted.get(name):
            yield f"{name}: {said}"


def wrong_cuts(program, file):
    """The fronts of new volumes' images in which no field that lacks bytes is named."""
    for form in (1, 2):
        whole = scrub.image(form, [scrub.row(form, 1, 0, 5)], 2)
        for cut in range(len(whole)):
            data = scrub.device(form, whole[:cut])[0]
            put(file, data, len(data))
            said = judged(program, file).split(" ")
            if said[:2] != ["damage", "image"] or not IMAGE <= int(said[2]) <= IMAGE + cut:
                yield f"the first {cut} bytes of a new volume in format {form}"


def wrong_migrations(program, file, wanted):
    for name, data in devices().items():
        clean = wanted.get(name, "").startswith("clean")
        if clean or name in REFUSED:
            put(file, at_own_size(data), OWN)
            if not is_migrated(program, file, clean):
                yield f"{name}: migrated otherwise"
    whole = at_own_size(new(1))
    for size in (0, OWN - 1, OWN + 1):
        put(file, whole[:size], size)
        if not is_migrated(program, file, False) or judged(program, file) != f"damage size {size}":
            yield f"a device of {size} bytes"
    put(file, whole, OWN)
    with tempfile.TemporaryFile() as out:
        run(program, "migrate", file, out)
        for at, text in ((OTHER_SLOT, MIGRATED), (OTHER_IMAGE, FRONT)):
            out.seek(at)
            if out.read(len(text)) != text:
                yield f"a migrated device has other bytes at {at}"


def main(program):
    stored = os.path.join(os.path.dirname(os.path.abspath(__file__)), "devices.txt")
    with open(stored, encoding="utf-8") as lines:
        wanted = dict(line.rstrip("\n").split(": ") for line in lines)
    with tempfile.TemporaryDirectory() as folder:
        file = os.path.join(folder, "device")
        wrong = [*wrong_judgements(program, file, wanted), *wrong_cuts(program, file), *wrong_migrations(program, file, wanted)]
    for line in wrong:
        print(line)
    return 1 if wrong else 0


if __name__ == "__main__":
    if len(sys.argv) != 2:
        sys.exit(__doc__)
    sys.exit(main(sys.argv[1]))
