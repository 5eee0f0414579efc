#!/usr/bin/env python3
"""A proved program: found, taken from what an earlier gate proved on this machine, or proved.

    tools/proved.py find [NAME]     prints the path of the proved program of exactly these files, or ends with 1. It proves nothing
    tools/proved.py prove [NAME]    proves it on all processors, with a line on standard error for each crate that is done

The program is cloudfiles, or cloudpair where that is the name.

What is found lies in target/, which git ignores. Some toolchains keep what `rt ci` proved by the checksums of all that it read;
with the others each library that it proved lies in its crate's out/. So the program that is taken was proved from these very files.
"""
import hashlib
import importlib.machinery
import importlib.util
import os
import pathlib
import re
import shutil
import subprocess
import sys
import tempfile
import time

sys.dont_write_bytecode = True
TOP = pathlib.Path(__file__).resolve().parent.parent
TARGET = TOP / "target"
NAMES = ("cloudfiles", "cloudpair")
NAME = sys.argv[2] if len(sys.argv) == 3 else NAMES[0]
PROGRAM = TARGET / NAME
STAMP = TARGET / f"{NAME}.sum"
PARTS = ("src", "specs", "proofs")
# The share of a crate of which no seconds are known.
USUAL = 60


def say(words):
    print(f"{NAME}: {words}", file=sys.stderr, flush=True)


def below(name, uses, found):
    """The crates that a crate stands on, each after those below it, and then the crate."""
    for it in uses[name]:
        if it in uses and it not in found:
            below(it, uses, found)
    if name not in found:
        found.append(name)
    return found


def crates():
    """The crates of the program, lowest first."""
    uses = {}
    for line in (TOP / "crates.txt").read_text(encoding="utf-8").splitlines():
        name, colon, libraries = line.split("#")[0].partition(":")
        if colon:
            uses[name.split()[0]] = libraries.split()
    return below(NAME, uses, [])


def files(names):
    """The files that a proof of these crates reads."""
    yield TOP / "crates.txt"
    for name in names:
        for part in PARTS:
            yield from sorted(it for it in (TOP / "crates" / name / part).rglob("*") if it.is_file())


def checksum(names):
    made = hashlib.sha256()
    for path in files(names):
        made.update(f"{path.relative_to(TOP)}\0".encode() + path.read_bytes() + b"\0")
    return made.hexdigest()


def is_current(names):
    """Whether the program in target/ was made of these files: none is newer, or all are the same."""
    if not (PROGRAM.exists() and STAMP.exists()):
        return False
    made = STAMP.stat().st_mtime
    if all(it.stat().st_mtime <= made for it in files(names)):
        return True
    if STAMP.read_text(encoding="ascii") != checksum(names):
        return False
    STAMP.touch()
    return True


def toolchain():
    """The toolchain's command, as a module: it knows where `rt ci` keeps what it proved."""
    path = os.path.realpath(shutil.which("rt"))
    loader = importlib.machinery.SourceFileLoader("rt_of_kit", path)
    made = importlib.util.module_from_spec(importlib.util.spec_from_loader("rt_of_kit", loader))
    sys.modules["rt_of_kit"] = made
    loader.exec_module(made)
    return made


def newest(paths):
    return max(it.stat().st_mtime for it in paths)


def made_in(top, names):
    """The program that `rt ci` made in this folder, where each library below it was proved after the last change of its files."""
    program = top / f"crates/{NAME}/out/{NAME}"
    made = {name: top / f"crates/{name}/out/rlib/{name}.rlib/format" for name in names}
    made[NAME] = program
    if not all(it.exists() for it in made.values()):
        return None
    of = lambda name: [it for part in PARTS for it in (top / "crates" / name / part).rglob("*") if it.is_file()]
    return program if all(newest(of(name)) <= made[name].stat().st_mtime for name in names) else None


def put(program, names):
    """Puts a proved program into target/. Whether there is one."""
    if program is None:
        return False
    TARGET.mkdir(exist_ok=True)
    shutil.copyfile(program, PROGRAM)
    PROGRAM.chmod(0o755)
    STAMP.write_text(checksum(names), encoding="ascii")
    return True


def take(names):
    """Takes the program that an earlier `rt ci` kept of these files. Whether there is one."""
    os.chdir(TOP)
    rt = toolchain()
    rt.Crate.cuts_libraries = True
    rt.rtlib.guarded()
    rt.Crate.allowed = rt.handles_of(str(TOP))
    every = [it for it in rt.crates_of(str(TOP)) if it.name in names]
    kept = rt.Kept(every)
    for crate in sorted(every, key=lambda it: names.index(it.name)):
        # (what stands there already would make the kept one count as damaged)
        shutil.rmtree(f"{crate.folder}/out/rlib", ignore_errors=True)
        os.makedirs(f"{crate.folder}/out", exist_ok=True)
        if not kept.give(crate, False, kept.key(crate)):
            return False
        if not crate.is_program:
            kept.is_built(crate)
    return put(TOP / f"crates/{NAME}/out/{NAME}", names)


def find(names):
    if is_current(names) or put(made_in(TOP, names), names):
        return True
    if not shutil.which("rt"):
        return False
    try:
        return take(names)
    except (AttributeError, TypeError, OSError, SystemExit):
        # (this toolchain keeps nothing)
        return False


def seconds():
    """The processor seconds that the proof of each crate takes, as they were measured once."""
    lines = (TOP / "tools/seconds.txt").read_text(encoding="ascii").splitlines()
    return {name: int(number) for name, number in (line.split() for line in lines if line and not line.startswith("#"))}


def copied(names):
    """A copy of the crates, without their tests and edits. It lies outside this repository, because `rt ci` runs at the top of one."""
    place = pathlib.Path(tempfile.mkdtemp(prefix=f"{NAME}-prove-"))
    for name in names:
        for part in (*PARTS, "args", "stdin", "stdout"):
            old, new = TOP / "crates" / name / part, place / "crates" / name / part
            if old.is_dir():
                shutil.copytree(old, new)
            elif old.exists():
                shutil.copyfile(old, new)
    for name in ("crates.txt", "HANDLES"):
        shutil.copyfile(TOP / name, place / name)
    text = (place / "crates.txt").read_text(encoding="utf-8").splitlines()
    kept = [line for line in text if line.startswith("#") or line.split(":")[0].split()[0] in names]
    (place / "crates.txt").write_text("\n".join(kept) + "\n", encoding="utf-8")
    return place


def minutes_left(todo, started, done, weights):
    """About how long the rest takes, by the crates that were proved in this run."""
    share = lambda names: sum(weights.get(it, USUAL) for it in names)
    rate = (time.monotonic() - started) / share(done) if done else 1 / (os.cpu_count() or 1)
    return max(1, round(share(todo) * rate / 60))


def prove(names):
    place, weights, started, done, todo = copied(names), seconds(), time.monotonic(), [], list(names)
    say(f"proving {len(names)} crates, about {minutes_left(todo, started, done, weights)} minutes; the whole log is {TARGET}/prove.log")
    environment = dict(os.environ, RT_JOBS=str(os.cpu_count() or 1))
    with open(TARGET / "prove.log", "w", encoding="utf-8") as log:
        run = subprocess.Popen(["rt", "ci"], cwd=place, env=environment, text=True, errors="replace",
                               stdin=subprocess.DEVNULL, stdout=subprocess.PIPE, stderr=subprocess.STDOUT)
        for line in run.stdout:
            log.write(line)
            found = re.match(r"rt: (\w+) (proved$|is kept)", line)
            if found and found[1] in todo:
                todo.remove(found[1])
                if found[2] == "proved":
                    done.append(found[1])
                left = f"about {minutes_left(todo, started, done, weights)} minutes left" if todo else "done"
                say(f"{len(names) - len(todo)} of {len(names)} crates: {found[1]}; {left}")
            elif "NOT PROVED" in line:
                say(line.strip())
    is_proved = run.wait() == 0 and (put(made_in(place, names), names) or find(names))
    shutil.rmtree(place, ignore_errors=True)
    return is_proved


def main(words):
    if words[:1] not in (["find"], ["prove"]) or len(words) > 2 or NAME not in NAMES:
        sys.exit(__doc__)
    names = crates()
    if words[0] == "prove" and not shutil.which("rt"):
        say("the toolchain (rt) is not here")
        return 1
    TARGET.mkdir(exist_ok=True)
    if not (find(names) or words[0] == "prove" and prove(names)):
        return 1
    print(PROGRAM)
    return 0


if __name__ == "__main__":
    sys.exit(main(sys.argv[1:]))
