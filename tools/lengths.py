#!/usr/bin/env python3
"""Lists what has grown too long: files above 400 lines, functions above 40, lines of documents above 300 characters."""
import pathlib
import re
import sys

TOP = pathlib.Path(__file__).resolve().parent.parent
MOST_FILE, MOST_FUNCTION, MOST_LINE = 400, 40, 300


def functions(lines):
    """The name and the length of each function's body, from its opening brace to the closing one."""
    name, began, indent = None, 0, ""
    for number, line in enumerate(lines):
        found = re.match(r"(\s*)(?:pub(?:\(crate\)|\(super\))? )?(?:const )?fn (\w+)", line)
        if found and name is None:
            name, began, indent = found[2], None, found[1]
        if name is not None and began is None and line.rstrip() == f"{indent}{{":
            began = number
        elif name is not None and began is None and line.rstrip().endswith(";") and not line.strip().startswith(("ensures", "requires", "→")):
            name = None
        elif name is not None and began is not None and line.rstrip() == f"{indent}}}":
            yield name, number - began - 1
            name = None


def main():
    long_files, long_functions, long_lines = [], [], []
    for path in sorted((TOP / "crates").glob("*/*/**/*")):
        if "out" in path.parts or path.suffix not in (".rt", ".antt"):
            continue
        lines = path.read_text(encoding="utf-8").splitlines()
        if len(lines) > MOST_FILE:
            long_files.append((len(lines), path))
        if path.suffix == ".rt":
            long_functions += [(length, path, name) for name, length in functions(lines) if length > MOST_FUNCTION]
    for path in [TOP / "README.md", *sorted((TOP / "docs").glob("*.md"))]:
        for number, line in enumerate(path.read_text(encoding="utf-8").splitlines(), 1):
            if len(line) > MOST_LINE:
                long_lines.append((len(line), path, number))
    print(f"ci: files above {MOST_FILE} lines: {len(long_files)}")
    for length, path in sorted(long_files, reverse=True)[:10]:
        print(f"ci:   {length} {path.relative_to(TOP)}")
    print(f"ci: functions above {MOST_FUNCTION} lines: {len(long_functions)}")
    for length, path, name in sorted(long_functions, reverse=True)[:10]:
        print(f"ci:   {length} {path.relative_to(TOP)} {name}")
    print(f"ci: lines of documents above {MOST_LINE} characters: {len(long_lines)}")
    for length, path, number in sorted(long_lines, reverse=True)[:10]:
        print(f"ci:   {length} {path.relative_to(TOP)}:{number}")
    return 0


if __name__ == "__main__":
    sys.exit(main())
