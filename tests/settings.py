#!/usr/bin/env python3
"""settings.py PROGRAM: runs the program on the words it may be started with, on files at its limits and on settings files at the edges of each
refusal, and compares what it prints with what document 02, Ask 9, says of it.

settings.py PROGRAM --beside OTHER FOLDER: holds what it prints of every file in a folder, at several versions, against what another
program prints; each refusal, an accepted file and one that is too long have to come.

settings.py --write FILE: writes the settings file of the crate's own run."""
import collections
import pathlib
import subprocess
import sys
import tempfile

USAGE, CANNOT_OPEN, TOO_LONG = "usage: settings VERSION FILE\n", "cannot open\n", "too long\n"


def number(n):
    """A number in groups of seven bits, least first, in its shortest form."""
    groups = [n % 128]
    while n := n // 128:
        groups[-1] += 128
        groups.append(n % 128)
    return bytes(groups)


def settings(rows, count=None):
    return number(len(rows) if count is None else count) + b"".join(number(n) for row in rows for n in row)


def printed(rows, least="unset", longest="unset", private="unset"):
    """What is printed of rows that are accepted."""
    lines = [f"rows {len(rows)}"]
    lines += [f"row {i} version {v} key {k} value {x}" for i, (v, k, x) in enumerate(rows)]
    lines += [f"least_edition {least}", f"greatest_length {longest}", f"private_allowed {private}"]
    return "".join(line + "\n" for line in lines)


GREATEST = 2**32 - 1
# The crate's own run: numbers of one to five groups at both ends, equal versions, values that later rows replace.
HOUSE = [
    (0, 2, 127), (1, 1, 0), (1, 2, 128), (127, 3, 0), (128, 2, 16383), (128, 2, 16384), (16383, 1, 3), (16384, 2, 2097151), (16384, 3, 1),
    (2097151, 2, 2097152), (2097152, 1, 2), (268435455, 2, 268435455), (268435456, 2, 268435456), (GREATEST, 2, GREATEST), (GREATEST, 1, 1),
]  # fmt: skip
LONGEST_FILE = settings([]) + bytes(65535)
FULL = [(GREATEST, 2, GREATEST)] * 512
FILES = {"house": settings(HOUSE), "none": settings([]), "empty": b"", "full": settings(FULL), "longest": LONGEST_FILE, "long": LONGEST_FILE + b"\0"}
NONE = printed([])
# The program's words, and what it prints.
CASES = [
    ([], USAGE),
    (["0"], USAGE),
    (["0", "none", "none"], USAGE),
    (["", "none"], USAGE),
    (["x", "none"], USAGE),
    (["1x", "none"], USAGE),
    (["-1", "none"], USAGE),
    (["+1", "none"], USAGE),
    ([" 1", "none"], USAGE),
    (["/", "none"], USAGE),
    ([":", "none"], USAGE),
    ([str(2**32), "none"], USAGE),
    ([str(2**32 + 1), "none"], USAGE),
    ([str(2**64 + 1), "none"], USAGE),
    (["9" * 9999, "none"], USAGE),
    (["x", "missing"], USAGE),
    ([str(2**32), "missing"], USAGE),
    (["0", "none"], NONE),
    ([str(GREATEST), "none"], NONE),
    (["0" * 9999 + "1", "none"], NONE),
    (["0", "missing"], CANNOT_OPEN),
    (["0", ""], CANNOT_OPEN),
    (["0", "."], CANNOT_OPEN),
    (["0", "empty"], "refused 55 0\n"),
    (["0", "longest"], "refused 60 1\n"),
    (["0", "long"], TOO_LONG),
    (["0", "house"], printed(HOUSE, longest=127)),
    (["1", "house"], printed(HOUSE, 0, 128)),
    (["127", "house"], printed(HOUSE, 0, 128, 0)),
    (["128", "house"], printed(HOUSE, 0, 16384, 0)),
    (["16384", "house"], printed(HOUSE, 3, 2097151, 1)),
    (["268435455", "house"], printed(HOUSE, 2, 268435455, 1)),
    ([str(GREATEST - 1), "house"], printed(HOUSE, 2, 268435456, 1)),
    ([str(GREATEST), "house"], printed(HOUSE, 1, GREATEST, 1)),
    ([str(GREATEST), "full"], printed(FULL, longest=GREATEST)),
    ([str(GREATEST - 1), "full"], printed(FULL)),
]
ROW, LAST = (5, 1, 3), (5, 3, 1)
WIDE, LARGE = b"\x80\x80\x80\x80", b"\xff\xff\xff\xff"
# Settings files, and the refusal or the rows that are printed of each.
EDGES = [
    (b"\x80", (55, 0)),
    (b"\x80\x00", (53, 0)),
    (b"\x80\x80\x00", (53, 0)),
    (WIDE[:3] + b"\x00", (53, 0)),
    (WIDE + b"\x00", (53, 0)),
    (WIDE + b"\x80\x00", (54, 0)),
    (WIDE + b"\x80", (54, 0)),
    (WIDE + b"\x10", (54, 0)),
    (LARGE + b"\x7f", (54, 0)),
    (LARGE + b"\x0f", (56, 0)),
    (LARGE, (55, 0)),
    (number(513), (56, 0)),
    (number(513) + settings([ROW])[1:], (56, 0)),
    (number(512), (55, 2)),
    (settings([ROW] * 513), (56, 0)),
    (settings([ROW] * 512), [ROW] * 512),
    (settings([(0, 1, 0)]), [(0, 1, 0)]),
    (settings([(5, 0, 0)]), (57, 2)),
    (settings([(5, 4, 0)]), (57, 2)),
    (settings([(5, 129, 0)]), (57, 2)),
    (b"\x01\x05\x81\x00\x03", (53, 2)),
    (b"\x01\x05" + WIDE + b"\x10", (54, 2)),
    (b"\x01\x05", (55, 2)),
    (b"\x01\x05\x04\x80\x00", (57, 2)),
    (settings([(5, 1, 4)]), (58, 3)),
    (settings([(5, 3, 2)]), (58, 3)),
    (settings([(300, 3, 2)]), (58, 4)),
    (b"\x01\x05\x01\x84\x00", (53, 3)),
    (b"\x01\x05\x02" + LARGE + b"\x1f", (54, 3)),
    (b"\x01\x05\x01", (55, 3)),
    (settings([(5, 2, GREATEST)]), [(5, 2, GREATEST)]),
    (settings([ROW, LAST]), [ROW, LAST]),
    (settings([ROW, (4, 3, 1)]), (59, 4)),
    (settings([ROW, (4, 9, 9)]), (59, 4)),
    (settings([ROW, (0, 3, 1)]), (59, 4)),
    (settings([ROW]) [:-1] + b"\x04\x04", (58, 3)),
    (settings([ROW], 2) + b"\x84\x00\x03\x01", (53, 4)),
    (settings([ROW], 2), (55, 4)),
    (settings([ROW]) + b"\x00", (60, 4)),
    (settings([ROW]) + b"\x80\x00", (60, 4)),
    (settings([ROW, LAST], 1), (60, 4)),
    (settings([]) + b"\xff", (60, 1)),
]  # fmt: skip
SEEN = {"rows", "too long", *(f"refused {n}" for n in range(53, 61))}


def run(program, words, folder=None):
    return subprocess.run([program, *words], cwd=folder, stdout=subprocess.PIPE).stdout.decode()


def said(program):
    """The program's own cases."""
    wrong = 0
    with tempfile.TemporaryDirectory() as folder:
        cases = list(CASES)
        for name, data in FILES.items():
            (pathlib.Path(folder) / name).write_bytes(data)
        for i, (data, answer) in enumerate(EDGES):
            (pathlib.Path(folder) / str(i)).write_bytes(data)
            cases.append((["0", str(i)], "refused {} {}\n".format(*answer) if isinstance(answer, tuple) else answer))
        for words, text in cases:
            got = run(program, words, folder)
            # Of edges that are accepted, the rows are what is told; the cases above have the values.
            if isinstance(text, list):
                text, got = printed(text).split("least")[0], got.split("least")[0]
            if got != text:
                wrong += 1
                print(f"settings: {[word[:40] for word in words]}: printed {got[:200]!r}, and not {text[:200]!r}")
    print(f"settings: {len(cases)} runs of its words, limits and edges, {wrong} wrong")
    return wrong


def versions(text):
    """Versions to ask for: the ends, and some that stand in the file, one less and one more."""
    named = [int(line.split(" ")[3]) for line in text.splitlines() if line.startswith("row ")]
    some = {n + d for n in named[:: max(1, len(named) // 3)] for d in (-1, 0, 1)}
    return sorted({0, GREATEST} | {n for n in some if 0 <= n <= GREATEST})


def beside(program, other, folder):
    wrong, texts, seen, files = 0, 0, collections.Counter(), sorted(pathlib.Path(folder).iterdir())
    for path in files:
        for version in versions(run(other, ["0", path])):
            one, two = (run(p, [str(version), path]) for p in (program, other))
            texts += 1
            if one != two:
                wrong += 1
                print(f"settings: {path.name} at version {version}: not as the other program prints it")
        words = two.split()
        seen[words[0] if words[0] == "rows" else " ".join(words[:2])] += 1
    for answer in sorted(SEEN - set(seen)):
        print(f"settings: no file gave '{answer}'")
    print(f"settings: {texts} texts beside another program's, {wrong} wrong; " + ", ".join(f"{seen[answer]} {answer}" for answer in sorted(seen)))
    return wrong + len(SEEN - set(seen))


def main():
    if sys.argv[1] == "--write":
        pathlib.Path(sys.argv[2]).write_bytes(settings(HOUSE))
        return 0
    if sys.argv[2:3] == ["--beside"]:
        return 1 if beside(sys.argv[1], *sys.argv[3:]) else 0
    assert len(LONGEST_FILE) == 65536 and len(FILES["full"]) == 5634
    own, wrong = pathlib.Path(__file__).resolve().parent.parent / "crates/settings/data/house.settings", 0
    if own.read_bytes() != settings(HOUSE):
        wrong += 1
        print("settings: the file of the crate's own run isn't the one that is made")
    return 1 if said(pathlib.Path(sys.argv[1]).resolve()) + wrong else 0


sys.exit(main())
