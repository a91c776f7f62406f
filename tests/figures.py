#!/usr/bin/env python3
"""figures.py PROGRAM: runs the program on lists of files at its limits, and compares what it prints with what document 02, Ask 10, says of it.

figures.py PROGRAM --beside OTHER FOLDER: holds what it prints of lists of the files in a folder, drawn at random, against what another
program prints; every kind of line has to come.

figures.py --write FOLDER: writes the files of the crate's own run."""
import collections
import pathlib
import random
import re
import subprocess
import sys
import tempfile

from containers import LONGEST, M, box, psv0, with_psv0

MOST = 65535
C = with_psv0(psv0())
# A container that passes no part table: its first part starts inside the offset table.
EARLY = box([(b"DXIL", b"code")], offsets=[32])
STAGED = {stage: with_psv0(psv0(36, stage)) for stage in range(16)}
# The crate's own run; its arguments name them, a file that isn't there and a folder too.
OWN = {"m.dxbc": M, "c.dxbc": C, "early.dxbc": EARLY, "empty.dxbc": b"", "vertex.dxbc": STAGED[1]}
DEEP = "./" * 2047
FILES = {
    **OWN, **{f"stage{stage}": data for stage, data in STAGED.items()},
    "longest": LONGEST, "long": LONGEST + b"\0", "above": with_psv0(psv0(48, 16)), "two words": M, "-": M, "--help": M, "\udcff\n": M, "\u00ff\n": M,
}  # fmt: skip


def printed(opened, accepted, length, *counts):
    """The lines at the end."""
    lines = [f"opened {opened} accepted {accepted} refused {opened - accepted} bytes {length}", *counts]
    return "".join(line + "\n" for line in lines)


NONE = printed(0, 0, 0, "nothing was opened")
ONE_M = printed(1, 1, 92, "edition 0 1", "stage unset 1")
FULL = printed(MOST, MOST, 92 * MOST, f"edition 0 {MOST}", f"stage unset {MOST}")
# The program's words, and what it prints.
CASES = [
    ([], NONE),
    (["missing"], "cannot open 0\n" + NONE),
    ([""], "cannot open 0\n" + NONE),
    (["."], "cannot open 0\n" + NONE),
    # It opens, and can't be read.
    (["/proc/self/mem"], "cannot open 0\n" + NONE),
    (["long"], "too long 0\n" + NONE),
    (["m.dxbc"], ONE_M),
    (["two words"], ONE_M),
    (["-"], ONE_M),
    (["--help"], ONE_M),
    # Any text is a name. Bytes that are not well-formed UTF-8 are none for Rattle's library, which then can't open the file.
    (["\u00ff\n"], ONE_M),
    (["\udcff\n"], "cannot open 0\n" + NONE),
    # The longest path that a program may open, and one byte more.
    ([DEEP + "-"], ONE_M),
    ([DEEP + "./"], "cannot open 0\n" + NONE),
    ([DEEP + "no"], "cannot open 0\n" + NONE),
    (["empty.dxbc"], printed(1, 0, 0, "refusal 1 1")),
    (["longest"], printed(1, 1, 65536, "edition 0 1", "stage unset 1")),
    # Edition 1 is named: it looks at no entry name, counts the file's edition, and refuses a stage above 15.
    (["c.dxbc"], printed(1, 1, 136, "edition 3 1", "stage 5 1")),
    (["above"], printed(1, 0, 0, "refusal 15 1")),
    (["stage0", "m.dxbc"], printed(2, 2, 92 + 120, "edition 0 1", "edition 1 1", "stage 0 1", "stage unset 1")),
    ([f"stage{n}" for n in range(15, -1, -1)], printed(16, 16, 16 * 120, "edition 1 16", *(f"stage {n} 1" for n in range(16)))),
    (["m.dxbc", "missing", "long", "early.dxbc", ".", "c.dxbc", "early.dxbc", "empty.dxbc", "c.dxbc"],
     "cannot open 1\ntoo long 2\ncannot open 4\n"
     + printed(6, 3, 364, "refusal 1 1", "refusal 8 2", "edition 0 1", "edition 3 2", "stage 5 2", "stage unset 1")),
    # The last that is counted, and those past it: the first that applies, cannot open, too long, full.
    (["-"] * MOST, FULL),
    (["-"] * (MOST - 1), FULL.replace(str(MOST), str(MOST - 1)).replace(str(92 * MOST), str(92 * (MOST - 1)))),
    (["-"] * MOST + ["empty.dxbc", "missing", "long", "-"], f"full {MOST}\ncannot open {MOST + 1}\ntoo long {MOST + 2}\nfull {MOST + 3}\n" + FULL),
    (["missing"] + ["-"] * MOST + ["-"], f"cannot open 0\nfull {MOST + 1}\n" + FULL),
    (["-"] * (MOST - 1) + ["long", "empty.dxbc", "-"],
     f"too long {MOST - 1}\nfull {MOST + 1}\n" + printed(MOST, MOST - 1, 92 * (MOST - 1), "refusal 1 1", f"edition 0 {MOST - 1}", f"stage unset {MOST - 1}")),
]  # fmt: skip
SEEN = {"cannot open", "too long", "opened", "nothing was opened", "stage unset", *(f"refusal {n}" for n in (1, *range(3, 24)))}
SEEN |= {f"edition {n}" for n in range(4)} | {f"stage {n}" for n in range(16)}


def run(program, words, folder=None):
    done = subprocess.run([program, *words], cwd=folder, stdout=subprocess.PIPE)
    return done.stdout.decode() + (f"status {done.returncode}\n" if done.returncode else "")


def said(program):
    """The program's own cases."""
    wrong = 0
    with tempfile.TemporaryDirectory() as folder:
        for name, data in FILES.items():
            (pathlib.Path(folder) / name).write_bytes(data)
        for words, text in CASES:
            got = run(program, words, folder)
            if got != text:
                wrong += 1
                print(f"figures: {len(words)} words from {words[:3]}: printed {got[:300]!r}, and not {text[:300]!r}")
    print(f"figures: {len(CASES)} runs of its words and limits, {wrong} wrong")
    return wrong


def kind(line):
    """What kind of line it is: its words before the number that it counts or tells."""
    return "opened" if line.startswith("opened ") else re.sub(r" \d+$", "", line)


def beside(program, other, folder):
    wrong, seen, draw = 0, collections.Counter(), random.Random(10)
    files = [str(path) for path in sorted(pathlib.Path(folder).iterdir())]
    lists = [draw.choices([*files, "missing", folder], k=draw.choice((1, 2, 5, 40, 200))) for _ in range(300)]
    for words in [[], files, files[::-1], *lists]:
        one, two = (run(p, words) for p in (program, other))
        seen.update(kind(line) for line in two.splitlines())
        if one != two:
            wrong += 1
            print(f"figures: {len(words)} files from {words[:3]}: not as the other program prints it")
    for line in sorted(SEEN - set(seen)):
        print(f"figures: no list gave '{line}'")
    print(f"figures: {len(lists) + 3} texts beside another program's, {wrong} wrong; {len(seen)} kinds of lines")
    return wrong + len(SEEN - set(seen))


def main():
    if sys.argv[1] == "--write":
        for name, data in OWN.items():
            (pathlib.Path(sys.argv[2]) / name).write_bytes(data)
        return 0
    if sys.argv[2:3] == ["--beside"]:
        return 1 if beside(sys.argv[1], *sys.argv[3:]) else 0
    assert len(LONGEST) == 65536 and len(M) == 92 and len(C) == 136 and len(STAGED[0]) == 120 and len(DEEP) == 4094
    own, wrong = pathlib.Path(__file__).resolve().parent.parent / "crates/figures/data", 0
    if {path.name: path.read_bytes() for path in own.iterdir()} != OWN:
        wrong += 1
        print("figures: the files of the crate's own run aren't those that are made")
    return 1 if said(pathlib.Path(sys.argv[1]).resolve()) + wrong else 0


sys.exit(main())
