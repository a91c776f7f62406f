#!/usr/bin/env python3
"""inspect.py PROGRAM: runs the small program on made containers and compares what it prints with what documents 01 and 02 say.

inspect.py PROGRAM --beside OTHER SHOW FOLDER..: runs another such program beside it, the independent reader's or that of an earlier
state, on these containers and on every file of the folders; both must print the same bytes. By SHOW, a `show` program, it counts the files
that edition 3 refuses with 24: of these `accepted 3 N` must be printed, and one at least must come."""
import collections
import pathlib
import subprocess
import sys

from containers import EDITION_0, LONGEST, M, PROGRAM, box, psv0, with_psv0, word

TABLE_C = "accepted 3 2\nDXIL 40 4 known\nPSV0 52 76 known\n"
THREE = "accepted 0 3\nDXIL 44 4 known\nPSV0 56 32 known\n"
NOTE = (b"PRIV", b"ab")
TWO_NOTES = "accepted 0 4\nDXIL 48 4 known\nPSV0 60 32 known\nPRIV 101 2 known\nPRIV 111 2 known\n"
# Element records, for an index table of one number: name offset, index reference, rows.
GOOD, BAD_NAME, BAD_INDEX, EMPTY, PAST = (
    word(name) + word(index) + bytes([rows]) + bytes(7) for name, index, rows in [(1, 0, 1), (8, 0, 1), (1, 1, 1), (1, 1, 0), (1, 2, 0)]
)

CASES = [
    ("box M", M, "accepted 0 2\nDXIL 40 4 known\nPSV0 52 32 known\n"),
    ("box C", with_psv0(psv0()), TABLE_C),
    ("box C with name offset 8, at edition 1", with_psv0(psv0(name=8)), TABLE_C),
    ("no bytes", b"", "refused 1 0\n"),
    ("31 bytes", M[:31], "refused 1 0\n"),
    ("magic", b"DXBD" + M[4:], "refused 3 0\n"),
    ("version 1.1", box([PROGRAM, EDITION_0], version=(1, 1)), "refused 4 0\n"),
    ("file size", box([PROGRAM, EDITION_0], size=91), "refused 5 0\n"),
    ("97 parts", box([], count=97), "refused 6 0\n"),
    ("offset table past the end", box([], count=1), "refused 7 0\n"),
    ("a part one byte early", box([PROGRAM, EDITION_0], offsets=[40, 51]), "refused 8 1\n"),
    ("a name twice", box([PROGRAM, EDITION_0, PROGRAM]), "refused 9 2\n"),
    ("PRIV twice, after a gap", box([PROGRAM, EDITION_0, NOTE, NOTE], gaps=[0, 0, 1]), TWO_NOTES),
    ("a name twice beside them", box([NOTE, PROGRAM, EDITION_0, NOTE, EDITION_0]), "refused 9 4\n"),
    ("no DXIL", box([EDITION_0]), "refused 10 0\n"),
    ("an empty DXIL", box([(b"DXIL", b""), EDITION_0]), "refused 10 0\n"),
    ("no PSV0", box([PROGRAM]), "refused 11 0\n"),
    ("S = 26", with_psv0(word(26) + bytes(30)), "refused 12 0\n"),
    ("S = 20", with_psv0(word(20) + bytes(24)), "refused 12 0\n"),
    ("a cut runtime record", with_psv0(word(28) + bytes(24)), "refused 13 0\n"),
    ("a cut resource record", with_psv0(word(24) + bytes(24) + word(1) + word(16) + bytes(12)), "refused 14 0\n"),
    ("stage 16", with_psv0(psv0(stage=16)), "refused 15 0\n"),
    ("UsesViewID 2", with_psv0(psv0(view=2)), "refused 16 0\n"),
    ("vectors in stream 1", with_psv0(psv0(vectors=(0, 1, 0, 0))), "refused 17 0\n"),
    ("T = 3", with_psv0(word(36) + bytes(36) + word(0) + word(3) + bytes(3) + word(0)), "refused 18 0\n"),
    ("a cut index table", with_psv0(word(36) + bytes(36) + word(0) + word(0) + word(1)), "refused 19 0\n"),
    ("elements of 12 bytes", with_psv0(psv0(counts=(1, 0, 0), stride=12, elements=bytes(12))), "refused 20 0\n"),
    ("no masks", with_psv0(psv0(view=1, vectors=(1, 0, 0, 0))), "refused 21 0\n"),
    ("the name of element 2", with_psv0(psv0(counts=(1, 2, 0), indices=word(0), elements=GOOD + GOOD + BAD_NAME)), "refused 22 2\n"),
    ("the index of element 1", with_psv0(psv0(counts=(1, 1, 1), indices=word(0), elements=GOOD + BAD_INDEX + BAD_NAME)), "refused 23 1\n"),
    ("no rows, i = N", with_psv0(psv0(counts=(0, 1, 1), indices=word(0), elements=GOOD + EMPTY)), TABLE_C.replace("76", "116")),
    ("no rows, i = N + 1", with_psv0(psv0(counts=(0, 1, 1), indices=word(0), elements=EMPTY + PAST)), "refused 23 1\n"),
    ("an unknown name", box([PROGRAM, EDITION_0, (b"ABCD", b"xyz")]), THREE + "ABCD 96 3 unknown\n"),
    ("odd name bytes", box([PROGRAM, EDITION_0, (b"!\x20\x7f\xff", b"")]), THREE + "!??? 96 0 unknown\n"),
    ("65,536 bytes", LONGEST, THREE + "PRIV 96 65432 known\n"),
    ("65,537 bytes", LONGEST + b"\0", "too long\n"),
]


def printed(program, data):
    return subprocess.run([program], input=data, capture_output=True, check=True).stdout


def said():
    """The program's own cases."""
    assert len(M) == 92 and len(with_psv0(psv0())) == 136 and len(LONGEST) == 65536
    wrong = 0
    for label, data, text in CASES:
        got = printed(sys.argv[1], data).decode()
        if got != text:
            wrong += 1
            print(f"inspect: {label}: printed {got!r}, and documents 01 and 02 say {text!r}")
    print(f"inspect: {len(CASES) - wrong} of {len(CASES)} containers print what documents 01 and 02 say")
    return wrong


def beside(program, other, show, folders):
    """What two programs print of the cases and of files."""
    files = sorted(file for folder in folders for file in pathlib.Path(folder).iterdir())
    wrong, newest, answers = 0, 0, collections.Counter()
    for label, data in [(label, data) for label, data, _ in CASES] + [(file, file.read_bytes()) for file in files]:
        got = printed(program, data)
        if got != printed(other, data):
            wrong += 1
            print(f"inspect: {label}: {program} and {other} print different texts")
        words = got.split()
        answers[b" ".join(words[: 1 if words[0] == b"accepted" else 2]).decode()] += 1
        if isinstance(label, pathlib.Path) and subprocess.run([show, "3", label], capture_output=True).stdout == b"refused 24 0\n":
            newest += 1
            if words[:2] != [b"accepted", b"3"]:
                wrong += 1
                print(f"inspect: {label}: edition 3 gives 24, and {got!r} is printed")
    told = ", ".join(f"{answers[answer]} {answer}" for answer in sorted(answers))
    print(f"inspect: {answers.total()} containers beside {other}, {wrong} differ; {newest} that edition 3 refuses with 24; {told}")
    return wrong if newest else 1


def main():
    if sys.argv[2:3] == ["--beside"]:
        wrong = beside(sys.argv[1], sys.argv[3], sys.argv[4], sys.argv[5:])
    else:
        wrong = said()
    sys.exit(1 if wrong else 0)


main()
