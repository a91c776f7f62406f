#!/usr/bin/env python3
"""vectors.py SHOW INSPECT: runs a `show` program at editions 0 to 4 and an `inspect` program over every container of tests/vectors, and
compares what they print, byte by byte, with tests/vectors/expected/NAME.txt.

vectors.py --write SHOW INSPECT: writes those files instead. tests/make-expected does so with the independent reader.

A file of expected text has a line `show EDITIONS` before what `show` prints at these editions, and at its end a line `inspect` before what
`inspect` prints."""
import collections
import pathlib
import subprocess
import sys

VECTORS = pathlib.Path(__file__).resolve().parent / "vectors"
EXPECTED = VECTORS / "expected"
EDITIONS = range(5)


def printed(programs, path):
    """What `show` prints of a container, at each edition, and what `inspect` prints."""
    show, inspect = programs
    texts = [subprocess.run([show, str(e), str(path)], stdout=subprocess.PIPE).stdout for e in EDITIONS]
    return texts, subprocess.run([inspect], input=path.read_bytes(), stdout=subprocess.PIPE).stdout


def joined(texts, table):
    """The file of expected text: editions in a row that print the same stand together."""
    groups = []
    for edition, text in zip(EDITIONS, texts):
        if groups and groups[-1][1] == text:
            groups[-1][0].append(str(edition))
        else:
            groups.append(([str(edition)], text))
    shown = b"".join(b"show " + " ".join(editions).encode() + b"\n" + text for editions, text in groups)
    return shown + b"inspect\n" + table


def first_difference(got, said):
    """The first line where two texts part, of each."""
    lines = [*map(bytes.splitlines, (got, said))]
    longest = max(map(len, lines))
    padded = [(text + [b"(nothing)"] * longest)[:longest] for text in lines]
    return next(((a, b) for a, b in zip(*padded) if a != b), (b"(line ends)", b"(line ends)"))


def main():
    write = sys.argv[1] == "--write"
    programs = sys.argv[-2:]
    containers = sorted(path for folder in ("llvm", "real") for path in (VECTORS / folder).iterdir())
    files = {path: EXPECTED / (path.name + ".txt") for path in containers}
    if write:
        EXPECTED.mkdir(exist_ok=True)
        for stale in EXPECTED.iterdir():
            stale.unlink()
        for path, file in files.items():
            file.write_bytes(joined(*printed(programs, path)))
        print(f"vectors: wrote {len(files)} files of expected text")
        return 0
    wrong, answers = 0, collections.Counter()
    if sorted(EXPECTED.iterdir()) != sorted(files.values()):
        wrong += 1
        print("vectors: the files of expected text aren't those of the containers")
    for path, file in files.items():
        texts, table = printed(programs, path)
        got, said = joined(texts, table), file.read_bytes() if file.exists() else b""
        if got != said:
            wrong += 1
            ours, theirs = first_difference(got, said)
            print(f"vectors: {path.name}: printed {ours!r}, and the independent reader says {theirs!r}")
        for text in texts:
            answer = text.split(maxsplit=2)
            answers[int(answer[1]) if text.startswith(b"refused ") else 0] += 1
    refused = ", ".join(f"{answers[n]} by {n}" for n in sorted(answers) if n)
    print(
        f"vectors: {len(files)} containers at editions {EDITIONS[0]} to {EDITIONS[-1]} and by inspect, {wrong} differ from the independent reader; "
        f"{answers[0]} openings accepted, refused {refused}"
    )
    return 1 if wrong else 0


sys.exit(main())
