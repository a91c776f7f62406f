#!/usr/bin/env python3
"""show.py PROGRAM: runs the full dump on the words it may be started with and on files at its limits, and compares what it prints with
what is said of it. What it prints of containers is compared by vectors.py and by the crate's own run.

show.py PROGRAM --beside OTHER FOLDER: holds what it prints of every file in a folder, at editions 0 and 3, against what another program
prints, and counts the lines on root signatures, of which each kind has to come.

show.py --write FILE: writes the container of the crate's own run."""
import collections
import pathlib
import subprocess
import sys
import tempfile

from containers import LONGEST, M, hull

USAGE, CANNOT_OPEN, TOO_LONG = "usage: show EDITION FILE\n", "cannot open\n", "too long\n"
NO_EDITION, SHORT = "refused 25 0\n", "refused 1 0\n"
SHOWN_M = (
    "edition 0 read 0\nparts 2\npairs 1\npart 0 DXIL 40 4 known occurrence 0 gap 0\npart 1 PSV0 52 32 known occurrence 0 gap 0\nstage_info " + "00" * 16 + "\n"
    "minimum_wave_lanes 0\nmaximum_wave_lanes 0\nstage unset\nuses_view_id unset\nmax_vertex_count unset\npatch_vectors unset\n"
    "mesh_topology unset\ninput_elements unset\noutput_elements unset\npatch_elements unset\ninput_vectors unset\n"
    "output_vectors_0 unset\noutput_vectors_1 unset\noutput_vectors_2 unset\noutput_vectors_3 unset\n"
    "threads_x unset\nthreads_y unset\nthreads_z unset\nentry_name_offset unset\nentry_name unset\n"
    "resources 0\nstrings unset\nindices unset\nelements unset\n" + "".join(f"mask {m} unset\n" for m in range(11)) + "program refused 40 0\n"
    "signature ISG1 refused 26 0\nsignature OSG1 refused 26 0\nsignature PSG1 refused 26 0\nroot_signature refused 26 0\n"
)
SHOWN_LONGEST = SHOWN_M.replace(
    "parts 2\npairs 1\npart 0 DXIL 40 4 known occurrence 0 gap 0\npart 1 PSV0 52 32 known occurrence 0 gap 0\n",
    "parts 3\npairs 3\npart 0 DXIL 44 4 known occurrence 0 gap 0\npart 1 PSV0 56 32 known occurrence 0 gap 0\n"
    "part 2 PRIV 96 65432 known occurrence 0 gap 0\n",
)
FILES = {"m": M, "empty": b"", "longest": LONGEST, "too-long": LONGEST + b"\0"}
# The program's words, and what it prints.
CASES = [
    ([], USAGE),
    (["3"], USAGE),
    (["3", "m", "m"], USAGE),
    (["", "m"], USAGE),
    (["x", "m"], USAGE),
    (["1x", "m"], USAGE),
    (["-1", "m"], USAGE),
    (["+1", "m"], USAGE),
    (["/", "m"], USAGE),
    ([":", "m"], USAGE),
    (["x", "missing"], USAGE),
    (["0", "m"], SHOWN_M),
    (["3", "m"], SHOWN_M),
    (["0003", "m"], SHOWN_M),
    (["4", "m"], NO_EDITION),
    (["10", "m"], NO_EDITION),
    (["18446744073709551617", "m"], NO_EDITION),
    (["3", "missing"], CANNOT_OPEN),
    (["4", "missing"], CANNOT_OPEN),
    (["3", ""], CANNOT_OPEN),
    (["3", "."], CANNOT_OPEN),
    (["3", "empty"], SHORT),
    (["3", "longest"], SHOWN_LONGEST),
    (["3", "too-long"], TOO_LONG),
    (["4", "too-long"], TOO_LONG),
]


# How the lines on a root signature begin, without their numbers, that a folder has to give.
ROOT_LINES = {"root_signature refused", "root_signature version", "item constants", "item descriptor", "item table", "item range", "item sampler"}


def beside(program, other, folder):
    wrong, seen, files = 0, collections.Counter(), sorted(pathlib.Path(folder).iterdir())
    for path in files:
        for edition in "03":
            texts = [subprocess.run([p, edition, path], stdout=subprocess.PIPE).stdout for p in (program, other)]
            if texts[0] != texts[1]:
                wrong += 1
                print(f"show: {path.name} at edition {edition}: not as the other program prints it")
            lines = (line.split(" ") for line in texts[1].decode().splitlines())
            seen.update(" ".join([word[0], word[2 if word[0] == "item" else 1]]) for word in lines if word[0] in ("item", "root_signature"))
    missing = ROOT_LINES - set(seen)
    for start in sorted(missing):
        print(f"show: no line '{start} ..' came")
    print(f"show: {2 * len(files)} texts beside another program's, {wrong} wrong; " + ", ".join(f"{start} {n}" for start, n in sorted(seen.items())))
    return 1 if wrong or missing else 0


def main():
    if sys.argv[2:3] == ["--beside"]:
        return beside(sys.argv[1], *sys.argv[3:])
    if sys.argv[1] == "--write":
        pathlib.Path(sys.argv[2]).write_bytes(hull())
        return 0
    assert len(M) == 92 and len(LONGEST) == 65536
    program, wrong = pathlib.Path(sys.argv[1]).resolve(), 0
    own = pathlib.Path(__file__).resolve().parent.parent / "crates/show/data/hull.dxbc"
    if own.read_bytes() != hull():
        wrong += 1
        print("show: the container of the crate's own run isn't the one that is made")
    with tempfile.TemporaryDirectory() as folder:
        for name, data in FILES.items():
            (pathlib.Path(folder) / name).write_bytes(data)
        for words, said in CASES:
            got = subprocess.run([program, *words], cwd=folder, stdout=subprocess.PIPE).stdout.decode()
            if got != said:
                wrong += 1
                print(f"show: {words}: printed {got!r}, and not {said!r}")
    print(f"show: {len(CASES)} runs of its words and limits, {wrong} wrong")
    return 1 if wrong else 0


sys.exit(main())
