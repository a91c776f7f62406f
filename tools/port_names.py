#!/usr/bin/env python3
"""Spells this repository's own definitions and lemmas in snake case, as today's Rattle does.

usage: tools/port_names.py [--list]     at the top of the repository, once, right after port.py

A name that a file of specs/ or proofs/ declares (a function's Proof.antt aside) gets plain underscores for its dashes and
its humps: sumBelow is sum_below, count-hit is count_hit. A definition into Type 0 is a type and gets a capital. It is respelled
wherever it stands below crates/: in specs, proofs, clauses and must-fail edits. In a file that imports the old spelling from
a library that is not of this repository it stays. Two names that would fall together in a file, or a name that would meet
another word of a file, end the run before anything is written.
"""

import glob
import os
import re
import sys
import collections

DECLARED = re.compile(
    r"(?m)^ *(?:(?:abbrev|unfoldable|pub|pattern|axiom) )*(record |data |ruleset |module )?([^\s(){}.;,@\"«»:=]+)((?: (?:\{[^{}\n]*\}|\([^\n]*?\)))*) (:|where\b|=)(.*)"
)
TOKEN = re.compile(r"[^\s(){}\[\].;,@\"«»`]+")
WORD = re.compile(r"[\w'′₀₁₂-]+")
USE = re.compile(r"(?m)^ *(?:pub )?(?:ghost )?use ([^\s;{]+?)\.?(?:\{([^}]*)\})?(?: as \S+)?;? *$")
# Definitions whose new spelling is a field's or a parameter's of the source: they get _of.
OF = set(
    "editionRead fileEdition entryNameOffset indexReference inputVectors isString maskBytes maskWords nameOffset patchVectors resourceSize usesViewId".split()
)
# Words of the library that a file imports beside a lemma that would be spelled so.
TAKEN = {"is_nan"}
# Lemmas that port.py gave the name that a definition beside them gets now, with their crates: they get _lem.
LEMMAS = {
    "front_of": ["utf8_layout"],
    "is_known": ["lines"],
    "mask_at": ["psv0_layout"],
    "no_body": ["psv0_writer_layout"],
    "offset_at": ["replacing_layout"],
    "row_laid": ["settings_layout"],
    "same_bytes": ["wire"],
    "same_row": ["utf8"],
    "set_if": ["places_layout"],
    "too_long": ["inspect_text"],
}


def snake(name):
    words = re.sub(r"(?<=[a-z0-9])([A-Z]+)", lambda m: "_" + m[1].lower(), name)
    words = re.sub(r"(?<=[-_])([A-Z]+)", lambda m: m[1].lower(), words)
    return re.sub(r"(?<=.)-(?=.)", "_", words)


def files(kinds):
    for kind in kinds:
        for path in sorted(glob.glob(kind, recursive=True)):
            if "/out/" not in path:
                yield path


def read(path):
    with open(path, encoding="utf-8") as f:
        return f.read()


def declared():
    """Each name that is to change, with its new spelling; and the fields of records among them."""
    seen, kept, fields = {}, set(), set()
    for path in files(["crates/*/specs/**/*.antt", "crates/*/proofs/**/*.antt"]):
        if path.endswith("/Proof.antt"):
            continue
        text = read(path)
        for m in DECLARED.finditer(text):
            kind, name = m[1], m[2]
            if m[4] == "=" and not kind or not name[0].isalpha():
                continue
            new = snake(name) if name[0].islower() else re.sub(r"-(\w)", lambda k: k[1].upper(), name)
            if m[4] == ":" and re.search(r"→ Type 0$", m[0]) and "-" not in name:
                new = re.sub(r"_(\w)", lambda k: k[1].upper(), "_" + new)
            if new != name:
                seen[name] = new
            else:
                kept.add(name)
        depth = None
        for line in text.split("\n"):
            at = len(line) - len(line.lstrip())
            if re.match(r" *(?:(?:abbrev|unfoldable|pub) )*record ", line):
                depth = at
            elif depth is not None and line.strip():
                if at <= depth:
                    depth = None
                elif m := re.match(r" *(?:pub )?(\S+) :", line):
                    fields.add(m[1])
        # A constructor may share its line with others; an alias of a `use` line is a name too.
        inside = False
        for line in text.split("\n"):
            if re.match(r"(?:(?:abbrev|unfoldable|pub) )*data ", line):
                inside = True
            elif line and not line[0].isspace():
                inside = False
            elif inside and (m := re.match(r" +((?:\S+ )+):(?= )", line)):
                seen |= {it: snake(it) for it in m[1].split() if snake(it) != it}
        seen |= {it: snake(it) for it in re.findall(r"(?m)^use .* as ([a-z]+[A-Z]\w*)", text)}
        seen |= {it: snake(it) for it in re.findall(r"\w as ([a-z]+[A-Z]\w*)[,}]", text)}
    humps = {new for name, new in seen.items() if "-" not in name}
    names = {}
    for name, new in seen.items():
        if name in OF:
            new += "_of"
        elif "-" in name and (new in humps or new in kept or new in TAKEN):
            new += "_lem"
        names[name] = new
    return names, fields


def foreign(text):
    """The names that a file imports from a library that is not of this repository."""
    own = {os.path.basename(c) for c in glob.glob("crates/*")}
    found = set()
    for m in USE.finditer(text):
        steps = m[1].split(".")
        if steps[0] == "Rattle" and len(steps) > 1 and steps[1] in own:
            continue
        for it in (m[2] or "").split(","):
            found.add(it.split(" as ")[0].strip())
    return found


def tokens(text, pattern, fields):
    """Each word of a text that can be one of the names: behind a dot, a field or what a module has."""
    for m in pattern.finditer(text):
        dot = re.search(r"([^\s(){}\[\].;,@\"«»`]*)\.$", text[max(0, m.start() - 80) : m.start()])
        if dot and not (dot[1][:1].isupper() or m[0] in fields):
            continue
        yield m


def turned(text, names, pattern, fields):
    stay, out, last = foreign(text), [], 0
    for m in tokens(text, pattern, fields):
        if m[0] in names and m[0] not in stay:
            out += [text[last : m.start()], names[m[0]]]
            last = m.end()
    return "".join(out) + text[last:]


def main():
    names, fields = declared()
    if "--list" in sys.argv:
        for name in sorted(names):
            print(name, names[name])
        return 0
    functions = set()
    for path in files(["crates/*/src/**/*.rt"]):
        functions |= set(re.findall(r"\bfn (\w+)", read(path)))
    bad, out = [], {}
    for path in files(["crates/*/specs/**/*.antt", "crates/*/proofs/**/*.antt", "crates/*/src/**/*.rt", "crates/*/must-fail/*"]):
        text = read(path)
        crate = path.split("/")[1]
        here = dict(names)
        if not path.endswith(".rt"):
            here |= {it: it + "_lem" for it, crates in LEMMAS.items() if crate in crates}
        pattern = WORD if path.endswith(".rt") else TOKEN
        stay = foreign(text)
        # (a record's label meets nothing)
        words = {m[0] for m in tokens(text, pattern, fields) if m[0] in here or not text.startswith(" = ", m.end())}
        used = collections.defaultdict(set)
        for it in words:
            if it in here and it not in stay:
                used[here[it]].add(it)
        for new, olds in sorted(used.items()):
            if len(olds) > 1:
                bad.append(f"{path}: {' and '.join(sorted(olds))} would both be {new}")
            elif new in words and new not in here and not (path.endswith(".rt") and new in functions):
                bad.append(f"{path}: {min(olds)} would meet {new}")
        after = turned(text, here, pattern, fields)
        if after != text:
            out[path] = after
    if bad:
        print("\n".join(bad))
        if "--force" not in sys.argv:
            return 1
    for path, text in out.items():
        with open(path, "w", encoding="utf-8") as f:
            f.write(text)
    print(f"{len(names)} names, {len(out)} files")
    return 0


if __name__ == "__main__":
    raise SystemExit(main())
