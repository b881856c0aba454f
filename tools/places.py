"""Lists the places in crates/*/src where an older form may stand, by point.

usage: python3 tools/places.py [POINT]      POINT from 1 to 8; none prints the counts alone
"""

import collections
import glob
import re
import sys

ARGS = [a for a in sys.argv[1:] if a.isdigit()]


def sources():
    for path in sorted(glob.glob("crates/*/src/**/*.rt", recursive=True)):
        with open(path, encoding="utf-8") as file:
            yield path, file.read().split("\n")


def code(line):
    """The line without its comment, or nothing for a line of a contract."""
    line = line.split("//")[0]
    return "" if re.match(r"\s*(ghost|requires|ensures)\b", line) else line


def matching(pattern):
    for path, lines in sources():
        for number, line in enumerate(lines, 1):
            if re.search(pattern, code(line)):
                yield path, number, line.strip()


def repeated_runs(length=5):
    """Runs of so many lines of code, comments and imports left out, that stand in more than one place."""
    seen = collections.defaultdict(list)
    for path, lines in sources():
        kept = [
            (number, line.strip())
            for number, line in enumerate(map(code, lines), 1)
            if re.search(r"[A-Za-z]", line) and not re.match(r"\s*(use|pub use|mod|#\[)", line)
        ]
        for k in range(len(kept) - length + 1):
            run = kept[k : k + length]
            seen[tuple(line for _, line in run)].append((path, run[0][0]))
    last = ("", -9)
    for run, places in sorted(seen.items(), key=lambda item: item[1]):
        if len(places) > 1:
            path, number = places[0]
            # a longer run is told once
            if not (path == last[0] and number <= last[1] + 2):
                yield path, number, f"{len(places)} times: {run[0]} .."
            last = (path, number)


def repeated_clauses():
    """Facts of contracts, with the name of the subject left out, that three or more functions have."""
    seen = collections.defaultdict(list)
    for path, lines in sources():
        for number, line in enumerate(lines, 1):
            found = re.match(r"\s*(?:requires|ensures)\s*\w*\s*\{(.*)\}\s*$", line)
            if found:
                seen[found.group(1).strip()].append((path, number))
    for clause, places in sorted(seen.items()):
        if len(places) >= 3:
            yield places[0][0], places[0][1], f"{len(places)} times: {clause}"


def repeated_parameters():
    """Pairs of neighbouring parameters, by name and type, that three or more functions take."""
    seen = collections.defaultdict(list)
    for path, lines in sources():
        text = "\n".join(lines)
        for found in re.finditer(r"fn (\w+)(?:<[^>]*>)?\(([^)]*)\)", text):
            taken = [p.strip() for p in found.group(2).split(",") if ":" in p]
            number = text[: found.start()].count("\n") + 1
            for pair in zip(taken, taken[1:]):
                seen[pair].append((path, number))
    for pair, places in sorted(seen.items()):
        if len(places) >= 3:
            yield places[0][0], places[0][1], f"{len(places)} times: {', '.join(pair)}"


def proof_files():
    for path in sorted(glob.glob("crates/*/proofs/**/*.antt", recursive=True)):
        with open(path, encoding="utf-8") as file:
            yield path, len(file.read().split("\n")), ""


POINTS = {
    "1": (
        "enums of the code's own; numbers that mean none; answers that are a flag",
        lambda: list(matching(r"^\s*(pub )?enum |\b208\b *[;,)]?$|\[208; |, 208\)|-> bool \{?$|-> u8 \{?$")),
    ),
    "2": ("runs of five lines of code or more that stand in more than one place", lambda: list(repeated_runs())),
    "3": (
        "loops over numbers, and loops without an iterator",
        lambda: list(matching(r"\bwhile\b|\bloop\b|\bfor .* in .*\.\.")),
    ),
    "4": (
        "impls of std's traits, and functions that convert, compare or print by hand",
        lambda: list(
            matching(
                r"\bimpl\b.*\b(From|TryFrom|Display|Debug|PartialEq|Eq|Ord|PartialOrd|Clone|Copy)\b.* for "
                r"|\bfn (refusal|operand|from_number|is_state|is_owner|is_pair|is_read|are_same|is_line|is_plain|write_(operand|target|pair|statement|words|refusal|name))\b"
                r"|if .* \{ 1 \} else \{ 0 \}"
            )
        ),
    ),
    "5": (
        "clauses and neighbouring parameters that three or more functions have",
        lambda: list(repeated_clauses()) + list(repeated_parameters()),
    ),
    "6": (
        "fields that are tables of a fixed length",
        lambda: list(matching(r"^\s*(pub |pub\(crate\) )?\w+: \[.*; *\w+\],$")),
    ),
    "7": (
        "flags as parameters or fields, and switches on a name",
        lambda: list(matching(r"\b\w+: bool\b|(if|else if) (name|word) ==|match .*\b(layers|base|kind)\b")),
    ),
    "8": ("files of proofs, each with its lines", lambda: list(proof_files())),
}

for point, (what, find) in POINTS.items():
    places = find()
    if not ARGS:
        extra = f", {sum(n for _, n, _ in places)} lines" if point == "8" else ""
        print(f"{point}: {len(places)} {what}{extra}")
    elif point in ARGS:
        for path, number, line in places:
            print(f"{path}:{number}: {line}")
