#!/usr/bin/env python3
"""Brings the names that specs/ and proofs/ declare to the spelling of today's Rattle: words in snake case, types in
camel case, constructors and fields without a dash. Run once, at the top, after the toolchain's own script:
python3 tools/respell.py. It prints each renaming; names of src/ stay."""
import pathlib
import re
import sys

ROOT = pathlib.Path("crates")
SIGNATURE = re.compile(
    r"^(?P<indent> *)(?:(?:unfoldable|abbrev|pub|record|data) )*(?P<name>[^\s():={}\u27e8\u27e9]+)"
    r"(?: *[({][^)}]*[)}])*(?: +[^\s():={}]+)* +: (?P<type>.*)$",
    re.M,
)
# what would fall together with a function of src/, a module or another name
OTHERWISE = {
    "End-vertex": "EndVertexLaw",
    "checkedPlace": "checked_place_of",
    "commonWithin": "has_common_within",
    "hangsFrom": "hanging_from",
    "is-filled": "pair_filled",
    "laterNeighbours": "later_neighbour_count",
    "nameFits": "is_fitting_name",
    "nextIn": "next_of",
    "nextInColumn": "next_of_column",
    "placeOf": "place_for",
    "position-of": "position_of_station",
    "startFits": "is_fitting_start",
    "station-at": "station_at_position",
}
# definitions that the toolchain's script gave the name of a function beside them: only what cites the definition turns
BESIDE = {"key_at": "pair_key", "entry_at": "held_entry"}
GENERATED = re.compile(
    r"^(invariant|decreases|loop|returns|if|bounds|slice_bounds|overflow|nonzero|offset|prove|match|else|then|in|ghost)[-_]|-requires|-clause-"
)


def texts():
    for path in sorted(ROOT.glob("*/**/*")):
        if "out" in path.parts:
            continue
        if path.suffix in (".rt", ".antt", ".edit") or (path.suffix == ".md" and "must-fail" in path.parts):
            yield path


def snake(part):
    """A word in lower camel case, as `nextIn`, in snake case; another part of a name as it is."""
    if not re.match(r"[a-z]", part):
        return part
    part = re.sub(r"^getD(?![a-z])", "get_or", part)
    return re.sub(r"(?<=[a-z0-9])([A-Z])", lambda m: "_" + m[1].lower(), part)


def camel(name):
    return "".join(p[:1].upper() + p[1:] for p in re.split(r"[-_]", name))


def declared(path):
    """(name, kind) of each name that a file of specs/ or proofs/ declares."""
    body = None
    for line in path.read_text().split("\n"):
        head = re.match(r"^(?:pub )?(record|data) ", line)
        if head:
            body = head[1]
        elif line and not line.startswith(" ") and not line.startswith("--"):
            body = None
        m = SIGNATURE.match(line)
        if not m:
            continue
        if m["indent"] and body is None:
            continue
        yield m["name"], (body if m["indent"] else "type" if m["name"][:1].isupper() else "word")


def renamings():
    found = {}
    for path in sorted(ROOT.glob("*/*/**/*.antt")):
        if path.parts[2] not in ("specs", "proofs") or "out" in path.parts:
            continue
        for name, kind in declared(path):
            if GENERATED.search(name) and path.name in ("Answers.antt", "Invariants.antt", "Choices.antt", "Proof.antt"):
                continue
            if kind == "type" and re.search(r"[-_]", name):
                new = camel(name)
            elif kind in ("record", "data"):
                new = snake(name).replace("-", "_")
            else:
                new = "-".join(snake(p) for p in name.split("-"))
            new = OTHERWISE.get(name, new)
            if new != name:
                found[name] = new
    return found


def set_apart(path, text):
    """The text with the names of BESIDE turned, in proof files and in the ghost lines of a source."""
    cited = re.compile(r"(?<![\w'.-])(" + "|".join(BESIDE) + r")(?![\w'-])")
    if path.suffix == ".antt":
        return cited.sub(lambda m: BESIDE[m[1]], text)
    ghost = re.compile(r"^\s*(ghost|requires|ensures)\b")
    return "\n".join(cited.sub(lambda m: BESIDE[m[1]], line) if ghost.match(line) else line for line in text.split("\n"))


def main():
    found = renamings()
    pattern = re.compile(r"(?<![\w'-])(" + "|".join(sorted(map(re.escape, found), key=len, reverse=True)) + r")(?![\w'-])")
    for path in texts():
        old = path.read_text()
        new = set_apart(path, pattern.sub(lambda m: found[m[1]], old) if found else old)
        if new != old:
            path.write_text(new)
    found.update(BESIDE)
    for name in sorted(found):
        print(f"{name} -> {found[name]}")
    back = {}
    for name, new in found.items():
        back.setdefault(new, []).append(name)
    for new, names in sorted(back.items()):
        if len(names) > 1:
            print(f"fall together: {' '.join(names)} -> {new}", file=sys.stderr)


main()
