#!/usr/bin/env python3
"""Tells which wrong bodies can no longer be applied: of each edit in crates/CRATE/must-fail and tools/wrong_bodies/CRATE the
text of each `old:` line has to stand just once in its file, as the lines before have made it. Prints what doesn't, and then
ends with status 1."""

import pathlib
import sys

TOP = pathlib.Path(__file__).resolve().parent.parent


def fault(edit, crate):
    """Why the edit can't be applied to the crate, or None."""
    texts, path, old = {}, None, None
    for line in edit.read_text(encoding="utf-8").splitlines():
        kind, _, rest = line.partition(":")
        rest = rest.removeprefix(" ")
        if kind == "file":
            path = crate / rest.strip()
            if not path.is_file():
                return f"there is no file {rest}"
            texts.setdefault(path, path.read_text(encoding="utf-8"))
        elif kind == "old":
            old = rest
        elif kind == "new" and path and old:
            found = texts[path].count(old)
            if found != 1:
                return f"its text stands {found} times in {path.relative_to(crate)}: {old.strip()}"
            texts[path], old = texts[path].replace(old, rest), None
        else:
            return f"no line of an edit: {line}"
    return None if texts and old is None else "it changes nothing"


def main():
    edits = [(it, it.parent.parent) for it in TOP.glob("crates/*/must-fail/*.edit")]
    edits += [(it, TOP / "crates" / it.parent.name) for it in TOP.glob("tools/wrong_bodies/*/*.edit")]
    faults = [f"{edit.relative_to(TOP)}: {why}" for edit, crate in sorted(edits) if (why := fault(edit, crate))]
    print(*faults, sep="\n", end="\n" if faults else "")
    print(f"wrong bodies: {len(edits) - len(faults)} can be applied, {len(faults)} can't")
    return 1 if faults else 0


sys.exit(main())
