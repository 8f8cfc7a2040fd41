#!/usr/bin/env python3
"""edits_fit: does every must-fail edit still apply to the file that it names?

Run it at the top of the repository: `python3 tools/edits_fit.py`, with names of crates for these alone. It proves nothing and needs no kit: it does to each
crates/*/must-fail/*.edit what `rt must-fail` does before it asks the prover, pair by pair, each `old:` text standing exactly once in what the pairs before it
made. It prints the edits that don't apply, with the reason, and ends with status 1 if there is one.
"""
import glob
import os
import sys


def fault(edit, crate):
    """Why the edit doesn't apply to the crate, or None."""
    name, old, was, now = None, None, {}, {}
    with open(edit, encoding="utf-8") as lines:
        for line in lines.read().split("\n"):
            if line.startswith("file: "):
                name = line[len("file: "):].strip()
                if not name.startswith(("src/", "specs/", "proofs/")) or not os.path.isfile(os.path.join(crate, name)):
                    return f"no file {name}"
                if name not in now:
                    with open(os.path.join(crate, name), encoding="utf-8") as text:
                        was[name] = now[name] = text.read()
            elif line.startswith("old: "):
                old = line[len("old: "):]
            elif line.startswith("new:"):
                if name is None or not old:
                    return "a new: text before any file: or old: text"
                found = now[name].count(old)
                if found != 1:
                    return f"{name} has {found} times: {old}"
                now[name] = now[name].replace(old, line[len("new:"):].removeprefix(" "))
                old = None
    if old is not None:
        return f"an old: text with no new: text: {old}"
    return None if was != now else "it changes nothing"


def main(names):
    edits = sorted(glob.glob("crates/*/must-fail/*.edit"))
    if names:
        edits = [it for it in edits if it.split(os.sep)[1] in names]
    bad = 0
    for edit in edits:
        why = fault(edit, os.path.join("crates", edit.split(os.sep)[1]))
        if why:
            bad += 1
            print(f"{edit}: {why}")
    print(f"{len(edits)} edits, {bad} that don't apply")
    return 1 if bad or not edits else 0


if __name__ == "__main__":
    sys.exit(main(sys.argv[1:]))
