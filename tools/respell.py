#!/usr/bin/env python3
"""Brings the repository's own definitions and lemmas to one spelling: words in snake case, types in camel case.

usage: python3 tools/respell.py      once, at the top of the repository, right after the kit's port.py

A name is turned if one of our own files declares it (a definition, lemma, constructor, field, or a local name of a
proof) and it holds a dash. Names of the kit's library and names that Rattle makes keep their dashes. It says which
turned names meet another name of the same file.
"""

import os
import re

TOKEN = re.compile(r"[^\s(){};,.\[\]«»\"]+")
DECLARED = re.compile(r"^\s*(?:(?:abbrev|unfoldable|pub) )*(?:(?:data|record) )?([^\s(){};,.\[\]:]+) (?:[({].*?)?: ")
LOCAL = """after-slash at-d b-is in-range is-clean is-slot leads-to len-is minus-line no-owed none-owe not-grey open-job
    same-room settling-answer some-held spelling-settle-returned answer-to answer-to-said""".split()
# what port.py has turned in .rt and .antt files, and leaves in edits
PORTED = """alike-end alike-right alike-same all-read allowed-same at-g at-none at-slot clean-at code-of cut-off
    drop-keeps effect-of first-passes first-range first-word found-first front-of gives-back goes-on held-at
    in-use is-found is-free is-number is-open is-spelled is-white last-apart left-end left-out line-of more-by
    next-edge next-place no-cells no-last no-plus no-room no-store no-zero none-named not-white number-of one-less
    one-name one-place or-else passed-over right-end row-keeps row-ok run-sound same-text size-is slot-heap
    slot-is slot-ok spelled-same spelled-stays stays-at step-from step-keeps store-keeps stored-last swept-kept
    text-of told-line too-long too-much trim-end upd-other upd-same walk-end with-it word-number zero-is all-plain
    is-plain none-is""".split()
# a type of the crate model that this script left as it was; it was renamed by hand, to AllGreyer
KEPT = {"All-greyer"}
MADE = ("Answers.antt", "Invariants.antt")


def made(path):
    """Whether Rattle makes names that this file cites: the proof of a function."""
    return os.path.basename(path) in MADE and os.path.basename(os.path.dirname(path)) not in ("specs", "proofs")


def files():
    for top in ("crates", "tests/planted"):
        for folder, _, names in os.walk(top):
            for name in sorted(names):
                if name.endswith((".antt", ".rt", ".edit")) or (top == "tests/planted" and name == "bugs"):
                    yield os.path.join(folder, name)


def turned(name):
    if name[0].isupper():
        return "".join(part[0].upper() + part[1:] for part in name.split("-"))
    return name.replace("-", "_")


def read(path):
    with open(path, encoding="utf-8") as f:
        return f.read()


def main():
    texts = {path: read(path) for path in files()}
    own = set(LOCAL)
    for path, text in texts.items():
        if path.endswith(".antt") and not made(path):
            for line in text.splitlines():
                found = DECLARED.match(line.split("--")[0])
                if found and "-" in found.group(1):
                    own.add(found.group(1))
    own -= KEPT
    own.update(PORTED)
    met = set()
    for path, text in texts.items():
        there = set(TOKEN.findall(text))

        def turn(m):
            name = m.group(0)
            # in the proof of a function, a field of its facts or goals is a name that Rattle makes
            if name not in own or (made(path) and text[: m.start()].endswith((" c.", "(c.", "goal."))):
                return name
            if turned(name) in there:
                met.add((path, name))
            return turned(name)

        new = TOKEN.sub(turn, text)
        if new != text:
            with open(path, "w", encoding="utf-8") as f:
                f.write(new)
    for path, name in sorted(met):
        print(f"meets: {path}: {name}")
    print(f"{len(own)} names")


main()
