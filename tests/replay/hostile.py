"""Plays hostile scripts on replay, and holds each answer to a reading of docs/RULES.md in Python.

usage: hostile.py REPLAY [SEED]
"""

import random
import re
import subprocess
import sys
import time

SUMMARY = b"done 0 calls, 0 granted, 0 refused, 0 cycles, 0 reachable, 0 weak, 0 neither"


def settle(text, room):
    """The answer of settling into a buffer: the settled text, or the number of the refusal."""
    if len(text) > 120:
        return 1
    if any(b < 0x20 or b > 0x7E for b in text):
        return 2
    parts = text.replace(b"\\", b"/").split(b"/")
    settled = b"/".join(part for part in parts if part).lower()
    if not settled:
        return 3
    if len(settled) > 40:
        return 4
    return 8 if room < 40 else settled


def unescape(text):
    """The bytes that a TEXT stands for, or None."""
    if not re.fullmatch(rb"(?:[^\\]|\\\\|\\x[0-9A-Fa-f]{2})*", text, re.DOTALL):
        return None
    return re.sub(
        rb"\\(?:\\|x(..))",
        lambda m: b"\\" if m[1] is None else bytes([int(m[1], 16)]),
        text,
        flags=re.DOTALL,
    )


def answer(line):
    """The answer to a line, or None if it is passed over."""
    if not line or line.startswith(b"#"):
        return None
    match = re.fullmatch(rb"settletext ([0-9]+)(?: (.*))?", line, re.DOTALL)
    if match is None:
        return b"invalid"
    digits = match[1].lstrip(b"0") or b"0"
    text = unescape(match[2] or b"")
    if len(digits) > 10 or int(digits) > 4294967295 or text is None:
        return b"invalid"
    settled = settle(text, int(digits))
    if isinstance(settled, int):
        return b"-%d" % settled
    return b"%d %s" % (len(settled), settled)


def check(name, replay, script):
    lines = script.split(b"\n")
    expected = [a for a in map(answer, lines) if a is not None] + [SUMMARY]
    start = time.monotonic()
    run = subprocess.run([replay], input=script, capture_output=True, timeout=120)
    seconds = time.monotonic() - start
    if run.returncode != 0 or run.stderr:
        sys.exit(f"replay: FAILED: {name}: status {run.returncode}, {run.stderr[:200]!r}")
    got = run.stdout.split(b"\n")
    if got[-1] != b"":
        sys.exit(f"replay: FAILED: {name}: the last line has no end")
    for number, (g, e) in enumerate(zip(got, expected), 1):
        if g != e:
            sys.exit(f"replay: FAILED: {name}: answer {number} is {g[:200]!r}, expected {e[:200]!r}")
    if len(got) - 1 != len(expected):
        sys.exit(f"replay: FAILED: {name}: {len(got) - 1} answers, expected {len(expected)}")
    print(f"replay: {name}: {len(expected) - 1} answers as expected, {seconds:.1f} s")


def random_line(rng):
    """A line that is often nearly right."""
    size = rng.choice([b"40", b"39", b"0", b"4096", b"4097", b"4294967295", b"4294967296", b"00000000000000040", b"+40", b"-1", b"", b"4O"])
    pieces = [b"a", b"Z", b"/", b"\\\\", b"\\x2f", b"\\x5C", b"\\x00", b"\\xfF", b"\\xg0", b"\\", b"\\x4", b" ", b"\r", b"\x00", b"\xff", b"depot/", b"Rock.FBX"]
    text = b"".join(rng.choice(pieces[: rng.choice([6, 8, len(pieces)])]) for _ in range(rng.randrange(50)))
    shape = rng.randrange(12)
    if shape == 0:
        return bytes(rng.randrange(256) for _ in range(rng.randrange(40)))
    if shape == 1:
        return rng.choice([b"settletext", b"settletext ", b"settletext 40", b"settletext 40 ", b"settletext  40 a", b"Settletext 40 a", b" settletext 40 a", b"#settletext 40 a", b"", b"open", b"heap record 2 8", b"step"])
    return b"settletext " + size + rng.choice([b" ", b" ", b" ", b"", b"  ", b"\t"]) + text


def main():
    replay = sys.argv[1]
    rng = random.Random(int(sys.argv[2]) if len(sys.argv) > 2 else 1)
    check("no input", replay, b"")
    check("one newline", replay, b"\n")
    check("no newline at the end", replay, b"settletext 40 a")
    check("random bytes", replay, rng.randbytes(1_000_000))
    check("random lines", replay, b"\n".join(random_line(rng) for _ in range(100_000)))
    check("every byte in an escape and raw", replay, b"".join(b"settletext 40 a\\x%02x\nsettletext 40 a" % b + bytes([b]) + b"b\n" for b in range(256)))
    check("a text of 20 MB", replay, b"settletext 40 " + b"/" * 20_000_000 + b"a\nopen\n")
    check("a number of 20 MB", replay, b"settletext " + b"0" * 20_000_000 + b"40 a\nopen\n")
    check("a million lines", replay, b"settletext 40 //Depot\\\\Art//Rock.FBX/\n" * 1_000_000)


main()
