#!/usr/bin/env python3
"""Certificates in hostile histories, made from a seed: why each shown letter stands before each later one. The program
and the small reader in another language, which knows docs/WHY.md alone, have to find each of them valid and its
reverse not, and to agree on what becomes of it where a word is changed.

    odd_certificates.py PROGRAM SEED COUNT
"""

import random
import sys
from pathlib import Path
from tempfile import TemporaryDirectory

from odd_streams import SECTION, run
import reader

HEADER = b"FGMX\1\0\0\0\1\0\0\0\x10"


def number(n):
    return n.to_bytes(4, "big")


def identifier(id):
    return number(id[0]) + number(id[1])


def origin(id):
    return b"\1" + identifier(id) if id else b"\0"


def history(dice, letters):
    """Frames of letters with any origins among the older ones, as no editor would make them, and of some deletes."""
    ids = []
    frames = [SECTION]
    for at in range(letters):
        id = (dice.randrange(1, 5), 1 + at)
        left, right = (dice.choice(ids) if ids and dice.random() < 0.6 else None for _ in range(2))
        frames.append(b"\2" + identifier(id) + SECTION[1:9] + origin(left) + origin(right) + b"\0\0" + bytes([97 + at]))
        ids.append(id)
        if dice.random() < 0.1:
            frames.append(b"\3" + identifier(dice.choice(ids)))
    return b"".join(frames)


def reverse(text):
    """The lines of each step with those of x and y exchanged."""
    lines = text.decode().split("\n")
    for at, line in enumerate(lines):
        word, *ids = line.split(" ")
        if word in ("claim", "later"):
            lines[at] = " ".join([word, *reversed(ids)])
        if word in ("down", "right") and lines[at + 1].split(" ")[0] == word:
            lines[at], lines[at + 1] = lines[at + 1], lines[at]
    return "\n".join(lines).encode()


def changed(dice, text, ids):
    """One word is another one, is left out, or stands twice; or a line is."""
    parts = text.decode().split("\n") if dice.random() < 0.2 else text.decode().replace("\n", " \n ").split(" ")
    between = "\n" if "\n" not in parts else " "
    at = dice.randrange(len(parts))
    words = ["claim", "down", "right", "prefix", "inner", "end", "later", "tie", "", "0.1", "01.1", "4294967296.0"]
    replica, counter = dice.choice(ids)
    other = dice.choice([f"{replica}.{counter}"] * 6 + words)
    parts[at : at + 1] = dice.choice([[other], [other], [other], [], [parts[at]] * 2])
    return between.join(parts).replace(" \n ", "\n").encode()


def read_check(replica, text):
    try:
        steps = reader.read_certificate(text)
    except reader.NoCertificate:
        return b"no\n"
    return b"yes\n" if steps and reader.Checker(replica.holders).is_valid(steps) else b"no\n"


def main(program, seed, count):
    dice = random.Random(seed)
    wrong = pairs = steps = agreed = valid = 0
    with TemporaryDirectory() as folder:
        file = Path(folder, "file")
        for _ in range(count):
            frames = history(dice, dice.randrange(2, 10))
            file.write_bytes(HEADER + b"\1" + number(len(frames)) + frames + b"\0")
            replica = reader.taken_in(16, list(reader.read_stream(frames)))
            shown = [op.id for op in replica.shown((1, 0))]
            for p in range(len(shown)):
                for q in range(p + 1, len(shown)):
                    text, notes, status = run(program, ["why", str(file), "1", str(p), str(q)])
                    pairs, steps = pairs + 1, steps + text.count(b"claim")
                    claim = "claim {}.{} {}.{}\n".format(*shown[p], *shown[q]).encode()
                    tries = [(text, b"yes\n"), (reverse(text), b"no\n")]
                    tries += [(other, None) for other in (changed(dice, text, shown) for _ in range(4))]
                    if (notes, status) != (b"", 0) or not text.startswith(claim):
                        wrong += 1
                        print(f"why {p} {q} of {frames.hex()}: {text} {notes} {status}")
                    for given, wanted in tries:
                        seen = run(program, ["check", str(file)], given)
                        answer = read_check(replica, given)
                        agreed, valid = agreed + 1, valid + (answer == b"yes\n")
                        if seen != (answer, b"", 0) or wanted not in (None, answer):
                            wrong += 1
                            print(f"check of {frames.hex()}: {given} is {seen}, and {answer} for the reader")
    print(f"{count} histories, {pairs} pairs, {steps} steps; {agreed} texts, {valid} of them valid; {wrong} wrong")
    return 1 if wrong else 0


if __name__ == "__main__":
    sys.exit(main(sys.argv[1], int(sys.argv[2]), int(sys.argv[3])))
