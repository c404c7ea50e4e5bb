#!/usr/bin/env python3
"""Odd streams and files, made from a seed: what the program prints, notes and ends with has to be what the small reader
in this language, which knows docs/FORMATS.md alone, makes of them.

    odd_streams.py PROGRAM SEED COUNT
"""

import io
import random
import re
import subprocess
import sys
from contextlib import redirect_stderr, redirect_stdout
from pathlib import Path
from tempfile import TemporaryDirectory

sys.path.insert(0, str(Path(__file__).parent.parent / "examples"))
sys.dont_write_bytecode = True
import reader

# Bytes at which some field of a frame begins to be wrong, or just is not.
TELLING = [0, 1, 2, 3, 4, 5, 6, 10, 13, 0x10, 0x11, 0xD7, 0xD8, 0xDF, 0xE0, 0xC1, 0xC3, 0xED, 0xF4, 0xF5, 0xFF]
TITLES = ["T", "Sea", "\u00e9", "\U0001f3a9x", "a b", "t" * 480]
# The commands that report on a file, and need no other word.
REPORTS = ["print", "arrange", "list", "comments", "remarks", "authors", "versions", "moments", "send"]
SECTION = bytes.fromhex("01 00000001 00000000 00 00 0001 54")


class Odd:
    """Makes operations of few identifiers, so that they rest on each other, wait, clash and stray."""

    def __init__(self, seed):
        self.random = random.Random(seed)

    def identifier(self):
        return self.random.randrange(1, 4).to_bytes(4, "big") + self.random.randrange(6).to_bytes(4, "big")

    def origin(self):
        return b"\0" if self.random.random() < 0.4 else b"\1" + self.identifier()

    def scalar(self):
        return ord(self.random.choice("abc\u00e9\U0001f3a9")).to_bytes(3, "big")

    def section(self):
        return SECTION[1:9] if self.random.random() < 0.6 else self.identifier()

    def run(self):
        """A run, of which the count may be wrong or more than the counter leaves."""
        last = 0xFFFFFFFF - self.random.randrange(4)
        first = self.identifier() if self.random.random() < 0.98 else b"\0\0\0\1" + last.to_bytes(4, "big")
        count = self.random.choice([2, 3, 4] * 40 + [1024, 1024, 0, 1, 1025])
        scalars = b"".join(self.scalar() for _ in range(count))
        return b"\4" + first + self.section() + self.origin() + self.origin() + count.to_bytes(2, "big") + scalars

    def stamp(self):
        return self.random.choice([0, 1, 2, 3, 0xFFFFFFFF]).to_bytes(4, "big")

    def move(self):
        """The code, the names and the body of a move, which may have a form or names that do not fit."""
        form = self.random.choice([0, 1, 2, 3] * 10 + [4])
        names = form.bit_count() + self.random.choice([0] * 20 + [1])
        named = self.section() + b"".join(self.identifier() for _ in range(names))
        return 1, named, self.stamp() + bytes([form])

    def retitle(self):
        title = self.random.choice([*TITLES, "", "a\nb", "t" * 481]).encode() + self.random.choice([b""] * 20 + [b"\xff"])
        return 2, self.section(), self.stamp() + title

    def comment(self):
        """The code, the names and the body of a comment, of which the text may be none."""
        names = self.random.choice([2] * 20 + [1, 3])
        text = self.random.choice(["why?", "d'accord", "\u00e9", "", "a\nb", "c" * 1024]).encode()
        return 3, b"".join(self.identifier() for _ in range(names)), text + self.random.choice([b""] * 20 + [b"\xff"])

    def version(self):
        name = self.random.choice(["one", "one", "second draft", "", "a\rb", "n" * 120, "n" * 121]).encode()
        return 4, b"" if self.random.random() < 0.9 else self.identifier(), name + self.random.choice([b""] * 20 + [b"\xff"])

    def other_note(self):
        """A note of any code, of which the names may be too many, and the body too long."""
        names = self.random.choice([0, 1, 2, 3] * 20 + [4])
        body = bytes(self.random.choice(TELLING) for _ in range(self.random.choice([0, 1, 5, 9] * 20 + [1024, 1025])))
        return self.random.randrange(256), b"".join(self.identifier() for _ in range(names)), body

    def note(self):
        code, named, body = self.random.choice(
            [self.move, self.move, self.retitle, self.comment, self.comment, self.version, self.version, self.other_note]
        )()
        names = bytes([len(named) // 8]) + named
        return b"\5" + self.identifier() + names + bytes([code]) + len(body).to_bytes(2, "big") + body

    def frame(self, runs):
        kind = self.random.random()
        if runs and kind > 0.75 and kind < 0.9:
            return self.run()
        if runs and kind > 0.6 and kind <= 0.75:
            return self.note()
        if kind < 0.2:
            title = self.random.choice(TITLES).encode()
            return b"\1" + self.identifier() + self.origin() + self.origin() + len(title).to_bytes(2, "big") + title
        if kind < 0.85:
            return b"\2" + self.identifier() + self.section() + self.origin() + self.origin() + self.scalar()
        return b"\3" + self.identifier()

    def frames(self, most, runs=True):
        return b"".join(self.frame(runs) for _ in range(self.random.randrange(most)))

    def stream(self):
        """Frames, of which some bytes may be others, or the end may lack."""
        stream = bytearray((SECTION if self.random.random() < 0.8 else b"") + self.frames(40))
        if stream and self.random.random() < 0.3:
            stream[self.random.randrange(len(stream))] = self.random.choice(TELLING)
        if self.random.random() < 0.3:
            del stream[self.random.randrange(len(stream) + 1) :]
        return bytes(stream)

    def file(self):
        """A header and slots, of which each part may be wrong."""
        hold = self.random.choice([1, 2, 16, 1_048_576] * 3 + [0, 1_048_577])
        version = self.random.choice([1, 2] * 20 + [0, 3]).to_bytes(1, "big")
        file = b"FGMX" + version + self.random.randrange(5).to_bytes(4, "big") + hold.to_bytes(4, "big")
        for _ in range(self.random.randrange(4)):
            tag = self.random.choice([0, 1] * 30 + [2, 7])
            has_runs = tag == 1 or self.random.random() < 0.05
            batch = self.stream() if self.random.random() < 0.2 else self.frames(12, has_runs)
            size = len(batch) + self.random.choice([0] * 20 + [1, -1, 300_000_000])
            file += b"\1" + (tag * reader.TAG_UNIT + max(size, 0)).to_bytes(4, "big") + batch
        file += self.random.choice([b"\0", b"\0", b"\0", b"\7", b"\0more", b""])
        return file[: self.random.randrange(len(file) + 1)] if self.random.random() < 0.1 else file


def read(command, data, *words):
    """What the reader prints and notes, and its status."""
    output = io.TextIOWrapper(io.BytesIO(), encoding="utf-8", newline="")
    notes = io.StringIO()
    with redirect_stdout(output), redirect_stderr(notes):
        try:
            status = reader.COMMANDS[command](data, *words)
        except reader.Refused as refused:
            print(refused, file=sys.stderr)
            status = refused.status
    output.flush()
    return output.buffer.getvalue(), notes.getvalue().encode(), status


def run(program, words, data=b""):
    ended = subprocess.run([program, *words], input=data, capture_output=True, check=False)
    # The reader tells no reason before a diagnostic.
    return ended.stdout, re.sub(rb"\Amanuscript: .*\n", b"", ended.stderr), ended.returncode


def main(program, seed, count):
    odd = Odd(seed)
    wrong = 0
    statuses = {}
    with TemporaryDirectory() as folder:
        file = Path(folder, "file")
        for _ in range(count):
            stream, data = odd.stream(), odd.file()
            file.write_bytes(data)
            moment = str(odd.random.randrange(6))
            of_file = [*((command,) for command in REPORTS), ("view", "one"), ("past", moment), ("changes", moment)]
            tries = [(["show"], stream, run(program, ["show"], stream))]
            tries += [([name, *words], data, run(program, [name, str(file), *words])) for name, *words in of_file]
            for (command, *words), given, seen in tries:
                statuses[command, seen[2]] = statuses.get((command, seen[2]), 0) + 1
                wanted = read(command, given, *words)
                if seen != wanted:
                    wrong += 1
                    print(f"{command} {' '.join(words)} of {given.hex()}: {seen} and not {wanted}")
    ends = ", ".join(f"{command} with {status} {times}" for (command, status), times in sorted(statuses.items()))
    print(f"{count} odd streams and files: {ends}; {wrong} read differently")
    return 1 if wrong else 0


if __name__ == "__main__":
    sys.exit(main(sys.argv[1], int(sys.argv[2]), int(sys.argv[3])))
