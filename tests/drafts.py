#!/usr/bin/env python3
"""Random drafts of random files: what `manuscript revise` makes of each is compared with examples/reader.py.

    tests/drafts.py PROGRAM FOLDER [COUNT [SEED]]

Each file has deleted text, moved and retitled sections, comments, the operations of another author and some that wait.
After a draft that is taken, `arrange` has to print the form of its parts, `list` what the reader lists, and another
author who merges the file the same; the numbers that it tells have to be those of the operations that the reader finds
behind the others. A draft that says what the file says writes nothing. Where a draft is refused, it has
to be by the note that the reader names, and the file stays as it was.
"""

import random
import re
import subprocess
import sys
from pathlib import Path

sys.dont_write_bytecode = True
sys.path.insert(0, str(Path(__file__).resolve().parent.parent / "examples"))
import reader

WORDS = "the sea was calm and blue, then it blew; nobody minded é ü 海 naïve 👍🏽 e\u0301 a\tb".split(" ")
TITLES = ["The sea", "The land", "A", "B", "# odd", "two  spaces ", "Ü", "The sea"]


class Trial:
    def __init__(self, program, folder, seed):
        self.program = program
        self.folder = folder
        self.rng = random.Random(seed)
        self.file = folder / "ann.ms"
        self.other = folder / "ben.ms"

    def run(self, *words, given=b""):
        ran = subprocess.run([self.program, *map(str, words)], input=given, capture_output=True, timeout=60)
        # The reader tells no reason before a diagnostic.
        ran.stderr = re.sub(rb"\Amanuscript: .*\n", b"", ran.stderr)
        return ran

    def must(self, *words, given=b""):
        ran = self.run(*words, given=given)
        if ran.returncode not in (0, 3):
            raise AssertionError(f"{words}: status {ran.returncode}, {ran.stderr!r}")
        return ran.stdout

    def line(self):
        return " ".join(self.rng.choices(WORDS, k=self.rng.randrange(12)))

    def text(self):
        return [self.line() for _ in range(self.rng.randrange(1, 6))]

    def script(self, sections):
        """A script that writes and deletes in so many sections, which are there."""
        for _ in range(self.rng.randrange(8)):
            section = self.rng.randrange(1, sections + 1)
            yield f"put {section} 0 " + "\\n".join(self.text() + ["."])
            if self.rng.random() < 0.5:
                yield f"cut {section} 0 1"

    def make_files(self):
        for path in (self.file, self.other):
            path.unlink(missing_ok=True)
        self.must("new", self.file, 1, 100)
        self.must("new", self.other, 2, 100)
        count = self.rng.randrange(5)
        lines = [f"add {self.rng.randrange(1, at + 1)} {self.rng.choice(TITLES)}" for at in range(1, count + 1)]
        lines += self.script(count) if count else []
        self.must("edit", self.file, given=("\n".join(lines) + "\n").encode())
        if count:
            count = self.arrange_anew(count)
        self.must("merge", self.other, self.file)
        if count and self.rng.random() < 0.5:
            self.must("edit", self.other, given=("\n".join(self.script(count)) + "\n").encode())
            self.must("merge", self.file, self.other)
        if self.rng.random() < 0.3:
            waits = reader.Op("Text", (9, 1), (9, 0), text="w")
            self.must("take", self.file, given=reader.single_frame(waits))

    def arrange_anew(self, count):
        """Moves, retitles, comments and drops sections. It answers how many are left."""
        for _ in range(self.rng.randrange(3)):
            self.must("move", self.file, self.rng.randrange(1, count + 1), self.rng.randrange(1, count + 1))
        if self.rng.random() < 0.4:
            self.must("retitle", self.file, self.rng.randrange(1, count + 1), self.rng.choice(TITLES))
        if self.rng.random() < 0.3:
            self.run("comment", self.file, 1, 0, 1, "why?")
        if count > 1 and self.rng.random() < 0.3:
            self.must("edit", self.file, given=f"drop {self.rng.randrange(1, count + 1)}\n".encode())
            count -= 1
        if self.rng.random() < 0.1:
            self.run("edit", self.file, given=b"put 1 0 # no title\\n\n")
        return count

    def change_letters(self, lines):
        at = self.rng.randrange(len(lines))
        old = lines[at]
        cut = self.rng.randrange(len(old) + 1)
        lines[at] = old[:cut] + self.rng.choice(["x", "", "é", " two words "]).encode() + old[cut + self.rng.randrange(3) :]

    def change_lines(self, lines):
        at = self.rng.randrange(len(lines) + 1)
        lines[at : at + self.rng.randrange(3)] = [line.encode() for line in self.text()[: self.rng.randrange(3)]]

    def change_sections(self, lines):
        heads = [at for at, line in enumerate(lines) if line.startswith(b"# ")] + [len(lines)]
        pieces = [lines[start:end] for start, end in zip(heads, heads[1:])]
        kind = self.rng.randrange(5)
        if kind == 0:
            pieces.insert(self.rng.randrange(len(pieces) + 1), [b"# " + self.rng.choice(TITLES).encode(), *map(str.encode, self.text())])
        elif pieces:
            at = self.rng.randrange(len(pieces))
            if kind == 1:
                del pieces[at]
            elif kind == 2:
                pieces.insert(self.rng.randrange(len(pieces)), pieces.pop(at))
            elif kind == 3:
                pieces[at] = [b"# " + self.rng.choice(TITLES).encode(), *pieces[at][1:]]
            else:
                pieces[at] = pieces[at][:1]
        lines[:] = [line for piece in pieces for line in piece]

    def spoil(self, lines):
        at = self.rng.randrange(len(lines) + 1)
        lines.insert(at, self.rng.choice([b"\xff", b"# ", b"#", b"\r", b"\0", b"# " + b"t" * 481, b"# a\rb", b"## a", b" # a"]))

    def draft_of(self, base):
        lines = base.split(b"\n")[:-1]
        for _ in range(self.rng.randrange(4)):
            kinds = [self.change_letters, self.change_lines, self.change_lines, self.change_sections, self.change_sections]
            if not lines:
                kinds = [self.change_sections]
            elif self.rng.random() < 0.1:
                kinds = [self.spoil]
            self.rng.choice(kinds)(lines)
        if self.rng.random() < 0.03:
            return b""
        draft = b"".join(line + b"\n" for line in lines)
        return draft[:-1] if draft and self.rng.random() < 0.2 else draft

    def base_of(self, printed):
        kind = self.rng.random()
        if kind < 0.03:
            return printed + b"x"
        if kind < 0.06:
            return printed[:-1]
        return printed

    def expected(self, base, draft):
        """The parts, or a refusal's status and note."""
        replica = reader.taken_in(*reader.read_file(self.file.read_bytes()))
        try:
            return reader.read_draft(replica, base, draft), None
        except reader.Refused as refused:
            return None, (refused.status, f"{refused}\n".encode())

    def try_draft(self):
        self.make_files()
        printed = self.must("arrange", self.file)
        base, draft = self.base_of(printed), self.draft_of(printed)
        (self.folder / "base.txt").write_bytes(base)
        before = self.file.read_bytes()
        parts, refusal = self.expected(base, draft)
        ran = self.run("revise", self.file, self.folder / "base.txt", given=draft)
        assert ran.stdout == b"", f"it printed {ran.stdout!r}"
        if refusal:
            assert (ran.returncode, ran.stderr) == refusal, f"{ran.returncode}, {ran.stderr!r} and not {refusal}"
            assert self.file.read_bytes() == before, "a refused draft was saved"
            return "refused"
        told = self.told_since(before)
        assert (ran.returncode, ran.stderr.decode()) == (0, told), f"{ran.returncode}, {ran.stderr!r} and not {told!r}"
        form = printed if parts is None else reader.form(parts)
        assert self.must("arrange", self.file) == form, "it is not what arrange prints"
        if form == printed:
            assert self.file.read_bytes() == before, "something was written for no change"
        self.compare_list()
        self.must("merge", self.other, self.file)
        assert self.must("arrange", self.other) == form, "another author reads something else"
        return "taken"

    def told_since(self, before):
        """What is told of the operations that the file has since then."""
        _, old = reader.read_file(before)
        _, ops = reader.read_file(self.file.read_bytes())
        made = ops[len(old) :]
        sections = {op.id for op in ops if op.kind == "Section"}
        counts = [
            sum(op.kind == "Section" for op in made),
            sum(op.kind == "Delete" and op.target in sections for op in made),
            sum(op.kind == "Note" and op.code == reader.MOVE for op in made),
            sum(op.kind == "Note" and op.code == reader.RETITLE for op in made),
        ]
        told = f"made {len(made)}\n"
        if any(counts):
            told += "sections: {} added, {} dropped, {} moved, {} retitled\n".format(*counts)
        return told

    def compare_list(self):
        told = subprocess.run(
            [sys.executable, reader.__file__, "list", str(self.file)], capture_output=True, timeout=60, check=True
        )
        assert self.must("list", self.file) == told.stdout, "the lists differ"


def main(program, folder, count="200", seed=None):
    first = random.randrange(1 << 32) if seed is None else int(seed)
    counts = {"taken": 0, "refused": 0}
    for number in range(int(count)):
        trial = Trial(program, Path(folder), first + number)
        try:
            counts[trial.try_draft()] += 1
        except AssertionError as failed:
            print(f"FAILED: the draft of seed {first + number}: {failed}")
            return 1
    print(f"ok: {count} random drafts from seed {first} on: {counts['taken']} taken, {counts['refused']} refused")
    return 0


if __name__ == "__main__":
    sys.exit(main(*sys.argv[1:]))
