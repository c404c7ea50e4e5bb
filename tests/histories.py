#!/usr/bin/env python3
"""Random histories of three authors, beside the small second program.

    tests/histories.py PROGRAM FOLDER SEED COUNT

Each author edits, revises, moves, retitles, drops, comments, and takes in the files of the others. What a file showed at
each moment is kept. Behind it, `past` prints what was shown then; `changes`, `moments`, `authors` and `remarks` print what
the second program makes of the file, and `remark` comments where it finds a passage; and a draft that was begun before
others' text came leads to what revising then, and taking in the rest afterwards, leads to. One line tells what was
compared, or what differs.
"""

import contextlib
import importlib.util
import io
import random
import shutil
import subprocess
import sys
from pathlib import Path

WORDS = "sea land wind calm grey 海 é é 🇩🇰🇫🇷 👩‍👩‍👧 and then it blew hard over the hills".split(" ")
TITLES = ["The sea", "The land", "*", "Wind & rain", "Ein Ende"]


def load_reader():
    path = Path(__file__).resolve().parent.parent / "examples" / "reader.py"
    spec = importlib.util.spec_from_file_location("reader", path)
    reader = importlib.util.module_from_spec(spec)
    sys.modules["reader"] = reader
    spec.loader.exec_module(reader)
    return reader


class Differs(Exception):
    """What was not as it should be."""


class Author:
    """An author's file, and what it showed at each moment: how many operations it had, its text, and a copy of it."""

    def __init__(self, world, number):
        self.world, self.number, self.moments = world, number, []
        self.path = world.folder / f"{number}.ms"
        world.run("new", self.path, number, 50)
        self.note_moment()

    def accepted(self):
        return int(self.world.out("list", self.path).split(b"accepted ")[1].split(b",")[0])

    def note_moment(self):
        count = self.accepted()
        if not self.moments or count > self.moments[-1][0]:
            copy = self.world.folder / f"{self.number}-{count}.ms"
            shutil.copyfile(self.path, copy)
            self.moments.append((count, self.world.out("arrange", self.path), copy))


class World:
    def __init__(self, program, folder, dice, reader):
        self.program, self.folder, self.dice, self.reader = program, folder, dice, reader
        self.compared = 0
        self.authors = [Author(self, number) for number in (1, 2, 3)]

    def run(self, *words, text=b""):
        return subprocess.run([self.program, *map(str, words)], input=text, capture_output=True, check=False)

    def out(self, *words):
        done = self.run(*words)
        if done.returncode != 0:
            raise Differs(f"{words}: {done.stderr.decode()}")
        return done.stdout

    def phrase(self):
        return " ".join(self.dice.choices(WORDS, k=self.dice.randint(1, 5)))

    def small(self, least=1):
        return self.dice.randint(least, 4)

    def draft_of(self, text):
        """A draft: some words of a text are others, some are gone, some came, and so with sections."""
        lines = text.decode().split("\n")[:-1] or ["# " + self.dice.choice(TITLES), ""]
        for _ in range(self.small()):
            at = self.dice.randrange(len(lines))
            choice = self.dice.random()
            if choice < 0.2 and at > 0:
                lines[at:at] = ["# " + self.dice.choice(TITLES), self.phrase()]
            elif choice < 0.3 and lines[at].startswith("# "):
                lines[at] = "# " + self.dice.choice(TITLES)
            elif not lines[at].startswith("# "):
                words = lines[at].split(" ")
                words[self.dice.randrange(len(words))] = self.phrase() if choice < 0.8 else ""
                lines[at] = " ".join(words)
        return "".join(line + "\n" for line in lines).encode()

    def script(self):
        line = self.dice.choice(
            [
                f"add 1 {self.dice.choice(TITLES)}",
                f"put {self.small()} {self.small(0)} {self.phrase()}",
                f"put {self.small()} 0 {self.phrase()}",
                f"cut {self.small()} {self.small(0)} {self.small()}",
                f"cut {self.small()} {self.small(0)} {self.small() * 3}",
                f"drop {self.small()}",
            ]
        )
        return (line + "\n").encode()

    def act(self, author):
        """One act. One that is refused changes nothing."""
        acts = ["edit"] * 3 + ["revise", "comment", "merge"] * 2 + ["move", "retitle"]
        act = self.dice.choice(acts)
        if act == "edit":
            self.run("edit", author.path, text=self.script())
        elif act == "revise":
            self.revise(author.path, author.moments[-1][1])
        elif act == "move":
            self.run("move", author.path, self.small(), self.small())
        elif act == "retitle":
            self.run("retitle", author.path, self.small(), self.dice.choice(TITLES) + "!")
        elif act == "comment":
            self.run("comment", author.path, self.small(), self.small(0), self.small(), self.phrase())
        else:
            self.run("merge", author.path, self.dice.choice(self.authors).path)
        author.note_moment()

    def revise(self, path, text, *moment):
        base = self.folder / "base"
        base.write_bytes(text)
        return self.run("revise", path, base, *moment, text=self.draft_of(text))

    def read(self, command, author, *words):
        """What the second program prints of a file."""
        told = io.StringIO()
        with contextlib.redirect_stdout(told):
            command(author.path.read_bytes(), *words)
        return told.getvalue().encode()

    def compare(self, what, seen, wanted):
        self.compared += 1
        if seen != wanted:
            raise Differs(f"{what}:\n{seen.decode(errors='replace')}\nand not\n{wanted.decode(errors='replace')}")

    def compare_reports(self, author):
        for number in range(6):
            self.compare_remark(author, f"remark {author.number}.{number}")
        self.compare("authors", self.out("authors", author.path), self.read(self.reader.authors_file, author))
        self.compare("remarks", self.out("remarks", author.path), self.read(self.reader.remarks_file, author))
        for count, text, _ in self.dice.sample(author.moments, min(5, len(author.moments))):
            self.compare(f"past {count}", self.out("past", author.path, count), text)
            changes = self.read(self.reader.changes_file, author, str(count))
            self.compare(f"changes {count}", self.out("changes", author.path, count), changes)
        self.compare("moments", self.out("moments", author.path), self.read(self.reader.moments_file, author))
        now = author.accepted()
        self.compare("changes since now", self.out("changes", author.path, now), b"")
        refused = self.run("changes", author.path, now + 1)
        self.compare("a moment to come", refused.stderr.splitlines()[-1], b"no moment %d" % (now + 1))

    def passage(self, author):
        """Some letters of a text, or none that stands there."""
        arrangement = self.reader.Arrangement(self.reader.taken_in(*self.reader.read_file(author.path.read_bytes())))
        texts = [text for section in arrangement.sections() if (text := arrangement.replica.text(section))]
        if not texts or self.dice.random() < 0.1:
            return self.phrase()
        text = self.dice.choice(texts)
        at = self.dice.randrange(len(text))
        return text[at : at + self.dice.randint(1, 12)]

    def compare_remark(self, author, note):
        """A comment on a passage stands where the second program says, or is refused as it says."""
        word = self.passage(author).replace("\\", "\\\\").replace("\n", "\\n")
        try:
            wanted = self.read(self.reader.remark_file, author, word).decode().split()
        except self.reader.Refused as refused:
            done = self.run("remark", author.path, word, note)
            self.compare(f"remark {word}", done.stderr.splitlines()[-1], str(refused).encode())
            return
        self.compare(f"remark {word}", self.run("remark", author.path, word, note).stderr, b"made 1\n")
        line = " ".join([*wanted, "by", str(author.number), note]).encode()
        lines = [told.split(b": ", 1)[-1] for told in self.out("remarks", author.path).splitlines()]
        made = [told for told in lines if told.endswith(b" " + note.encode())]
        self.compare(f"where {word} stands", b"\n".join(made), line)

    def compare_joined(self, author):
        """What is kept or new of a section is what it shows, and what is kept or gone is what it showed."""
        replica = self.reader.taken_in(*self.reader.read_file(author.path.read_bytes()))
        count = self.dice.choice(author.moments)[0]
        old = self.reader.front(replica, str(count))
        for section in replica.shown(self.reader.CATALOGUE):
            runs = self.reader.changed_runs(old, replica, section.id, False)
            for gone, side in ((self.reader.GONE, replica), (self.reader.NEW, old)):
                joined = "".join(text for kind, _, text in runs if kind != gone)
                self.compare("runs joined", joined.encode(), side.text(section).encode())

    def compare_late_draft(self, author):
        """A draft that was begun before others' files were taken in, and one that was saved before that."""
        count, text, copy = author.moments[-1]
        for other in self.authors:
            self.run("merge", author.path, other.path)
        early, late = self.folder / "early.ms", self.folder / "late.ms"
        shutil.copyfile(copy, early)
        shutil.copyfile(author.path, late)
        state = self.dice.getstate()
        then = self.revise(early, text)
        self.dice.setstate(state)
        now = self.revise(late, text, count)
        self.compare("what a late draft says", now.stderr, then.stderr)
        self.run("merge", early, author.path)
        self.compare("a late draft", self.out("arrange", late), self.out("arrange", early))
        self.compare("its sections", self.out("list", late).split(b"\n", 1)[1], self.out("list", early).split(b"\n", 1)[1])
        author.note_moment()


def main(program, folder, seed, count):
    reader = load_reader()
    compared = 0
    for number in range(int(seed), int(seed) + int(count)):
        place = Path(folder) / "history"
        shutil.rmtree(place, ignore_errors=True)
        place.mkdir()
        world = World(program, place, random.Random(number), reader)
        try:
            for _ in range(24):
                world.act(world.dice.choice(world.authors))
            for author in world.authors:
                world.compare_late_draft(author)
                world.compare_reports(author)
                world.compare_joined(author)
        except Differs as why:
            print(f"history {number}: {why}")
            return 1
        compared += world.compared
    print(f"ok: {compared} comparisons in {count} histories from {seed} on")
    return 0


if __name__ == "__main__":
    sys.exit(main(*sys.argv[1:]))
