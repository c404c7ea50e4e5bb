#!/usr/bin/env python3
"""Tries the program on the test vectors of samples/vectors: vectors.py PROGRAM

What is wanted stands in the vectors, and for the long file below in docs/FORMATS.md. Nothing is printed where all is
as it should be.
"""

import re
import struct
import subprocess
import sys
import tempfile
from pathlib import Path

VECTORS = Path(__file__).resolve().parent.parent / "samples" / "vectors"
MOST_OPERATIONS = 4_194_304
LONGEST_RUN = 1_024
failed = 0


def run(*words, stdin=b""):
    """The status of a command, its output and its diagnostics, without the line of a reason before them."""
    ran = subprocess.run([sys.argv[1], *map(str, words)], input=stdin, capture_output=True)
    return ran.returncode, ran.stdout, re.sub(rb"\Amanuscript: .*\n", b"", ran.stderr)


def same(name, found, wanted):
    global failed
    if found != wanted:
        failed += 1
        print(f"{name}: found {found}, wanted {wanted}")


def clusters(folder):
    """Each text is put into a section, and cut away again, a cluster at a time."""
    for number, line in enumerate((VECTORS / "clusters.txt").read_text().splitlines()):
        if line.startswith("#"):
            continue
        sizes = [len(cluster.split()) for cluster in line.split("|")]
        text = "".join(chr(int(scalar, 16)) for scalar in line.replace("|", " ").split())
        file = folder / f"clusters{number}.ms"
        run("new", file, 1, 100)
        script = "add 1 T\nput 1 0 " + text.replace("\n", "\\n") + "\n"
        same(line, run("edit", file, stdin=script.encode())[2], f"made {sum(sizes) + 1}\n".encode())
        beyond = run("edit", file, stdin=f"cut 1 0 {len(sizes) + 1}\n".encode())
        same(line, beyond[2], b"out of range at line 1\n")
        for size in sizes:
            same(line, run("edit", file, stdin=b"cut 1 0 1\n")[2], f"made {size}\n".encode())


def stray(folder):
    """An operation waits, and is dropped when what it names comes and does not fit."""
    frames = (VECTORS / "stray_after_waiting.frames").read_bytes()
    printed = (VECTORS / "stray_after_waiting.printed").read_bytes()
    diagnostics = (VECTORS / "stray_after_waiting.diagnostics").read_bytes()
    same("stray after waiting", run("show", stdin=frames), (3, printed, diagnostics))


def dropped_counter(folder):
    """An operation with the greatest counter of the replica waits, and is dropped: its counter is free again."""
    file = folder / "dropped.ms"
    run("new", file, 1, 100)
    same("dropped", run("take", file, stdin=(VECTORS / "dropped_counter.frames").read_bytes())[0], 3)
    same("after it", run("edit", file, stdin=b"add 1 T\n")[0], 0)
    same("what is sent then", run("send", file)[1], (VECTORS / "dropped_counter.sent").read_bytes())


def certificates(folder):
    """Some certificates are valid, each at two places of the text, and the others are not. One has one letter more."""
    file = folder / "letters.ms"
    run("new", file, 7, 100)
    same("letters", run("take", file, stdin=(VECTORS / "letters.frames").read_bytes())[0], 0)
    valid = {"valid": (1, 2), "prefix": (0, 1), "tie": (0, 3)}
    for vector in sorted(VECTORS.glob("*.certificate")):
        answer = b"yes\n" if vector.stem in valid else b"no\n"
        same(vector.name, run("check", file, stdin=vector.read_bytes()), (0, answer, b""))
    run("take", file, stdin=(VECTORS / "end.frames").read_bytes())
    # The letter stands behind the first one.
    places = {stem: [at + (at > 0) for at in ats] for stem, ats in valid.items()} | {"end": [1, 2]}
    for stem, ats in places.items():
        vector = (VECTORS / f"{stem}.certificate").read_bytes()
        same(f"why {stem}", run("why", file, 1, *ats), (0, vector, b""))
        same(f"check {stem}", run("check", file, stdin=vector), (0, b"yes\n", b""))


def record(frames):
    return b"\1" + struct.pack(">I", (1 << 29) + len(frames)) + frames


def letters(first, count):
    """Runs of letters in the section (1, 0), from this counter on."""
    frames = []
    for counter in range(first, first + count, LONGEST_RUN):
        size = min(LONGEST_RUN, first + count - counter)
        left = b"\0" if counter == 1 else b"\1" + struct.pack(">II", 1, counter - 1)
        head = b"\4" + struct.pack(">IIII", 1, counter, 1, 0) + left + b"\0" + struct.pack(">H", size)
        frames.append(head + size * b"\0\0a")
    return b"".join(frames)


def full_file(folder):
    """One operation too many, with the record that has it whole, and with that record corrupt."""
    section = b"\1" + struct.pack(">II", 1, 0) + b"\0\0\0\1T"
    header = b"FGMX\2" + struct.pack(">II", 1, 100)
    full = header + record(section + letters(1, MOST_OPERATIONS - 1))
    one_more = letters(MOST_OPERATIONS, 2)
    file = folder / "full.ms"
    for name, more, ends in [
        ("full", b"", (0, b"")),
        ("too many", record(one_more), (7, b"too many: 4194304\n")),
        ("a bad batch in the record that is too much", record(one_more + b"\6"), (6, b"bad batch 1\n")),
        ("a bad batch after it", record(one_more) + record(b"\6"), (7, b"too many: 4194304\n")),
    ]:
        file.write_bytes(full + more + b"\0")
        status, _, diagnostics = run("print", file)
        same(name, (status, diagnostics), ends)


with tempfile.TemporaryDirectory() as name:
    for test in (clusters, stray, dropped_counter, certificates, full_file):
        test(Path(name))
sys.exit(1 if failed else 0)
