#!/usr/bin/env python3
"""A small reader of frames and of replica files, written from docs/FORMATS.md alone.

    reader.py tell FRAMES    tells each operation of a stream, and how the stream ends
    reader.py show FRAMES    what `manuscript show` prints and notes
    reader.py print FILE     what `manuscript print` prints and notes
    reader.py arrange FILE   what `manuscript arrange` prints and notes
    reader.py list FILE      what `manuscript list` prints and notes
    reader.py draft FILE BASE [N]
                             what `manuscript arrange` prints behind `manuscript revise FILE BASE` with the draft on
                             standard input, or why that is refused; with N, for a file that has no more than N operations
    reader.py past FILE N    what `manuscript past` prints and notes
    reader.py moments FILE   what `manuscript moments` prints and notes
    reader.py changes FILE N what `manuscript changes` prints and notes
    reader.py authors FILE   what `manuscript authors` prints and notes
    reader.py comments FILE  what `manuscript comments` prints and notes
    reader.py remarks FILE   what `manuscript remarks` prints and notes
    reader.py remark FILE PASSAGE
                             on what `manuscript remark` comments: the place of the section, the first cluster and how
                             many there are; or why it makes no comment
    reader.py versions FILE  what `manuscript versions` prints and notes
    reader.py view FILE NAME what `manuscript view` prints and notes
    reader.py send FILE      what `manuscript send` writes and notes
    reader.py take FILE      what `manuscript take` notes of the stream on standard input
    reader.py merge FILE OTHER
                             what `manuscript merge` notes
    reader.py why FILE K P Q what `manuscript why` prints and notes
    reader.py check FRAMES   whether the text on standard input is that of a valid certificate, as docs/WHY.md says

It keeps the rules and not the limits: it counts no operations but the waiting ones, and no bytes. It needs Python 3.10 or
newer.
"""

import gc
import os
import re
import sys
import unicodedata
from bisect import bisect_left, bisect_right
from dataclasses import dataclass, field
from itertools import groupby

if sys.version_info < (3, 10):
    sys.exit("this needs Python 3.10 or newer")

USUAL_HOLD = 65_536
LONGEST_BATCH = 268_435_456
TAG_UNIT = 536_870_912
LAST_SLOT = 4_294_967_295
GREATEST_NUMBER = 4_294_967_295
LONGEST_RUN = 1_024
MOST_NAMES = 3
LONGEST_BODY = 1_024
LONGEST_NAME = 120
LONGEST_TITLE = 480

# The codes of notes with a meaning.
MOVE, RETITLE, COMMENT, VERSION = 1, 2, 3, 4

# Where elements stand that are sections.
CATALOGUE = "catalogue"


@dataclass(slots=True)
class Op:
    """An operation. Identifiers are pairs of numbers; an origin of None is the start or the end."""

    kind: str
    id: tuple | None
    section: tuple | None = None
    left: tuple | None = None
    right: tuple | None = None
    text: str = ""
    target: tuple | None = None
    named: tuple = ()
    code: int | None = None
    body: bytes = b""

    def place(self):
        """Where the element of a Section or a Text stands."""
        return CATALOGUE if self.kind == "Section" else self.section

    def names(self):
        """What the operation names, each with the place that it has to be an element of (None: any operation)."""
        if self.kind == "Delete":
            return [(self.target, None)]
        if self.kind == "Note":
            return [(identifier, None) for identifier in self.named]
        origins = [(origin, self.place()) for origin in (self.left, self.right) if origin]
        return origins if self.kind == "Section" else [(self.section, CATALOGUE), *origins]


class Bad(Exception):
    """The bytes are no front of a frame."""


class Short(Exception):
    """The bytes end inside of a frame."""


class Refused(Exception):
    """A note, and the status that goes with it."""

    def __init__(self, note, status):
        super().__init__(note)
        self.status = status


class Cursor:
    """Takes the parts of a frame from the front of some bytes."""

    def __init__(self, data, at):
        self.data = data
        self.at = at

    def byte(self):
        if self.at == len(self.data):
            raise Short
        self.at += 1
        return self.data[self.at - 1]

    def number(self, size, is_front=lambda so_far, left: True):
        """A number of so many bytes. Each byte has to leave a front of a number that is allowed."""
        number = 0
        for left in reversed(range(size)):
            number = number * 256 + self.byte()
            if not is_front(number, left):
                raise Bad
        return number

    def identifier(self):
        return (self.number(4, lambda so_far, left: left > 0 or so_far > 0), self.number(4))

    def origin(self):
        mark = self.byte()
        if mark > 1:
            raise Bad
        return self.identifier() if mark == 1 else None

    def title(self):
        size = self.number(2, lambda so_far, left: so_far <= 1 if left else 1 <= so_far <= LONGEST_TITLE)
        return "".join(self.title_parts(size))

    def title_parts(self, size):
        """The characters of so many bytes, each looked at byte by byte."""
        end = self.at + size
        while self.at < end:
            start = self.at
            while True:
                if self.byte() in b"\n\r":
                    raise Bad
                try:
                    yield self.data[start : self.at].decode("utf-8")
                    break
                except UnicodeDecodeError as error:
                    is_cut = error.reason == "unexpected end of data"
                    if not is_cut or start + utf8_size(self.data[start]) > end:
                        raise Bad from None

    def scalar(self):
        def is_front(so_far, left):
            low, high = so_far << 8 * left, (so_far + 1 << 8 * left) - 1
            return low <= 0x10FFFF and not (0xD800 <= low and high <= 0xDFFF)

        return chr(self.number(3, is_front))

    def frame(self, runs):
        """The operations of a frame. Version 1 had neither runs nor notes."""
        kind = self.byte()
        if kind == 1:
            return [Op("Section", self.identifier(), None, self.origin(), self.origin(), self.title())]
        if kind == 2:
            identifier, section = self.identifier(), self.identifier()
            return [Op("Text", identifier, section, self.origin(), self.origin(), self.scalar())]
        if kind == 3:
            return [Op("Delete", None, target=self.identifier())]
        if kind == 4 and runs:
            return self.run()
        if kind == 5 and runs:
            return [self.note()]
        raise Bad

    def note(self):
        identifier = self.identifier()
        count = self.number(1, lambda so_far, left: so_far <= MOST_NAMES)
        named = tuple(self.identifier() for _ in range(count))
        code = self.byte()
        size = self.number(2, lambda so_far, left: so_far <= LONGEST_BODY >> 8 * left)
        return Op("Note", identifier, named=named, code=code, body=bytes(self.byte() for _ in range(size)))

    def run(self):
        """The Texts of a run. Each but the first has the one before as its left origin."""
        replica, counter = self.identifier()
        most = min(LONGEST_RUN, GREATEST_NUMBER - counter + 1)
        if most < 2:
            raise Bad
        section, left, right = self.identifier(), self.origin(), self.origin()
        count = self.number(2, lambda so_far, left: so_far <= most >> 8 if left else 2 <= so_far <= most)
        texts = []
        for behind, scalar in enumerate(self.scalars(count)):
            texts.append(Op("Text", (replica, counter + behind), section, left, right, scalar))
            left = texts[-1].id
        return texts

    def scalars(self, count):
        """So many scalars: all at once where they are whole and each is one, and else up to the byte that is wrong."""
        taken = self.data[self.at : self.at + 3 * count]
        wide = bytearray(4 * count)
        if len(taken) == 3 * count:
            wide[1::4], wide[2::4], wide[3::4] = taken[0::3], taken[1::3], taken[2::3]
            try:
                text = wide.decode("utf-32-be")
            except UnicodeDecodeError:
                return [self.scalar() for _ in range(count)]
            self.at += len(taken)
            return text
        return [self.scalar() for _ in range(count)]


def utf8_size(first):
    """How many bytes a character has that begins with this one."""
    return 2 if first < 0xE0 else 3 if first < 0xF0 else 4


def read_stream(data, runs=True):
    """Each operation of a stream, where there may be runs and notes or neither. It ends as the stream does."""
    at = 0
    while at < len(data):
        cursor = Cursor(data, at)
        try:
            ops = cursor.frame(runs)
        except Short:
            raise Refused(f"cut short at byte {at}", 2) from None
        except Bad:
            raise Refused(f"bad frame at byte {at}", 2) from None
        yield from ops
        at = cursor.at


def number_bytes(number, size):
    return number.to_bytes(size, "big")


def id_bytes(identifier):
    return number_bytes(identifier[0], 4) + number_bytes(identifier[1], 4)


def origin_bytes(origin):
    return b"\1" + id_bytes(origin) if origin else b"\0"


def scalars(texts):
    return b"".join(number_bytes(ord(text.text), 3) for text in texts)


def single_frame(op):
    if op.kind == "Delete":
        return b"\3" + id_bytes(op.target)
    if op.kind == "Note":
        names = number_bytes(len(op.named), 1) + b"".join(map(id_bytes, op.named))
        return b"\5" + id_bytes(op.id) + names + number_bytes(op.code, 1) + number_bytes(len(op.body), 2) + op.body
    origins = origin_bytes(op.left) + origin_bytes(op.right)
    if op.kind == "Text":
        return b"\2" + id_bytes(op.id) + id_bytes(op.section) + origins + scalars([op])
    title = op.text.encode()
    return b"\1" + id_bytes(op.id) + origins + number_bytes(len(title), 2) + title


def run_frame(texts):
    first = texts[0]
    origins = origin_bytes(first.left) + origin_bytes(first.right)
    head = b"\4" + id_bytes(first.id) + id_bytes(first.section) + origins
    return head + number_bytes(len(texts), 2) + scalars(texts)


def is_typed_behind(before, op):
    """Whether the second of two operations is the Text that a run with the first one goes on with."""
    return (
        before.kind == op.kind == "Text"
        and op.id == (before.id[0], before.id[1] + 1)
        and op.left == before.id
        and (op.section, op.right) == (before.section, before.right)
    )


def frames(ops):
    """The frames of operations: from the front each stands for as many as one can."""
    stretch = []
    for op in ops:
        if stretch and (len(stretch) == LONGEST_RUN or not is_typed_behind(stretch[-1], op)):
            yield frame_of(stretch)
            stretch = []
        stretch.append(op)
    if stretch:
        yield frame_of(stretch)


def frame_of(stretch):
    return single_frame(stretch[0]) if len(stretch) == 1 else run_frame(stretch)


def read_file(data):
    """The replica's HOLD and the operations of a file."""
    hold, batches = read_batches(data)
    return hold, [op for batch in batches for op in batch]


def read_batches(data):
    """The replica's HOLD and the batches of a file."""
    hold = int.from_bytes(data[9:13], "big")
    is_replica = len(data) >= 14 and data[:4] == b"FGMX" and data[4] in (1, 2) and any(data[5:9])
    if not is_replica or not 1 <= hold <= 1_048_576:
        raise Refused("not a replica", 6)
    batches, at, slot = [], 13, 0
    while data[at] == 1:
        tag, size = divmod(int.from_bytes(data[at + 1 : at + 5], "big"), TAG_UNIT)
        end = at + 5 + size
        if tag > 1 or size > LONGEST_BATCH or end >= len(data) or slot == LAST_SLOT:
            raise Refused(f"bad batch {slot}", 6)
        try:
            batches.append(list(read_stream(data[at + 5 : end], runs=tag == 1)))
        except Refused:
            raise Refused(f"bad batch {slot}", 6) from None
        at, slot = end, slot + 1
    return hold, batches


@dataclass
class Place:
    """The elements of a place: a tree, whose walk is kept until it changes."""

    nodes: dict = field(default_factory=dict)
    lefts: dict = field(default_factory=dict)
    rights: dict = field(default_factory=dict)
    walked: dict | None = None

    def insert(self, op):
        right = self.nodes.get(op.right)
        if right and right.left == op.left:
            siblings, goes_before = self.lefts.setdefault(op.right, []), self.by_identifier
        else:
            siblings, goes_before = self.rights.setdefault(op.left, []), self.by_right_origin
        behind = sum(goes_before(sibling, op) for sibling in siblings) if siblings else 0
        siblings.insert(behind, op)
        self.nodes[op.id] = op
        self.walked = None

    def by_identifier(self, a, b):
        return a.id < b.id

    def by_right_origin(self, a, b):
        """Whether a stands before b: its right origin is later, or is the same and a has the smaller identifier."""
        if a.right == b.right:
            return a.id < b.id
        if a.right is None or b.right is None:
            return a.right is None
        order = self.order()
        return order[a.right] > order[b.right]

    def order(self):
        """Where each element stands."""
        if self.walked is None:
            self.walked = {op.id: at for at, op in enumerate(self.walk())}
        return self.walked

    def walk(self):
        """Left children, the node, right children. What is still to do ends with what comes next: a node, or a pair of None
        and a node whose left children are done."""
        lefts, rights = self.lefts, self.rights
        todo = rights.get(None, [])[::-1]
        while todo:
            op = todo.pop()
            if isinstance(op, tuple):
                op = op[1]
            elif op.id in lefts:
                todo.append((None, op))
                todo += lefts[op.id][::-1]
                continue
            yield op
            if op.id in rights:
                todo += rights[op.id][::-1]


class Replica:
    """What is accepted and what waits."""

    def __init__(self, hold):
        self.hold = hold
        self.accepted = []
        self.notes = []
        self.holders = {}
        self.hidden = set()
        self.places = {CATALOGUE: Place()}
        self.waiting = []
        self.counts = dict.fromkeys(["accepted", "repeated", "waiting", "conflict", "stray", "full"], 0)

    def fits(self, holder, place):
        return place is None or holder.kind != "Note" and holder.place() == place

    def verdict(self, op):
        """Whether what the operation names is held ("ready"), is of the wrong kind ("stray"), or is missing."""
        verdict = "ready"
        for name, place in op.names():
            holder = self.holders.get(name)
            if holder is None:
                verdict = "missing"
            elif not self.fits(holder, place):
                return "stray"
        return verdict

    def is_plain_text(self, op):
        """Whether it is a Text with a new identifier, and all that it names is held and fits, as of nearly every Text."""
        if op.kind != "Text" or op.id in self.holders or op.section not in self.places[CATALOGUE].nodes:
            return False
        place = self.places.get(op.section)
        nodes = place.nodes if place else ()
        return (op.left is None or op.left in nodes) and (op.right is None or op.right in nodes)

    def is_accepted(self, op):
        return op.target in self.hidden if op.kind == "Delete" else self.holders.get(op.id) == op

    def take(self, op):
        if not self.waiting and self.is_plain_text(op):
            self.accept(op)
            return
        verdict = self.verdict(op)
        if self.is_accepted(op) or op in self.waiting:
            self.counts["repeated"] += 1
        elif op.id in self.holders or any(op.id and other.id == op.id for other in self.waiting):
            self.counts["conflict"] += 1
        elif verdict == "stray":
            self.counts["stray"] += 1
        elif verdict == "ready":
            self.accept(op)
        elif len(self.waiting) == self.hold:
            self.counts["full"] += 1
        else:
            self.waiting.append(op)
        self.settle()

    def accept(self, op):
        self.counts["accepted"] += 1
        self.accepted.append(op)
        if op.kind == "Delete":
            self.hidden.add(op.target)
        else:
            self.holders[op.id] = op
            if op.kind == "Note":
                self.notes.append(op)
            else:
                self.places.setdefault(op.place(), Place()).insert(op)

    def settle(self):
        while leaving := next((op for op in self.waiting if self.verdict(op) != "missing"), None):
            self.waiting.remove(leaving)
            if self.verdict(leaving) == "stray":
                self.counts["stray"] += 1
            else:
                self.accept(leaving)

    def shown(self, place):
        return [op for op in self.places.get(place, Place()).walk() if op.id not in self.hidden]

    def text(self, section):
        return "".join(text.text for text in self.shown(section.id))

    def manuscript(self):
        return "".join(f"# {section.text}\n{self.text(section)}\n" for section in self.shown(CATALOGUE))

    def tally(self):
        self.counts["waiting"] = len(self.waiting)
        return ", ".join(f"{name} {count}" for name, count in self.counts.items())


@dataclass(frozen=True)
class Claim:
    """What a note says of a section: origins, or a title."""

    id: tuple
    section: tuple
    stamp: int
    value: object


def read_one_line(data, longest):
    """The text that the bytes are, or None: one line of UTF-8 of at most so many bytes."""
    try:
        text = data.decode("utf-8")
    except UnicodeDecodeError:
        return None
    return text if 1 <= len(data) <= longest and not set(data) & set(b"\n\r") else None


def read_claim(op):
    """The move or the retitle that a note has the shape of, or None."""
    if op.kind != "Note" or len(op.body) < 4 or not op.named:
        return None
    stamp, rest = int.from_bytes(op.body[:4], "big"), op.body[4:]
    if op.code == RETITLE and len(op.named) == 1:
        title = read_one_line(rest, LONGEST_TITLE)
        return title and Claim(op.id, op.named[0], stamp, title)
    if op.code == MOVE and len(rest) == 1 and rest[0] <= 3 and len(op.named) == 1 + rest[0].bit_count():
        left = op.named[1] if rest[0] & 1 else None
        right = op.named[-1] if rest[0] & 2 else None
        return Claim(op.id, op.named[0], stamp, (left, right))
    return None


class Arrangement:
    """Where sections stand and what their titles are, by the moves and retitles that are valid when they come."""

    def __init__(self, replica):
        self.replica = replica
        self.lifted = Place()
        self.claims = {MOVE: [], RETITLE: []}
        sections = set()
        for op in replica.accepted:
            if op.kind == "Section":
                sections.add(op.id)
                self.lifted.insert(op)
            elif (claim := read_claim(op)) and claim.section in sections and self.lift(op, claim):
                self.claims[op.code].append(claim)

    def lift(self, op, claim):
        """Whether the claim is valid. A valid move stands among the sections as one of them."""
        if op.code == MOVE:
            left, right = claim.value
            if any(origin and origin not in self.lifted.nodes for origin in claim.value):
                return False
            self.lifted.insert(Op("Section", op.id, left=left, right=right))
        return True

    def winner(self, code, section):
        """The claim on the section with the greatest stamp, and then the greatest identifier, that is not withdrawn."""
        own = [claim for claim in self.claims[code] if claim.section == section and claim.id not in self.replica.hidden]
        return max(own, key=lambda claim: (claim.stamp, claim.id), default=None)

    def position(self, section):
        move = self.winner(MOVE, section)
        return move.id if move else section

    def heading(self, section):
        retitle = self.winner(RETITLE, section.id)
        return retitle.value if retitle else section.text

    def sections(self):
        """The shown sections, by their positions."""
        standing = {self.position(section.id): section for section in self.replica.shown(CATALOGUE)}
        return [standing[op.id] for op in self.lifted.walk() if op.id in standing]

    def text(self):
        return "".join(f"# {self.heading(section)}\n{self.replica.text(section)}\n" for section in self.sections())


ZERO_WIDTH_JOINER = "\u200d"


def cluster_class(ch):
    """The class of a character for the rules of UAX 29, by its general category: rare characters may have another."""
    category, code = unicodedata.category(ch), ord(ch)
    if ch in "\r\n":
        return {"\r": "CR", "\n": "LF"}[ch]
    if ch == ZERO_WIDTH_JOINER:
        return "ZWJ"
    if category in ("Mn", "Me") or ch == "\u200c" or 0x1F3FB <= code <= 0x1F3FF:
        return "Extend"
    if category in ("Cc", "Cf", "Zl", "Zp"):
        return "Control"
    if category == "Mc" or ch in "\u0e33\u0eb3":
        return "SpacingMark"
    if 0x1F1E6 <= code <= 0x1F1FF:
        return "Regional"
    if 0x1100 <= code <= 0x115F:
        return "L"
    if 0x1160 <= code <= 0x11A7:
        return "V"
    if 0x11A8 <= code <= 0x11FF:
        return "T"
    if 0xAC00 <= code <= 0xD7A3:
        return "LVT" if (code - 0xAC00) % 28 else "LV"
    return "Picture" if category == "So" else "Other"


HANGUL = {"L": ("L", "V", "LV", "LVT"), "LV": ("V", "T"), "V": ("V", "T"), "LVT": ("T",), "T": ("T",)}


def cluster_count(text):
    """How many extended grapheme clusters a text has."""
    return sum(1 for _ in cluster_starts(text))


def cluster_starts(text):
    """Where the extended grapheme clusters of a text begin, in scalars."""
    before, regionals, has_picture, is_joined = None, 0, False, False
    for at, kind in enumerate(map(cluster_class, text)):
        if before is None:
            joins = False
        elif "Control" in (before, kind) or {"CR", "LF"} & {before, kind}:
            joins = (before, kind) == ("CR", "LF")
        else:
            joins = (
                kind in ("Extend", "ZWJ", "SpacingMark")
                or kind in HANGUL.get(before, ())
                or (kind == "Picture" and is_joined)
                or (before == kind == "Regional" and regionals % 2 == 1)
            )
        if not joins:
            yield at
        regionals = regionals + 1 if kind == "Regional" else 0
        is_joined = kind == "ZWJ" and has_picture
        has_picture = kind == "Picture" or (has_picture and kind == "Extend")
        before = kind


def is_title(data):
    return read_one_line(data, LONGEST_TITLE) is not None


def read_parts(draft):
    """The titles and texts of a draft."""
    lines = (draft if draft.endswith(b"\n") or not draft else draft + b"\n").split(b"\n")[:-1]
    parts = []
    for number, line in enumerate(lines, 1):
        is_heading = line.startswith(b"# ")
        try:
            line.decode("utf-8")
        except UnicodeDecodeError:
            raise Refused(f"bad draft at line {number}", 2) from None
        if (is_heading and not is_title(line[2:])) or (number == 1 and not is_heading):
            raise Refused(f"bad draft at line {number}", 2)
        if is_heading:
            parts.append((line[2:], []))
        else:
            parts[-1][1].append(line)
    return [(title, b"\n".join(text)) for title, text in parts]


def form(parts):
    return b"".join(b"# " + title + b"\n" + text + b"\n" for title, text in parts)


def first_difference(old, new):
    """Where two texts differ, or the shorter one ends; None where they are the same."""
    if old == new:
        return None
    return next((at for at, (x, y) in enumerate(zip(old, new)) if x != y), min(len(old), len(new)))


def read_draft(replica, base, draft):
    """The parts of a draft that is written from the base; None where it is the base. The replica has to print the base."""
    arrangement = Arrangement(replica)
    at = first_difference(arrangement.text().encode(), base)
    if at is not None:
        raise Refused(f"base differs at byte {at}", 2)
    if draft == base:
        return None
    parts = read_parts(draft)
    if not parts and arrangement.sections():
        raise Refused("empty draft", 2)
    return parts


def taken_in(hold, ops):
    replica = Replica(hold)
    for op in ops:
        replica.take(op)
    return replica


def tell(op):
    """A line about an operation."""
    parts = [op.kind]
    for name in ("id", "section", "left", "right", "target"):
        value = getattr(op, name)
        parts += [f"{name} {value[0]}.{value[1]}"] if value else []
    parts += [f"names {replica}.{counter}" for replica, counter in op.named]
    parts += [f"code {op.code} {op.body.hex(' ')}".rstrip()] if op.kind == "Note" else []
    return " ".join(parts + ([repr(op.text)] if op.text else []))


def tell_stream(data):
    for op in read_stream(data):
        print(tell(op))
    return 0


def show(data):
    replica = taken_in(USUAL_HOLD, list(read_stream(data)))
    print(replica.manuscript(), end="")
    print(replica.tally(), file=sys.stderr)
    counts = replica.counts
    return 3 if counts["waiting"] or counts["conflict"] or counts["stray"] or counts["full"] else 0


def take_in(data, ops):
    """Notes what becomes of more operations."""
    replica = taken_in(*read_file(data))
    replica.counts = dict.fromkeys(replica.counts, 0)
    for op in ops:
        replica.take(op)
    print(replica.tally(), file=sys.stderr)
    return 3 if any(replica.counts[name] for name in ("waiting", "conflict", "stray", "full")) else 0


def take_file(data):
    read_file(data)
    return take_in(data, list(read_stream(sys.stdin.buffer.read())))


def merge_file(data, other):
    read_file(data)
    with open(other, "rb") as file:
        guest = taken_in(*read_file(file.read()))
    return take_in(data, [*guest.accepted, *guest.waiting])


def print_file(data):
    print(taken_in(*read_file(data)).manuscript(), end="")
    return 0


def arrange_file(data):
    print(Arrangement(taken_in(*read_file(data))).text(), end="")
    return 0


def list_file(data):
    hold, ops = read_file(data)
    replica = taken_in(hold, ops)
    own = int.from_bytes(data[5:9], "big")
    print(f"replica {own}, hold {hold}, accepted {len(replica.accepted)}, waiting {len(replica.waiting)}")
    arrangement = Arrangement(replica)
    numbers = {section.id: number for number, section in enumerate(replica.shown(CATALOGUE), 1)}
    for place, section in enumerate(arrangement.sections(), 1):
        number = numbers[section.id]
        mark = "" if number == place else f" ({number})"
        print(f"{place}{mark} {cluster_count(replica.text(section))} {arrangement.heading(section)}")
    return 0


def draft_file(data, base, word=None):
    replica = taken_in(*read_file(data))
    if word is not None:
        replica = front(replica, word)
    with open(base, "rb") as file:
        draft = sys.stdin.buffer.read()
        parts = read_draft(replica, file.read(), draft)
    sys.stdout.flush()
    sys.stdout.buffer.write(draft if parts is None else form(parts))
    return 0


def comments_of(replica, order):
    """The comments that are not withdrawn and whose anchors stand in this order, by identifier."""
    return sorted(
        (
            op
            for op in replica.notes
            if op.code == COMMENT and len(op.named) == 2 and op.id not in replica.hidden
            if all(name in order for name in op.named) and order[op.named[0]] <= order[op.named[1]]
            if read_one_line(op.body, LONGEST_BODY)
        ),
        key=lambda op: op.id,
    )


def comments_file(data):
    replica = taken_in(*read_file(data))
    for number, section in enumerate(replica.shown(CATALOGUE), 1):
        order = replica.places.get(section.id, Place()).order()
        shown = [at for identifier, at in order.items() if identifier not in replica.hidden]
        for comment in comments_of(replica, order):
            first, last = (order[name] for name in comment.named)
            begin, end = bisect_left(shown, first), bisect_right(shown, last)
            print(number, begin, end, comment.body.decode("utf-8"))
    return 0


def versions_of(data, replica):
    """How many operations each version of the file has, and its name."""
    own = int.from_bytes(data[5:9], "big")
    return [
        (count, op.body.decode("utf-8"))
        for count, op in enumerate(replica.accepted)
        if op.kind == "Note" and op.code == VERSION and not op.named and op.id[0] == own
        if op.id not in replica.hidden and read_one_line(op.body, LONGEST_NAME)
    ]


def versions_file(data):
    for count, name in versions_of(data, taken_in(*read_file(data))):
        print(count, name)
    return 0


def read_moment(replica, word):
    """How many operations a word tells, of those that are accepted."""
    if not re.fullmatch("0|[1-9][0-9]*", word) or int(word) > GREATEST_NUMBER:
        raise Refused("words not understood", 1)
    if int(word) > len(replica.accepted):
        raise Refused(f"no moment {word}", 2)
    return int(word)


def front(replica, word):
    """The replica as it was when it had accepted so many operations, with nothing pending."""
    return taken_in(replica.hold, replica.accepted[: read_moment(replica, word)])


def past_file(data, word):
    print(Arrangement(front(taken_in(*read_file(data)), word)).text(), end="")
    return 0


def told_kinds(ops):
    """What a line of moments tells of operations: the Texts of each replica, the Deletes, the Sections and the notes."""
    kinds = [op.kind for op in ops]
    texts = sorted(op.id[0] for op in ops if op.kind == "Text")
    parts = [f"{replica} +{len(list(own))}" for replica, own in groupby(texts)]
    parts += [f"-{kinds.count('Delete')}"] if "Delete" in kinds else []
    parts += [f"{kinds.count(kind)} {name}" for kind, name in (("Section", "sections"), ("Note", "notes")) if kind in kinds]
    return ", ".join(parts)


def moments_file(data):
    hold, batches = read_batches(data)
    replica = Replica(hold)
    for batch in batches:
        before = len(replica.accepted)
        for op in batch:
            replica.take(op)
        if len(replica.accepted) > before:
            print(f"{len(replica.accepted)}: {told_kinds(replica.accepted[before:])}")
    return 0


KEPT, NEW, GONE = "kept", "new", "gone"


def changed_runs(old, new, section, is_dropped):
    """The runs of a section's place: for each its kind, the replica that made it where it is new, and its text."""
    runs = []
    for op in new.places.get(section, Place()).walk():
        was_held = op.id in old.holders
        was_shown, is_shown = was_held and op.id not in old.hidden, op.id not in new.hidden
        if was_shown:
            key = (KEPT, None) if is_shown and not is_dropped else (GONE, None)
        elif is_shown and not was_held:
            key = (NEW, op.id[0])
        else:
            continue
        if runs and runs[-1][0] == key:
            runs[-1][1].append(op.text)
        else:
            runs.append((key, [op.text]))
    return [(*key, "".join(texts)) for key, texts in runs]


def added(text, replica):
    return f"{{++{text}++}}{{>>{replica}<<}}"


def removed(text):
    return f"{{--{text}--}}"


def marked(runs):
    return "".join(
        text if kind == KEPT else added(text, replica) if kind == NEW else removed(text) for kind, replica, text in runs
    )


def changed_head(old, new, section):
    """The head of a section of the new arrangement, and whether it has a mark."""
    heading = new.heading(section)
    if section.id not in old.replica.holders:
        return added(heading, section.id[0]), True
    was, is_moved = old.heading(section), old.position(section.id) != new.position(section.id)
    head = heading if was == heading else removed(was) + f"{{++{heading}++}}"
    return head + (" {>>moved<<}" if is_moved else ""), is_moved or was != heading


def changes_file(data, word):
    replica = taken_in(*read_file(data))
    old, new = Arrangement(front(replica, word)), Arrangement(replica)
    for section in new.sections():
        head, has_mark = changed_head(old, new, section)
        runs = changed_runs(old.replica, replica, section.id, False)
        if has_mark or any(kind != KEPT for kind, _, _ in runs):
            print(f"# {head}\n{marked(runs)}")
    left = {section.id for section in new.sections()}
    for section in old.sections():
        if section.id not in left:
            print(f"# {removed(old.heading(section))}\n{marked(changed_runs(old.replica, replica, section.id, True))}")
    return 0


def authors_file(data):
    replica = taken_in(*read_file(data))
    for place, section in enumerate(Arrangement(replica).sections(), 1):
        print(place, spelled_id(section.id))
        for author, letters in groupby(replica.shown(section.id), key=lambda op: op.id[0]):
            print("  " + f"{author} {sum(1 for _ in letters)}")
    return 0


def spelled_id(identifier):
    return f"{identifier[0]}.{identifier[1]}"


def passages_of(replica, section):
    """The comments on a section, each with where its passage begins and ends, in scalars: by the beginning, and then by
    identifier."""
    order = replica.places.get(section.id, Place()).order()
    shown = [at for identifier, at in order.items() if identifier not in replica.hidden]
    found = []
    for comment in comments_of(replica, order):
        first, last = (order[name] for name in comment.named)
        found.append((bisect_left(shown, first), bisect_right(shown, last), comment))
    return sorted(found, key=lambda passage: (passage[0], passage[2].id))


def remarks_file(data):
    replica = taken_in(*read_file(data))
    number = 0
    for place, section in enumerate(Arrangement(replica).sections(), 1):
        text = replica.text(section)
        borders = [*cluster_starts(text), len(text)]
        for begin, end, comment in passages_of(replica, section):
            number += 1
            first = bisect_right(borders, begin) - 1 if begin < len(text) else len(borders) - 1
            last = bisect_left(borders, end) if begin < end else first
            note = comment.body.decode("utf-8")
            print(f"{number}: {place} {first} {last - first} by {comment.id[0]} {note}")
            if last > first:
                print("  " + text[borders[first] : borders[last]].replace("\n", " "))
    return 0


def passage_places(replica, passage):
    """Where the bytes of a passage stand in the arranged sections: the place of the section, the section and the byte."""
    found = []
    for place, section in enumerate(Arrangement(replica).sections(), 1):
        text = replica.text(section).encode()
        at = text.find(passage)
        while at >= 0:
            found.append((place, section, at))
            at = text.find(passage, at + 1)
    return found


def passage_of(word):
    """The passage that a word spells: LF and backslashes are written as in scripts."""
    if not re.fullmatch(r"([^\\\n]|\\[n\\])+", word):
        raise Refused("words not understood", 1)
    return re.sub(r"\\(.)", lambda pair: "\n" if pair[1] == "n" else pair[1], word).encode()


def remark_file(data, word):
    passage = passage_of(word)
    replica = taken_in(*read_file(data))
    found = passage_places(replica, passage)
    if len(found) != 1:
        raise Refused(f"passage found {len(found)} times" if found else "passage not found", 2)
    place, section, at = found[0]
    text = replica.text(section)
    borders = [len(text[:start].encode()) for start in [*cluster_starts(text), len(text)]]
    first = bisect_right(borders, at) - 1
    print(place, first, bisect_left(borders, at + len(passage)) - first)
    return 0


def view_file(data, name):
    replica = taken_in(*read_file(data))
    counts = [count for count, other in versions_of(data, replica) if other == name]
    if not counts:
        raise Refused(f"no version {name}", 2)
    print(taken_in(replica.hold, replica.accepted[: counts[-1]]).manuscript(), end="")
    return 0


def send_file(data):
    """The frames of what is accepted, and then of what waits."""
    replica = taken_in(*read_file(data))
    sys.stdout.flush()
    sys.stdout.buffer.write(b"".join([*frames(replica.accepted), *frames(replica.waiting)]))
    return 0


@dataclass
class Step:
    """A step of a certificate. A reason is its word and its identifiers."""

    x: tuple
    y: tuple
    down_x: list
    down_y: list
    right_x: list
    right_y: list
    reason: tuple


class NoCertificate(Exception):
    """The text is that of none."""


def read_identifier(word):
    if not re.fullmatch(rb"(0|[1-9][0-9]*)\.(0|[1-9][0-9]*)", word):
        raise NoCertificate
    replica, counter = map(int, word.split(b"."))
    if replica == 0 or max(replica, counter) > GREATEST_NUMBER:
        raise NoCertificate
    return replica, counter


def read_line(line):
    """The word of a line, and its identifiers."""
    word, *others = line.split(b" ")
    return word.decode("latin-1"), [read_identifier(other) for other in others]


def chain(lines, wanted):
    word, ids = next(lines, ("", []))
    if word != wanted:
        raise NoCertificate
    return ids


def read_step(x, y, lines):
    """What stands behind the claim that x stands before y."""
    down = chain(lines, "down")
    word, ids = next(lines, ("", []))
    if (word, ids) == ("prefix", []):
        return Step(x, y, [], down, [], [], ("prefix",))
    if word != "down":
        raise NoCertificate
    right_x, right_y = chain(lines, "right"), chain(lines, "right")
    reason, origins = next(lines, ("", []))
    if (reason, len(origins)) not in [("inner", 0), ("end", 0), ("later", 2), ("tie", 0)]:
        raise NoCertificate
    return Step(x, y, down, ids, right_x, right_y, (reason, *origins))


def read_certificate(text):
    if not text.endswith(b"\n"):
        raise NoCertificate
    lines = map(read_line, text[:-1].split(b"\n"))
    steps = []
    for word, ids in lines:
        if word != "claim" or len(ids) != 2:
            raise NoCertificate
        steps.append(read_step(*ids, lines))
    return steps


def parted(xs, ys):
    """Both lists from the first place on where they differ."""
    same = next((at for at, (x, y) in enumerate(zip(xs, ys)) if x != y), min(len(xs), len(ys)))
    return xs[same:], ys[same:]


class Checker:
    """Checks steps by the origins of the elements that are held."""

    def __init__(self, holders):
        self.holders = holders

    def lefts(self, x):
        """The chain of left origins down to x."""
        found = []
        while x:
            found.append(x)
            x = self.holders[x].left
        return found[::-1]

    def rights(self, x):
        """The chain of right origins down to x, as long as they have the left origin of x."""
        found, left = [], self.holders[x].left
        while x and self.holders[x].left == left:
            found.append(x)
            x = self.holders[x].right
        return found[::-1]

    def reason(self, right_x, right_y):
        from_c, from_d = parted(right_x, right_y)
        if not from_d:
            return ("inner",)
        if not from_c:
            return None
        p, q = (self.holders[chain[0]].right for chain in (from_c, from_d))
        if p == q:
            return ("tie",) if from_c[0] < from_d[0] else None
        if q is None:
            return None
        return ("end",) if p is None else ("later", p, q)

    def holds(self, step):
        if any(id not in self.holders or self.holders[id].kind == "Note" for id in (step.x, step.y)):
            return False
        if self.holders[step.x].place() != self.holders[step.y].place():
            return False
        down_x, down_y = parted(self.lefts(step.x), self.lefts(step.y))
        if step.reason == ("prefix",):
            return not down_x and bool(down_y) and step.down_y == [step.x, *down_y]
        if not down_x or not down_y or (step.down_x, step.down_y) != (down_x, down_y):
            return False
        rights = self.rights(down_x[0]), self.rights(down_y[0])
        return (step.right_x, step.right_y) == rights and step.reason == self.reason(*rights)

    def is_valid(self, steps):
        """Each step holds, each but the last rests on the claim of the next one, and the last on none."""
        rests = [(step.reason[2], step.reason[1]) if step.reason[0] == "later" else None for step in steps]
        claims = [(step.x, step.y) for step in steps[1:]]
        return rests == [*claims, None] and all(map(self.holds, steps))


def spelled(word, identifiers=()):
    return " ".join([word, *(f"{replica}.{counter}" for replica, counter in identifiers)])


def why_file(data, *places):
    """The certificate of two letters that are shown: the steps that Checker checks."""
    if not all(re.fullmatch("0|[1-9][0-9]*", place) for place in places) or int(places[0]) == 0:
        raise Refused("words not understood", 1)
    section, first, second = map(int, places)
    replica = taken_in(*read_file(data))
    sections = replica.shown(CATALOGUE)
    letters = replica.shown(sections[section - 1].id) if section <= len(sections) else []
    if not first < second < len(letters):
        raise Refused("no such places", 2)
    checker = Checker(replica.holders)
    claim = (letters[first].id, letters[second].id)
    while claim:
        claim = print_step(checker, *claim)
    return 0


def print_step(checker, x, y):
    """Prints why x stands before y, and answers the claim that this rests on."""
    print(spelled("claim", (x, y)))
    down_x, down_y = parted(checker.lefts(x), checker.lefts(y))
    if not down_x:
        print(spelled("down", (x, *down_y)), "prefix", sep="\n")
        return None
    rights = checker.rights(down_x[0]), checker.rights(down_y[0])
    word, *origins = checker.reason(*rights)
    print(spelled("down", down_x), spelled("down", down_y), sep="\n")
    print(*(spelled("right", right) for right in rights), spelled(word, origins), sep="\n")
    return tuple(origins[::-1])


def check(data):
    replica = taken_in(USUAL_HOLD, list(read_stream(data)))
    try:
        steps = read_certificate(sys.stdin.buffer.read())
    except NoCertificate:
        steps = []
    print("yes" if steps and Checker(replica.holders).is_valid(steps) else "no")
    return 0


COMMANDS = {
    "tell": tell_stream,
    "show": show,
    "print": print_file,
    "arrange": arrange_file,
    "list": list_file,
    "draft": draft_file,
    "comments": comments_file,
    "remarks": remarks_file,
    "remark": remark_file,
    "versions": versions_file,
    "view": view_file,
    "past": past_file,
    "moments": moments_file,
    "changes": changes_file,
    "authors": authors_file,
    "send": send_file,
    "take": take_file,
    "merge": merge_file,
    "why": why_file,
    "check": check,
}


# How many words those commands have that have more than a file.
WORDS = {"view": (3,), "remark": (3,), "draft": (3, 4), "merge": (3,), "past": (3,), "changes": (3,), "why": (5,)}


def main(words):
    # No object here leads back to itself, so that all are freed by their counts.
    gc.disable()
    if not words or words[0] not in COMMANDS or len(words) not in WORDS.get(words[0], (2,)):
        print(__doc__, file=sys.stderr)
        return 1
    sys.stdout.reconfigure(encoding="utf-8", newline="")
    try:
        with open(words[1], "rb") as file:
            data = file.read()
        status = COMMANDS[words[0]](data, *words[2:])
        sys.stdout.flush()
        return status
    except Refused as refused:
        print(refused, file=sys.stderr)
        return refused.status
    except BrokenPipeError:
        # Nobody reads the output any more. What Python still holds of it goes nowhere.
        os.dup2(os.open(os.devnull, os.O_WRONLY), sys.stdout.fileno())
        return 4
    except OSError as why:
        print(f"reader.py: {why.filename}: {why.strerror}", file=sys.stderr)
        return 4


if __name__ == "__main__":
    sys.exit(main(sys.argv[1:]))
