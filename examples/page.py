#!/usr/bin/env python3
"""Writes a manuscript as one page of HTML, with no outside parts.

    page.py FILE [OTHER..] > page.html
    page.py --since N FILE [OTHER..] > page.html

FILE is a replica file, and so is each OTHER, whose operations are merged into what the page shows. The page has the
sections as `manuscript arrange` prints them, a colour for each author, deleted passages on demand, comments beside the
text, and the versions of FILE. With N it marks what came after the first N operations of FILE, as `manuscript changes`
does. It has no script. Formats are read by reader.py, which knows docs/FORMATS.md alone.

This needs Python 3.10 or newer.
"""

import gc
import html
import os
import sys
from typing import NamedTuple

import reader

STYLE = """
:root { color-scheme: light dark; --paper: #fffdf8; --ink: #222; --quiet: #666; --line: #ddd; }
@media (prefers-color-scheme: dark) { :root { --paper: #1b1b1d; --ink: #e6e3dc; --quiet: #a09c94; --line: #3a3a3d; } }
body { margin: 0 auto; max-width: 62rem; padding: 1rem; background: var(--paper); color: var(--ink);
  font: 1.05rem/1.6 Georgia, serif; }
nav, .legend, label { font: 0.9rem/1.5 system-ui, sans-serif; }
nav ol, .legend ul { padding-left: 1.2rem; margin: 0.3rem 0 1rem; }
.legend li { list-style: none; margin-left: -1.2rem; }
.legend b { display: inline-block; width: 0.9em; height: 0.9em; margin-right: 0.5em; border-radius: 50%; }
main { border-top: 1px solid var(--line); margin-top: 0.8rem; }
input { accent-color: currentColor; }
label { margin-right: 1.2rem; }
.view { display: none; }
.text { white-space: pre-wrap; overflow-wrap: anywhere; margin: 0 0 1.5rem; }
del { display: none; text-decoration: line-through; opacity: 0.6; }
#deleted:checked ~ main del, del.gone { display: inline; }
ins { text-decoration: underline; text-decoration-thickness: 0.12em; text-underline-offset: 0.2em; }
mark { background: color-mix(in srgb, currentColor 16%, transparent); color: inherit; border-radius: 0.2em; }
.notes { font: 0.85rem/1.45 system-ui, sans-serif; padding-left: 1.4rem; color: var(--quiet); }
h2 { margin: 1.6rem 0 0.4rem; line-height: 1.25; overflow-wrap: anywhere; }
sup { line-height: 0; }
a { color: inherit; }
@media (min-width: 56rem) {
  section { display: grid; grid-template-columns: minmax(0, 40rem) 16rem; column-gap: 2rem; }
  h2 { grid-column: 1; }
  .text { grid-column: 1; }
  .notes { grid-column: 2; grid-row: 2; margin: 0; }
}
@media print { input, label, nav { display: none; } body { max-width: none; background: none; } }
"""


class Run(NamedTuple):
    """Letters one after another that look the same: who wrote them, whether they were deleted, the comments on them, by
    their numbers, and whether they are new or gone since a moment."""

    text: str
    author: int
    is_deleted: bool
    comments: tuple
    change: str


def escaped(text):
    return html.escape(text, quote=True)


def colours_of(author, authors):
    """Rules for an author's colour, each author another one. It is dark on light paper and light on dark paper, so that
    text keeps a contrast of 4.5 to 1; a browser that does not know light-dark() takes the first."""
    hue = round(360 * authors.index(author) / len(authors) + 210) % 360
    both = f"color: hsl({hue} 55% 48%); color: light-dark(hsl({hue} 75% 30%), hsl({hue} 65% 72%))"
    return f".by-{author} {{ {both} }} .legend .by-{author} b {{ background: currentColor }}\n"


def change_of(identifier, replica, old):
    """What became of a letter since a moment, if one is given."""
    if old is None:
        return ""
    if identifier not in old.holders:
        return "" if identifier in replica.hidden else "new"
    return "gone" if identifier in replica.hidden and identifier not in old.hidden else ""


def runs_of(replica, section, comments, old=None):
    """All letters of a section, deleted ones too, in order, by runs. Comments are numbered notes on it. What the replica
    was at a moment tells what changed since."""
    place = replica.places.get(section, reader.Place())
    order = place.order()
    ranges = [(number, order[note.named[0]], order[note.named[1]]) for number, note in comments]
    hidden, nodes = replica.hidden, place.nodes
    texts, last = [], None
    for identifier, at in order.items():
        on_it = tuple(number for number, first, last_at in ranges if first <= at <= last_at) if ranges else ()
        look = (identifier[0], identifier in hidden, on_it, change_of(identifier, replica, old))
        if look != last:
            if texts:
                yield Run("".join(texts), *last)
            texts, last = [], look
        texts.append(nodes[identifier].text)
    if texts:
        yield Run("".join(texts), *last)


def references(numbers, view):
    return "".join(f'<sup><a href="#note-{view}-{number}" id="at-{view}-{number}">{number}</a></sup>' for number in numbers)


def text_html(runs, view):
    """The text of a section. The number of a comment stands where its passage ends."""
    parts = []
    ends = {number: at for at, run in enumerate(runs) for number in run.comments}
    for at, run in enumerate(runs):
        tag = "del" if run.is_deleted else "ins" if run.change else "span"
        kind = f"by-{run.author} gone" if run.change == "gone" else f"by-{run.author}"
        piece = f'<{tag} class="{kind}">{escaped(run.text)}</{tag}>'
        parts.append(f"<mark>{piece}</mark>" if run.comments and not run.is_deleted else piece)
        parts.append(references([number for number in run.comments if ends[number] == at], view))
    return "".join(parts)


def notes_html(comments, view):
    if not comments:
        return ""
    items = "".join(
        f'<li id="note-{view}-{number}" value="{number}"><span class="by-{note.id[0]}">'
        f"{escaped(note.body.decode('utf-8'))}</span> "
        f'<a href="#at-{view}-{number}" aria-label="back to the passage">&#8617;</a></li>'
        for number, note in comments
    )
    return f'<ol class="notes" aria-label="Comments">{items}</ol>'


def heading_html(section, heading, old):
    """A heading, with what it was at a moment where that was another."""
    if old is None:
        return escaped(heading)
    if section.id not in old.replica.holders:
        return f"<ins>{escaped(heading)}</ins>"
    was = old.heading(section)
    return escaped(heading) if was == heading else f'<del class="gone">{escaped(was)}</del> <ins>{escaped(heading)}</ins>'


def section_html(replica, section, heading, number, view, comments, old=None):
    """A section with its comments, each of which has a number, and what changed in it since a moment."""
    text = text_html(list(runs_of(replica, section.id, comments, old and old.replica)), view)
    return (
        f'<section><h2 id="section-{view}-{number}">{heading_html(section, heading, old)}</h2>'
        f'<div class="text">{text}</div>{notes_html(comments, view)}</section>'
    )


def sections_of(replica, is_arranged):
    """The sections with their headings: as `arrange` prints them, or as `view` does."""
    if is_arranged:
        arrangement = reader.Arrangement(replica)
        return [(section, arrangement.heading(section)) for section in arrangement.sections()]
    return [(op, op.text) for op in replica.shown(reader.CATALOGUE)]


def dropped_html(replica, old):
    """The sections of a moment that are not there any more, with what was in them and what came into them since."""
    now = {section.id for section in reader.Arrangement(replica).sections()}
    parts = []
    for section in old.sections():
        if section.id not in now:
            runs = reader.changed_runs(old.replica, replica, section.id, True)
            text = "".join(
                f'<ins class="by-{author}">{escaped(text)}</ins>' if kind == reader.NEW else f'<del class="gone">{escaped(text)}</del>'
                for kind, author, text in runs
            )
            heading = escaped(old.heading(section))
            parts.append(f'<section><h2><del class="gone">{heading}</del></h2><div class="text">{text}</div></section>')
    return "".join(parts)


def view_html(replica, is_arranged, view, old=None):
    sections = list(enumerate(sections_of(replica, is_arranged), 1))
    contents = "".join(f'<li><a href="#section-{view}-{number}">{escaped(title)}</a></li>' for number, (_, title) in sections)
    parts = []
    comments_before = 0
    for number, (section, title) in sections:
        order = replica.places.get(section.id, reader.Place()).order()
        comments = list(enumerate(reader.comments_of(replica, order), comments_before + 1))
        comments_before += len(comments)
        parts.append(section_html(replica, section, title, number, view, comments, old))
    parts += [dropped_html(replica, old)] if old else []
    return f'<div class="view view-{view}"><nav aria-label="Contents"><ol>{contents}</ol></nav>{"".join(parts)}</div>'


def switches_html(names):
    """A switch for each view, and one for what was deleted. They stand in front of what they switch."""
    switches = [
        f'<input type="radio" name="view" id="view-{view}"{" checked" if view == 0 else ""}>'
        f'<label for="view-{view}">{escaped(name)}</label>'
        for view, name in enumerate(names)
    ]
    return "".join(switches) + '<input type="checkbox" id="deleted"><label for="deleted">show what was deleted</label>'


def page(replica, versions, old=None):
    """The page of a replica, with what changed since a moment, and of the versions of its file: each how many operations
    it has, and its name."""
    authors = sorted({op.id[0] for op in replica.accepted if op.id})
    colours = "".join(colours_of(author, authors) for author in authors)
    shown = "".join(f"#view-{view}:checked ~ main .view-{view} {{ display: block }}\n" for view in range(len(versions) + 1))
    views = [view_html(replica, True, 0, old and reader.Arrangement(old))]
    for view, (count, _) in enumerate(versions, 1):
        views.append(view_html(reader.taken_in(replica.hold, replica.accepted[:count]), False, view))
    legend = "".join(f'<li class="by-{author}"><b></b>author {author}</li>' for author in authors)
    names = ["now", *(name for _, name in versions)]
    return (
        '<!DOCTYPE html>\n<html lang="und"><head><meta charset="utf-8">'
        '<meta name="viewport" content="width=device-width, initial-scale=1"><title>Manuscript</title>'
        f"<style>{STYLE}{colours}{shown}</style></head><body>\n"
        f'<aside class="legend" aria-label="Authors"><ul>{legend}</ul></aside>\n'
        f'{switches_html(names)}\n<main>{"".join(views)}</main></body></html>\n'
    )


def main(files):
    # No object here leads back to itself, so that all are freed by their counts.
    gc.disable()
    is_asked = files[:1] in (["-h"], ["--help"])
    if not files or is_asked or (files[0] == "--since" and len(files) < 3):
        print(__doc__, file=sys.stdout if is_asked else sys.stderr)
        return 0 if is_asked else 1
    since = None
    if files[0] == "--since":
        since, files = files[1], files[2:]
    contents = []
    for name in files:
        try:
            with open(name, "rb") as file:
                contents.append(file.read())
        except OSError as why:
            print(f"page.py: {name}: {why.strerror}", file=sys.stderr)
            return 4
    try:
        replica = reader.taken_in(*reader.read_file(contents[0]))
        versions = reader.versions_of(contents[0], replica)
        old = None if since is None else reader.front(replica, since)
        for other in contents[1:]:
            _, ops = reader.read_file(other)
            for op in ops:
                replica.take(op)
    except reader.Refused as refused:
        print(refused, file=sys.stderr)
        return refused.status
    sys.stdout.reconfigure(encoding="utf-8", newline="")
    try:
        sys.stdout.write(page(replica, versions, old))
        sys.stdout.flush()
    except OSError as why:
        # What Python still holds of the page goes nowhere.
        os.dup2(os.open(os.devnull, os.O_WRONLY), sys.stdout.fileno())
        print(f"page.py: standard output: {why.strerror}", file=sys.stderr)
        return 4
    return 0


if __name__ == "__main__":
    sys.exit(main(sys.argv[1:]))
