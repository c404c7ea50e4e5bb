#!/usr/bin/env python3
"""Packs the page and the program into one file of HTML: pack.py PROGRAM HTML

A page that is opened from a disk cannot import another file. So each part takes the place of its mark in page.html:

- `<!-- policy -->`: a content security policy: the page runs this script and the program, and nothing else, and reaches
  nothing outside of itself;
- `<!-- style -->`: desk.css;
- `<!-- script -->`: the script of the page, one module, made of the files that page/ORDER lists;
- `<!-- module -->`: two texts that the page reads by their ids. `worker` is the script of the worker, made of the files
  that page/WORKER lists, which the page starts from a Blob. `module` is the program for WebAssembly, as gzip in base64.

The files of a script stand in one scope, one after another, so their import lines and each `export` are removed. The
same sources make the same bytes.
"""

import base64
import hashlib
import re
import sys
import zlib
from pathlib import Path

HERE = Path(__file__).resolve().parent
GZIP = 31


def stop(why):
    sys.exit(f"desk: {why}")


def read(name):
    try:
        return (HERE / name).read_text(encoding="utf-8")
    except (OSError, UnicodeDecodeError) as error:
        stop(f"{name} cannot be read: {error}")


def script(order):
    """The files of a list as one script, in which no name is declared twice."""
    pieces, declared = [], {}
    for name in read(order).split():
        text = re.sub(r"^import\b[^;]*;\n", "", read(name), flags=re.M)
        text = re.sub(r"^export (?=\w)", "", text, flags=re.M)
        if re.search(r"^(import|export)\b", text, flags=re.M):
            stop(f"{name} has a line of import or export of a form that is not known here")
        for found in re.findall(r"^(?:async )?(?:class|function|const|let|var) (\w+)", text, flags=re.M):
            if declared.setdefault(found, name) != name:
                stop(f"{found} is declared in {declared[found]} and in {name}")
        pieces.append(text.strip("\n"))
    return "\n\n".join(pieces)


def element(name, text, **attributes):
    """An element of HTML whose text is taken as it is."""
    if re.search(rf"</{name}|<!--", text, flags=re.I):
        stop(f"a {name} has a text that would end it, or begin a comment")
    words = "".join(f' {key}="{value}"' for key, value in attributes.items())
    return f"<{name}{words}>\n{text}\n</{name}>"


def policy(text):
    """What the page may do. The script is known by the digest of what stands in its element. Styles stand in the page, and
    the colours of authors are one that the script writes."""
    digest = base64.b64encode(hashlib.sha256(f"\n{text}\n".encode("utf-8")).digest()).decode("ascii")
    rules = [
        "default-src 'none'",
        f"script-src 'sha256-{digest}' 'wasm-unsafe-eval'",
        "worker-src blob:",
        "style-src 'unsafe-inline'",
        "base-uri 'none'",
        "form-action 'none'",
    ]
    return f'<meta http-equiv="Content-Security-Policy" content="{"; ".join(rules)}">'


def packed(program):
    """The program as gzip in base64, in lines."""
    squeezer = zlib.compressobj(9, zlib.DEFLATED, GZIP)
    text = base64.b64encode(squeezer.compress(program) + squeezer.flush()).decode("ascii")
    return "\n".join(text[at : at + 120] for at in range(0, len(text), 120))


def page(program):
    html, text = read("page.html"), script("page/ORDER")
    parts = {
        "policy": policy(text),
        "style": element("style", read("desk.css").strip("\n")),
        "script": element("script", text, type="module"),
        "module": element("script", '"use strict";\n' + script("page/WORKER"), type="text/plain", id="worker")
        + "\n"
        + element("script", packed(program), type="text/plain", id="module"),
    }
    for name, text in parts.items():
        mark = f"<!-- {name} -->"
        if html.count(mark) != 1:
            stop(f"page.html has not one mark {mark}")
        html = html.replace(mark, text)
    return html


def main(program, out):
    html = page(Path(program).read_bytes()).encode("utf-8")
    Path(out).parent.mkdir(parents=True, exist_ok=True)
    Path(out).write_bytes(html)
    print(f"{out}: {len(html):,} bytes")


if __name__ == "__main__":
    if len(sys.argv) != 3:
        stop("usage: desk/pack.py PROGRAM HTML")
    main(*sys.argv[1:])
