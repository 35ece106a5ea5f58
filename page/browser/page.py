#!/usr/bin/env python3
"""Makes the page that opens a log in a browser: one file, which has the program as WebAssembly.

    page.py PROGRAM.wasm PARTS PAGE.html

PARTS is the folder of the page of a log, page/. It has the documents that the page fills, as bin/page does."""
import base64
import html
import re
import sys
from pathlib import Path

sys.dont_write_bytecode = True
HERE = Path(__file__).resolve().parent
# What a worker runs, in this order; in front of it what it shares with the page of a log.
SHARED = ("numbers.js",)
WORKER = ("program.js", "texts.js", "reports.js", "stacks.js", "reading.js", "study.js", "comparison.js", "document.js", "worker.js")

# What the page fills in each document beside what they share.
PARTS_OF = {"page": {"title", "data"}, "comparison": {"title", "data", "head", "old", "new"}}


def documents_of(folder, template):
    """The documents of one log and of two, and what they share. Each part of theirs is one that the page fills."""
    documents = {name: template.text_of(folder, [f"{name}.html"]) for name in PARTS_OF}
    shared = template.shared_parts(folder)
    for name, parts in PARTS_OF.items():
        if set(re.findall(r"\{\{(\w+)\}\}", documents[name])) != {*parts, *shared}:
            sys.exit(f"page.py: {name}.html isn't as it should be")
    return {**documents, "shared": shared}


def page_of(program, parts):
    """The page's text."""
    sys.path.insert(0, str(parts))
    import template
    from template import SCRIPTS, STYLES, digest_of, filled, json_text, text_of
    worker, script = text_of(parts, SHARED) + text_of(HERE, WORKER), text_of(HERE, ["open.js"])
    if "</script" in (worker + script).lower():
        sys.exit("page.py: a script would end early")
    policy = f"default-src 'none'; style-src 'unsafe-inline'; script-src '{digest_of(script)}' '{digest_of(text_of(parts, SCRIPTS))}' " \
        "'wasm-unsafe-eval'; worker-src blob:"
    return filled(text_of(HERE, ["browser.html"]), {
        "policy": html.escape(policy), "style": text_of(parts, STYLES) + text_of(HERE, ["browser.css"]), "script": script, "worker": worker,
        "program": base64.b64encode(program).decode(), "documents": json_text(documents_of(parts, template))})


def main():
    if len(sys.argv) != 4:
        sys.exit("usage: page.py PROGRAM.wasm PARTS PAGE.html")
    program, parts, page = map(Path, sys.argv[1:])
    page.write_text(page_of(program.read_bytes(), parts), encoding="utf-8")


main()
