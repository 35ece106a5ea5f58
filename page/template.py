"""Fills a document of a page: its look, its scripts, and a policy that lets no other script run."""
import base64
import hashlib
import html
import json
import re

# The scripts of a page, in this order.
SCRIPTS = ("numbers.js", "page.js", "table.js", "sites.js", "tree.js", "flame.js", "chart.js",
           "heap.js", "head.js", "log_page.js", "comparison.js")
STYLES = ("drawing.css", "page.css")
# Up to this JavaScript counts.
MOST_COUNTED = (1 << 53) - 1


def text_of(folder, names):
    """The texts of some files, one behind the other."""
    return "".join((folder / name).read_text(encoding="utf-8") for name in names)


def digest_of(script):
    """A script, as a policy names it."""
    return f"sha256-{base64.b64encode(hashlib.sha256(script.encode()).digest()).decode()}"


def exact(data):
    """Data whose numbers a script reads as they are: those that it can't count to are texts."""
    if isinstance(data, dict):
        return {name: exact(part) for name, part in data.items()}
    if isinstance(data, (list, tuple)):
        return [exact(part) for part in data]
    return str(data) if isinstance(data, int) and abs(data) > MOST_COUNTED else data


def json_text(data):
    """JSON that nothing in it can end."""
    text = json.dumps(exact(data), separators=(",", ":"), ensure_ascii=False)
    return text.replace("<", "\\u003c").replace(">", "\\u003e").replace("&", "\\u0026").replace("\u2028", "\\u2028")


def filled(document, parts):
    """The document with its parts, each put once: what looks like a name within one stays."""
    return re.sub(r"\{\{(\w+)\}\}", lambda found: parts[found[1]], document)


def shared_parts(folder):
    """What each page has beside its own parts. Its policy lets no other script run than its own, and nothing be fetched."""
    script = text_of(folder, SCRIPTS)
    policy = f"default-src 'none'; style-src 'unsafe-inline'; script-src '{digest_of(script)}'"
    return {"policy": html.escape(policy), "style": text_of(folder, STYLES), "script": script}


def page_text(folder, name, parts):
    """A page's text with its parts."""
    return filled(text_of(folder, [name]), {**shared_parts(folder), **parts})
