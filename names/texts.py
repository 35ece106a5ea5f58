"""How bytes of a log are shown: all of them, and so that they can do nothing."""
import html


def shown(raw):
    """Bytes as text, from which they can be told: a byte that isn't UTF-8 is \\xNN, a character
    that nobody sees \\u{N}, and a backslash stands twice."""
    text = raw.replace(b"\\", b"\\\\").decode("utf-8", "backslashreplace")
    if text.isprintable():
        return text
    return "".join(letter if letter.isprintable() else f"\\u{{{ord(letter):x}}}" for letter in text)


def site_name(location):
    """A location as it is shown."""
    return shown(location) if location else "(no location)"


def escaped(text):
    """Text for HTML and SVG."""
    return html.escape(text, quote=True)


def shortened(text, most):
    """A text of at most so many letters: of a longer one both ends."""
    if len(text) <= most:
        return text
    front = most // 2 - 1
    return f"{text[:front]}…{text[len(text) - (most - front - 1):]}"


def counted(number, name):
    """A number with its name, which has an s for all but one."""
    return f"{number:,} {name}" + ("" if number == 1 else "s")
