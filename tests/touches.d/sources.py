"""The functions of sources, laid out by `rt fmt`."""
import re


class Function:
    """A function of a source: its name, the comment in front of it, its clauses and its body."""

    def __init__(self, name, comment, head, body):
        self.name, self.comment, self.head, self.body = name, comment, head, body

    def times(self, pattern):
        return len(re.findall(pattern, self.body))


def without_comments(text):
    return re.sub(r"(?m)\s*//.*$", "", text)


def opening(lines, at, indent):
    """The line that opens the body of the function which begins at a line; none where it has no
    body."""
    for k in range(at, len(lines)):
        if lines[k] == "" or lines[k].endswith(("{}", ";")):
            return None
        if re.match(indent + r"\S", lines[k]) and lines[k].endswith("{"):
            return k
    return None


def functions(path, block=None):
    """The functions of a file, or of the block that begins with this line."""
    lines = path.read_text().splitlines()
    if block is not None:
        start = lines.index(block)
        lines = lines[start:lines.index("}", start)]
    found = []
    for at, line in enumerate(lines):
        if not (begins := re.match(r'( *)(?:pub(?:\(crate\))? )?(?:const )?(?:extern "C" )?fn '
                                   r'(\w+)', line)):
            continue
        indent, name = begins.groups()
        opens = opening(lines, at, indent)
        if opens is None:
            continue
        end = lines.index(indent + "}", opens)
        above = at
        while above > 0 and lines[above - 1].strip().startswith(("///", "#[")):
            above -= 1
        parts = [" ".join(part.strip() for part in lines[above:at]), "\n".join(lines[at:opens + 1]),
                 without_comments("\n".join(lines[opens + 1:end]))]
        found.append(Function(name, *parts))
    return found


def code_of(path):
    """A file without comments and clauses."""
    lines = without_comments(path.read_text()).splitlines()
    return [line for line in lines if not re.match(r"\s*(ghost|requires|ensures)", line)]
