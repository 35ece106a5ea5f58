"""The version of the tools, which is the program's."""
VERSION = "1.2.0"


def add_version(words, name):
    """Adds the option that tells it."""
    words.add_argument("--version", action="version", version=f"{name} {VERSION}",
                       help="write the version, and end")
