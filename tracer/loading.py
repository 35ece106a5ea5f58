"""What the dynamic linker preloads into a program: nothing into one that is static, or that gets
more rights. It isn't proved."""
import os
import stat
import struct

# The bytes of a program in which its headers stand.
HEAD = 256


def is_secure(path):
    """Whether the program gets other rights than its caller: then the dynamic linker preloads
    nothing that a path names."""
    told = os.stat(path)
    if told.st_mode & stat.S_ISUID and told.st_uid != os.getuid():
        return True
    if told.st_mode & stat.S_ISGID and told.st_gid != os.getgid():
        return True
    try:
        return os.getuid() != 0 and bool(os.getxattr(path, "security.capability"))
    except OSError:
        return False


def linker_of(head, file):
    """The dynamic linker that a program for 64 bits names, or nothing where it is static."""
    start, = struct.unpack_from("<Q", head, 32)
    size, count = struct.unpack_from("<HH", head, 54)
    for number in range(count):
        file.seek(start + number * size)
        kind, _, offset, _, _, length = struct.unpack("<IIQQQQ", file.read(40))
        if kind == 3:
            file.seek(offset)
            return file.read(length).rstrip(b"\0").decode(errors="replace")
    return None


def is_static(path):
    """Whether a program for 64 bits names no dynamic linker. What is no program of ELF isn't."""
    with open(path, "rb") as file:
        head = file.read(HEAD)
        return head[:5] == b"\x7fELF\2" and len(head) >= 64 and linker_of(head, file) is None


def why_untraced(program):
    """What is said of a program without a log."""
    why = "it was started without LD_PRELOAD"
    try:
        if "/" in program and is_secure(program):
            why = "it is setuid or has capabilities"
        elif "/" in program and is_static(program):
            why = "it is linked statically"
    except (OSError, struct.error):
        pass
    return f"not traced, since {why}: its leaks can't be seen"
