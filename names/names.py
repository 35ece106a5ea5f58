"""The names of frames: function, file and line, by binutils. Frames in inlined calls have
several."""
import os
import re
import shutil
import subprocess
import sys
from array import array
from bisect import bisect_right
from collections import defaultdict
from concurrent.futures import ThreadPoolExecutor
from dataclasses import dataclass
from functools import cached_property

from builds import Places
from stacks import path_of

# Libraries whose frames are of the standard library, whatever they are called.
STANDARD_MODULE = re.compile(
    r"(?:libc|libm|libdl|librt|libpthread|libstdc\+\+|libc\+\+|libc\+\+abi|libgcc_s|ld|ld-linux[-\w]*)[-.\d]*\.so")
STANDARD_FILE = re.compile(
    r".*/include/(?:[-\w.]+/)?c\+\+/v?\d|/rustc/|/rust/deps/|.*/rustc-\d[^/]*/(?:library|vendor)/|.*/rustlib/src/rust/library/|library/(?:alloc|core|std)/src/")
STANDARD_NAME = re.compile(
    r"execute_native_thread_routine$|(?:std|core|alloc|hashbrown|__gnu_cxx|__cxxabiv1)::|operator "
    r"(?:new|delete)\b|__rust_|__rdl_|__rustc|"
    r"<[^ :]* as (?:std|core|alloc)::|<[&*\[]*(?:mut )?(?:std|core|alloc|hashbrown)::")
CLONE = re.compile(r" \[clone "
                   r"[^\]]*\]|\[abi:\w+\]|::h[0-9a-f]{16}$|(?<=\w)\[[0-9a-f]{16}\]|(?:\.(?:constprop|isra|part|cold|llvm|lto_priv|localalias)(?:\.\d+)*)+$")
OPERATOR = re.compile(r"operator *(?:<=>|<<=|>>=|->\*|<<|>>|<=|>=|->|\(\)|<|>)")
LINE = re.compile(r"(.*):(\d+|\?)(?: \(discriminator \d+\))?", re.S)
LLVM = "llvm-addr2line"
# The module of code of no file. At 0 it stands for calls that a log doesn't tell.
NO_FILE, MORE_CALLS = "?", "(more calls)"
# The most files without lines that are named.
MOST_BARE = 4


def without_brackets(name, opening="(<", closing=")>"):
    """A demangled name without what stands in brackets, but for names of operators and for a type
    in front, as of Rust."""
    kept, depth, at = [], 0, 0
    while at < len(name):
        found = OPERATOR.match(name, at) if depth == 0 else None
        if found:
            kept.append(found[0])
            at = found.end()
            continue
        byte = name[at]
        depth += byte in opening
        if depth == 0:
            kept.append(byte)
        depth -= byte in closing and depth > 0 and name[at - 1:at + 1] != "->"
        at += 1
    return "".join(kept)


def end_of_type(name):
    """Where the type that a name of Rust has in front ends, as in `<shop::Item as
    core::clone::Clone>::clone`."""
    depth = 0
    for at, byte in enumerate(name):
        depth += (byte == "<") - (byte == ">" and name[at - 1] != "-")
        if depth == 0:
            return at + 1
    return len(name)


def without_result(name):
    """A name without the type of its result, and what stands behind its arguments."""
    name = re.sub(r"(?: const| volatile|&)+$", "", name.strip())
    end = name.rfind("operator ")
    return name[name.rfind(" ", 0, end if end >= 0 else len(name)) + 1:]


def whole_name(name):
    """A demangled name with what tells it from others: its arguments, and those of its template."""
    name = CLONE.sub("", name.removeprefix("__GI_")).replace("(anonymous namespace)", "{anonymous}")
    return name.replace("std::__cxx11::basic_string<char, std::char_traits<char>, "
                        "std::allocator<char> >", "std::string").replace("std::__cxx11::",
                                                                         "std::").replace(" >", ">")


def short_name(name):
    """A demangled name as it is told: `std::vector::push_back`, and not its arguments."""
    name = CLONE.sub("", name.removeprefix("__GI_")).replace("(anonymous namespace)",
                                                             "{anonymous}").replace(
                                                                 "std::__cxx11::basic_string",
                                                                 "std::string")
    name = name.replace("std::__cxx11::", "std::").replace("::<", "<")
    if name.startswith("<"):
        end = end_of_type(name)
        return name[:end] + without_brackets(name[end:])
    return without_result(without_brackets(name))


@dataclass(frozen=True)
class Call:
    """One call of a frame: its function, or nothing, and where that stands. A call without a line
    has a symbol and an offset in it, or an offset in its module alone."""
    function: str
    file: str
    line: int
    module: str
    offset: int
    # Where its function begins in the module, of one without a name; 0 where that isn't known.
    start: int = 0
    # The function with its arguments, and those of its template.
    whole: str = ""

    @cached_property
    def is_standard(self):
        """Whether it is of the standard library: by its module, its file, or its name where no file
        is known."""
        return bool(STANDARD_MODULE.match(os.path.basename(self.module))
                    or (STANDARD_FILE.match(self.file) if self.file
                        else STANDARD_NAME.match(self.function)))

    @cached_property
    def briefly(self):
        """`grow shop.cc:14`, `strdup+0x1a libc.so.6`, or `libz.so.1:[0x7f]`."""
        return self.told(paths=False)

    def told(self, paths, whole=False):
        """The same, or with the file's whole path, or with the function's whole name."""
        if self.module == NO_FILE and not self.offset:
            return MORE_CALLS
        function = self.whole or self.function if whole else self.function
        if self.file:
            place = (self.file if paths else os.path.basename(self.file)) + (f":{self.line}"
                                                                             if self.line else "")
            return f"{function} {place}" if function else place
        module = os.path.basename(self.module)
        return (f"{function}+0x{self.offset:x} {module}" if function
                else f"{module}:[0x{self.offset:x}]")


def output_of(words, given=""):
    """What a tool of binutils writes, or nothing where it fails."""
    run = subprocess.run(words, input=given.encode("utf-8", "surrogateescape"),
                         stdout=subprocess.PIPE, stderr=subprocess.DEVNULL, check=False,
                         env={**os.environ, "LC_ALL": "C"})
    return run.stdout.decode("utf-8", "surrogateescape")


def processor_of(path):
    """The number that ELF has for the processor of a file, or nothing."""
    with open(path, "rb") as file:
        head = file.read(20)
    return int.from_bytes(head[18:20], "big" if head[5] == 2
                          else "little") if head[:4] == b"\x7fELF" and len(head) == 20 else None


def base_of(path):
    """The page of the lowest address that a file is linked for, or None where it is no object. It
    is 0 for a board's program, whose log has addresses as they are: it is for another processor,
    and no loader is named."""
    headers = [line.split() for line in output_of(["readelf", "-lW", "--", path]).splitlines()]
    bases = [int(words[2], 16) & ~4095 for words in headers if words[:1] == ["LOAD"]]
    is_for_board = (processor_of(path) != processor_of(sys.executable)
                    and not any(words[:1] == ["INTERP"] for words in headers))
    return 0 if bases and is_for_board else bases[0] if bases else None


def lines_of(path, addresses, reader="addr2line"):
    """For each address its calls, innermost first, as function, file, line and the function's whole
    name, where one is known. Each is asked for twice: the first answer gives an inlined function
    that has no linker's name that of the function around it."""
    found = defaultdict(list)
    told = output_of([reader, "-a", "-f", "-i", "-C", "-e", path],
                     "".join(f"0x{address:x}\n" * 2 for address in addresses))
    # Some names of C++ are told by binutils alone.
    lines = iter((output_of(["c++filt"], told) if reader == LLVM else told).splitlines())
    address = None
    for line in lines:
        if re.fullmatch(r"0x[0-9a-f]+", line):
            address = int(line, 16)
            found.pop(address, None)
            continue
        told = LINE.fullmatch(next(lines, ""))
        if told and told[1] != "??" and told[2] not in "0?":
            function, whole = ("", "") if line == "??" else (short_name(line), whole_name(line))
            found[address].append((function, told[1], int(told[2]), whole))
    return found


def debug_file_of(build_id):
    """The file of debug information that debuginfod's client has for a build id; or nothing. The
    client is asked only where a server is named, as it is itself."""
    if not build_id or not os.environ.get("DEBUGINFOD_URLS") or not shutil.which("debuginfod-find"):
        return None
    found = output_of(["debuginfod-find", "debuginfo", build_id]).strip()
    return found if os.path.isfile(found) else None


def build_id_of(path):
    """The build id of a program or library, or nothing."""
    found = re.search(r"Build ID: ([0-9a-f]+)", output_of(["readelf", "-n", "--", path]))
    return found[1] if found else ""


def has_debug_file(path):
    """Whether debug information of a file is installed where addr2line looks for it: by its build
    id, or by the name that it gives."""
    build_id, folder = build_id_of(path), os.path.dirname(os.path.realpath(path))
    found = re.search(r"\]\s+(\S.*)", output_of(["readelf", "-p", ".gnu_debuglink", "--", path]))
    links = [f"{home}/{found[1].strip()}" for home in (folder, f"{folder}/.debug",
                                                       f"/usr/lib/debug{folder}")] if found else []
    return any(map(os.path.isfile, [f"/usr/lib/debug/.build-id/{build_id[:2]}/{build_id[2:]}.debug",
                                    *links]))


def has_line_table(path):
    """Whether a file has debug information that tells lines."""
    return "debug_line" in output_of(["readelf", "-SW", "--", path])


def demangled(names):
    """Each name as its language has it."""
    return dict(zip(names, output_of(["c++filt"], "".join(name + "\n"
                                                          for name in names)).splitlines()))


def symbols_in(path):
    """The code of a file by its symbols: start, size and name of each, in order."""
    symbols = set()
    for words in (["nm", "-S", "--defined-only", "--", path],
                  ["nm", "-D", "-S", "--defined-only", "--", path]):
        for line in output_of(words).splitlines():
            parts = line.split(" ", 3)
            if len(parts) == 4 and parts[2] in "tTwWi":
                symbols.add((int(parts[0], 16), int(parts[1], 16), parts[3].partition("@")[0]))
    return sorted(symbols)


def symbols_of(path, addresses):
    """For each address the symbol whose code it is in, its whole name, and where that begins."""
    symbols, found = symbols_in(path), {}
    starts = [start for start, _, _ in symbols]
    for address in addresses:
        at = bisect_right(starts, address) - 1
        if at >= 0 and address - starts[at] < symbols[at][1]:
            found[address] = symbols[at][2], starts[at]
    plain = demangled(sorted({name for name, _ in found.values()}))
    return {address: (short_name(plain.get(name, name)), whole_name(plain.get(name, name)), start)
            for address, (name, start) in found.items()}


def starts_of(path):
    """Where each function of a file begins, by the table that exceptions are thrown with, which no
    stripping takes away."""
    found = re.search(r" \.eh_frame_hdr +\S+ +([0-9a-f]+) ([0-9a-f]+) ([0-9a-f]+)",
                      output_of(["readelf", "-SW", "--", path]))
    if not found:
        return []
    address, offset, size = (int(number, 16) for number in found.groups())
    with open(path, "rb") as file:
        file.seek(offset)
        table = file.read(size)
    # Version 1, a count of four bytes, and pairs of four bytes from the table's own begin.
    if len(table) < 12 or table[0] != 1 or table[2:4] != b"\x03\x3b":
        return []
    pairs = array("i", table[12:12 + 8 * int.from_bytes(table[8:12], sys.byteorder)])
    return [address + start for start in pairs[::2]]


class Module:
    """A program or library of a log: the calls of its frames, whether a file of it can be read, and
    whether a line is known of one. Where the log has another build id than each file there are no
    names: they would be of another build."""

    def __init__(self, name, offsets, build_id="", places=Places()):
        # A name may stand as it is, or with its odd bytes told.
        self.path = (name if os.path.isfile(places.below(name))
                     else path_of(name).decode("utf-8", "surrogateescape"))
        self.build_id = build_id
        self.files = self.same_files(places)
        self.file = self.files[0] if self.files else self.path
        self.is_object = bool(self.files)
        self.base = base_of(self.file) if self.is_object else None
        addresses = {offset: self.base + offset - 1 for offset in offsets} if self.is_object else {}
        lines = self.lines_at(addresses.values()) if addresses else {}
        self.has_lines = bool(lines)
        missing = [address for address in addresses.values() if address not in lines]
        symbols = self.symbols_at(missing) if missing else {}
        self.starts = starts_of(self.file) if len(symbols) < len(missing) else []
        self.base, self.calls = self.base or 0, {}
        for offset in offsets:
            address = addresses.get(offset)
            self.calls[offset] = [Call(*call, self.path, 0, whole=whole)
                                  for *call, whole in lines.get(address,
                                                                [])] or [self.by_symbol(offset,
                                                                                        address,
                                                                                        symbols)]

    def same_files(self, places):
        """The files that are this build, or may be it where the log doesn't tell: the likely
        first."""
        here = [file for file in places.candidates(self.path, self.build_id) if base_of(file)
                is not None]
        same = [file for file in here if build_id_of(file)
                == self.build_id] if self.build_id else here[:1]
        if self.build_id and not same and (fetched := debug_file_of(self.build_id)):
            same = [fetched]
        self.is_same, self.is_other = bool(self.build_id and same), bool(here and not same)
        self.is_elsewhere = bool(self.build_id and not here and not same
                                 and self.path.startswith("/"))
        return same

    @property
    def lacks_lines(self):
        """Whether it is one of the program's, and has no debug information."""
        return (self.is_object and not self.has_lines
                and not STANDARD_MODULE.match(os.path.basename(self.path))
                and not any(map(has_line_table, self.files)))

    def lines_at(self, addresses):
        """The calls at addresses whose lines are known: by a file, by debug information that is
        installed for it, or by debuginfod."""
        has_table = False
        for file in self.files:
            is_table = has_line_table(file)
            # To be asked of each address takes long where no line can be found.
            lines = lines_of(file, addresses) if is_table or has_debug_file(file) else {}
            # Binutils can't read what `-gsplit-dwarf` has put into files of its own.
            if is_table and not lines and shutil.which(LLVM):
                lines = lines_of(file, addresses, LLVM)
            if lines:
                return lines
            has_table |= is_table
        debug_file = None if has_table else debug_file_of(self.build_id or build_id_of(self.file))
        return lines_of(debug_file, addresses) if debug_file else {}

    def symbols_at(self, addresses):
        """The symbols at addresses, of the first file that has them."""
        found = {}
        for file in self.files:
            found = {**symbols_of(file, [address for address in addresses if address not in found]),
                     **found}
            if len(found) == len(addresses):
                break
        return found

    def by_symbol(self, offset, address, symbols):
        """The call at an address that has no line."""
        name, whole, start = symbols.get(address, ("", "", None))
        at = bisect_right(self.starts, address) - 1 if address is not None and start is None else -1
        return Call(name, "", 0, self.path, offset if start is None else address + 1 - start,
                    self.starts[at] - self.base if at >= 0 else 0, whole)


class Names:
    """The calls of all frames. Each module is asked once. Build ids are those that a log tells of
    its modules."""

    def __init__(self, frames, build_ids=None, places=Places()):
        offsets = defaultdict(set)
        for frame in frames:
            offsets[frame.module].add(frame.offset)
        with ThreadPoolExecutor(4) as pool:
            self.modules = dict(zip(offsets, pool.map(lambda name: Module(name,
                                                                          sorted(offsets[name]),
                                                                          (build_ids
                                                                           or {}).get(name, ""),
                                                                          places), offsets)))

    def calls(self, frame):
        """The calls of a frame, innermost first: at least one."""
        return self.modules[frame.module].calls[frame.offset]


def told_others(modules):
    """What is said of each file that is another build than the one that ran, and of those that
    aren't here."""
    others = [f"{module.path} is another build than the one that ran: its names aren't told"
              for module in modules if module.is_other]
    return others + [f"{module.path} isn't here: --sysroot can name its root, or --names a file of "
                     f"this build" for module in modules if module.is_elsewhere]


def told_bare(modules):
    """What is said of the program's files that have no debug information, or nothing."""
    bare = sorted(os.path.basename(module.path) for module in modules if module.lacks_lines)
    more = f" and {len(bare) - MOST_BARE} more" if len(bare) > MOST_BARE else ""
    return (bare
            and f"no lines are known of {', '.join(bare[:MOST_BARE])}{more}: compile with -g, or "
            f"install their debug information")
