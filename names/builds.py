"""Where the file of a program or library is whose names are wanted: the build that ran, here or
elsewhere. It isn't proved."""
import os
from dataclasses import dataclass, field

# Where debug information is installed, by build id.
BY_BUILD_ID = "usr/lib/debug/.build-id"


@dataclass(frozen=True)
class Places:
    """Where else files are looked for: below a folder that has them as the process saw them, and
    files that are named, by their build ids."""
    sysroot: str = ""
    by_build_id: dict = field(default_factory=dict)

    def below(self, path):
        """A path as the folder has it."""
        return os.path.join(self.sysroot, path.lstrip("/")) if self.sysroot else path

    def candidates(self, path, build_id):
        """The files that can be that of a path, the likely first. Which of them is that build isn't
        looked at."""
        debug = f"{BY_BUILD_ID}/{build_id[:2]}/{build_id[2:]}.debug"
        wanted = [self.below(path), path, *self.by_build_id.get(build_id, ())]
        wanted += [self.below("/" + debug), "/" + debug] if build_id else []
        return [file for file in dict.fromkeys(wanted) if os.path.isfile(file)]


def places_of(asked, build_id_of):
    """Those of the options --sysroot and --names. A FileNotFoundError tells a file or folder that
    isn't there, a ValueError a file without a build id."""
    by_build_id = {}
    for name in asked.names_of:
        build_id = build_id_of(name)
        if not build_id:
            raise FileNotFoundError(2, "No such file",
                                    name) if not os.path.isfile(name) else ValueError(f"{name} has "
                                                                                      f"no build "
                                                                                      f"id")
        by_build_id.setdefault(build_id, []).append(name)
    if asked.sysroot and not os.path.isdir(asked.sysroot):
        raise FileNotFoundError(2, "No such folder", asked.sysroot)
    return Places(asked.sysroot or "", by_build_id)


def add_sysroot(words):
    """Adds the option --sysroot."""
    words.add_argument("--sysroot", metavar="DIR",
                       help="look for programs and libraries below DIR, too, as the root of a "
                       "container")


def add_places(words):
    """Adds the options --sysroot and --names."""
    add_sysroot(words)
    words.add_argument("--names", metavar="FILE", dest="names_of", action="append", default=[],
                       help="take names of FILE, an unstripped copy or debug information, by its "
                       "build id; more than once")
