"""Each script of this folder is a case; what it compares is counted."""
import pytest

from cases import TESTS, run_script

FOR_BOTH = ("files", "habits", "images", "sources", "times")
MEASURE = ("times", "growth")
LONG = ("numbers", "install", "memory", "streams")
SCRIPTS = sorted(path.name for path in (TESTS / "program.d").iterdir()
                 if path.suffix == "" and path.is_file() and path.name != "common")


def marks(name):
    """Those of one script."""
    mark = pytest.mark
    kinds = ((mark.both, FOR_BOTH), (mark.alone, MEASURE), (mark.long, LONG))
    return [kind for kind, names in kinds if name in names]


@pytest.mark.parametrize("name", [pytest.param(name, marks=marks(name)) for name in SCRIPTS])
def test_script(name):
    run_script(TESTS / "program.d" / name)
