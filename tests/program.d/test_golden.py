"""The reports of tests/golden, byte for byte. Each folder is a case: each line of `command`, run
there, writes `expected`, and `expected_error` to standard error, and ends with `status`. A file
that isn't there is empty, and the status 0."""
import pytest

from cases import TESTS
from runs import expect_run, shell

GOLDEN = TESTS / "golden"
pytestmark = pytest.mark.both


def text(folder, name):
    """What this file of the folder has."""
    return (folder / name).read_bytes() if (folder / name).exists() else b""


@pytest.mark.parametrize("name", sorted(folder.name for folder in GOLDEN.iterdir()))
def test_golden(name):
    folder = GOLDEN / name
    commands = text(folder, "command").decode().splitlines()
    assert commands, name
    for line in commands:
        expect_run(line, shell(line, folder), int(text(folder, "status") or 0),
                   text(folder, "expected"), text(folder, "expected_error"))
