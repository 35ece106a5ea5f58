"""What pytest does for each test of this folder: its own room, and what it compares is counted."""
import pytest

import cases


@pytest.fixture(autouse=True)
def room(tmp_path, monkeypatch):
    """Each case begins in a folder of its own."""
    monkeypatch.chdir(tmp_path)
    monkeypatch.delenv("TLSF_CAUSES", raising=False)
    return tmp_path


def pytest_runtest_setup(item):
    """A case whose tools are missing is told as skipped."""
    for mark in item.iter_markers("needs"):
        lacking = cases.lacking(*mark.args)
        if lacking:
            pytest.skip(f"{item.name}: no {lacking}")


def pytest_collection_modifyitems(items):
    """What takes long begins first, so that nothing waits for it at the end."""
    items.sort(key=lambda item: item.get_closest_marker("long") is None)


@pytest.hookimpl(tryfirst=True)
def pytest_pyfunc_call(pyfuncitem):
    """Runs a test. What it found wrong fails it at its end, so that all of it is told."""
    cases.begin()
    names = pyfuncitem._fixtureinfo.argnames
    ended = False
    try:
        pyfuncitem.obj(**{name: pyfuncitem.funcargs[name] for name in names})
        ended = True
    finally:
        failed = len(cases.failures) + (not ended)
        pyfuncitem.user_properties.append(("cases", (cases.passed, failed, cases.skips)))
    if cases.failures:
        pytest.fail("\n".join(cases.failures), pytrace=False)
    return True
