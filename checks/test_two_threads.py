"""Plays of two threads over one store, which `harness` plays and judges, and ends with 0 where all is so: docs/CHECKS.md#threads-over-one-store."""
import pytest

from programs import harness, run


@pytest.mark.parametrize("play", ["two-callers", "two-writers"])
def test_play(play):
    status, told, error = run(harness(play))
    print(f"{play}: {len(told.splitlines())} lines, status {status}")
    assert status == 0 and told, told + error
