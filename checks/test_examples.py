"""With ample memory each script of examples/ prints its lines to the byte."""
from pathlib import Path

import pytest

from programs import TOP, run, zanstore


@pytest.mark.parametrize("script", sorted(Path(TOP, "examples").glob("*.script")), ids=lambda it: it.stem)
def test_script(script):
    words = script.with_suffix(".args").read_text().splitlines()
    status, printed, _ = run([zanstore(), *words], script.read_bytes())
    assert (status, printed) == (0, script.with_suffix(".out").read_bytes())
