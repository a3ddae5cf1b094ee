"""The plain programs of bench/ are built: rustc, or cargo, takes their sources without a warning. Where these tools or Debian's serde_json are missing they are
skipped."""
import glob
import shutil
import sys

import pytest

from programs import TOP, module_of, run

SOURCES = ("appends", "coordinator", "journal", "texts", "threads", "versions", "serving/load", "serving/stub")


@pytest.mark.parametrize("source", SOURCES)
def test_source(source, folder):
    if not shutil.which("rustc"):
        pytest.skip("there is no rustc")
    words = ["rustc", "--edition", "2021", "--emit", "metadata", "-D", "warnings", "-o", f"{folder}/made", f"{TOP}/bench/{source}.rs"]
    assert run(words) == (0, "", "")


@pytest.mark.long
def test_package(folder):
    """The one that stands on serde_json, as bench/run builds it."""
    sys.path.insert(0, f"{TOP}/bench")
    bench = module_of(f"{TOP}/bench/run")
    if not shutil.which("cargo") or not glob.glob(f"{bench.SOURCES}/serde_json-*"):
        pytest.skip("there is no cargo, or no serde_json of Debian")
    status, _, told = run([bench.build_package(folder, "lines"), "lines-read", 10])
    assert status == 0 and told.startswith("lines 10 "), told
