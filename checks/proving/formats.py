"""What one look at the texts of all crates can tell, before an hour of proofs."""

import os

from .kit import rtlib


def stop_on_wrong(crates):
    """Ends the run where a crate's files are not in the toolchain's layout."""
    with open(os.devnull, "w", encoding="utf-8") as nowhere:
        wrong = [it.name for it in crates if rtlib.fmt(it.folder, "--check", nowhere)]
    if wrong:
        rtlib.stop(f"run rt fmt in the folders of: {' '.join(wrong)}")
