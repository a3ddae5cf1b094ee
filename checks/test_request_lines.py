"""Gives a session each line of request_lines.tsv, behind five writes, and compares its answer."""
from programs import harness, run
from request_rows import BEFORE, rows
from verdicts import none


def test_rows():
    count, wrong = 0, []
    for count, (_, line, wanted) in enumerate(rows(), 1):
        asked = BEFORE + line
        status, told, _ = run(harness("session"), asked)
        told = told.splitlines()
        if status or len(told) != len(asked.removesuffix(b"\n").split(b"\n")) or told[-1] != wanted:
            wrong.append(f"{line[:200]} is answered {told[-1:]}, and not {wanted}")
    print(f"request lines: {count} rows, {len(wrong)} wrong")
    none(wrong)
    assert count >= 330
