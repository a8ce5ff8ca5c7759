"""Every call against the stored lines of the test program, number for number and with every word of lent lists."""
from pathlib import Path

import pytest
from cases import STORED, cases, fields, lines

from anhkhovet import _calls as calls
from anhkhovet._face import CALLS


@pytest.mark.parametrize(("stored", "wanted"), STORED, ids=lambda path: path.name)
def test_stored_lines(stored: Path, wanted: Path) -> None:
    found = [line for case in cases(stored) for line in lines(case)]
    told = wanted.read_text().splitlines(keepends=True)
    assert next(((a, b) for a, b in zip(found, told) if a != b), None) is None, f"{stored}: found, wanted"
    assert len(found) == len(told)


def test_every_call_has_stored_lines() -> None:
    met = {line.split()[0] for _, wanted in STORED for line in wanted.read_text().splitlines()}
    assert set(CALLS) <= met


def test_steps_are_those_of_the_lookup() -> None:
    asked = 0
    for case in (case for stored, _ in STORED for case in cases(stored) if case.asked in (0, 5)):
        for sector in case.sectors:
            steps, lookup = calls.steps(case.image, sector), calls.lookup(case.image, sector)
            told = [steps.number, lookup.layer, steps.place, steps.kind, steps.sector, steps.size, steps.offset]
            assert told == fields(lookup)
            for at, entry in ((steps.directory_at, steps.directory_entry), (steps.table_at, steps.table_entry)):
                assert int.from_bytes(case.data[at : at + 4] if at else b"", "little") == entry
            asked += 1
    assert asked > 500
