#!/usr/bin/env python3
"""Writes a COWD extent by hand, since no tool at hand writes one, and the descriptor that qemu-img reads it through.

Capacity 100 and grain size 8: the last grain's second half lies past capacity. Four grains are stored, not in their virtual
order; the rest is absent.
"""
import pathlib
import sys

here = pathlib.Path(__file__).resolve().parent
sys.path.insert(0, str(here.parent / "tests"))
from images import cowd, entries, image  # noqa: E402

CAPACITY, SIZE = 100, 8
STORED = {0: 64, 2: 40, 5: 56, 12: 48}


def text(sector):
    return 16 * (f"COWD sector {sector}".ljust(31) + "\n").encode()


table = entries(*(STORED.get(grain, 0) for grain in range(13)))
parts = [(0, cowd(CAPACITY, SIZE, directory=4, count=1)), (4, entries(5)), (5, table)]
for grain, at in STORED.items():
    parts.append((at, b"".join(text(grain * SIZE + offset) for offset in range(SIZE))))
(here / "cowd-s001.vmdk").write_bytes(image(72, *parts))

# No empty line stands before the extent's: qemu-img 7.2 would take the extent twice.
(here / "cowd.vmdk").write_text(f"""# Disk DescriptorFile
version=1
CID=fffffffe
parentCID=ffffffff
createType="vmfsSparse"
# Extent description
RW {CAPACITY} VMFSSPARSE "cowd-s001.vmdk"
""")
