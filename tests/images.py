"""Images built byte by byte, for the tests' cases. Nothing here reads an image."""
import struct

SECTOR = 512
ALL_ONES = 2**64 - 1


def kdmv(capacity=16, size=8, directory=1, version=1, flags=1, descriptor=(0, 0), entries=512, redundant=0,
         newline=b"\n \r\n", compression=0, overhead=128, dirty=0, padding=0):
    head = b"KDMV" + struct.pack("<II", version, flags) + struct.pack("<QQQQ", capacity, size, *descriptor)
    head += struct.pack("<IQQQB", entries, redundant, directory, overhead, dirty) + newline + struct.pack("<H", compression)
    return head.ljust(SECTOR, bytes([padding]))


# With these entry 1 means zeros: version 2 or 3, and flag 0x4. Elsewhere it is a sector, as with `kdmv` alone.
ZEROED = {"version": 2, "flags": 5}
STREAMED = {"version": 3, "flags": 0x30005, "compression": 1}


def zeroed(*sizes, **fields):
    return kdmv(*sizes, **{**ZEROED, **fields})


def cowd(capacity=16, size=8, directory=4, count=1, version=1, flags=3, dirty=0):
    head = (b"COWD" + struct.pack("<IIIIII", version, flags, capacity, size, directory, count)).ljust(1648, b"\0")
    return (head + struct.pack("<I", dirty)).ljust(4 * SECTOR, b"\0")


def image(sectors, *parts, extra=0):
    """An image of so many sectors, with parts (sector, bytes) laid over zeros."""
    data = bytearray(sectors * SECTOR + extra)
    for at, part in parts:
        data[at * SECTOR:at * SECTOR + len(part)] = part
    return bytes(data)


def entries(*numbers):
    return b"".join(struct.pack("<I", n) for n in numbers)


def small(*grains, head=None, sectors=16):
    """Capacity 16, grain size 8: the directory at sector 1 names the table at 2, which holds the grains' entries."""
    return image(sectors, (0, head or kdmv()), (1, entries(2)), (2, entries(*grains)))


def at_one(data, *grains, directory=9, **fields):
    """As small, but from sector 1 on stands what an entry of 1 leads to; then the directory and, behind it, the table."""
    return image(directory + 5, (0, kdmv(directory=directory, **fields)), (1, data), (directory, entries(directory + 1)),
                 (directory + 1, entries(*grains)))


def table_at_one(*grains, sectors=6, **fields):
    """As small, but a directory entry of 1 leads to the table, and the directory stands behind it."""
    return image(sectors, (0, kdmv(directory=5, **fields)), (1, entries(*grains)), (5, entries(1)))


def marker(first, size):
    return struct.pack("<QI", first, size)


PACKED = kdmv(flags=0x10001, compression=1)
STREAM = kdmv(directory=ALL_ONES, **STREAMED)
FOOTER = kdmv(directory=1, **STREAMED)


def stream(footer=FOOTER, last=bytes(SECTOR), head=STREAM, extra=0):
    """A packed grain 0 and a zero grain 1, with the directory told by a footer."""
    return image(9, (0, head), (1, entries(2)), (2, entries(6, 1)), (6, marker(0, 5)), (7, footer), (8, last), extra=extra)


def streamed(**fields):
    """A stream whose two headers have other fields."""
    both = {**STREAMED, **fields}
    return stream(kdmv(directory=1, **both), head=kdmv(directory=ALL_ONES, **both))


def stream_at_one(**fields):
    """A stream whose only grain, packed, stands where an entry of 1 leads to."""
    both = {**STREAMED, **fields}
    return image(9, (0, kdmv(directory=ALL_ONES, **both)), (1, marker(0, 5)), (2, entries(3)), (3, entries(1, 0)),
                 (7, kdmv(directory=2, **both)))


def outside(*places, descriptor=(12, 1), directory=12):
    """Twelve sectors: header, descriptor, the two directories, and a table of either, whose first grain is zero and whose
    second is absent. The parts with these places end a sector past the file; descriptor and directory have the numbers that are
    given."""
    head = zeroed(descriptor=descriptor if 1 in places else (1, 1), directory=directory if 2 in places else 2,
                  redundant=12 if 3 in places else 3)
    table, copy = (9 if 4 in places else 4), (9 if 5 in places else 8)
    return image(12, (0, head), (2, entries(table)), (3, entries(copy)), (4, entries(1, 0)), (8, entries(1, 0)))
