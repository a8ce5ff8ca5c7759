"""Inputs of the program `cases`, and what it must print: tests/cases/NAME and NAME.lines. crates/cases tells their form."""
import pathlib
import struct
import sys

IMAGE, CHAIN, COLLAPSE, TEXT, FIND, LOOKUPS, FRAME, SURVEY, SPLIT, CHECK_IN, MEND, MOVE, PROFILE, CLOSE = range(14)
# The records of a list that is searched.
SEARCHED = 32


def case(asked, data, sectors=(), lengths=(), room=0):
    numbers = (asked, len(sectors), len(lengths), len(data), room, *sectors, *lengths)
    return struct.pack(f"<{len(numbers)}Q", *numbers) + data


def line(call, *numbers):
    return " ".join(map(str, (call, *numbers))) + " \n"


def digest(data):
    """What stands for bytes in a line."""
    h = 0
    for b in data:
        h = (257 * h + b + 1) % 36028797018963913
    return h


def write_cases(folder, name, cases, lines):
    folder = folder / "cases"
    folder.mkdir(exist_ok=True)
    (folder / name).write_bytes(b"".join(cases))
    (folder / f"{name}.lines").write_text("".join(lines))
    print(f"{len(cases)} cases, {len(lines)} lines, {sum(map(len, cases))} bytes")


def label(labels, name):
    """A case's label, by which docs/PROMISES.md cites it: no two have the same."""
    assert name not in labels, name
    labels.append(name)


def main(write):
    """Writes the stored inputs anew, or those of another folder: NAME.py [FOLDER]."""
    write(pathlib.Path(sys.argv[1]) if sys.argv[1:] else pathlib.Path(__file__).resolve().parent)
