#!/usr/bin/env python3
"""Makes twenty-two broken images, asks four programs about each, and prints what they answered: compared.py [--write].

Needs the tool (rust/tool/run), qemu-img (Debian's qemu-utils), vmdkinfo (libvmdk-utils) and 7z (p7zip-full). With --write the
table in docs/COMPARED.md is replaced. Each image stands in a folder of its own, under the name that its descriptor has.
"""
import json
import pathlib
import struct
import subprocess
import sys
import tempfile
import zlib

ROOT = pathlib.Path(__file__).resolve().parent.parent
SECTOR = 512
GRAIN = 128
ALL_ONES = 2**64 - 1
DESCRIPTOR = """# Disk DescriptorFile
version=1
CID=12345678
parentCID=ffffffff
createType="streamOptimized"

# Extent description
RW 2048 SPARSE "stream.vmdk"

# The Disk Data Base
#DDB

ddb.adapterType = "ide"
ddb.geometry.cylinders = "2"
ddb.geometry.heads = "16"
ddb.geometry.sectors = "63"
"""


def number(at, size, value):
    """A change: so many bytes at a place become a number."""
    return at, value.to_bytes(size, "little")


def changed(image, *changes):
    data = bytearray(image)
    for at, part in changes:
        data[at:at + len(part)] = part
    return bytes(data)


def sectors(part):
    return part + bytes(-len(part) % SECTOR)


def stream_head(directory):
    head = b"KDMV" + struct.pack("<II", 3, 0x30001) + struct.pack("<QQQQ", 2048, GRAIN, 1, 20)
    head += struct.pack("<IQQQ", 512, 0, directory, GRAIN) + b"\0\n \r\n" + struct.pack("<H", 1)
    return sectors(head)


def stream():
    """A stream with markers and a footer: grains 0 and 3 packed, the rest absent."""
    data = sectors(stream_head(ALL_ONES) + DESCRIPTOR.encode())
    data += bytes(GRAIN * SECTOR - len(data))
    table = [0] * 512
    for grain, letter in ((0, b"A"), (3, b"E")):
        payload = zlib.compress(letter * (GRAIN * SECTOR))
        table[grain] = len(data) // SECTOR
        data += sectors(struct.pack("<QI", grain * GRAIN, len(payload)) + payload)
    data += sectors(struct.pack("<QII", 4, 0, 1))
    table_at = len(data) // SECTOR
    data += struct.pack("<512I", *table) + sectors(struct.pack("<QII", 1, 0, 2))
    directory_at = len(data) // SECTOR
    data += sectors(struct.pack("<I", table_at)) + sectors(struct.pack("<QII", 1, 0, 3))
    return data + stream_head(directory_at) + bytes(SECTOR)


def images():
    """Name, what is wrong, the file's name and its bytes. The first two are sound."""
    plain = (ROOT / "samples/tool-base.vmdk").read_bytes()
    packed = stream()
    # Of the plain sample: redundant directory at sector 21 and its table at 22, primary ones at 26 and 27.
    copy, table = 22 * SECTOR, 27 * SECTOR
    both = lambda entry, value: (number(copy + 4 * entry, 4, value), number(table + 4 * entry, 4, value))
    marker = GRAIN * SECTOR
    base = lambda *changes: ("tool-base.vmdk", changed(plain, *changes))
    over = lambda *changes: ("stream.vmdk", changed(packed, *changes))
    return [
        ("plain", "sound", *base()),
        ("stream", "sound, packed, with a footer", *over()),
        ("1", "plain, cut inside the header", "tool-base.vmdk", plain[:300]),
        ("2", "plain, last byte of the magic damaged", *base((3, b"X"))),
        ("3", "plain, version 9", *base(number(4, 4, 9))),
        ("4", "plain, newline bytes damaged as by a copy in text mode", *base((73, b"\n \n\n"))),
        ("5", "plain, an unknown flag", *base(number(8, 4, 0x103))),
        ("6", "plain, flag 'compressed' without compression", *base(number(8, 4, 0x10003))),
        ("7", "plain, capacity 0", *base(number(12, 8, 0))),
        ("8", "plain, grain size 100", *base(number(20, 8, 100))),
        ("9", "plain, 511 entries in a table", *base(number(44, 4, 511))),
        ("10", "stream, its last two sectors cut off", "stream.vmdk", packed[:-2 * SECTOR]),
        ("11", "plain, directory past the end of the file", *base(number(56, 8, 100000))),
        ("12", "plain, the descriptor's length past the end of the file", *base(number(36, 8, 100000))),
        ("13", "plain, grain 1 past the end of the file", *base(*both(1, 100000))),
        ("14", "plain, the last sector cut off", "tool-base.vmdk", plain[:-SECTOR]),
        ("15", "stream, the marker of grain 0 names sector 256", *over(number(marker, 8, 256))),
        ("16", "stream, the marker of grain 0 has size 0", *over(number(marker + 8, 4, 0))),
        ("17", "plain, the redundant table alone lacks grain 1", *base(number(copy + 4, 4, 0))),
        ("18", "plain, grains 0 and 1 at one place", *base(*both(1, 128))),
        ("19", "plain, grain 1 on the primary table", *base(*both(1, 27))),
        ("20", "plain, the descriptor over the directories", *base(number(36, 8, 26))),
        # Of version 1: an entry of 1 is file sector 1, where the descriptor stands, and never zeros.
        ("21", "plain, version 1, the entry of grain 1 is 1", *base(*both(1, 1))),
        ("22", "plain, version 1, the same with flag 0x4", *base(number(8, 4, 7), *both(1, 1))),
    ]


def run(*words, **more):
    try:
        return subprocess.run([str(word) for word in words], capture_output=True, timeout=60, stdin=subprocess.DEVNULL, **more)
    except subprocess.TimeoutExpired:
        return None


def first_line(text, *but):
    """The first line that says something, without names of files."""
    for line in text.decode(errors="replace").splitlines():
        line = line.strip()
        if line and not any(line.startswith(word) for word in but):
            return line
    return ""


def tool(path):
    done = run(ROOT / "rust/tool/run", "check", "--json", path)
    answer = json.loads(done.stdout)["files"][0]
    if "accepted" in answer:
        return "accepted"
    refused = answer["refused"]
    place = f" at grain {refused['place']}" if refused["number"] in (9, 10) else ""
    return f"refused {refused['number']}{place}: {refused['sentence']}"


def bytes_read(raw, sound):
    """What a program made of the disk, beside what the sound image has."""
    if raw == sound:
        return "reads the sound disk"
    if len(raw) != len(sound):
        return f"reads {len(raw):,} bytes, not {len(sound):,}"
    step = GRAIN * SECTOR
    wrong = sum(raw[at:at + step] != sound[at:at + step] for at in range(0, len(sound), step))
    return f"reads {wrong} of {len(sound) // step} grains otherwise"


def qemu_check(path, _):
    done = run("qemu-img", "check", "-f", "vmdk", path.name, cwd=path.parent)
    if done is None:
        return "no answer in 60 s"
    if done.returncode == 0:
        return "no errors"
    if done.returncode < 0:
        return f"ended by signal {-done.returncode}"
    said = first_line(done.stderr) or first_line(done.stdout)
    return said.replace("qemu-img: ", "").replace(f"Could not open '{path.name}': ", "")


def qemu_read(path, sound):
    raw = path.parent / "raw"
    done = run("qemu-img", "convert", "-f", "vmdk", "-O", "raw", path.name, raw.name, cwd=path.parent)
    if done is None:
        return "no answer in 60 s"
    if done.returncode != 0:
        said = first_line(done.stderr).replace("qemu-img: ", "").replace(f"Could not open '{path.name}': ", "")
        return said if done.returncode > 0 else f"ended by signal {-done.returncode}"
    return bytes_read(raw.read_bytes(), sound)


def vmdkinfo(path, _):
    done = run("vmdkinfo", path.name, cwd=path.parent)
    if done is None:
        return "no answer in 60 s"
    if done.returncode == 0:
        return "opens it"
    if done.returncode < 0:
        return f"ended by signal {-done.returncode}"
    return first_line(done.stderr, "vmdkinfo", "Unable to open") or "Unable to open"


def seven_zip(path, sound):
    done = run("7z", "x", "-so", "-tvmdk", path.name, cwd=path.parent)
    if done is None:
        return "no answer in 60 s"
    said = [line.strip() for line in done.stderr.decode(errors="replace").splitlines()]
    said = [line for line in said if line not in ("", "ERRORS:", path.name, f"ERROR: {path.name}")]
    if done.returncode != 0:
        return said[0] if said else f"status {done.returncode}"
    return bytes_read(done.stdout, sound)


def counted(rows):
    """What the table shows, in numbers: over the broken images alone."""
    broken = [cells for cells in rows if cells[0].isdigit()]
    names = lambda test: [cells[0] for cells in broken if test(cells)]
    told = lambda text, which: f"- {text}: {len(which)} of {len(broken)} ({', '.join(which) or 'none'})."
    reads = lambda cell: cell.startswith("reads")
    return "\n".join([
        told("anhkhovet check refuses", names(lambda cells: cells[2].startswith("refused"))),
        told("qemu-img check finds no errors", names(lambda cells: cells[3] == "no errors")),
        told("qemu-img convert ends without an error, with other bytes than were stored",
             names(lambda cells: reads(cells[4]) and cells[4] != "reads the sound disk")),
        told("vmdkinfo opens it as if nothing were wrong", names(lambda cells: cells[5] == "opens it")),
        told("7z x ends without an error, with other bytes than were stored",
             names(lambda cells: reads(cells[6]) and cells[6] != "reads the sound disk")),
        told("All three others take it without a word",
             names(lambda cells: cells[3] == "no errors" and cells[5] == "opens it" and reads(cells[6]))),
    ])


def table():
    rows = []
    sound = {}
    with tempfile.TemporaryDirectory() as folder:
        for name, wrong, file, data in images():
            place = pathlib.Path(folder) / name
            place.mkdir()
            path = place / file
            path.write_bytes(data)
            if name in ("plain", "stream"):
                run("qemu-img", "convert", "-f", "vmdk", "-O", "raw", path.name, "raw", cwd=place)
                sound[file] = (place / "raw").read_bytes()
            answers = [ask(path, sound[file]) for ask in (qemu_check, qemu_read, vmdkinfo, seven_zip)]
            cells = [name, wrong, tool(path), *answers]
            rows.append([cell.replace("|", "/") for cell in cells])
    head = "| no. | image | anhkhovet check | qemu-img check | qemu-img convert | vmdkinfo | 7z x |\n|---|---|---|---|---|---|---|"
    lines = ["| " + " | ".join(cells) + " |" for cells in rows]
    return "\n".join([head, *lines, "", "Of the broken images:", "", counted(rows)])


if __name__ == "__main__":
    text = table()
    if sys.argv[1:] == ["--write"]:
        page = ROOT / "docs/COMPARED.md"
        before, mark, rest = page.read_text().partition("<!-- table -->\n")
        _, end, after = rest.partition("<!-- end -->\n")
        if not mark or not end:
            sys.exit("docs/COMPARED.md has no place for the table")
        page.write_text(before + mark + text + "\n" + end + after)
    else:
        print(text)
