"""The descriptor's grammar: a plain reading written from document 01 alone."""
import re

TRIMMED = b" \t\r"
ACCESS = {b"RW": 1, b"RDONLY": 2, b"NOACCESS": 3}
KINDS = {b"FLAT": 1, b"VMFS": 2, b"SPARSE": 3, b"VMFSSPARSE": 4, b"ZERO": 5}
NAME = rb'[ \t]+"(?P<name>[^"]{1,255})"'
OFFSET = rb"[ \t]+(?P<offset>[0-9]{1,10})"
REST = {1: NAME + OFFSET, 2: NAME + b"(?:" + OFFSET + b")?", 3: NAME, 4: NAME, 5: b""}
EXTENT = re.compile(rb"(?P<access>[^ \t]+)[ \t]+(?P<sectors>[0-9]{1,10})[ \t]+(?P<kind>[A-Za-z]+)(?P<rest>.*)", re.S)


class Refused(Exception):
    def __init__(self, number, place=0):
        super().__init__(number, place)
        self.answer = (number, place)


def extent(line, at, number, first):
    """The record of an extent line, which begins at the place `at`."""
    m = EXTENT.fullmatch(line)
    kind = KINDS.get(m["kind"].upper(), 0) if m else 0
    rest = re.compile(REST[kind], re.S).fullmatch(m["rest"]) if kind else None
    if not rest:
        raise Refused(34, number)
    fields = rest.groupdict()
    sectors, offset = int(m["sectors"]), int(fields.get("offset") or 0)
    if not 1 <= sectors <= 2**31 or offset > 2**32 - 1:
        raise Refused(34, number)
    name = (at + m.start("rest") + rest.start("name"), len(fields["name"])) if "name" in fields else (0, 0)
    return (first, sectors, ACCESS[m["access"].upper()], kind, *name, offset)


def required(key, value, at, number):
    """A required key's value, for createType its place and length; `at` is the place of the value."""
    if key == b"version":
        good, told = re.fullmatch(rb"[0-9]{1,10}", value) and 1 <= int(value) <= 3, lambda: int(value)
    elif key == b"createtype":
        good, told = re.fullmatch(rb'"[^"]*"', value, re.S), lambda: (at + 1, len(value) - 2)
    else:
        good, told = re.fullmatch(rb"[0-9A-Fa-f]{1,8}", value), lambda: int(value, 16)
    if not good:
        raise Refused(33, number)
    return told()


def judge(data):
    """The extents and the required keys of a text."""
    if len(data) > 65536:
        raise Refused(36)
    text, zero, after = data.partition(b"\0")
    if after.strip(b"\0"):
        raise Refused(31)
    begun, extents, keys, at = False, [], {}, 0
    for number, raw in enumerate(text.split(b"\n"), 1):
        line = raw.strip(TRIMMED)
        start = at + len(raw) - len(raw.lstrip(TRIMMED))
        at += len(raw) + 1
        if not line:
            continue
        if not begun:
            if line.lower() != b"# disk descriptorfile":
                raise Refused(30)
            begun = True
        elif line.startswith(b"#"):
            continue
        elif re.split(rb"[ \t]", line)[0].upper() in ACCESS:
            extents.append(extent(line, start, number, sum(e[1] for e in extents)))
        else:
            left, equals, right = line.partition(b"=")
            key, value = left.strip(TRIMMED).lower(), right.strip(TRIMMED)
            if not equals or not key:
                raise Refused(32, number)
            if key in (b"version", b"cid", b"parentcid", b"createtype"):
                told = required(key, value, start + len(line) - len(value), number)
                if key in keys:
                    raise Refused(33, number)
                keys[key] = told
    if not begun:
        raise Refused(30)
    if len(keys) < 4:
        raise Refused(33)
    if not 1 <= len(extents) <= 32 or sum(e[1] for e in extents) > 2**31:
        raise Refused(35)
    return extents, keys


HELD = (9,) * 7


def described(data, room):
    """The first call's answer with a list of `room` records, the list after it, and all records."""
    held = [HELD] * room
    try:
        extents, keys = judge(data)
    except Refused as r:
        return (*r.answer, 0, 0, 0, 0, 0, 0), held, []
    if len(extents) > room:
        return (21, 0, 0, 0, 0, 0, 0, 0), held, extents
    answer = (0, 0, len(extents), keys[b"version"], keys[b"cid"], keys[b"parentcid"], *keys[b"createtype"])
    return answer, extents + held[len(extents):], extents


def found(extents, sector):
    for i, e in enumerate(extents):
        if e[0] <= sector < e[0] + e[1]:
            return (0, 0, i)
    return (20, 0, 0)
