#!/usr/bin/env python3
"""Prints the manual page of the C calls, made from the header: package/man/calls.py. The version and its day are left to be put
in."""
import re
from pathlib import Path

HEADER = (Path(__file__).resolve().parent.parent / "include/anhkhovet.h").read_text()
COMMENT = r"/\* ((?:(?!\*/).)*?)\s*\*/\n"


def shown(words):
    """Words as a page has them, on one line: no sign of theirs is taken for one of its own."""
    line = " ".join(words.replace("\\", "\\e").replace("-", "\\-").split())
    return "\\&" + line if line[:1] in (".", "'") else line


def paragraphs():
    """What the header says at its top: its name, and the rest."""
    top = re.match(r"/\*\n(.*?)\n \*/", HEADER, re.S)[1]
    told = [shown(re.sub(r"(?m)^ \* ?", "", part)) for part in re.split(r"\n \*\n", top)]
    return told[0], told[1:]


def calls():
    """Each call: its name, its declaration and what is said of it."""
    for words, answer, name, parameters in re.findall(COMMENT + r"(\w+) (anhkhovet_\w+)\(([^)]*)\);", HEADER, re.S):
        yield name, f"{answer} {name}({' '.join(parameters.split())});", shown(words)


def structs():
    """Each struct: what is said of it, then its fields."""
    for words, name, body in re.findall(COMMENT + r"typedef struct (\w+) \{([^}]*)\}", HEADER, re.S):
        yield name, shown(words), [field for row in re.findall(r"uint64_t ([^;]*);", body) for field in row.split(", ")]


def enums():
    """Each enum: what is said of it, then its names, numbers and words."""
    for words, name, body in re.findall(COMMENT + r"enum (\w+) \{(.*?)\};", HEADER, re.S):
        rows, before = [], ""
        for line in body.replace(", ANHKHOVET", ",\nANHKHOVET").splitlines():
            told = re.search(r"/\* (.*) \*/", line)
            named = re.findall(r"(ANHKHOVET_\w+) = (\d+)", line)
            rows += [(word, number, told[1] if told else before) for word, number in named]
            before = told[1] if told else ""
        yield name, shown(words), rows


def constants():
    """The other numbers, each group with what is said of it."""
    for words, group in re.findall(COMMENT + r"((?:#define [^\n]*\n)+)", HEADER, re.S):
        names = re.findall(r"#define (ANHKHOVET_\w+(?:\([\w, ]+\))?) (.*)", group)
        yield shown(words), [f"{name} = {shown(value)}" for name, value in names if not name.startswith("ANHKHOVET_WORDS")]


def page():
    """The lines of the page."""
    about, rest = paragraphs()
    name, said = about.split(": ", 1)
    yield '.TH ANHKHOVET 3 "@DATE@" "anhkhovet @VERSION@"'
    yield from [".SH NAME", f"{', '.join([name] + [call for call, _, _ in calls()])} \\- {said.rstrip('.')}"]
    # Neither stretched nor cut inside a word, here and below.
    yield from [".ad l", ".nh", ".SH SYNOPSIS", ".B #include <anhkhovet.h>"]
    for _, declared, _ in calls():
        yield from [".PP", f"\\fB{shown(declared)}\\fR"]
    yield ".SH DESCRIPTION"
    for part in rest:
        yield from [part, ".PP"]
    yield ".SH CALLS"
    for call, _, words in calls():
        yield from [".TP", f".B {call}", words]
    yield ".SH ANSWERS"
    for struct, words, fields in structs():
        yield from [".TP", f".B {struct}", words, ".br", f"\\fI{', '.join(fields)}\\fR"]
    yield ".SH NUMBERS"
    for enum, words, rows in enums():
        yield from [f".SS {enum}", words]
        for word, number, meaning in rows:
            yield from [".TP", f"\\fB{number}\\fR {word}", shown(meaning) or "\\&"]
    yield ".SS Room"
    for words, lines in constants():
        if lines:
            yield from [words, ".br", ", ".join(lines), ".PP"]
    yield from [".SH SEE ALSO", ".BR anhkhovet (1),", ".BR pkg\\-config (1)"]


if __name__ == "__main__":
    print("\n".join(page()))
