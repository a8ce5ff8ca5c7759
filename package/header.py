#!/usr/bin/env python3
"""Prints where the C header differs from the sources, and nothing where it does not: package/header.py [HEADER].

Its calls are those of crates/exports/src, name by name, parameter by parameter; its structs those that these calls hand over,
field by field; its refusals, with their words, those of docs/REFUSALS.md, which is held to the library's definitions; its other
numbers those of the sources."""
import re
import sys
from pathlib import Path

ROOT = Path(__file__).resolve().parent.parent
ELEMENTS = {"u8": "uint8_t", "u64": "uint64_t"}
PROGRAM_ALONE = 37  # The small program's own refusal, which no call gives.


def rattle(pattern):
    """The sources of some crates, without comments."""
    texts = [path.read_text() for path in sorted(ROOT.glob(pattern))]
    return re.sub(r"//.*", "", "\n".join(texts))


def source_structs():
    """What each struct that C sees has for fields, by its name."""
    found = {}
    seen_by_c = r"#\[repr\(C\)\]\s*(?:#\[[^\]]*\]\s*)*pub struct (\w+) \{(.*?)\}"
    for name, body in re.findall(seen_by_c, rattle("crates/*/src/**/*.rt"), re.S):
        found[name] = re.findall(r"pub (\w+): (\w+),", body)
    return found


def in_c(parameter, kind):
    """A parameter of Rattle's as C has it: a slice is a pointer and a count."""
    lent = re.fullmatch(r"&(mut )?\[(\w+)\]", kind)
    if not lent:
        return [f"{ELEMENTS[kind]} {parameter}"]
    element = ELEMENTS.get(lent[2], f"Anhkhovet{lent[2]}")
    return [f"{'' if lent[1] else 'const '}{element} *{parameter}", f"size_t {parameter}_length"]


def source_calls():
    """Each call as C declares it, and the structs that it hands over."""
    text = rattle("crates/exports/src/**/*.rt")
    calls, structs = {}, set()
    for name, parameters, answer in re.findall(r'pub extern "C" fn (\w+)\((.*?)\) -> (\w+)', text, re.S):
        named = re.findall(r"(\w+): ([^,]+?)\s*(?:,|$)", parameters.strip())
        words = [word for parameter, kind in named for word in in_c(parameter, kind)]
        calls[name] = f"Anhkhovet{answer} {name}({', '.join(words)})"
        lent = {found for _, kind in named for found in re.findall(r"\[(\w+)\]", kind)}
        structs |= {answer} | lent - set(ELEMENTS)
    if not calls or len(calls) != text.count('extern "C"'):
        raise SystemExit("crates/exports/src has calls that are not understood here")
    return calls, structs


def differing(what, wanted, got):
    """A line for each name under which the header and the sources do not say the same."""
    return [f"{what} {name}: the header has {got.get(name, 'none')}, the sources {wanted.get(name, 'none')}"
            for name in sorted(set(wanted) | set(got), key=str) if wanted.get(name) != got.get(name)]


def calls_and_structs(header):
    """The declarations of the header against those of the sources."""
    calls, used = source_calls()
    code = re.sub(r"/\*.*?\*/", "", header, flags=re.S)
    declared = {}
    for answer, name, parameters in re.findall(r"(?m)^(\w+) (anhkhovet_\w+)\(([^)]*)\);", code):
        declared[name] = f"{answer} {name}({' '.join(parameters.split())})"
    fields = {}
    for body, name in re.findall(r"typedef struct \w+ \{([^}]*)\} Anhkhovet(\w+);", code):
        fields[name] = [(field, "u64") for row in re.findall(r"uint64_t ([^;]*);", body) for field in row.split(", ")]
    structs = source_structs()
    wanted = {name: structs.get(name, "no struct of #[repr(C)]") for name in used}
    sizes = {name: int(words) for name, words in re.findall(r"(?m)^ANHKHOVET_WORDS\(Anhkhovet(\w+), (\d+)\);", code)}
    return (differing("call", calls, declared) + differing("struct", wanted, fields)
            + differing("size", {name: len(structs.get(name, ())) for name in used}, sizes))


def enum(header, name):
    """The numbers of an enum, each with its words: behind it, or on the line before."""
    body = re.search(rf"enum Anhkhovet{name} \{{(.*?)\}};", header, re.S)[1]
    found, before = {}, ""
    for line in body.splitlines():
        number = re.search(r"= (\d+)", line)
        words = re.search(r"/\* (.*) \*/", line)
        if number:
            found[int(number[1])] = words[1] if words else before
        before = words[1] if words else ""
    return found


def refusals(header):
    """The numbers that refuse, and the parts of 8, against the page of refusals."""
    page = (ROOT / "docs/REFUSALS.md").read_text()
    told = {int(number): words for number, words in re.findall(r"(?m)^## (\d+): (.*)$", page)}
    told.pop(PROGRAM_ALONE)
    parts = {int(place): words for place, words in re.findall(r"(?m)^- place (\d): (.*)$", page)}
    return (differing("refusal", {0: "no refusal", **told}, enum(header, "Refusal"))
            + differing("part", parts, enum(header, "MisplacedPart")))


def numbers_in(text):
    """The numbers of a list such as `1 to 7 and 43, 20`, in its order; 43, which the header says apart, at the end."""
    found = []
    for first, last in re.findall(r"\b(\d+)(?: to (\d+))?", text):
        found += range(int(first), int(last or first) + 1)
    return sorted(found, key=lambda number: number == 43)


def given(header):
    """What each call's comment says that it refuses, against the page's table."""
    page = (ROOT / "docs/REFUSALS.md").read_text()
    table = {name: numbers_in(row) for name, row in re.findall(r"(?m)^\| `(\w+)` \| ([\d, to]+) \|$", page)}
    said = {}
    for comment, name in re.findall(r"/\* ((?:(?!\*/).)*)\*/\n\w+ anhkhovet_(\w+)\(", header, re.S):
        numbers = re.search(r"Refusals?: (.*)", comment, re.S)
        if numbers:
            said[name] = numbers_in(numbers[1])
    if "lookup" not in table:
        raise SystemExit("docs/REFUSALS.md has no table that is understood here")
    # A program is no call; the steps tell the lookup's, and the reader refuses nothing.
    table = {name: numbers for name, numbers in table.items() if name not in ("vmdk_check", "steps")}
    return differing("the refusals of", table, said)


def words_of(header, name):
    """The last words of an enum's names, in small letters, by their numbers."""
    body = re.search(rf"enum Anhkhovet{name} \{{(.*?)\}};", header, re.S)[1]
    return {int(number): word.lower().replace("_", " ")
            for word, number in re.findall(r"ANHKHOVET_[A-Z]+_([A-Z_]+) = (\d+)", body)}


def told_in(path, start):
    """The list `1 one, 2 two` that a comment of a source has after some words."""
    text = re.sub(r"\s*\n\s*///? ?", " ", (ROOT / path).read_text())
    listed = re.search(rf"{start}((?:\d [\w ]+(?:, |[.;]))+)", text)
    if not listed:
        raise SystemExit(f"{path} has no list after '{start}'")
    return {int(number): word.lower() for number, word in re.findall(r"(\d) ([\w ]+)[,.;]", listed[1])}


def kinds(header):
    """The kinds of answers against what the sources say of them."""
    format_rt, descriptor_rt, face = "crates/format/src/numbers.rt", "crates/descriptor/src/lib.rt", "rust/anhkhovet/src/face.rs"
    return (differing("source", told_in(format_rt, "kind: "), words_of(header, "Source"))
            + differing("access", told_in(descriptor_rt, "(?=1 RW)"), words_of(header, "Access"))
            + differing("extent", told_in(descriptor_rt, "type: "), words_of(header, "ExtentKind"))
            + differing("group", told_in(face, "group "), words_of(header, "Group")))


def room(header):
    """How much a caller lends, against the binding's constants."""
    binding = "\n".join(path.read_text() for path in sorted((ROOT / "rust/anhkhovet/src").glob("*.rs")))
    constants = dict(re.findall(r"const (\w+): \w+ = ([^;]+);", binding))
    wanted = {"SECTOR": constants["SECTOR"], "STACK": f"({constants['STACK']})", "MOST_IMAGES": constants["MOST_IMAGES"],
              "MOST_EXTENTS": constants["MOST_EXTENTS"], "CHANGE_WORDS": constants["CHANGE"],
              "TALLY_WORDS": constants["NUMBERS"]}
    found = dict(re.findall(r"(?m)^#define ANHKHOVET_(\w+) ([^/\n]+?)(?: /\*.*)?$", header))
    return differing("constant", wanted, {name: found.get(name) for name in wanted})


if __name__ == "__main__":
    text = Path(sys.argv[1] if len(sys.argv) > 1 else ROOT / "package/include/anhkhovet.h").read_text()
    for line in calls_and_structs(text) + refusals(text) + given(text) + kinds(text) + room(text):
        print(line)
