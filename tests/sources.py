"""What a source file defines, and its code without comments: for the scripts that hold docs/ to the sources."""
import re
from pathlib import Path

root = Path(__file__).resolve().parent.parent
COMMENT = {".antt": r"(?m)(^|\s)--( .*)?$", ".rt": r"(?m)(^|\s)//.*$", ".rs": r"(?m)(^|\s)//.*$"}


def written(*patterns):
    """The files of crates/ with such names, but for what rt keeps in crates/*/out."""
    found = [path for pattern in patterns for path in root.glob(f"crates/**/{pattern}")]
    return sorted(path for path in found if path.relative_to(root).parts[2] != "out")


def code(path):
    """A file's text without its comments."""
    return re.sub(COMMENT.get(path.suffix, r"(?!)"), "", path.read_text())


def defined_in_antt(text):
    """Whatever has a type: definitions, theorems, records and their fields, data and their constructors. A name that stands
    inside of brackets is bound there, and not defined."""
    names, open_brackets = set(), 0
    for line in text.splitlines():
        if line[:1].strip():
            open_brackets = 0
        if not open_brackets:
            kept = re.sub(r"^\s*(?:(?:pub|abbrev|unfoldable)\s+)*(?:(?:use|mod|module|let)\s.*)?", "", line)
            many = re.match(r"(?:record|data)\s+([^\s(){}:;=]+)", kept) or re.match(r"((?:[^\s(){}:;=]+\s+)+):(?:\s|$)", kept)
            names.update(many[1].split() if many else [])
        open_brackets += sum({"(": 1, "{": 1, ")": -1, "}": -1}.get(letter, 0) for letter in line)
    return names


def insides(text, word):
    """What stands between the braces of each struct or enum."""
    for found in re.finditer(rf"\b{word}\s+\w+[^{{;]*{{", text):
        depth, at = 1, found.end()
        while depth and at < len(text):
            depth += {"{": 1, "}": -1}.get(text[at], 0)
            at += 1
        yield text[found.end():at - 1]


def defined_in_rattle(text):
    """Functions, constants, structs with their fields, enums with their cases."""
    names = set(re.findall(r"\b(?:fn|const|struct|enum)\s+(\w+)", text))
    for inside in insides(text, "struct"):
        names.update(re.findall(r"(?m)^\s*(?:pub\s+)?(\w+)\s*:", inside))
    for inside in insides(text, "enum"):
        names.update(re.findall(r"(?m)^\s*([A-Z]\w*)\s*(?=[,({]|$)", inside))
    return names


def defined(path):
    """The names that a file of Rattle or antt defines."""
    return (defined_in_antt if path.suffix == ".antt" else defined_in_rattle)(code(path))


def rust_tests(path):
    """The functions of a Rust file that stand under #[test]."""
    return set(re.findall(r"#\[test\]\s*(?:#\[[^\]]*\]\s*)*fn\s+(\w+)", code(path)))
