#!/usr/bin/env python3
"""Respells the names of definitions and lemmas as today's Rattle spells them. Run once, at the top, after the toolchain's port.py.

usage: port_names.py          rewrites crates/ (sources, definitions, proofs, edits)
       port_names.py --list   prints what would be renamed, and what falls together

- sectorCount becomes sector_count, in whatever place it stands: a definition, a field, a local name.
- a-b becomes a_b, and a_b_lem where that would be the name of a definition.
Functions of src/, types, constructors and the library's names keep their spelling.
"""
import collections
import os
import re
import sys

ROOT = "crates"
# One token of antt: what stands between blanks, brackets and points.
TOKEN = re.compile(r"[^\s(){}\[\].,;:λ⌜⌝|↦\"`]+")
# A text that is written out.
TEXT = re.compile(r'"(?:[^"\\\n]|\\.)*"')
# A name that would fall together with another one is given its new name here.
BY_HAND = [
    ("crates/laws/proofs", "kept_entry", "kept_entry_lem"),
    ("crates/laws/proofs", "row_from", "row_from_lem"),
    ("crates/moves/proofs", "not_taken", "not_taken_lem"),
]

DECLARED = re.compile(r"^(?:(?:abbrev|unfoldable|pub|data|record)\s+)*(?P<name>[^\s:(){}]+)\s*[:({]")
FIELD = re.compile(r"^\s+(?:pub\s+)?(?P<name>[^\s:(){}]+) :")
OURS = re.compile(r"^\s*(?:pub )?use (?P<module>[\w.'-]+?)(?:\.\{(?P<names>[^}]*)\})?(?: as (?P<alias>\S+))?$")
CRATES = set(os.listdir(ROOT))


def files():
    for folder, dirs, names in os.walk(ROOT):
        dirs[:] = sorted(d for d in dirs if d != "out")
        for name in sorted(names):
            if name.endswith((".rt", ".antt", ".edit")):
                yield os.path.join(folder, name)


def snake(name):
    return re.sub(r"(?<=[a-z0-9])([A-Z])", lambda m: "_" + m[1].lower(), name)


def is_ours(module):
    parts = module.split(".")
    return parts[0] == "Rattle" and len(parts) > 1 and parts[1] in CRATES


def uses(text):
    """The names that the file's `use` lines take, and whether each is ours."""
    for line in text.split("\n"):
        m = OURS.match(line.replace("ghost use", "use").rstrip(";"))
        if m and m["names"]:
            for name in m["names"].split(","):
                yield name.strip().split(" as ")[0], is_ours(m["module"])


def table():
    texts = {p: open(p, encoding="utf-8").read() for p in files()}
    declared, foreign = set(), set()
    for path, text in texts.items():
        if path.endswith(".antt"):
            for line in text.split("\n"):
                if not line or line[0] in " -" or re.match(r"(pub )?(use|mod)\b", line):
                    m = FIELD.match(line)
                    if m and not line.lstrip().startswith(("--", "let ", "elim ")):
                        declared.add(m["name"])
                    continue
                m = DECLARED.match(line)
                if m:
                    declared.add(m["name"])
        for name, ours in uses(text):
            (declared if ours else foreign).add(name)
    new = {}
    for path, text in texts.items():
        said = text if path.endswith(".antt") else "\n".join(clauses(text))
        for t in TOKEN.findall(TEXT.sub(" ", said)):
            if t in foreign or t in new or not t[0].isalpha() or "CID" in t:
                continue
            if re.search(r"[a-z0-9][A-Z]", t) and t[0].islower() and "-" not in t:
                new[t] = snake(t)
            elif "-" in t and t in declared and not re.match(r"(invariant|decreases|loop|Inv|μ)-", t):
                new[t] = joined(snake(t))
    # A lemma that would fall together with what it is about is called f_lem.
    taken = {b for a, b in new.items() if "-" not in a} | foreign | {t for t in declared if "-" not in t and t not in new}
    for a, b in new.items():
        if "-" in a and b in taken:
            new[a] = b + "_lem"
    return texts, {a: b for a, b in new.items() if a != b}


def joined(name):
    return name.replace("-", "_")


def clauses(text):
    """The lines of an .rt file or an edit that are antt's: imports, clauses to their last bracket, and what an edit turns."""
    depth = 0
    for line in text.split("\n"):
        if depth or re.match(r"\s*(requires|ensures)\b.*\{", line):
            depth += line.count("{") - line.count("}")
            yield line
        elif re.match(r"(ghost use|old:|new:)", line):
            yield line


def falls(texts, new):
    """Names that would fall together with another in one file."""
    for path, text in texts.items():
        if path.endswith(".edit"):
            continue
        body = "\n".join(l for l in text.split("\n") if not l.lstrip().startswith(("--", "//")))
        if path.endswith(".rt"):
            there = set(re.findall(r"[a-z_0-9]+", body))
            free = {t for t in TOKEN.findall("\n".join(clauses(body)))}
        else:
            free = set(re.findall(r"(?<![.\w'])" + TOKEN.pattern, body))
            labels = set(re.findall(r"[{;]\s*(\S+) = ", body))
            there = set()
            for t in free:
                bare = re.search(r"(?<![.\w'-])" + re.escape(t) + r"(?![\w'-])(?! = )", body)
                if bare:
                    there.add(t)
        mapped = collections.defaultdict(set)
        for t in free:
            if t in new:
                mapped[new[t]].add(t)
        for b, olds in mapped.items():
            if b in there or len(olds) > 1:
                yield path, sorted(olds), b


def hidden(texts, new):
    """Parameters of functions that would hide a renamed definition in the function's clauses."""
    for path, text in texts.items():
        if path.endswith(".rt"):
            for m in re.finditer(r"\bfn (\w+)(?:<[^>]*>)?\((.*?)\)[^{;]*?((?:\n?\s+(?:requires|ensures)[^\n]*\{.*?\}\n)+)", text, re.S):
                params = set(re.findall(r"(\w+)\s*:", m[2]))
                for t in TOKEN.findall(m[3]):
                    if t in new and new[t] in params:
                        yield path, m[1], t


def turned(line, new):
    out, at = "", 0
    for m in TEXT.finditer(line):
        out += TOKEN.sub(lambda t: new.get(t[0], t[0]), line[at : m.start()]) + m[0]
        at = m.end()
    return out + TOKEN.sub(lambda t: new.get(t[0], t[0]), line[at:])


def quoted(line, new):
    """A comment of code: names in it stand in quotes."""
    return re.sub(r"`[^`]+`", lambda m: turned(m[0], new), line) if line.lstrip().startswith("//") else line


def main():
    texts, new = table()
    if "--list" in sys.argv:
        for a, b in sorted(new.items()):
            print(a, b)
        print("fall together:")
        for path, olds, b in falls(texts, new):
            print(" ", path, olds, b)
        for row in hidden(texts, new):
            print("  hidden:", *row)
        return
    for path, text in texts.items():
        if path.endswith(".antt"):
            for folder, a, b in BY_HAND:
                if path.startswith(folder):
                    text = re.sub(r"(?<![.\w'-])" + a + r"(?![\w'-])", b, text)
            out = "\n".join(turned(l, new) for l in text.split("\n"))
        else:
            ours = set(clauses(text))
            out = "\n".join(turned(l, new) if l in ours else quoted(l, new) for l in text.split("\n"))
            if re.search(r"^file: \S+\.antt$", text, re.M):
                out = re.sub(r"(?<=[\w)'₀-₉]) \.«?([a-z_]\w*)»?", r".\1", out)
        if out != texts[path]:
            with open(path, "w", encoding="utf-8") as f:
                f.write(out)


main()
