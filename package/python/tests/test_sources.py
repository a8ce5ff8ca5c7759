"""What the module says twice, held to where it is said first: the C face, the sentences, the stack, the numbers of enums."""
import inspect
import re

import sources

import anhkhovet
from anhkhovet import _calls, _face, _sentences
from anhkhovet.answers import Access, ExtentKind, Group

TAKEN = {"usize": "c_ulong", "u64": "c_ulong"}


def test_structs_of_the_c_face() -> None:
    for name, fields in sources.structs().items():
        struct = getattr(_face, name)
        assert [field for field, *_ in struct._fields_] == fields, name
    told = {name for name, each in vars(_face).items() if inspect.isclass(each) and hasattr(each, "_fields_")}
    assert told == set(sources.structs())


def test_calls_of_the_c_face() -> None:
    told = sources.calls()
    assert set(told) == set(_face.CALLS)
    for call, (answer, takes) in told.items():
        assert _face.CALLS[call][0].__name__ == answer, call
        wanted = ["c_void_p" if each.startswith("*") else TAKEN[each] for each in takes]
        assert [each.__name__ for each in _face.taken(call)] == wanted, call


def test_calls_of_the_archive() -> None:
    exports = "".join(path.read_text() for path in (sources.ROOT / "crates/exports/src").glob("*.rt"))
    assert set(re.findall(r'extern "C" fn anhkhovet_(\w+)', exports)) == set(_face.CALLS)


def test_each_call_takes_what_the_c_face_says() -> None:
    elements = {"u8": "Memory", "u64": "Words", "Extent": "Extents"}
    for call, (answer, takes) in sources.calls().items():
        told = inspect.get_annotations(getattr(_calls, call))
        assert told.pop("return") == f"face.{answer}", call
        wanted = [elements[each.split()[1]] if each.startswith("*") else "int" for each in takes if each != "usize"]
        assert list(told.values()) == wanted, call


def test_sentences() -> None:
    by_number, line, other = sources.sentences()
    assert _sentences.SENTENCES == by_number and len(by_number) > 30
    assert (_sentences.LINE_33, _sentences.BROKEN) == (line, other)
    assert _sentences.PARTS == {place: words for place, (_, words) in sources.parts().items()}


def test_parts() -> None:
    named = {place: re.sub(r"(?<!^)([A-Z])", r"_\1", name).upper() for place, (name, _) in sources.parts().items()}
    assert {part.value: part.name for part in anhkhovet.MisplacedPart} == named


def test_deep_calls() -> None:
    assert _face.DEEP == sources.deep()
    stack = re.search(r"pub const STACK: usize = (.*);", (sources.BINDING / "lib.rs").read_text())
    assert stack is not None and _face.STACK == eval(stack[1])


def numbered(file: str, name: str) -> dict[str, int]:
    """The names of an enum of the binding, by its numbers in `fn of`."""
    source = (sources.BINDING / file).read_text()
    return {each: int(number) for number, each in re.findall(rf"(\d) => {name}::(\w+),", source)}


def test_enums() -> None:
    groups = {re.sub(r"(?<!^)([A-Z])", r"_\1", name).upper(): n for name, n in numbered("areas.rs", "Group").items()}
    assert {each.name: each.value for each in Group} == groups
    texts = (sources.BINDING / "texts.rs").read_text()
    for name, told in (("Access", Access), ("ExtentKind", ExtentKind)):
        words = dict(re.findall(rf'{name}::(\w+) => "(\w+)"', texts))
        assert {each.name: each.value for each in told} == {words[n]: k for n, k in numbered("texts.rs", name).items()}


def test_all_is_told() -> None:
    for name in anhkhovet.__all__:
        assert hasattr(anhkhovet, name)
    assert sorted(anhkhovet.__all__) == sorted(set(anhkhovet.__all__))
