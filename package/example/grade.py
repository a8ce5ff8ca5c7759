import hashlib, sys, zlib
from pathlib import Path
from anhkhovet import Image, Packed, Refused

def digest(image: Image, sector: int, closed: bool) -> str:
    source, data = image.lookup(sector), image.read(sector) or bytes(512)
    if isinstance(source, Packed) and not closed:
        data = zlib.decompressobj().decompress(data, 512 * source.offset + 512)[512 * source.offset :]
    return hashlib.sha256(data).hexdigest()

def grade(path: Path, wanted: list[list[str]]) -> str:
    try:
        image = Image(path)
        sectors = image.check().capacity
        wrong = [line[0] for line in wanted if digest(image, int(line[0]), "packed" in line) != line[1]]
    except (Refused, OSError, zlib.error) as why:
        return str(why)
    return f"{len(wanted) - len(wrong)} of {sectors} sectors agree" + (f", not sector {wrong[0]}" if wrong else "")

wanted = [line.split() for line in Path(sys.argv[1]).read_text().splitlines()]
for path in sorted(Path(sys.argv[2]).iterdir()):
    print(f"{repr(path.name)[1:-1]}: {grade(path, wanted)}")
